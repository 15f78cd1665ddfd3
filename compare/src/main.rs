//! Compares the second implementation with the first.

#![forbid(unsafe_code)]

use std::process::ExitCode;

use compare::bench::{Own, Program};
use compare::budget::Budget;
use compare::options::{self, Options, Part};
use compare::outcome::Outcome;
use compare::{plants, scripts};
use second::Fault;

fn main() -> ExitCode {
    let words: Vec<String> = std::env::args().skip(1).collect();
    let options = match options::read(&words) {
        Ok(options) => options,
        Err(error) => {
            eprintln!("{error}\n{}", options::USAGE);
            return ExitCode::from(2);
        }
    };
    println!("seed {}, planted {:?}", options.seed, options.fault);
    let parts = match options.part {
        Part::All => vec![Part::Scripts, Part::Calls, Part::Records],
        part => vec![part],
    };
    for part in parts {
        match run(part, &options) {
            Outcome::Same(summary) => println!("{summary}"),
            Outcome::Differs(shown) => {
                println!("{shown}");
                return ExitCode::from(1);
            }
            Outcome::Failed(error) => {
                eprintln!("{error}");
                return ExitCode::from(2);
            }
        }
    }
    ExitCode::SUCCESS
}

/// Runs one part of the comparison.
fn run(part: Part, options: &Options) -> Outcome {
    match part {
        Part::Calls | Part::Records => with_calls(part, options, options.fault),
        _ => with_bench(part, options),
    }
}

/// The parts that need the first bench program.
fn with_bench(part: Part, options: &Options) -> Outcome {
    let Some(path) = options.bench.clone() else {
        return Outcome::Failed("this part needs --bench PATH".to_string());
    };
    let mut first = Program { path };
    if part == Part::Plants {
        let mut calls = |fault| with_calls(Part::Calls, options, fault);
        let calls: plants::Calls = if cfg!(feature = "linked") { Some(&mut calls) } else { None };
        return plants::compare(&mut first, options.seed, options.limit, calls);
    }
    let mut second = Own { fault: options.fault };
    let budget = Budget::new("scripts", options.limit);
    scripts::compare(&mut first, &mut second, options.seed, budget)
}

/// The parts that need the first implementation linked.
#[cfg(feature = "linked")]
fn with_calls(part: Part, options: &Options, fault: Fault) -> Outcome {
    use compare::{calls, linked::Linked, records, side};

    let mut second = side::Own { fault };
    match part {
        Part::Records => {
            let budget = Budget::new("records", options.limit);
            records::compare(&mut Linked, &mut second, options.seed, budget)
        }
        _ => {
            let budget = Budget::new("calls", options.limit);
            calls::compare(&mut Linked, &mut second, options.seed, budget)
        }
    }
}

#[cfg(not(feature = "linked"))]
fn with_calls(_: Part, _: &Options, _: Fault) -> Outcome {
    Outcome::Failed("calls and records need a build with --features linked".to_string())
}
