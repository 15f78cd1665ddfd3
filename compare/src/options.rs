//! The command line of the comparison.

use std::path::PathBuf;

use second::Fault;

use crate::budget::Limit;
use crate::faults;

pub const USAGE: &str = "\
compare scripts|calls|records|all|plants
    [--seed N] [--steps N | --seconds N] [--plant NAME] [--bench PATH]
  scripts  random scripts through both bench programs (needs --bench)
  calls    calls at one station (needs the feature linked)
  records  reading and writing records (needs the feature linked)
  all      the three, each with the whole budget
  plants   each fault in turn, to show that it is found (needs --bench)
  NAME     FillByOneClock, Rule4WithoutSlot, Rule2First, Rule3BeforeFill, ClockStands
           or NarrowRule4
Ends with 0 if there is no difference, 1 at the first difference, 2 if it could not be run.";

/// What is compared.
#[derive(Clone, Copy, Debug, PartialEq, Eq)]
pub enum Part {
    Scripts,
    Calls,
    Records,
    All,
    Plants,
}

/// The command line, read.
#[derive(Clone, Debug, PartialEq, Eq)]
pub struct Options {
    pub part: Part,
    pub seed: u64,
    pub limit: Limit,
    pub fault: Fault,
    pub bench: Option<PathBuf>,
}

/// Reads the words after the program's name.
pub fn read(words: &[String]) -> Result<Options, String> {
    let mut words = words.iter();
    let part = part(words.next().map_or("", String::as_str))?;
    let limit = Limit::Steps(300_000);
    let mut options = Options { part, seed: 1, limit, fault: Fault::None, bench: None };
    while let Some(name) = words.next() {
        let word = words.next().ok_or(format!("{name} needs a word after it"))?;
        match name.as_str() {
            "--seed" => options.seed = number(word)?,
            "--steps" => options.limit = Limit::Steps(number(word)?),
            "--seconds" => options.limit = Limit::Seconds(number(word)?),
            "--plant" => options.fault = faults::named(word).ok_or(format!("no fault {word}"))?,
            "--bench" => options.bench = Some(PathBuf::from(word)),
            _ => return Err(format!("no option {name}")),
        }
    }
    Ok(options)
}

fn part(word: &str) -> Result<Part, String> {
    match word {
        "scripts" => Ok(Part::Scripts),
        "calls" => Ok(Part::Calls),
        "records" => Ok(Part::Records),
        "all" => Ok(Part::All),
        "plants" => Ok(Part::Plants),
        _ => Err(format!("no part {word:?}")),
    }
}

fn number(word: &str) -> Result<u64, String> {
    word.parse().map_err(|_| format!("{word} is no number"))
}
