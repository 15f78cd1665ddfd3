//! Plants each fault in turn into the second implementation, to show that
//! the comparison finds it.

use second::Fault;

use crate::bench::{Bench, Own};
use crate::budget::{Budget, Limit};
use crate::faults::hidden_from_scripts;
use crate::outcome::Outcome;
use crate::scripts;

/// The comparison of calls with a fault planted; None if this build has none.
pub type Calls<'a> = Option<&'a mut dyn FnMut(Fault) -> Outcome>;

/// Tells of each fault how it was found. Same only if each was, by calls and,
/// if a script can show it, by scripts.
pub fn compare(first: &mut dyn Bench, seed: u64, limit: Limit, mut calls: Calls) -> Outcome {
    let mut missing = 0;
    for fault in Fault::ALL {
        let mut found = Vec::new();
        if let Some(why) = hidden_from_scripts(fault) {
            println!("planted {fault:?}: no script shows it: {why}");
        } else {
            let mut second = Own { fault };
            let budget = Budget::new("plants", limit);
            found.push(("scripts", Some(scripts::compare(first, &mut second, seed, budget))));
        }
        found.push(("calls", calls.as_mut().map(|calls| calls(fault))));
        for (name, outcome) in found {
            match outcome {
                Some(Outcome::Differs(shown)) => {
                    println!("planted {fault:?}: found by {name}\n{shown}");
                    continue;
                }
                Some(Outcome::Same(_)) => println!("planted {fault:?}: not found by {name}"),
                Some(Outcome::Failed(error)) => return Outcome::Failed(error),
                None => println!("planted {fault:?}: needs {name}, not in this build"),
            }
            missing += 1;
        }
    }
    match missing {
        0 => Outcome::Same(told()),
        _ => Outcome::Differs(format!("plants: not found {missing} times, by scripts or by calls")),
    }
}

/// How the faults were found, when all were.
fn told() -> String {
    let hidden =
        Fault::ALL.into_iter().filter(|fault| hidden_from_scripts(*fault).is_some()).count();
    let shown = Fault::ALL.len() - hidden;
    format!(
        "plants: {shown} faults were found by scripts and by calls, {hidden} more by calls alone"
    )
}
