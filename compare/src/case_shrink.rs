//! Makes a case that shows a difference as short as it can.

use std::collections::BTreeSet;

use second::{record, Message};

use crate::call_shrink::lower_calls;
use crate::case::{Call, Case};
use crate::difference::difference;
use crate::flat;
use crate::lower::lower_numbers;
use crate::side::Side;

/// Tries of a shorter case, at most.
const TRIES: u32 = 50_000;

/// The shortest case found that shows a difference, and the difference.
pub fn shown(
    name: &str,
    first: &mut dyn Side,
    second: &mut dyn Side,
    case: &Case,
    seed: u64,
    number: u64,
) -> String {
    let mut differs = |case: &Case| difference(first, second, case).is_some();
    let short = shrink(case, &mut differs);
    let shows = difference(first, second, &short).unwrap_or_default();
    let (before, after) = (case.calls.len(), short.calls.len());
    format!(
        "{name}: a difference, seed {seed} case {number}, from {before} calls to {after}\n\
         {short}{shows}"
    )
}

/// Removes calls and lowers numbers while the difference stays.
fn shrink(case: &Case, differs: &mut dyn FnMut(&Case) -> bool) -> Case {
    let mut short = case.clone();
    let mut tries = 0;
    'again: loop {
        for shorter in shorter_cases(&short) {
            tries += 1;
            if tries > TRIES {
                return short;
            }
            if differs(&shorter) {
                short = shorter;
                continue 'again;
            }
        }
        return short;
    }
}

/// Cases a little shorter or lower than this one, the boldest first.
fn shorter_cases(case: &Case) -> Vec<Case> {
    let mut cases = fewer_calls(case);
    for four in (6..case.station.len()).step_by(4) {
        if case.station[four..four + 4] != [0; 4] {
            let mut lower = case.clone();
            lower.station[four..four + 4].fill(0);
            cases.push(lower);
        }
    }
    cases.extend(lowered_together(case));
    for place in 0..case.station.len() {
        for number in lower_numbers(case.station[place]) {
            let mut lower = case.clone();
            lower.station[place] = number;
            cases.push(lower);
        }
    }
    for place in 0..case.calls.len() {
        for call in lower_calls(&case.calls[place]) {
            let mut lower = case.clone();
            lower.calls[place] = call;
            cases.push(lower);
        }
    }
    cases
}

/// A number lowered wherever it stands, in the station and in what it is
/// sent, and the two above it with it: clocks that agree still agree.
fn lowered_together(case: &Case) -> Vec<Case> {
    let mut numbers: BTreeSet<u64> = case.station[2..].iter().copied().collect();
    for call in &case.calls {
        numbers.extend(message_in(call).iter().flat_map(flat::from_message).skip(2));
    }
    let mut cases = Vec::new();
    for number in numbers {
        for low in lower_numbers(number) {
            let moved = |n: u64| {
                if (number..=number.saturating_add(2)).contains(&n) {
                    n - number + low
                } else {
                    n
                }
            };
            let mut lower = case.clone();
            for n in &mut lower.station[2..] {
                *n = moved(*n);
            }
            for call in &mut lower.calls {
                move_message(call, &moved);
            }
            cases.push(lower);
        }
    }
    cases
}

/// The message a call receives, if it is one.
fn message_in(call: &Call) -> Option<Message> {
    match call {
        Call::Receive { record } => record::parse(record),
        _ => None,
    }
}

/// Moves the numbers of the message a call receives, but for from and to.
fn move_message(call: &mut Call, moved: &dyn Fn(u64) -> u64) {
    if let Some(message) = message_in(call) {
        let mut row = flat::from_message(&message);
        for n in &mut row[2..] {
            *n = moved(*n);
        }
        let record = flat::to_message(&row).map_or(Vec::new(), |m| record::bytes_of(&m));
        *call = Call::Receive { record };
    }
}

/// Runs of calls left out: halves first, then ever fewer.
fn fewer_calls(case: &Case) -> Vec<Case> {
    let mut cases = Vec::new();
    let mut run = case.calls.len().div_ceil(2);
    while run >= 1 {
        for start in (0..case.calls.len()).step_by(run) {
            let mut fewer = case.clone();
            fewer.calls.drain(start..(start + run).min(case.calls.len()));
            cases.push(fewer);
        }
        run /= 2;
    }
    cases
}
