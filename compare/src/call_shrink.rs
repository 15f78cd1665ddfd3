//! Calls a little lower than a given one.

use second::record;

use crate::case::Call;
use crate::flat::{self, FlatMessage};
use crate::lower::lower_numbers;

/// A message without its slot or its token, or with a number lower.
fn lower_rows(row: &FlatMessage) -> Vec<FlatMessage> {
    let mut rows = Vec::new();
    for held in [5, 9] {
        let mut without = *row;
        without[held..held + 4].fill(0);
        rows.push(without);
    }
    for place in 0..row.len() {
        for number in lower_numbers(row[place]) {
            let mut lower = *row;
            lower[place] = number;
            rows.push(lower);
        }
    }
    rows.retain(|lower| lower != row);
    rows
}

/// A record of a lower message, with a byte lower, or without its last byte.
fn lower_records(record: &[u8]) -> Vec<Vec<u8>> {
    let mut records = Vec::new();
    if let Some(message) = record::parse(record) {
        let rows = lower_rows(&flat::from_message(&message));
        records.extend(rows.iter().filter_map(flat::to_message).map(|m| record::bytes_of(&m)));
    }
    for place in 0..record.len() {
        for low in lower_numbers(u64::from(record[place])) {
            let mut lower = record.to_vec();
            lower[place] = low as u8;
            records.push(lower);
        }
    }
    if let Some((_, shorter)) = record.split_last() {
        records.push(shorter.to_vec());
    }
    records
}

/// The call with one of its numbers lower.
pub fn lower_calls(call: &Call) -> Vec<Call> {
    match call.clone() {
        Call::Fresh { number, count } => {
            let mut calls = lower(number, |number| Call::Fresh { number, count });
            calls.extend(lower(count, |count| Call::Fresh { number, count }));
            calls
        }
        Call::Add { amount } => lower(amount, |amount| Call::Add { amount }),
        Call::Draw { amount } => lower(amount, |amount| Call::Draw { amount }),
        Call::Write { to, room } => lower(to, |to| Call::Write { to, room }),
        Call::Receive { record } => {
            lower_records(&record).into_iter().map(|record| Call::Receive { record }).collect()
        }
        Call::Read { record } => {
            lower_records(&record).into_iter().map(|record| Call::Read { record }).collect()
        }
        Call::WriteGiven { message, room } => lower_rows(&message)
            .into_iter()
            .map(|message| Call::WriteGiven { message, room })
            .collect(),
        Call::Check | Call::LendAgain => Vec::new(),
    }
}

fn lower(number: u64, call: impl Fn(u64) -> Call) -> Vec<Call> {
    lower_numbers(number).into_iter().map(call).collect()
}
