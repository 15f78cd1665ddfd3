//! The bench program's whole behaviour, from input bytes to output bytes.

use std::fmt::Write;

use crate::answer::{Answer, Told};
use crate::fault::Fault;
use crate::limits::{MOST_BYTES, MOST_DIGITS};
use crate::table::Table;

/// One line after the first.
#[derive(Clone, Copy, Debug, PartialEq, Eq)]
pub enum Step {
    Add { station: u64, amount: u64 },
    Draw { station: u64, amount: u64 },
    Send { from: u64, to: u64 },
    Deliver { place: u64 },
    Lose { place: u64 },
}

/// "numbers of 1 to 10 decimal digits without a leading zero (0 itself is
/// fine)".
pub fn number(word: &[u8]) -> Option<u64> {
    let long = word.is_empty() || word.len() > MOST_DIGITS;
    let leading_zero = word.len() > 1 && word[0] == b'0';
    if long || leading_zero || !word.iter().all(u8::is_ascii_digit) {
        return None;
    }
    Some(word.iter().fold(0, |sum, digit| sum * 10 + u64::from(digit - b'0')))
}

/// The words of a line, "one space between"; two spaces together, or one at
/// an end, give an empty word, which nothing below reads.
fn words(line: &[u8]) -> Vec<&[u8]> {
    line.split(|byte| *byte == b' ').collect()
}

/// "first line `stations N`".
pub fn first_line(line: &[u8]) -> Option<u64> {
    match words(line)[..] {
        [b"stations", count] => number(count),
        _ => None,
    }
}

/// "then lines `add S A`, `draw S A`, `send S T`, `deliver P`, `lose P`".
pub fn step_line(line: &[u8]) -> Option<Step> {
    Some(match words(line)[..] {
        [b"add", s, a] => Step::Add { station: number(s)?, amount: number(a)? },
        [b"draw", s, a] => Step::Draw { station: number(s)?, amount: number(a)? },
        [b"send", s, t] => Step::Send { from: number(s)?, to: number(t)? },
        [b"deliver", p] => Step::Deliver { place: number(p)? },
        [b"lose", p] => Step::Lose { place: number(p)? },
        _ => return None,
    })
}

/// "Lines end in byte 10; a last line with at least one byte needs none."
pub fn lines(script: &[u8]) -> Vec<&[u8]> {
    let mut lines: Vec<&[u8]> = script.split(|byte| *byte == 10).collect();
    if lines.last().is_some_and(|last| last.is_empty()) {
        lines.pop();
    }
    lines
}

/// Does one step at the table.
pub fn do_step(table: &mut Table, step: Step, fault: Fault) -> Told {
    match step {
        Step::Add { station, amount } => table.add(station, amount),
        Step::Draw { station, amount } => table.draw(station, amount, fault),
        Step::Send { from, to } => table.send(from, to),
        Step::Deliver { place } => table.deliver(place, fault),
        Step::Lose { place } => table.lose(place),
    }
}

/// The bench program: all its output for this input.
pub fn run(script: &[u8], fault: Fault) -> Vec<u8> {
    let (mut table, steps) = match begin(script) {
        Ok(begun) => begun,
        Err(answer) => return format!("0 {} 0\n", answer.number()).into_bytes(),
    };
    let mut out = String::new();
    for (index, line) in steps.iter().enumerate() {
        let told = match step_line(line) {
            Some(step) => do_step(&mut table, step, fault),
            None => Told::refused(Answer::BadLine),
        };
        put(&mut out, format_args!("{} {} {}", index + 1, told.answer.number(), told.result));
    }
    put_table(&mut out, &table);
    out.into_bytes()
}

/// "An unreadable first line, or no input, prints `0 12 0` and stops; a bad
/// count `0 1 0`; an overlong script `0 13 0`, tested first."
fn begin(script: &[u8]) -> Result<(Table, Vec<&[u8]>), Answer> {
    if script.len() > MOST_BYTES {
        return Err(Answer::LongScript);
    }
    let all = lines(script);
    let (first, steps) = all.split_first().ok_or(Answer::BadLine)?;
    let count = first_line(first).ok_or(Answer::BadLine)?;
    match Table::fresh(count) {
        (Told { answer: Answer::Done, .. }, table) => Ok((table, steps.to_vec())),
        (refused, _) => Err(refused.answer),
    }
}

/// "Then each station's value and clocks, then the sum on the way, then
/// values plus that sum."
fn put_table(out: &mut String, table: &Table) {
    let on_the_way = table.on_the_way().result;
    let mut total = on_the_way;
    for s in table.seated() {
        put(
            out,
            format_args!(
                "station {} value {} source {} destination {}",
                s.number, s.value, s.source, s.destination
            ),
        );
        total += s.value;
    }
    put(out, format_args!("on the way {on_the_way}"));
    put(out, format_args!("total {total}"));
}

/// One line of output. Writing to a string cannot fail.
fn put(out: &mut String, line: std::fmt::Arguments) {
    let _ = writeln!(out, "{line}");
}
