//! A whole script run by hand on a table that is changed in place.

use std::fmt::Write;

use crate::table::Table;

fn number(word: &str) -> Option<u64> {
    let digits = (1..=10).contains(&word.len()) && word.bytes().all(|b| b.is_ascii_digit());
    if !digits || (word.len() > 1 && word.starts_with('0')) {
        return None;
    }
    word.parse().ok()
}

fn step_of(line: &str) -> Option<[u64; 3]> {
    let mut words = line.split(' ');
    let (kind, two) = match words.next()? {
        "add" => (0, true),
        "draw" => (1, true),
        "send" => (2, true),
        "deliver" => (3, false),
        "lose" => (4, false),
        _ => return None,
    };
    let a = number(words.next()?)?;
    let b = if two { number(words.next()?)? } else { 0 };
    words.next().is_none().then_some([kind, a, b])
}

fn closing(table: &Table, out: &mut String) {
    let mut total = 0;
    for (k, (value, source, destination)) in table.stations().enumerate() {
        writeln!(out, "station {k} value {value} source {source} destination {destination}")
            .expect("a string grows");
        total += value;
    }
    let way = table.on_the_way();
    writeln!(out, "on the way {way}\ntotal {}", total + way).expect("a string grows");
}

/// What a script prints.
pub fn output(script: &str) -> String {
    if script.len() > 65_536 {
        return "0 13 0\n".to_string();
    }
    let mut lines = script.split_terminator('\n');
    let Some(count) = lines.next().and_then(|l| l.strip_prefix("stations ")).and_then(number)
    else {
        return "0 12 0\n".to_string();
    };
    if !(2..=16).contains(&count) {
        return "0 1 0\n".to_string();
    }
    let mut table = Table::fresh(count as usize);
    let mut out = String::new();
    for (n, line) in lines.enumerate() {
        let told = match step_of(line) {
            None => Err(12),
            Some([kind, a, b]) => table.step(kind, a, b),
        };
        let (answer, result) = match told {
            Ok(result) => (0, result),
            Err(answer) => (answer, 0),
        };
        writeln!(out, "{} {answer} {result}", n + 1).expect("a string grows");
    }
    closing(&table, &mut out);
    out
}
