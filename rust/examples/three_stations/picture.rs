//! The picture: a column for each station, and arrows between them.

use quynhabet::{Report, Rule};

/// Columns between two stations.
pub const GAP: usize = 14;

/// The line over the picture: the stations' numbers.
pub fn heading() {
    let gap = " ".repeat(GAP);
    println!("{:>4} {gap} {:>2} {gap} {:<3} on way", 0, 1, 2);
}

/// An arrow from one station to another, or one that ends in x. It is as wide as both gaps.
pub fn arrow(from: u64, to: u64, name: u64, line: char, lost: bool) -> String {
    let (low, high) = (from.min(to) as usize, from.max(to) as usize);
    let (length, name) = ((high - low) * GAP, format!(" #{name} "));
    let shaft = |columns| String::from(line).repeat(columns);
    let (middle, rest) = match lost {
        true => (shaft(2), " ".repeat(length - name.len() - 5)),
        false => (shaft(length - name.len() - 3), String::new()),
    };
    let drawn = match from < to {
        true => format!("{}{name}{middle}{}{rest}", shaft(2), if lost { 'x' } else { '>' }),
        false => format!("{rest}{}{middle}{name}{}", if lost { 'x' } else { '<' }, shaft(2)),
    };
    format!("{}{drawn}{}", " ".repeat(low * GAP), " ".repeat((2 - high) * GAP))
}

pub fn no_arrow() -> String {
    " ".repeat(2 * GAP)
}

/// What receiving did, in words.
pub fn words(number: u64, report: &Report) -> String {
    let word = |rule| match rule {
        Rule::Fill => format!("fills {}", report.filled().unwrap_or(0)),
        Rule::DropSlot => "drops a slot".to_string(),
        Rule::OpenSlot => format!("opens a slot of {}", report.opened().unwrap_or(0)),
        Rule::DropToken => "drops a token".to_string(),
        Rule::MakeToken => format!("makes a token of {}", report.made().unwrap_or(0)),
    };
    let said: Vec<String> = report.rules().map(word).collect();
    match said.is_empty() {
        true => format!("station {number} has nothing to do"),
        false => format!("station {number} {}", said.join(", ")),
    }
}
