//! The rule for saving, broken in two ways.

use quynhabet::Record;

use crate::lab::Lab;
use crate::picture::{arrow, heading, no_arrow, words};

/// A record arrives.
fn arrive(lab: &mut Lab, name: u64, from: u64, to: u64, record: &Record) {
    let report = lab.receive(to, record);
    lab.show(&arrow(from, to, name, '=', false), &format!("#{name}: {}", words(to, &report)));
}

/// A record leaves and arrives at once.
fn exchange(lab: &mut Lab, name: u64, from: u64, to: u64) {
    let record = lab.record(from, to);
    arrive(lab, name, from, to, &record);
}

/// A record leaves and comes later.
fn leave(lab: &Lab, name: u64, from: u64, to: u64) -> Record {
    lab.show(&arrow(from, to, name, '-', false), &format!("#{name} leaves"));
    lab.record(from, to)
}

/// What is never to be done.
fn load_older(lab: &mut Lab, number: u64, older: Vec<u8>, what: &str) {
    lab.saves[number as usize] = older;
    lab.show(&no_arrow(), &format!("station {number} LOADS AN OLDER SAVE, {what}"));
}

/// A lab where station 0 has added 10.
fn lab_with_ten(title: &str) -> Lab {
    println!("\n{title}\n");
    heading();
    let mut lab = Lab::new();
    lab.add(0, 10);
    lab.show(&no_arrow(), "station 0 adds 10");
    lab
}

/// The sum that no longer fits, and why.
fn show_why(lab: &Lab, why: &str) {
    lab.show_sum();
    println!("{why}");
    assert!(!lab.fits(), "the broken rule should show");
}

/// The giver forgets its token after the token left.
pub fn passes_appear() {
    let mut lab = lab_with_ten("The rule broken, first: station 0 forgets a token that has left.");
    exchange(&mut lab, 1, 0, 1);
    let older = lab.saves[0].clone();
    exchange(&mut lab, 2, 1, 0);
    let record = leave(&lab, 3, 0, 1);
    load_older(&mut lab, 0, older, "without its token");
    arrive(&mut lab, 3, 0, 1, &record);
    show_why(&lab, "5 passes appeared: they left in #3, and the older save has them still.");
}

/// The taker forgets its slot after the slot was shown.
pub fn passes_vanish() {
    let mut lab = lab_with_ten("The rule broken, second: station 1 forgets a slot it has shown.");
    let older = lab.saves[1].clone();
    exchange(&mut lab, 1, 0, 1);
    let record = leave(&lab, 2, 1, 0);
    load_older(&mut lab, 1, older, "without its slot");
    arrive(&mut lab, 2, 1, 0, &record);
    exchange(&mut lab, 3, 0, 1);
    show_why(&lab, "5 passes vanished: their token fits only the slot that was forgotten.");
}
