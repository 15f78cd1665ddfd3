//! Random calls at one station, sound or not, by both sides.

use std::collections::BTreeMap;

use second::limits::{MOST_AMOUNT, MOST_INTAKE, MOST_VALUE};
use second::{record, Fault, Station};

use crate::budget::Budget;
use crate::case::{Call, Case};
use crate::case_shrink::shown;
use crate::difference::difference;
use crate::lent::Lent;
use crate::numbers::room;
use crate::outcome::Outcome;
use crate::random::Random;
use crate::side::{Own, Side};
use crate::{flat, messages, numbers, stations};

/// Compares random cases until the budget is used up or a difference is
/// found.
pub fn compare(
    first: &mut dyn Side,
    second: &mut dyn Side,
    seed: u64,
    mut budget: Budget,
) -> Outcome {
    let mut counts = Counts::default();
    while budget.goes_on() {
        let number = budget.cases;
        let case = random_case(Random::new(seed, number), &mut counts);
        if difference(first, second, &case).is_some() {
            return Outcome::Differs(shown("calls", first, second, &case, seed, number));
        }
        budget.count(case.calls.len() as u64);
    }
    let Counts { answers, rules } = counts;
    Outcome::Same(format!(
        "calls: no difference in {}; answers {answers:?}, rules 1 to 5 {rules:?}",
        budget.so_far()
    ))
}

/// How often each answer was given, by its number, and each rule acted.
#[derive(Default)]
struct Counts {
    answers: BTreeMap<u64, u64>,
    rules: [u64; 5],
}

impl Counts {
    fn count(&mut self, lent: &Lent) {
        *self.answers.entry(lent.told.answer).or_default() += 1;
        for (place, count) in self.rules.iter_mut().enumerate() {
            *count += (lent.told.rules >> place) & 1;
        }
    }
}

/// A station and up to 20 calls. The station is followed along, so that the
/// later calls fit what the earlier ones left.
fn random_case(mut random: Random, counts: &mut Counts) -> Case {
    let start = match random.below(5) {
        0 => fresh(&mut random),
        _ => stations::station(&mut random),
    };
    let mut case = Case { station: flat::from_station(&start), calls: Vec::new() };
    if random.chance(15) {
        stations::break_station(&mut case.station, &mut random);
    }
    let mut own = Own { fault: Fault::None };
    let mut lent = Lent::new(&case.station);
    for _ in 0..random.between(1, 20) {
        let station =
            flat::to_station(&lent.station).filter(Station::is_sound).unwrap_or(start.clone());
        let call = random_call(&station, &mut random);
        lent.call(&mut own, &call, &case.station);
        counts.count(&lent);
        case.calls.push(call);
    }
    case
}

fn fresh(random: &mut Random) -> Station {
    let count = random.between(2, 16);
    Station::fresh(random.below(count), count).1
}

/// A call that fits this station, or just does not.
fn random_call(station: &Station, random: &mut Random) -> Call {
    match random.weighed(&[3, 14, 14, 14, 50, 3, 5]) {
        0 => Call::Fresh { number: station_number(station, random), count: some_count(random) },
        1 => Call::Add { amount: amount(station, random) },
        2 => Call::Draw { amount: amount(station, random) },
        3 => Call::Write { to: station_number(station, random), room: room(random) },
        4 => Call::Receive { record: some_record(station, random) },
        5 => Call::Check,
        _ => Call::LendAgain,
    }
}

fn some_count(random: &mut Random) -> u64 {
    if random.chance(70) {
        random.between(2, 16)
    } else {
        numbers::any_number(random)
    }
}

/// Mostly a station of the table; else its own number, one past the count,
/// or any.
fn station_number(station: &Station, random: &mut Random) -> u64 {
    match random.below(10) {
        0 => station.number,
        1 => random.around(station.count),
        2 => numbers::any_number(random),
        3 => (1 << 32) + random.below(16),
        _ => random.below(station.count),
    }
}

fn amount(station: &Station, random: &mut Random) -> u64 {
    match random.below(8) {
        0 => random.around(MOST_INTAKE - station.intake),
        1 => random.around(MOST_VALUE - station.value),
        2 => random.around(station.value),
        3 => random.around(MOST_AMOUNT),
        4 => numbers::any_number(random),
        5 => 0,
        _ => random.between(1, 5),
    }
}

/// A record for this station, now and then for another, or damaged.
fn some_record(station: &Station, random: &mut Random) -> Vec<u8> {
    let mut message = messages::message_for(station, random);
    if random.chance(5) {
        message.to = random.below(18);
    }
    if random.chance(5) {
        message.from = random.below(18);
    }
    let mut bytes = record::bytes_of(&message);
    if random.chance(3) {
        let place = random.below(bytes.len() as u64) as usize;
        bytes[place] = random.below(256) as u8;
    }
    bytes
}
