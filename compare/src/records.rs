//! Records read and written by both sides: every cut and every change of a
//! single byte first, then random ones.

use second::{record, Held, Message, Station};

use crate::budget::Budget;
use crate::case::{read_and_receive, Call, Case};
use crate::case_shrink::shown;
use crate::difference::difference;
use crate::flat;
use crate::odd_records::random_case;
use crate::outcome::Outcome;
use crate::random::Random;
use crate::side::Side;

/// Compares the cuts and changes in full, then random cases until the budget
/// is used up or a difference is found.
pub fn compare(
    first: &mut dyn Side,
    second: &mut dyn Side,
    seed: u64,
    mut budget: Budget,
) -> Outcome {
    let changes = changed_records();
    let orderly = changes.len() as u64;
    while budget.cases < orderly || budget.goes_on() {
        let number = budget.cases;
        let case = match changes.get(number as usize) {
            Some(case) => case.clone(),
            None => random_case(Random::new(seed, number)),
        };
        if difference(first, second, &case).is_some() {
            return Outcome::Differs(shown("records", first, second, &case, seed, number));
        }
        budget.count(case.calls.len() as u64);
    }
    let so_far = budget.so_far();
    Outcome::Same(format!(
        "records: no difference in {so_far}; {orderly} cases of cuts and changes"
    ))
}

/// A receiver, and messages for it of each size: plain, with a slot, with a
/// token, with both. The token fills the receiver's slot.
fn receiver() -> (Station, Vec<Message>) {
    let wanted = Held::new(1, 1, 4);
    let (_, mut station) = Station::fresh(1, 3);
    station.value = 7;
    station.source = 2;
    station.destination = 2;
    station.slots[0] = Some(wanted);
    station.tokens[0] = Some(Held::new(1, 0, 3));
    let (from, to, value, source, destination) = (0, 1, 300, 2, 3);
    let plain = Message { from, to, value, source, destination, slot: None, token: None };
    let slot = Some(Held::new(2, 2, 260));
    let token = Some(wanted);
    let with_slot = Message { slot, ..plain };
    let with_token = Message { token, ..plain };
    let with_both = Message { slot, token, ..plain };
    (station, vec![plain, with_slot, with_token, with_both])
}

/// Every cut, every change of a single byte, and a byte more, of a record of
/// each size; and every message written into every length of buffer.
fn changed_records() -> Vec<Case> {
    let (station, messages) = receiver();
    let station = flat::from_station(&station);
    let mut cases = Vec::new();
    for message in messages {
        let whole = record::bytes_of(&message);
        let cuts = (0..=whole.len()).flat_map(|end| read_and_receive(whole[..end].to_vec()));
        cases.push(Case { station, calls: cuts.collect() });
        let longer =
            (0..=255).flat_map(|byte| read_and_receive([whole.clone(), vec![byte]].concat()));
        cases.push(Case { station, calls: longer.collect() });
        for place in 0..whole.len() {
            let changes = (0..=255).flat_map(|byte| {
                let mut changed = whole.clone();
                changed[place] = byte;
                read_and_receive(changed)
            });
            cases.push(Case { station, calls: changes.collect() });
        }
        let message = flat::from_message(&message);
        let written = (0..=100).map(|room| Call::WriteGiven { message, room });
        cases.push(Case { station, calls: written.collect() });
    }
    cases
}
