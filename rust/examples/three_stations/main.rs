//! Three stations exchange records over a link that loses, repeats, delays and reorders.
//!
//! Each station is loaded from its save before a call and saved after it, as if a power cut came
//! between any two calls. In the end every pass is accounted for. Then the rule for saving is
//! broken twice, and the sum no longer fits.

mod broken;
mod lab;
mod link;
mod picture;

use broken::{passes_appear, passes_vanish};
use lab::{Lab, STATIONS};
use link::{Dice, Link};
use picture::{heading, no_arrow};

const SENDS: u64 = 24;
const SEED: u64 = 1421;

/// What happens at the stations beside the records: adds and draws, each at its time.
fn beside_the_records(lab: &mut Lab, now: u64) {
    let adds = [(1, 0, 60), (10, 2, 25)];
    let draws = [(4, 1, 4), (8, 1, 4), (14, 0, 9), (19, 2, 6)];
    for (_, number, amount) in adds.into_iter().filter(|(when, ..)| *when == now) {
        lab.add(number, amount);
        lab.show(&no_arrow(), &format!("station {number} adds {amount}"));
    }
    for (_, number, amount) in draws.into_iter().filter(|(when, ..)| *when == now) {
        let how = match lab.draw(number, amount) {
            Ok(()) => String::new(),
            Err(refusal) => format!(": refused by {}", refusal.number()),
        };
        lab.show(&no_arrow(), &format!("station {number} draws {amount}{how}"));
    }
}

/// Who sends to whom next. Often it is the answer to the record before.
fn next_pair(dice: &mut Dice, (from, to): (u64, u64)) -> (u64, u64) {
    if dice.roll(2) == 0 {
        return (to, from);
    }
    let from = dice.roll(STATIONS);
    (from, (from + 1 + dice.roll(STATIONS - 1)) % STATIONS)
}

fn first_part() {
    println!(
        "Three stations. ==> a record arrives, --> it leaves and comes later, --x it is lost."
    );
    println!("Before each call a station is loaded from its save, and after it saved.\n");
    heading();
    let mut lab = Lab::new();
    let mut link = Link::new(SEED);
    let mut pair = (0, 1);
    for now in 1..=SENDS {
        beside_the_records(&mut lab, now);
        link.send(&lab, now, pair.0, pair.1);
        link.deliver(&mut lab, now);
        pair = next_pair(&mut link.dice, pair);
    }
    lab.show_sum();
    println!("Every pass is accounted for.");
}

/// The rule that the last two parts break.
fn tell_the_rule() {
    println!(
        "\nThe rule for saving: the state is saved before any record or drawn pass leaves the \
         station,"
    );
    println!("and an older save is never loaded again. Otherwise nothing of this is claimed.");
}

fn main() {
    first_part();
    tell_the_rule();
    passes_appear();
    passes_vanish();
}
