//! A case done by both sides, and where they differ.

use crate::case::Case;
use crate::lent::Lent;
use crate::side::Side;

/// The first difference of a case, told in words; None if there is none.
pub fn difference(first: &mut dyn Side, second: &mut dyn Side, case: &Case) -> Option<String> {
    let mut one = Lent::new(&case.station);
    let mut two = one.clone();
    for (place, call) in case.calls.iter().enumerate() {
        one.call(first, call, &case.station);
        two.call(second, call, &case.station);
        if one != two {
            return Some(format!("after call {}:\n{}", place + 1, told(&one, &two)));
        }
    }
    None
}

/// Where the two differ.
fn told(one: &Lent, two: &Lent) -> String {
    let mut text = format!("first told  {:?}\nsecond told {:?}\n", one.told, two.told);
    let mut row = |name: &str, one: &[u64], two: &[u64]| {
        for (place, (a, b)) in one.iter().zip(two).enumerate().filter(|(_, (a, b))| a != b) {
            text += &format!("{name} number {place}: first {a}, second {b}\n");
        }
    };
    row("station", &one.station, &two.station);
    row("message", &one.message, &two.message);
    row("buffer", &wide(one), &wide(two));
    text
}

fn wide(lent: &Lent) -> Vec<u64> {
    lent.buffer.iter().map(|byte| u64::from(*byte)).collect()
}
