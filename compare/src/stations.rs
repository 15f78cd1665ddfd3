//! Random stations, sound and broken.

use second::limits::{LAST_CLOCK, MOST_INTAKE, MOST_VALUE, PEERS};
use second::{Held, Station};

use crate::flat::FlatStation;
use crate::numbers::{any_number, clock, clock_below, value};
use crate::random::Random;

/// A sound station.
pub fn station(random: &mut Random) -> Station {
    let count = if random.chance(60) { random.between(2, 4) } else { random.between(2, 16) };
    let mut station = Station {
        number: random.below(count),
        count,
        value: value(random),
        intake: match random.below(3) {
            0 => MOST_INTAKE - random.below(4),
            1 => random.below(MOST_INTAKE + 1),
            _ => random.below(20),
        },
        source: clock(random),
        destination: clock(random),
        ..Station::default()
    };
    for peer in (0..count as usize).filter(|peer| *peer as u64 != station.number) {
        if station.destination > 0 && random.chance(60) {
            let below = clock_below(station.destination, random);
            station.slots[peer] = Some(Held::new(clock(random), below, value(random).max(1)));
        }
        if station.source > 0 && random.chance(60) {
            let below = clock_below(station.source, random);
            station.tokens[peer] = Some(Held::new(below, clock(random), value(random)));
        }
    }
    station
}

/// Breaks a number or two of a station; it is likely no longer sound.
pub fn break_station(row: &mut FlatStation, random: &mut Random) {
    let peer = random.below(PEERS as u64) as usize;
    let mine = (row[0] as usize).min(PEERS - 1);
    let [_, _, _, _, source, destination, ..] = *row;
    let mut slot = |peer: usize, four: [u64; 4]| row[6 + 4 * peer..][..4].copy_from_slice(&four);
    match random.below(12) {
        0 => slot(mine, [1, 0, destination.saturating_sub(1), 1]),
        1 => slot(peer, [1, 0, destination, 1]),
        2 => slot(peer, [1, 0, destination.saturating_sub(1), 0]),
        3 => slot(PEERS + mine, [1, source.saturating_sub(1), 0, 1]),
        4 => slot(PEERS + peer, [1, source, 0, 1]),
        5 => row[0] = row[1].saturating_add(random.below(2)),
        6 => row[1] = random.pick(&[0, 1, 17, 18, 1 << 32, u64::MAX]),
        7 => row[2] = MOST_VALUE + 1,
        8 => row[3] = MOST_INTAKE + 1,
        9 => row[random.pick(&[4, 5])] = LAST_CLOCK + 1,
        10 => row[6 + 4 * random.below(2 * PEERS as u64) as usize] = random.below(3),
        _ => row[random.below(row.len() as u64) as usize] = any_number(random),
    }
}
