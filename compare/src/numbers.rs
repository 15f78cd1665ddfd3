//! Random numbers, at the edges more often than not.

use second::limits::{LAST_CLOCK, MOST_INTAKE, MOST_VALUE};

use crate::lent::ROOM_MOST;
use crate::random::Random;

/// Numbers at the edge of something, for where any u64 may stand.
pub fn any_number(random: &mut Random) -> u64 {
    const EDGES: [u64; 17] = [
        0,
        1,
        2,
        3,
        15,
        16,
        17,
        255,
        256,
        MOST_INTAKE,
        LAST_CLOCK,
        LAST_CLOCK + 1,
        MOST_VALUE,
        1 << 40,
        1 << 63,
        u64::MAX - 1,
        u64::MAX,
    ];
    match random.below(8) {
        0 => random.number(),
        1 => random.number() >> random.below(64),
        _ => {
            let edge = random.pick(&EDGES);
            random.around(edge)
        }
    }
}

/// A clock: small, or at its end, or any.
pub fn clock(random: &mut Random) -> u64 {
    match random.below(10) {
        0 => LAST_CLOCK,
        1 => LAST_CLOCK - 1,
        2 => random.below(LAST_CLOCK + 1),
        3 => LAST_CLOCK - random.below(4),
        _ => random.below(4),
    }
}

/// A value: small, or at its limit, or any.
pub fn value(random: &mut Random) -> u64 {
    match random.below(10) {
        0 => MOST_VALUE,
        1 => MOST_VALUE - random.below(4),
        2 => random.below(MOST_VALUE + 1),
        3 => MOST_VALUE / 2 + random.below(3),
        4 => MOST_INTAKE,
        _ => random.below(12),
    }
}

/// A clock below this one, which is at least 1: often the one just below.
pub fn clock_below(bound: u64, random: &mut Random) -> u64 {
    match random.below(3) {
        0 => bound - 1,
        1 => random.below(bound.min(4)),
        _ => random.below(bound),
    }
}

/// The clock, or the end if it is past that.
pub fn clipped(clock: u64) -> u64 {
    clock.min(LAST_CLOCK)
}

/// The clock, one beside it, or any.
pub fn near_clock(near: u64, random: &mut Random) -> u64 {
    if random.chance(75) {
        clipped(random.around(near))
    } else {
        clock(random)
    }
}

/// A value the same, a little more or less, or any.
pub fn shown_value(own: u64, random: &mut Random) -> u64 {
    match random.below(4) {
        0 => value(random),
        1 => own.saturating_sub(random.below(4)),
        _ => own.saturating_add(random.below(5)),
    }
}

/// The length of a buffer, often about the length of a record.
pub fn room(random: &mut Random) -> usize {
    match random.below(6) {
        0 => random.below(ROOM_MOST as u64 + 1) as usize,
        1 => 0,
        _ => {
            let size = random.pick(&[30, 49, 68, 68]);
            random.around(size) as usize
        }
    }
}
