//! A station at a table, and when it and a message that waits there are sound.

use crate::limits::{MOST_AMOUNT, MOST_VALUE};
use crate::rules::{Held, Message, Side};

/// A station, with its cells by peer.
#[derive(Clone, Copy)]
pub struct Station {
    pub number: usize,
    pub count: usize,
    pub value: u64,
    pub intake: u64,
    pub source: u32,
    pub destination: u32,
    pub slots: [Option<Held>; 16],
    pub tokens: [Option<Held>; 16],
}

fn slot_sound(cell: &Option<Held>, destination: u32) -> bool {
    match cell {
        None => true,
        Some(l) => (1..=MOST_VALUE).contains(&l.quantity) && l.destination < destination,
    }
}

fn token_sound(cell: &Option<Held>, source: u32) -> bool {
    match cell {
        None => true,
        Some(t) => t.quantity <= MOST_VALUE && t.source < source,
    }
}

impl Station {
    /// One with nothing in it.
    pub fn fresh(number: usize, count: usize) -> Station {
        Station {
            number,
            count,
            value: 0,
            intake: 0,
            source: 0,
            destination: 0,
            slots: [None; 16],
            tokens: [None; 16],
        }
    }

    /// Whether it is sound.
    pub fn sound(&self) -> bool {
        (2..=16).contains(&self.count)
            && self.number < self.count
            && self.value <= MOST_VALUE
            && self.intake <= MOST_AMOUNT
            && (0..16).all(|k| {
                let peer = k != self.number && k < self.count;
                slot_sound(&self.slots[k], self.destination)
                    && token_sound(&self.tokens[k], self.source)
                    && (peer || self.slots[k].is_none() && self.tokens[k].is_none())
            })
    }

    /// Takes a message by the five rules: what they tell, or the refusal 10.
    pub fn take(&mut self, m: &Message) -> Result<[u64; 4], u8> {
        let side = Side {
            value: &mut self.value,
            source: &mut self.source,
            destination: &mut self.destination,
            slot: &mut self.slots[m.from],
            token: &mut self.tokens[m.from],
        };
        side.take(m)
    }
}

impl Message {
    /// Whether it is sound at a table of that many.
    pub fn sound(&self, count: usize) -> bool {
        self.from <= 15
            && self.to <= 15
            && self.from != self.to
            && self.value <= MOST_VALUE
            && slot_sound(&self.slot, self.destination)
            && token_sound(&self.token, self.source)
            && self.from < count
            && self.to < count
    }
}
