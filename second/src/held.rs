//! Slots and tokens.

use crate::limits::{is_clock, is_value};

/// "A slot or token carries a source clock, a destination clock and a
/// quantity."
#[derive(Clone, Copy, Debug, Default, PartialEq, Eq)]
pub struct Held {
    pub source: u64,
    pub destination: u64,
    pub quantity: u64,
}

impl Held {
    /// A slot or token of these.
    pub fn new(source: u64, destination: u64, quantity: u64) -> Held {
        Held { source, destination, quantity }
    }

    /// Both clocks and the quantity are in range.
    pub fn in_range(&self) -> bool {
        is_clock(self.source) && is_clock(self.destination) && is_value(self.quantity)
    }

    /// "both their clocks agree pairwise": source clocks are compared only
    /// with source clocks, destination clocks only with destination clocks.
    pub fn agrees(&self, other: &Held) -> bool {
        self.source == other.source && self.destination == other.destination
    }
}

/// Is a slot sound beside its owner's destination clock: in range, "each
/// slot's quantity is at least 1", "each slot's destination clock is below
/// the station's"?
pub fn slot_is_sound(slot: &Held, owner_destination: u64) -> bool {
    slot.in_range() && slot.quantity >= 1 && slot.destination < owner_destination
}

/// Is a token sound beside its maker's source clock: in range ("a token's may
/// be 0"), "each token's source clock is below the station's"?
pub fn token_is_sound(token: &Held, maker_source: u64) -> bool {
    token.in_range() && token.source < maker_source
}
