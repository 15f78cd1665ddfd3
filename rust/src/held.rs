//! Clocks, slots and tokens, and how they stand in numbers.

use std::fmt;

use quynhabet_archive::layout::{DESTINATION_CLOCK, PRESENT, QUANTITY, SOURCE_CLOCK};

/// A source clock. It advances when its station makes a token.
#[derive(Clone, Copy, Debug, PartialEq, Eq, PartialOrd, Ord, Hash)]
pub struct SourceClock(pub u32);

/// A destination clock. It advances when its station opens a slot.
#[derive(Clone, Copy, Debug, PartialEq, Eq, PartialOrd, Ord, Hash)]
pub struct DestinationClock(pub u32);

impl fmt::Display for SourceClock {
    fn fmt(&self, f: &mut fmt::Formatter<'_>) -> fmt::Result {
        self.0.fmt(f)
    }
}

impl fmt::Display for DestinationClock {
    fn fmt(&self, f: &mut fmt::Formatter<'_>) -> fmt::Result {
        self.0.fmt(f)
    }
}

/// A slot: its station waits for passes from one peer.
#[derive(Clone, Copy, Debug, PartialEq, Eq)]
pub struct Slot {
    /// The peer's source clock, as it was shown.
    pub source_clock: SourceClock,
    /// The station's own destination clock, from before the slot was opened.
    pub destination_clock: DestinationClock,
    /// How many passes the slot asks for, at least 1.
    pub quantity: u64,
}

/// A token: passes that its maker has set aside for one slot of one peer.
#[derive(Clone, Copy, Debug, PartialEq, Eq)]
pub struct Token {
    /// The slot's source clock.
    pub source_clock: SourceClock,
    /// The slot's destination clock.
    pub destination_clock: DestinationClock,
    /// How many passes the token has. It may be 0.
    pub quantity: u64,
}

impl Token {
    /// Whether both clocks are the slot's.
    ///
    /// A token is on the way while its destination has a slot for its maker that it fits.
    pub fn fits(&self, slot: &Slot) -> bool {
        self.source_clock == slot.source_clock && self.destination_clock == slot.destination_clock
    }
}

/// Puts a slot or token that is held into the first four numbers.
pub(crate) fn put_held(
    numbers: &mut [u64],
    source: SourceClock,
    destination: DestinationClock,
    quantity: u64,
) {
    numbers[PRESENT] = 1;
    numbers[SOURCE_CLOCK] = source.0.into();
    numbers[DESTINATION_CLOCK] = destination.0.into();
    numbers[QUANTITY] = quantity;
}

/// A clock from a number of a sound station or message.
pub(crate) fn clock(number: u64) -> u32 {
    u32::try_from(number).expect("a sound clock fits 32 bits")
}

/// The slot that stands in the first four numbers, if one does.
pub(crate) fn slot_at(numbers: &[u64]) -> Option<Slot> {
    (numbers[PRESENT] == 1).then(|| Slot {
        source_clock: SourceClock(clock(numbers[SOURCE_CLOCK])),
        destination_clock: DestinationClock(clock(numbers[DESTINATION_CLOCK])),
        quantity: numbers[QUANTITY],
    })
}

/// The token that stands in the first four numbers, if one does.
pub(crate) fn token_at(numbers: &[u64]) -> Option<Token> {
    (numbers[PRESENT] == 1).then(|| Token {
        source_clock: SourceClock(clock(numbers[SOURCE_CLOCK])),
        destination_clock: DestinationClock(clock(numbers[DESTINATION_CLOCK])),
        quantity: numbers[QUANTITY],
    })
}
