//! What one side is lent in a case, and what it told.

use crate::case::Call;
use crate::flat::{FlatMessage, FlatStation};
use crate::side::{Side, ToldRow};

/// Bytes before the buffer and room for the buffer and the bytes past it.
const BEFORE: usize = 16;
const BUFFER: usize = 160;
/// No buffer is longer.
pub const ROOM_MOST: usize = 120;

/// All that one side is lent, and what it told last.
#[derive(Clone, Debug, PartialEq, Eq)]
pub struct Lent {
    pub station: FlatStation,
    pub message: FlatMessage,
    pub buffer: [u8; BUFFER],
    pub told: ToldRow,
}

impl Lent {
    /// The station, a message of odd numbers, and a buffer of known bytes.
    pub fn new(station: &FlatStation) -> Lent {
        let message: FlatMessage = std::array::from_fn(|place| 1_000 + place as u64);
        let told = ToldRow { answer: 0, result: 0, rules: 0, opened: 0, made: 0 };
        Lent { station: *station, message, buffer: known_bytes(), told }
    }

    /// Does one call at one side. A buffer has known bytes before each call,
    /// so that every byte changed by it is seen.
    pub fn call(&mut self, side: &mut dyn Side, call: &Call, first: &FlatStation) {
        self.buffer = known_bytes();
        let out = &mut self.buffer[BEFORE..];
        self.told = match call {
            Call::Fresh { number, count } => side.fresh(*number, *count, &mut self.station),
            Call::Check => side.check(&self.station),
            Call::Add { amount } => side.add(&mut self.station, *amount),
            Call::Draw { amount } => side.draw(&mut self.station, *amount),
            Call::Write { to, room } => side.write(&self.station, *to, &mut out[..*room]),
            Call::Receive { record } => side.receive(&mut self.station, record),
            Call::Read { record } => side.read(record, &mut self.message),
            Call::WriteGiven { message, room } => side.write_given(message, &mut out[..*room]),
            Call::LendAgain => {
                self.station = *first;
                self.told
            }
        };
    }
}

fn known_bytes() -> [u8; BUFFER] {
    std::array::from_fn(|place| 0xa5 ^ (place as u8).wrapping_mul(29))
}
