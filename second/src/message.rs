//! What a message shows, and when it is sound.

use crate::held::{slot_is_sound, token_is_sound, Held};
use crate::limits::{is_clock, is_value, MOST_NUMBER};

/// "A message shows: from, to, the sender's value and both its clocks, the
/// sender's slot for the receiver if it has one, the sender's token for the
/// receiver if it has one."
#[derive(Clone, Copy, Debug, Default, PartialEq, Eq)]
pub struct Message {
    pub from: u64,
    pub to: u64,
    pub value: u64,
    pub source: u64,
    pub destination: u64,
    pub slot: Option<Held>,
    pub token: Option<Held>,
}

impl Message {
    /// "A message is sound by the same rules read from what it shows, with
    /// from and to different and at most 15."
    pub fn is_sound(&self) -> bool {
        self.from != self.to
            && self.from <= MOST_NUMBER
            && self.to <= MOST_NUMBER
            && is_value(self.value)
            && is_clock(self.source)
            && is_clock(self.destination)
            && self.slot.is_none_or(|slot| slot_is_sound(&slot, self.destination))
            && self.token.is_none_or(|token| token_is_sound(&token, self.source))
    }
}
