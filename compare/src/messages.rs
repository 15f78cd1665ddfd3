//! Random messages that fit a station.

use second::limits::{LAST_CLOCK, MOST_VALUE};
use second::{Held, Message, Station};

use crate::numbers::{near_clock, shown_value, value};
use crate::random::Random;

/// A message for this sound station that one or more rules may look at
/// closely. Mostly sound; its numbers always fit their fields.
pub fn message_for(station: &Station, random: &mut Random) -> Message {
    let from = (station.number + 1 + random.below(station.count - 1)) % station.count;
    let slot = station.slots[from as usize].unwrap_or_default();
    let token = station.tokens[from as usize].unwrap_or_default();
    let mut message = Message {
        from,
        to: station.number,
        value: shown_value(station.value, random),
        source: near_clock(slot.source, random),
        destination: near_clock(token.destination, random),
        slot: random.chance(55).then(|| slot_shown(station, &token, random)),
        token: random.chance(60).then(|| token_shown(station, &slot, random)),
    };
    if random.chance(94) {
        repair(&mut message);
    }
    message
}

/// A slot for which the station may make a token.
fn slot_shown(station: &Station, token: &Held, random: &mut Random) -> Held {
    Held {
        source: if random.chance(75) { station.source } else { near_clock(station.source, random) },
        destination: near_clock(token.destination, random),
        quantity: if random.chance(50) { random.around(station.value) } else { value(random) },
    }
}

/// A token that may fill the station's slot, now and then to the limit.
fn token_shown(station: &Station, slot: &Held, random: &mut Random) -> Held {
    let mut beside = |clock: u64| {
        if random.chance(80) {
            clock
        } else {
            near_clock(clock, random)
        }
    };
    let (source, destination) = (beside(slot.source), beside(slot.destination));
    let room = MOST_VALUE - station.value;
    let quantity = if random.chance(30) { random.around(room) } else { value(random) };
    Held { source, destination, quantity }
}

/// Makes the message sound by moving as little as need be.
fn repair(message: &mut Message) {
    message.value = message.value.min(MOST_VALUE);
    if let Some(slot) = &mut message.slot {
        slot.quantity = slot.quantity.clamp(1, MOST_VALUE);
        slot.destination = slot.destination.min(LAST_CLOCK - 1);
        message.destination = message.destination.max(slot.destination + 1);
    }
    if let Some(token) = &mut message.token {
        token.quantity = token.quantity.min(MOST_VALUE);
        token.source = token.source.min(LAST_CLOCK - 1);
        message.source = message.source.max(token.source + 1);
    }
}
