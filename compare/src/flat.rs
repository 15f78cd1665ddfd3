//! Stations and messages as rows of numbers, the shape in which they are
//! compared with those of the first implementation.
//!
//! A station is 134 numbers: number, count, value, intake, source clock,
//! destination clock, then for peers 0 to 15 the slot as present (0 or 1),
//! source clock, destination clock, quantity, then the tokens likewise. A
//! message is 13: from, to, value, source clock, destination clock, slot,
//! token. What is not held is four zeros.

use second::limits::PEERS;
use second::{Held, Message, Station};

pub const STATION: usize = 134;
pub const MESSAGE: usize = 13;
const SLOTS: usize = 6;
const TOKENS: usize = SLOTS + 4 * PEERS;

pub type FlatStation = [u64; STATION];
pub type FlatMessage = [u64; MESSAGE];

fn put_held(row: &mut [u64], held: &Option<Held>) {
    let numbers = match held {
        Some(held) => [1, held.source, held.destination, held.quantity],
        None => [0; 4],
    };
    row.copy_from_slice(&numbers);
}

/// None if present is above 1, or a number stands in what is not held.
fn held(row: &[u64]) -> Option<Option<Held>> {
    match row[..] {
        [0, 0, 0, 0] => Some(None),
        [1, source, destination, quantity] => Some(Some(Held { source, destination, quantity })),
        _ => None,
    }
}

/// The numbers of a station.
pub fn from_station(station: &Station) -> FlatStation {
    let mut row = [0; STATION];
    row[..SLOTS].copy_from_slice(&[
        station.number,
        station.count,
        station.value,
        station.intake,
        station.source,
        station.destination,
    ]);
    for peer in 0..PEERS {
        put_held(&mut row[SLOTS + 4 * peer..][..4], &station.slots[peer]);
        put_held(&mut row[TOKENS + 4 * peer..][..4], &station.tokens[peer]);
    }
    row
}

/// The station of these numbers, sound or not; None if they are no station
/// at all, which is answer 1.
pub fn to_station(row: &FlatStation) -> Option<Station> {
    let mut station = Station {
        number: row[0],
        count: row[1],
        value: row[2],
        intake: row[3],
        source: row[4],
        destination: row[5],
        ..Station::default()
    };
    for peer in 0..PEERS {
        station.slots[peer] = held(&row[SLOTS + 4 * peer..][..4])?;
        station.tokens[peer] = held(&row[TOKENS + 4 * peer..][..4])?;
    }
    Some(station)
}

/// The numbers of a message.
pub fn from_message(message: &Message) -> FlatMessage {
    let mut row = [0; MESSAGE];
    row[..5].copy_from_slice(&[
        message.from,
        message.to,
        message.value,
        message.source,
        message.destination,
    ]);
    put_held(&mut row[5..9], &message.slot);
    put_held(&mut row[9..13], &message.token);
    row
}

/// The message of these numbers, sound or not; None if they are no message
/// at all, which is answer 9.
pub fn to_message(row: &FlatMessage) -> Option<Message> {
    Some(Message {
        from: row[0],
        to: row[1],
        value: row[2],
        source: row[3],
        destination: row[4],
        slot: held(&row[5..9])?,
        token: held(&row[9..13])?,
    })
}
