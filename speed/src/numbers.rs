//! One station as its 134 numbers, received at by hand.

use crate::limits::{LAST_CLOCK, MOST_AMOUNT, MOST_VALUE};
use crate::record::{message_of, refused, slot_sound, token_sound, Told};
use crate::rules::{Held, Message, Side};

/// Whether a station's numbers are sound.
pub fn sound(s: &[u64; 134]) -> bool {
    let (number, count) = (s[0], s[1]);
    if !(2..=16).contains(&count)
        || number >= count
        || s[2] > MOST_VALUE
        || s[3] > MOST_AMOUNT
        || s[4] > LAST_CLOCK
        || s[5] > LAST_CLOCK
    {
        return false;
    }
    (0..16).all(|k| {
        let (slot, token) = (&s[6 + 4 * k..10 + 4 * k], &s[70 + 4 * k..74 + 4 * k]);
        let peer = k as u64 != number && (k as u64) < count;
        slot_sound(slot, s[5]) && token_sound(token, s[4]) && (peer || slot[0] + token[0] == 0)
    })
}

/// Receives a record at a station.
pub fn receive(s: &mut [u64; 134], bytes: &[u8]) -> Told {
    if !sound(s) {
        return refused(1);
    }
    let Some(m) = message_of(bytes) else {
        return refused(9);
    };
    if m[0] >= s[1] || m[1] >= s[1] {
        return refused(2);
    }
    if m[1] != s[0] {
        return refused(11);
    }
    match take(s, &m) {
        Ok([result, rules, opened, made]) => Told { answer: 0, result, rules, opened, made },
        Err(answer) => refused(u64::from(answer)),
    }
}

/// The five rules at the side that the station has for the sender. Of its numbers those few are
/// read, and written where a rule acted.
fn take(s: &mut [u64; 134], m: &[u64; 13]) -> Result<[u64; 4], u8> {
    let (slot_at, token_at) = (6 + 4 * m[0] as usize, 70 + 4 * m[0] as usize);
    let (mut value, mut source, mut destination) = (s[2], s[4] as u32, s[5] as u32);
    let (mut slot, mut token) = (held(&s[slot_at..]), held(&s[token_at..]));
    let side = Side {
        value: &mut value,
        source: &mut source,
        destination: &mut destination,
        slot: &mut slot,
        token: &mut token,
    };
    let told = side.take(&message(m))?;
    if told[1] != 0 {
        (s[2], s[4], s[5]) = (value, u64::from(source), u64::from(destination));
        put(&mut s[slot_at..], slot);
        put(&mut s[token_at..], token);
    }
    Ok(told)
}

/// The message of these numbers, which are sound.
fn message(m: &[u64; 13]) -> Message {
    Message {
        from: m[0] as usize,
        to: m[1] as usize,
        value: m[2],
        source: m[3] as u32,
        destination: m[4] as u32,
        slot: held(&m[5..]),
        token: held(&m[9..]),
    }
}

/// The slot or token in the first four numbers, which are sound.
fn held(cell: &[u64]) -> Option<Held> {
    (cell[0] == 1).then(|| Held {
        source: cell[1] as u32,
        destination: cell[2] as u32,
        quantity: cell[3],
    })
}

fn put(cell: &mut [u64], held: Option<Held>) {
    cell[..4].copy_from_slice(&match held {
        Some(h) => [1, u64::from(h.source), u64::from(h.destination), h.quantity],
        None => [0; 4],
    });
}
