//! Records read and written by hand, from and to the numbers themselves.

use crate::limits::{LAST_CLOCK, MOST_VALUE};

/// What a call tells, as the proved functions tell it.
#[derive(Clone, Copy, Debug, Default, PartialEq, Eq)]
pub struct Told {
    /// The numbered answer.
    pub answer: u64,
    /// The result.
    pub result: u64,
    /// The rules that acted, as the sum of 1, 2, 4, 8, 16.
    pub rules: u64,
    /// The quantity of a slot opened.
    pub opened: u64,
    /// The quantity of a token made.
    pub made: u64,
}

/// A refusal.
pub fn refused(answer: u64) -> Told {
    Told { answer, ..Told::default() }
}

fn big(bytes: &[u8]) -> u64 {
    bytes.iter().fold(0, |n, b| (n << 8) | *b as u64)
}

/// Whether four numbers are no slot, or a sound one of a station with this destination clock.
pub fn slot_sound(cell: &[u64], destination: u64) -> bool {
    match cell[0] {
        0 => cell[1] == 0 && cell[2] == 0 && cell[3] == 0,
        1 => cell[1] <= LAST_CLOCK && cell[2] < destination && (1..=MOST_VALUE).contains(&cell[3]),
        _ => false,
    }
}

/// Whether four numbers are no token, or a sound one of a station with this source clock.
pub fn token_sound(cell: &[u64], source: u64) -> bool {
    match cell[0] {
        0 => cell[1] == 0 && cell[2] == 0 && cell[3] == 0,
        1 => cell[1] < source && cell[2] <= LAST_CLOCK && cell[3] <= MOST_VALUE,
        _ => false,
    }
}

/// Whether a message's numbers are sound.
pub fn message_sound(m: &[u64; 13]) -> bool {
    m[0] <= 15
        && m[1] <= 15
        && m[0] != m[1]
        && m[2] <= MOST_VALUE
        && m[3] <= LAST_CLOCK
        && m[4] <= LAST_CLOCK
        && slot_sound(&m[5..9], m[4])
        && token_sound(&m[9..13], m[3])
}

fn held_at(bytes: &[u8], at: usize, tag: u8, cell: &mut [u64]) -> usize {
    if bytes.len() >= at + 19 && bytes[at..at + 3] == [tag, 0, 16] {
        cell[0] = 1;
        cell[1] = big(&bytes[at + 3..at + 7]);
        cell[2] = big(&bytes[at + 7..at + 11]);
        cell[3] = big(&bytes[at + 11..at + 19]);
        return at + 19;
    }
    at
}

/// The message of a record, or nothing.
pub fn message_of(bytes: &[u8]) -> Option<[u64; 13]> {
    if bytes.len() < 30
        || bytes[0..3] != [1, 0, 1]
        || bytes[4..7] != [2, 0, 1]
        || bytes[8..11] != [3, 0, 8]
        || bytes[19..22] != [4, 0, 8]
    {
        return None;
    }
    let mut m = [0u64; 13];
    m[0] = bytes[3] as u64;
    m[1] = bytes[7] as u64;
    m[2] = big(&bytes[11..19]);
    m[3] = big(&bytes[22..26]);
    m[4] = big(&bytes[26..30]);
    let at = held_at(bytes, 30, 5, &mut m[5..9]);
    let at = held_at(bytes, at, 6, &mut m[9..13]);
    (at == bytes.len() && message_sound(&m)).then_some(m)
}

/// Reads a record into a message's numbers.
pub fn read(bytes: &[u8], message: &mut [u64; 13]) -> Told {
    let Some(m) = message_of(bytes) else {
        return refused(9);
    };
    *message = m;
    Told { result: bytes.len() as u64, ..Told::default() }
}

fn put_held(out: &mut [u8], tag: u8, cell: &[u64]) {
    out[..3].copy_from_slice(&[tag, 0, 16]);
    out[3..7].copy_from_slice(&(cell[1] as u32).to_be_bytes());
    out[7..11].copy_from_slice(&(cell[2] as u32).to_be_bytes());
    out[11..19].copy_from_slice(&cell[3].to_be_bytes());
}

/// Writes a message's record.
pub fn write(m: &[u64; 13], out: &mut [u8]) -> Told {
    if !message_sound(m) {
        return refused(9);
    }
    let size = 30 + 19 * (m[5] + m[9]) as usize;
    if out.len() < size {
        return refused(14);
    }
    let record = &mut out[..size];
    record[..11].copy_from_slice(&[1, 0, 1, m[0] as u8, 2, 0, 1, m[1] as u8, 3, 0, 8]);
    record[11..19].copy_from_slice(&m[2].to_be_bytes());
    record[19..22].copy_from_slice(&[4, 0, 8]);
    record[22..26].copy_from_slice(&(m[3] as u32).to_be_bytes());
    record[26..30].copy_from_slice(&(m[4] as u32).to_be_bytes());
    if m[5] == 1 {
        put_held(&mut record[30..], 5, &m[5..9]);
    }
    if m[9] == 1 {
        put_held(&mut record[size - 19..], 6, &m[9..13]);
    }
    Told { result: size as u64, ..Told::default() }
}
