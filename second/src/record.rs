//! "The message as bytes. Tagged fields: one byte of tag, two bytes of
//! length, high byte first, then the body, also high byte first. Ascending
//! order, no repeats, nothing after."

use crate::answer::{Answer, Told};
use crate::held::Held;
use crate::message::Message;

/// The fields of a message as bytes. It need not be sound, but its numbers
/// must fit their fields.
pub fn bytes_of(message: &Message) -> Vec<u8> {
    let mut bytes = Vec::with_capacity(68);
    put_field(&mut bytes, 1, &message.from.to_be_bytes()[7..]);
    put_field(&mut bytes, 2, &message.to.to_be_bytes()[7..]);
    put_field(&mut bytes, 3, &message.value.to_be_bytes());
    put_field(&mut bytes, 4, &clocks(message.source, message.destination));
    if let Some(slot) = &message.slot {
        put_field(&mut bytes, 5, &held_body(slot));
    }
    if let Some(token) = &message.token {
        put_field(&mut bytes, 6, &held_body(token));
    }
    bytes
}

fn put_field(bytes: &mut Vec<u8>, tag: u8, body: &[u8]) {
    bytes.push(tag);
    bytes.extend_from_slice(&(body.len() as u16).to_be_bytes());
    bytes.extend_from_slice(body);
}

/// "source clock (4), destination clock (4)".
fn clocks(source: u64, destination: u64) -> [u8; 8] {
    let mut body = [0; 8];
    body[..4].copy_from_slice(&source.to_be_bytes()[4..]);
    body[4..].copy_from_slice(&destination.to_be_bytes()[4..]);
    body
}

/// "source clock (4), destination clock (4), quantity (8)".
fn held_body(held: &Held) -> [u8; 16] {
    let mut body = [0; 16];
    body[..8].copy_from_slice(&clocks(held.source, held.destination));
    body[8..].copy_from_slice(&held.quantity.to_be_bytes());
    body
}

/// "write a given message 9, 14". The result is the record's length.
/// "Writing leaves every byte past the record unchanged."
pub fn write(message: &Message, out: &mut [u8]) -> Told {
    if !message.is_sound() {
        return Told::refused(Answer::NoRecord);
    }
    let bytes = bytes_of(message);
    if out.len() < bytes.len() {
        return Told::refused(Answer::ShortBuffer);
    }
    out[..bytes.len()].copy_from_slice(&bytes);
    Told::done(bytes.len() as u64)
}

/// Reading a record: refusal 9, result the record's length. "A refused
/// reading hands back every number 0 and nothing held."
pub fn read(bytes: &[u8]) -> (Told, Message) {
    match parse(bytes) {
        Some(message) => (Told::done(bytes.len() as u64), message),
        None => (Told::refused(Answer::NoRecord), Message::default()),
    }
}

/// "It is accepted exactly if it has this form and its message is sound."
pub fn parse(bytes: &[u8]) -> Option<Message> {
    let mut reader = Reader { rest: bytes };
    let message = Message {
        from: number(reader.field(1, 1)?),
        to: number(reader.field(2, 1)?),
        value: number(reader.field(3, 8)?),
        ..Message::default()
    };
    let clocks = reader.field(4, 8)?;
    let message = Message {
        source: number(&clocks[..4]),
        destination: number(&clocks[4..]),
        slot: reader.held(5)?,
        token: reader.held(6)?,
        ..message
    };
    (reader.rest.is_empty() && message.is_sound()).then_some(message)
}

/// "The record is read field by field, front to back."
struct Reader<'a> {
    rest: &'a [u8],
}

impl<'a> Reader<'a> {
    /// The body of the next field, which has this tag and this length.
    fn field(&mut self, tag: u8, length: usize) -> Option<&'a [u8]> {
        let (head, after) = self.rest.split_at_checked(3)?;
        if head[0] != tag || number(&head[1..]) != length as u64 {
            return None;
        }
        let (body, rest) = after.split_at_checked(length)?;
        self.rest = rest;
        Some(body)
    }

    /// A slot or token, which "may be missing": then another tag comes next,
    /// or the end. None if it is begun but wrong.
    fn held(&mut self, tag: u8) -> Option<Option<Held>> {
        if self.rest.first() != Some(&tag) {
            return Some(None);
        }
        let body = self.field(tag, 16)?;
        Some(Some(Held {
            source: number(&body[..4]),
            destination: number(&body[4..8]),
            quantity: number(&body[8..]),
        }))
    }
}

/// A number from its bytes, high byte first.
fn number(bytes: &[u8]) -> u64 {
    bytes.iter().fold(0, |sum, byte| (sum << 8) | u64::from(*byte))
}
