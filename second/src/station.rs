//! One station: what it has, when it is sound, and its calls but for
//! receiving, which goes by the rules and stands beside them.

use crate::answer::{Answer, Told};
use crate::fault::Fault;
use crate::held::{slot_is_sound, token_is_sound, Held};
use crate::limits::{is_amount, is_clock, is_count, is_value, MOST_INTAKE, PEERS};
use crate::message::Message;
use crate::record;

/// "A station has: its own number and the count of stations, its value, its
/// intake, a source clock, a destination clock, and for every other station
/// at most one slot and at most one token."
#[derive(Clone, Debug, Default, PartialEq, Eq)]
pub struct Station {
    pub number: u64,
    pub count: u64,
    pub value: u64,
    pub intake: u64,
    pub source: u64,
    pub destination: u64,
    pub slots: [Option<Held>; PEERS],
    pub tokens: [Option<Held>; PEERS],
}

impl Station {
    /// Making a fresh station: refusals 1, 2. "A refused making hands back
    /// every number 0 and nothing held."
    pub fn fresh(number: u64, count: u64) -> (Told, Station) {
        if !is_count(count) {
            return (Told::refused(Answer::NotSound), Station::default());
        }
        if number >= count {
            return (Told::refused(Answer::NotBelowCount), Station::default());
        }
        (Told::done(0), Station { number, count, ..Station::default() })
    }

    /// "its count is 2 to 16 and its number below that, all numbers are in
    /// range", and what it holds for each peer is sound.
    pub fn is_sound(&self) -> bool {
        is_count(self.count)
            && self.number < self.count
            && is_value(self.value)
            && self.intake <= MOST_INTAKE
            && is_clock(self.source)
            && is_clock(self.destination)
            && (0..PEERS).all(|peer| self.peer_is_sound(peer))
    }

    /// "it has no slot or token for itself or for a number not below the
    /// count", and what it does hold is sound.
    fn peer_is_sound(&self, peer: usize) -> bool {
        let allowed = peer as u64 != self.number && (peer as u64) < self.count;
        let slot_sound = match &self.slots[peer] {
            None => true,
            Some(slot) => allowed && slot_is_sound(slot, self.destination),
        };
        let token_sound = match &self.tokens[peer] {
            None => true,
            Some(token) => allowed && token_is_sound(token, self.source),
        };
        slot_sound && token_sound
    }

    /// Asking whether a station is sound: refusal 1, and else result 0.
    pub fn check(&self) -> Told {
        Told::of(self.lent_sound().map(|()| 0))
    }

    /// "Add raises value and intake. Result: the new value." At one station
    /// refusals 1, 4, 5, 10.
    pub fn add(&mut self, amount: u64) -> Told {
        Told::of(self.try_add(amount))
    }

    fn try_add(&mut self, amount: u64) -> Result<u64, Answer> {
        self.lent_sound()?;
        if !is_amount(amount) {
            return Err(Answer::BadAmount);
        }
        if self.intake + amount > MOST_INTAKE {
            return Err(Answer::IntakeLimit);
        }
        if !is_value(self.value + amount) {
            return Err(Answer::ValueLimit);
        }
        self.value += amount;
        self.intake += amount;
        Ok(self.value)
    }

    /// "A draw is now all or none." (request 2026-07) Result: the amount. At
    /// one station refusals 1, 4, 15.
    pub fn draw(&mut self, amount: u64, fault: Fault) -> Told {
        Told::of(self.try_draw(amount, fault))
    }

    fn try_draw(&mut self, amount: u64, fault: Fault) -> Result<u64, Answer> {
        self.lent_sound()?;
        if !is_amount(amount) {
            return Err(Answer::BadAmount);
        }
        if self.value < amount && fault != Fault::DrawsWhatIsThere {
            return Err(Answer::TooFew);
        }
        let taken = self.value.min(amount);
        self.value -= taken;
        Ok(taken)
    }

    /// The message a send would place: refusals 1, 2, 3.
    pub fn message_for(&self, to: u64) -> Result<Message, Answer> {
        self.lent_sound()?;
        if to >= self.count {
            return Err(Answer::NotBelowCount);
        }
        if to == self.number {
            return Err(Answer::SameStation);
        }
        Ok(Message {
            from: self.number,
            to,
            value: self.value,
            source: self.source,
            destination: self.destination,
            slot: self.slots[to as usize],
            token: self.tokens[to as usize],
        })
    }

    /// "write its message for another station 1, 2, 3, 14". The result is the
    /// record's length; every byte past the record is left unchanged.
    pub fn write(&self, to: u64, out: &mut [u8]) -> Told {
        match self.message_for(to) {
            Ok(message) => record::write(&message, out),
            Err(answer) => Told::refused(answer),
        }
    }

    /// Answer 1: the "station lent is not sound".
    pub(crate) fn lent_sound(&self) -> Result<(), Answer> {
        if self.is_sound() {
            Ok(())
        } else {
            Err(Answer::NotSound)
        }
    }
}
