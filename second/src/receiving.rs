//! Receiving at one station: the refusals, then the rules.

use crate::answer::{Answer, Told};
use crate::fault::Fault;
use crate::message::Message;
use crate::station::Station;
use crate::{record, rules};

impl Station {
    /// Receiving a message by value: refusals 1, 9, 2, 11, 10.
    pub fn receive_message(&mut self, message: &Message, fault: Fault) -> Told {
        if let Err(answer) = self.may_receive(Some(message)) {
            return Told::refused(answer);
        }
        rules::take(self, message, fault)
    }

    /// "receive bytes at a station 1, 9, 2, 11, 10".
    pub fn receive(&mut self, bytes: &[u8], fault: Fault) -> Told {
        let read = record::parse(bytes);
        match (self.may_receive(read.as_ref()), read) {
            (Ok(()), Some(message)) => rules::take(self, &message, fault),
            (Ok(()), None) => Told::refused(Answer::NoRecord),
            (Err(answer), _) => Told::refused(answer),
        }
    }

    /// The refusals of receiving up to the rules: 1, 9, 2, 11.
    fn may_receive(&self, message: Option<&Message>) -> Result<(), Answer> {
        self.lent_sound()?;
        let Some(message) = message.filter(|m| m.is_sound()) else {
            return Err(Answer::NoRecord);
        };
        if message.from >= self.count || message.to >= self.count {
            return Err(Answer::NotBelowCount);
        }
        if message.to != self.number {
            return Err(Answer::ForAnother);
        }
        Ok(())
    }
}
