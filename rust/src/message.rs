//! What one station shows another.

use quynhabet_archive::layout::*;
use quynhabet_archive::{self as archive, MessageNumbers};

use crate::held::{clock, put_held, slot_at, token_at, DestinationClock, Slot, SourceClock, Token};
use crate::record::Record;
use crate::refusal::{done, Refusal};

/// What one station shows another.
///
/// ```
/// use quynhabet::{Message, Station};
///
/// let mut station = Station::fresh(0, 2)?;
/// station.add(10)?;
/// let record = station.record_for(1)?;
/// let message = Message::read(&record)?;
/// assert_eq!((message.from, message.to, message.value), (0, 1, 10));
/// assert_eq!(message.write()?, record);
/// # Ok::<(), quynhabet::Refusal>(())
/// ```
#[derive(Clone, Copy, Debug, PartialEq, Eq)]
pub struct Message {
    /// The sender's number.
    pub from: u64,
    /// The receiver's number.
    pub to: u64,
    /// The sender's value.
    pub value: u64,
    /// The sender's source clock.
    pub source_clock: SourceClock,
    /// The sender's destination clock.
    pub destination_clock: DestinationClock,
    /// The sender's slot for the receiver, if it has one.
    pub slot: Option<Slot>,
    /// The sender's token for the receiver, if it has one.
    pub token: Option<Token>,
}

impl Message {
    /// Reads a record. Refusal: [`Refusal::NoRecord`].
    pub fn read(record: &[u8]) -> Result<Message, Refusal> {
        let mut numbers = [0; MESSAGE_NUMBERS];
        done(archive::record_read(record, &mut numbers))?;
        Ok(Message::from_numbers(&numbers))
    }

    /// Writes the record. Refusal: [`Refusal::NoRecord`], where the message is not sound.
    pub fn write(&self) -> Result<Record, Refusal> {
        let mut bytes = [0; RECORD_MAX];
        let told = done(archive::record_write(&self.to_numbers(), &mut bytes))?;
        Ok(Record::new(bytes, told.result))
    }

    fn from_numbers(numbers: &MessageNumbers) -> Message {
        Message {
            from: numbers[MESSAGE_FROM],
            to: numbers[MESSAGE_TO],
            value: numbers[MESSAGE_VALUE],
            source_clock: SourceClock(clock(numbers[MESSAGE_SOURCE_CLOCK])),
            destination_clock: DestinationClock(clock(numbers[MESSAGE_DESTINATION_CLOCK])),
            slot: slot_at(&numbers[MESSAGE_SLOT..]),
            token: token_at(&numbers[MESSAGE_TOKEN..]),
        }
    }

    fn to_numbers(self) -> MessageNumbers {
        let mut numbers = [0; MESSAGE_NUMBERS];
        numbers[MESSAGE_FROM] = self.from;
        numbers[MESSAGE_TO] = self.to;
        numbers[MESSAGE_VALUE] = self.value;
        numbers[MESSAGE_SOURCE_CLOCK] = self.source_clock.0.into();
        numbers[MESSAGE_DESTINATION_CLOCK] = self.destination_clock.0.into();
        if let Some(Slot { source_clock, destination_clock, quantity }) = self.slot {
            let four = &mut numbers[MESSAGE_SLOT..];
            put_held(four, source_clock, destination_clock, quantity);
        }
        if let Some(Token { source_clock, destination_clock, quantity }) = self.token {
            let four = &mut numbers[MESSAGE_TOKEN..];
            put_held(four, source_clock, destination_clock, quantity);
        }
        numbers
    }
}
