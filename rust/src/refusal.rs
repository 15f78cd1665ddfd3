//! The numbered refusals.

use std::error::Error;
use std::fmt;

use quynhabet_archive::Told;

/// The answer that is no refusal.
pub(crate) const DONE: u64 = 0;

/// Why a call was refused. A refusal changes nothing.
///
/// ```
/// use quynhabet::{Refusal, Station};
///
/// let mut station = Station::fresh(0, 2).unwrap();
/// let refusal = station.add(0).unwrap_err();
/// assert_eq!(refusal, Refusal::BadAmount);
/// assert_eq!(refusal.number(), 4);
/// assert_eq!(refusal.to_string(), "amount is 0 or above 1,000,000,000");
/// ```
#[derive(Clone, Copy, Debug, PartialEq, Eq, Hash)]
#[non_exhaustive]
pub enum Refusal {
    /// 1: table or station lent is not sound, or a count is not 2 to 16.
    NotSound,
    /// 2: station number, or the from or to of a received record, not below the count.
    NotBelowCount,
    /// 3: sender and receiver are the same.
    SameStation,
    /// 4: amount is 0 or above 1,000,000,000.
    BadAmount,
    /// 5: intake would pass its limit.
    IntakeLimit,
    /// 6: all 64 places are taken. Only a table gives it.
    PoolFull,
    /// 7: place number above 63. Only a table gives it.
    NoSuchPlace,
    /// 8: place is empty. Only a table gives it.
    EmptyPlace,
    /// 9: bytes are no record, or a message to be written is not sound.
    NoRecord,
    /// 10: an add, or a fill by rule 1, would bring a value above 16,000,000,000.
    ValueLimit,
    /// 11: a received record is for another station.
    ForAnother,
    /// 12: a script line can't be read. Only a script gives it.
    BadLine,
    /// 13: the script is longer than 65,536 bytes. Only a script gives it.
    LongScript,
    /// 14: the output buffer is shorter than the record.
    ShortBuffer,
    /// 15: fewer passes can be drawn than asked.
    TooFew,
    /// A number that this package does not know, from an archive that is newer than it.
    Other(u64),
}

/// Every refusal that has a name.
const NAMED: [Refusal; 15] = [
    Refusal::NotSound,
    Refusal::NotBelowCount,
    Refusal::SameStation,
    Refusal::BadAmount,
    Refusal::IntakeLimit,
    Refusal::PoolFull,
    Refusal::NoSuchPlace,
    Refusal::EmptyPlace,
    Refusal::NoRecord,
    Refusal::ValueLimit,
    Refusal::ForAnother,
    Refusal::BadLine,
    Refusal::LongScript,
    Refusal::ShortBuffer,
    Refusal::TooFew,
];

impl Refusal {
    /// The refusal's number among the answers.
    pub fn number(self) -> u64 {
        match self {
            Refusal::NotSound => 1,
            Refusal::NotBelowCount => 2,
            Refusal::SameStation => 3,
            Refusal::BadAmount => 4,
            Refusal::IntakeLimit => 5,
            Refusal::PoolFull => 6,
            Refusal::NoSuchPlace => 7,
            Refusal::EmptyPlace => 8,
            Refusal::NoRecord => 9,
            Refusal::ValueLimit => 10,
            Refusal::ForAnother => 11,
            Refusal::BadLine => 12,
            Refusal::LongScript => 13,
            Refusal::ShortBuffer => 14,
            Refusal::TooFew => 15,
            Refusal::Other(number) => number,
        }
    }

    /// The refusal of that number. 0 means done, and is none.
    ///
    /// ```
    /// use quynhabet::Refusal;
    ///
    /// assert_eq!(Refusal::from_number(0), None);
    /// assert_eq!(Refusal::from_number(15), Some(Refusal::TooFew));
    /// assert_eq!(Refusal::from_number(16), Some(Refusal::Other(16)));
    /// ```
    pub fn from_number(number: u64) -> Option<Refusal> {
        let named = NAMED.into_iter().find(|refusal| refusal.number() == number);
        (number != DONE).then_some(named.unwrap_or(Refusal::Other(number)))
    }
}

impl fmt::Display for Refusal {
    fn fmt(&self, f: &mut fmt::Formatter<'_>) -> fmt::Result {
        f.write_str(match self {
            Refusal::NotSound => "table or station lent is not sound, or a count is not 2 to 16",
            Refusal::NotBelowCount => {
                "station number, or the from or to of a received record, not below the count"
            }
            Refusal::SameStation => "sender and receiver are the same",
            Refusal::BadAmount => "amount is 0 or above 1,000,000,000",
            Refusal::IntakeLimit => "intake would pass its limit",
            Refusal::PoolFull => "all 64 places are taken",
            Refusal::NoSuchPlace => "place number above 63",
            Refusal::EmptyPlace => "place is empty",
            Refusal::NoRecord => "bytes are no record, or a message to be written is not sound",
            Refusal::ValueLimit => {
                "an add, or a fill by rule 1, would bring a value above 16,000,000,000"
            }
            Refusal::ForAnother => "a received record is for another station",
            Refusal::BadLine => "a script line can't be read",
            Refusal::LongScript => "the script is longer than 65,536 bytes",
            Refusal::ShortBuffer => "the output buffer is shorter than the record",
            Refusal::TooFew => "fewer passes can be drawn than asked",
            Refusal::Other(number) => return write!(f, "refused with the unknown answer {number}"),
        })
    }
}

impl Error for Refusal {}

/// What was told, or the refusal.
pub(crate) fn done(told: Told) -> Result<Told, Refusal> {
    match Refusal::from_number(told.answer) {
        None => Ok(told),
        Some(refusal) => Err(refusal),
    }
}
