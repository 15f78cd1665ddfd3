//! The numbered answers, and what every call tells.

/// "Numbered answers", in the order of the document's table.
#[derive(Clone, Copy, Debug, PartialEq, Eq)]
#[repr(u64)]
pub enum Answer {
    /// "done"
    Done = 0,
    /// "table or station lent is not sound, or a count is not 2 to 16"
    NotSound = 1,
    /// "station number, or the from or to of a received record, not below the count"
    NotBelowCount = 2,
    /// "sender and receiver are the same"
    SameStation = 3,
    /// "amount is 0 or above 1,000,000,000"
    BadAmount = 4,
    /// "intake would pass its limit"
    IntakeLimit = 5,
    /// "all 64 places are taken"
    PoolFull = 6,
    /// "place number above 63"
    NoSuchPlace = 7,
    /// "place is empty"
    EmptyPlace = 8,
    /// "bytes are no record, or a message to be written is not sound"
    NoRecord = 9,
    /// "an add, or a fill by rule 1, would bring a value above 16,000,000,000"
    ValueLimit = 10,
    /// "a received record is for another station"
    ForAnother = 11,
    /// "a script line can't be read"
    BadLine = 12,
    /// "the script is longer than 65,536 bytes"
    LongScript = 13,
    /// "the output buffer is shorter than the record"
    ShortBuffer = 14,
    /// "15 when fewer passes can be drawn than asked" (request 2026-07)
    TooFew = 15,
}

impl Answer {
    /// The document's number for this answer.
    pub fn number(self) -> u64 {
        self as u64
    }
}

/// What stands beside the result of a delivery: "which rules acted and the
/// quantities of a slot opened and of a token made".
#[derive(Clone, Copy, Debug, Default, PartialEq, Eq)]
pub struct Report {
    /// Rule n is at place n - 1.
    pub rules: [bool; 5],
    /// The quantity of the slot opened by rule 3, or 0.
    pub opened: u64,
    /// The quantity of the token made by rule 5, or 0.
    pub made: u64,
}

impl Report {
    /// The rules that acted as a sum of 1, 2, 4, 8, 16 for rules 1 to 5.
    pub fn rules_sum(&self) -> u64 {
        let mut sum = 0;
        for (place, acted) in self.rules.iter().enumerate() {
            if *acted {
                sum += 1 << place;
            }
        }
        sum
    }
}

/// What a call tells: its answer, its result and its report.
#[derive(Clone, Copy, Debug, PartialEq, Eq)]
pub struct Told {
    pub answer: Answer,
    pub result: u64,
    pub report: Report,
}

impl Told {
    /// Done, with this result and a report that names no rule.
    pub fn done(result: u64) -> Told {
        Told { answer: Answer::Done, result, report: Report::default() }
    }

    /// "Every refusal has result 0"; "a refusal's report names no rule, with
    /// quantities 0".
    pub fn refused(answer: Answer) -> Told {
        Told { answer, result: 0, report: Report::default() }
    }

    /// A result or a refusal, as what is told.
    pub fn of(outcome: Result<u64, Answer>) -> Told {
        match outcome {
            Ok(result) => Told::done(result),
            Err(answer) => Told::refused(answer),
        }
    }
}
