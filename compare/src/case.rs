//! A case: a station and calls, done by both sides.

use std::fmt;

use crate::flat::{FlatMessage, FlatStation};

/// One call. `room` is the length of the buffer lent.
#[derive(Clone, Debug, PartialEq, Eq)]
pub enum Call {
    Fresh {
        number: u64,
        count: u64,
    },
    Check,
    Add {
        amount: u64,
    },
    Draw {
        amount: u64,
    },
    Write {
        to: u64,
        room: usize,
    },
    Receive {
        record: Vec<u8>,
    },
    Read {
        record: Vec<u8>,
    },
    WriteGiven {
        message: FlatMessage,
        room: usize,
    },
    /// Not a call: the case's station is lent again as it was at first.
    LendAgain,
}

/// A station as first lent, and the calls.
#[derive(Clone, Debug, PartialEq, Eq)]
pub struct Case {
    pub station: FlatStation,
    pub calls: Vec<Call>,
}

/// The record read, and received by the station as it was at first.
pub fn read_and_receive(record: Vec<u8>) -> [Call; 3] {
    [Call::LendAgain, Call::Read { record: record.clone() }, Call::Receive { record }]
}

impl fmt::Display for Case {
    fn fmt(&self, f: &mut fmt::Formatter) -> fmt::Result {
        let [number, count, value, intake, source, destination, held @ ..] = &self.station;
        writeln!(
            f,
            "station {number} of {count}, value {value}, intake {intake}, \
             source {source}, destination {destination}"
        )?;
        for (place, four) in held.chunks(4).enumerate().filter(|(_, four)| **four != [0; 4]) {
            let name = if place < 16 { "slot" } else { "token" };
            writeln!(f, "  {name} for {}: {four:?}", place % 16)?;
        }
        for call in &self.calls {
            match call {
                Call::Receive { record } => writeln!(f, "receive {record:02x?}")?,
                Call::Read { record } => writeln!(f, "read {record:02x?}")?,
                other => writeln!(f, "{other:?}")?,
            }
        }
        Ok(())
    }
}
