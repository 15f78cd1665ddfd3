//! A message as bytes.

use std::fmt;
use std::ops::Deref;

use quynhabet_archive::layout::RECORD_MAX;

/// A record: a message as 30, 49 or 68 bytes. It can be used as a slice of bytes.
#[derive(Clone, Copy, PartialEq, Eq)]
pub struct Record {
    /// The record, then zeros.
    bytes: [u8; RECORD_MAX],
    len: usize,
}

impl Record {
    /// The first `len` bytes. What follows them in `bytes` is 0.
    pub(crate) fn new(bytes: [u8; RECORD_MAX], len: u64) -> Record {
        let len = usize::try_from(len).expect("a record's length is at most 68");
        Record { bytes, len }
    }
}

impl Deref for Record {
    type Target = [u8];

    fn deref(&self) -> &[u8] {
        &self.bytes[..self.len]
    }
}

impl AsRef<[u8]> for Record {
    fn as_ref(&self) -> &[u8] {
        self
    }
}

impl fmt::Debug for Record {
    fn fmt(&self, f: &mut fmt::Formatter<'_>) -> fmt::Result {
        write!(f, "Record({:02x?})", &**self)
    }
}
