//! The functions of the proved archive, safe to call. All unsafe code of the repository is in this
//! package.
//!
//! The declarations repeat `include/quynhabet.h`. Nothing else checks them against the archive.
//!
//! Each function is inlined where it is called, so that a call from Rust costs what the proved
//! function costs.

#![deny(missing_docs)]

pub mod layout;
#[cfg(feature = "measure")]
pub mod measure;

use layout::{MESSAGE_NUMBERS, STATION_NUMBERS};

/// A station as the archive is lent it.
pub type StationNumbers = [u64; STATION_NUMBERS];

/// A message as the archive is lent it.
pub type MessageNumbers = [u64; MESSAGE_NUMBERS];

/// What a call tells, as the archive lays it out.
#[repr(C)]
#[derive(Clone, Copy, Debug, PartialEq, Eq)]
pub struct Told {
    /// The numbered answer: 0, or a refusal's.
    pub answer: u64,
    /// The result.
    pub result: u64,
    /// The rules that acted, as a sum of 1, 2, 4, 8, 16.
    pub rules: u64,
    /// The quantity of a slot opened.
    pub opened: u64,
    /// The quantity of a token made.
    pub made: u64,
}

extern "C" {
    fn qb_station_fresh(number: u64, count: u64, station: *mut StationNumbers) -> Told;
    fn qb_station_check(station: *const StationNumbers) -> Told;
    fn qb_station_add(station: *mut StationNumbers, amount: u64) -> Told;
    fn qb_station_draw(station: *mut StationNumbers, amount: u64) -> Told;
    fn qb_station_write(
        station: *const StationNumbers,
        to: u64,
        out: *mut u8,
        out_len: usize,
    ) -> Told;
    fn qb_station_receive(
        station: *mut StationNumbers,
        record: *const u8,
        record_len: usize,
    ) -> Told;
    fn qb_record_read(record: *const u8, record_len: usize, message: *mut MessageNumbers) -> Told;
    fn qb_record_write(message: *const MessageNumbers, out: *mut u8, out_len: usize) -> Told;
}

/// Makes a fresh station.
#[inline]
pub fn station_fresh(number: u64, count: u64, station: &mut StationNumbers) -> Told {
    // SAFETY: the pointer comes from a reference that is ours alone, to an array of full length.
    unsafe { qb_station_fresh(number, count, station) }
}

/// Tells whether numbers are a sound station.
#[inline]
pub fn station_check(station: &StationNumbers) -> Told {
    // SAFETY: the pointer comes from a reference, to an array of full length, which is only read.
    unsafe { qb_station_check(station) }
}

/// Adds passes.
#[inline]
pub fn station_add(station: &mut StationNumbers, amount: u64) -> Told {
    // SAFETY: the pointer comes from a reference that is ours alone, to an array of full length.
    unsafe { qb_station_add(station, amount) }
}

/// Draws passes, all that are asked or none.
#[inline]
pub fn station_draw(station: &mut StationNumbers, amount: u64) -> Told {
    // SAFETY: the pointer comes from a reference that is ours alone, to an array of full length.
    unsafe { qb_station_draw(station, amount) }
}

/// Writes the record of a station's message for another.
#[inline]
pub fn station_write(station: &StationNumbers, to: u64, out: &mut [u8]) -> Told {
    // SAFETY: both pointers come from references, to an array of full length and to a slice with
    // its own length. The slice is ours alone, so the two do not overlap.
    unsafe { qb_station_write(station, to, out.as_mut_ptr(), out.len()) }
}

/// Receives a record at a station.
#[inline]
pub fn station_receive(station: &mut StationNumbers, record: &[u8]) -> Told {
    // SAFETY: both pointers come from references, to an array of full length and to a slice with
    // its own length. The array is ours alone, so the two do not overlap.
    unsafe { qb_station_receive(station, record.as_ptr(), record.len()) }
}

/// Reads a record into a message.
#[inline]
pub fn record_read(record: &[u8], message: &mut MessageNumbers) -> Told {
    // SAFETY: both pointers come from references, to an array of full length and to a slice with
    // its own length. The array is ours alone, so the two do not overlap.
    unsafe { qb_record_read(record.as_ptr(), record.len(), message) }
}

/// Writes the record of a message.
#[inline]
pub fn record_write(message: &MessageNumbers, out: &mut [u8]) -> Told {
    // SAFETY: both pointers come from references, to an array of full length and to a slice with
    // its own length. The slice is ours alone, so the two do not overlap.
    unsafe { qb_record_write(message, out.as_mut_ptr(), out.len()) }
}
