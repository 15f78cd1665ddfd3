//! A station as bytes, for saving.

use std::error::Error;
use std::fmt;

use quynhabet_archive::layout::{LAYOUT_VERSION, STATION_NUMBERS};

use crate::refusal::Refusal;
use crate::station::Station;

/// How many bytes a save has: the version, then the numbers, each 8 bytes, high byte first.
pub const SAVE_BYTES: usize = 8 * (1 + STATION_NUMBERS);

impl Station {
    /// The station as bytes, for saving: the layout's version, then the numbers, high byte first.
    ///
    /// Save before any record or drawn pass leaves the station.
    ///
    /// ```
    /// # use quynhabet::Station;
    /// # let mut station = Station::fresh(0, 2).unwrap();
    /// station.add(10).unwrap();
    /// let save = station.to_bytes();
    /// drop(station); // a power cut
    /// let station = Station::from_bytes(&save).unwrap();
    /// assert_eq!(station.value(), 10);
    /// ```
    pub fn to_bytes(&self) -> [u8; SAVE_BYTES] {
        let mut bytes = [0; SAVE_BYTES];
        let numbers = std::iter::once(LAYOUT_VERSION).chain(self.to_numbers());
        for (place, number) in bytes.chunks_exact_mut(8).zip(numbers) {
            place.copy_from_slice(&number.to_be_bytes());
        }
        bytes
    }

    /// The station of a save. Load only the newest save of a station.
    ///
    /// A save has no check sum. Storage hands it back as it was, or not at all.
    pub fn from_bytes(save: &[u8]) -> Result<Station, LoadFault> {
        let (version, rest) = save.split_first_chunk::<8>().ok_or(LoadFault::Length(save.len()))?;
        let version = u64::from_be_bytes(*version);
        if version != LAYOUT_VERSION {
            return Err(LoadFault::Version(version));
        }
        if save.len() != SAVE_BYTES {
            return Err(LoadFault::Length(save.len()));
        }
        let mut numbers = [0; STATION_NUMBERS];
        for (number, bytes) in numbers.iter_mut().zip(rest.chunks_exact(8)) {
            *number = bytes.iter().fold(0, |high, byte| high << 8 | u64::from(*byte));
        }
        Station::from_numbers(&numbers).map_err(LoadFault::Refused)
    }
}

/// Why a save can't be loaded.
#[derive(Clone, Copy, Debug, PartialEq, Eq)]
pub enum LoadFault {
    /// The save has this many bytes, and not [`SAVE_BYTES`].
    Length(usize),
    /// The save has this layout version, and not [`LAYOUT_VERSION`].
    Version(u64),
    /// The numbers of the save are refused.
    Refused(Refusal),
}

impl fmt::Display for LoadFault {
    fn fmt(&self, f: &mut fmt::Formatter<'_>) -> fmt::Result {
        match self {
            LoadFault::Length(bytes) => {
                write!(f, "the save has {bytes} bytes, and not {SAVE_BYTES}")
            }
            LoadFault::Version(version) => {
                write!(f, "the save has layout version {version}, and not {LAYOUT_VERSION}")
            }
            LoadFault::Refused(refusal) => refusal.fmt(f),
        }
    }
}

impl Error for LoadFault {}
