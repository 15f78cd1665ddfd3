//! One station.

use std::fmt;

use quynhabet_archive::layout::*;
use quynhabet_archive::{self as archive, StationNumbers};

use crate::held::{clock, slot_at, token_at, DestinationClock, Slot, SourceClock, Token};
use crate::limits::MOST_STATIONS;
use crate::record::Record;
use crate::refusal::{done, Refusal};
use crate::report::Report;

/// A station. It is always sound.
///
/// It can't be cloned: two copies of one station that both go on lose or double passes.
#[derive(PartialEq, Eq)]
pub struct Station {
    numbers: StationNumbers,
}

impl Station {
    /// A fresh station: every value and clock 0, no slot, no token. Refusals: 1, 2.
    ///
    /// ```
    /// use quynhabet::{Refusal, Station};
    ///
    /// let station = Station::fresh(3, 4)?;
    /// assert_eq!((station.number(), station.count(), station.value()), (3, 4, 0));
    /// assert_eq!(Station::fresh(0, 17).unwrap_err(), Refusal::NotSound);
    /// assert_eq!(Station::fresh(4, 4).unwrap_err(), Refusal::NotBelowCount);
    /// # Ok::<(), Refusal>(())
    /// ```
    pub fn fresh(number: u64, count: u64) -> Result<Station, Refusal> {
        let mut numbers = [0; STATION_NUMBERS];
        done(archive::station_fresh(number, count, &mut numbers))?;
        Ok(Station { numbers })
    }

    /// Adds passes and gives the new value. Refusals: 4, 5, 10.
    ///
    /// ```
    /// # let mut station = quynhabet::Station::fresh(0, 2)?;
    /// assert_eq!(station.add(10)?, 10);
    /// assert_eq!(station.add(5)?, 15);
    /// # Ok::<(), quynhabet::Refusal>(())
    /// ```
    pub fn add(&mut self, amount: u64) -> Result<u64, Refusal> {
        Ok(done(archive::station_add(&mut self.numbers, amount))?.result)
    }

    /// Draws passes, all that are asked or none. Refusals: 4, 15.
    ///
    /// Save before the passes are used.
    ///
    /// ```
    /// use quynhabet::Refusal;
    ///
    /// # let mut station = quynhabet::Station::fresh(0, 2)?;
    /// station.add(10)?;
    /// station.draw(7)?;
    /// assert_eq!(station.draw(7), Err(Refusal::TooFew));
    /// assert_eq!(station.value(), 3);
    /// station.draw(3)?;
    /// assert_eq!(station.value(), 0);
    /// # Ok::<(), Refusal>(())
    /// ```
    pub fn draw(&mut self, amount: u64) -> Result<(), Refusal> {
        done(archive::station_draw(&mut self.numbers, amount))?;
        Ok(())
    }

    /// The record for station `to`. Refusals: 2, 3.
    ///
    /// Save before it leaves.
    ///
    /// ```
    /// # let station = quynhabet::Station::fresh(0, 2)?;
    /// assert_eq!(station.record_for(1)?.len(), 30);
    /// assert_eq!(station.record_for(0).unwrap_err().number(), 3);
    /// # Ok::<(), quynhabet::Refusal>(())
    /// ```
    pub fn record_for(&self, to: u64) -> Result<Record, Refusal> {
        let mut bytes = [0; RECORD_MAX];
        let told = done(archive::station_write(&self.numbers, to, &mut bytes))?;
        Ok(Record::new(bytes, told.result))
    }

    /// Takes a record by the five rules and reports what they did. Refusals: 9, 2, 11, 10.
    ///
    /// ```
    /// # use quynhabet::Station;
    /// # let mut giver = Station::fresh(0, 2)?;
    /// # let mut taker = Station::fresh(1, 2)?;
    /// giver.add(10)?;
    /// let record = giver.record_for(1)?;
    /// assert_eq!(taker.receive(&record)?.opened(), Some(5));
    /// assert_eq!(taker.receive(&record)?.opened(), None);
    /// assert_eq!(taker.receive(&record[1..]).unwrap_err().number(), 9);
    /// # Ok::<(), quynhabet::Refusal>(())
    /// ```
    pub fn receive(&mut self, record: &[u8]) -> Result<Report, Refusal> {
        Ok(Report::from_told(done(archive::station_receive(&mut self.numbers, record))?))
    }

    /// The station's number.
    pub fn number(&self) -> u64 {
        self.numbers[STATION_NUMBER]
    }

    /// The count of stations.
    pub fn count(&self) -> u64 {
        self.numbers[STATION_COUNT]
    }

    /// The passes that the station has.
    pub fn value(&self) -> u64 {
        self.numbers[STATION_VALUE]
    }

    /// All passes that were ever added here.
    pub fn intake(&self) -> u64 {
        self.numbers[STATION_INTAKE]
    }

    /// The source clock. It advances when a token is made.
    pub fn source_clock(&self) -> SourceClock {
        SourceClock(clock(self.numbers[STATION_SOURCE_CLOCK]))
    }

    /// The destination clock. It advances when a slot is opened.
    pub fn destination_clock(&self) -> DestinationClock {
        DestinationClock(clock(self.numbers[STATION_DESTINATION_CLOCK]))
    }

    /// The slot for a peer, if there is one. No number of a peer is refused.
    ///
    /// ```
    /// # use quynhabet::Station;
    /// # let mut giver = Station::fresh(0, 2)?;
    /// # let mut taker = Station::fresh(1, 2)?;
    /// giver.add(10)?;
    /// taker.receive(&giver.record_for(1)?)?;
    /// assert_eq!(taker.slot_for(0).unwrap().quantity, 5);
    /// giver.receive(&taker.record_for(0)?)?;
    /// assert!(giver.token_for(1).unwrap().fits(&taker.slot_for(0).unwrap()));
    /// # Ok::<(), quynhabet::Refusal>(())
    /// ```
    pub fn slot_for(&self, peer: u64) -> Option<Slot> {
        slot_at(&self.numbers[station_slot(index(peer)?)..])
    }

    /// The token for a peer, if there is one. No number of a peer is refused.
    pub fn token_for(&self, peer: u64) -> Option<Token> {
        token_at(&self.numbers[station_token(index(peer)?)..])
    }

    /// The station's numbers, in the layout of version [`LAYOUT_VERSION`].
    ///
    /// ```
    /// # use quynhabet::Station;
    /// # let mut station = Station::fresh(1, 3)?;
    /// station.add(10)?;
    /// let numbers = station.to_numbers();
    /// assert_eq!(numbers[..6], [1, 3, 10, 10, 0, 0]);
    /// assert_eq!(Station::from_numbers(&numbers)?, station);
    /// # Ok::<(), quynhabet::Refusal>(())
    /// ```
    pub fn to_numbers(&self) -> [u64; STATION_NUMBERS] {
        self.numbers
    }

    /// The station of these numbers. Refusal: [`Refusal::NotSound`].
    pub fn from_numbers(numbers: &[u64; STATION_NUMBERS]) -> Result<Station, Refusal> {
        done(archive::station_check(numbers))?;
        Ok(Station { numbers: *numbers })
    }
}

/// A peer as an index, if a station has numbers for it.
fn index(peer: u64) -> Option<usize> {
    usize::try_from(peer).ok().filter(|_| peer < MOST_STATIONS)
}

impl fmt::Debug for Station {
    fn fmt(&self, f: &mut fmt::Formatter<'_>) -> fmt::Result {
        let peers = || 0..self.count();
        f.debug_struct("Station")
            .field("number", &self.number())
            .field("count", &self.count())
            .field("value", &self.value())
            .field("intake", &self.intake())
            .field("source_clock", &self.source_clock())
            .field("destination_clock", &self.destination_clock())
            .field("slots", &peers().map(|peer| self.slot_for(peer)).collect::<Vec<_>>())
            .field("tokens", &peers().map(|peer| self.token_for(peer)).collect::<Vec<_>>())
            .finish()
    }
}
