//! A whole table of stations with the messages waiting between them.

use crate::answer::{Answer, Told};
use crate::fault::Fault;
use crate::limits::{is_count, MOST_PLACES, PEERS};
use crate::message::Message;
use crate::rules;
use crate::station::Station;

/// The count, the stations (those past the count are no part of the table)
/// and the pool: "64 places, each empty or holding one message".
#[derive(Clone, Debug, PartialEq, Eq)]
pub struct Table {
    pub count: u64,
    pub stations: [Station; PEERS],
    pub pool: [Option<Message>; MOST_PLACES],
}

impl Table {
    /// "Making a fresh table 1". "A fresh table has every value, intake and
    /// clock 0 and no slot, token or message." A refused making hands back
    /// every number 0.
    pub fn fresh(count: u64) -> (Told, Table) {
        let mut table = Table {
            count: 0,
            stations: std::array::from_fn(|_| Station::default()),
            pool: [None; MOST_PLACES],
        };
        if !is_count(count) {
            return (Told::refused(Answer::NotSound), table);
        }
        table.count = count;
        for (number, station) in table.stations.iter_mut().enumerate().take(count as usize) {
            station.number = number as u64;
            station.count = count;
        }
        (Told::done(0), table)
    }

    /// The stations that are part of the table; none if the count is no count.
    pub fn seated(&self) -> &[Station] {
        let count = if is_count(self.count) { self.count as usize } else { 0 };
        &self.stations[..count]
    }

    /// "A table is sound if its count, stations and messages are, each
    /// station carries its own place as number and the table's count, and
    /// every from and to is below the count."
    pub fn is_sound(&self) -> bool {
        let station_sound = |(place, station): (usize, &Station)| {
            station.is_sound() && station.number == place as u64 && station.count == self.count
        };
        let message_sound = |m: &Message| m.is_sound() && m.from < self.count && m.to < self.count;
        is_count(self.count)
            && self.seated().iter().enumerate().all(station_sound)
            && self.pool.iter().flatten().all(message_sound)
    }

    /// Add: refusals 1, 2, 4, 5, 10.
    pub fn add(&mut self, station: u64, amount: u64) -> Told {
        match self.station_at(station) {
            Ok(place) => self.stations[place].add(amount),
            Err(answer) => Told::refused(answer),
        }
    }

    /// Draw: refusals 1, 2, 4, 15.
    pub fn draw(&mut self, station: u64, amount: u64, fault: Fault) -> Told {
        match self.station_at(station) {
            Ok(place) => self.stations[place].draw(amount, fault),
            Err(answer) => Told::refused(answer),
        }
    }

    /// "Send writes the sender's message into the lowest-numbered empty
    /// place. The sender does not change. Result: the place." Refusals 1, 2,
    /// 3, 6.
    pub fn send(&mut self, from: u64, to: u64) -> Told {
        Told::of(self.try_send(from, to))
    }

    fn try_send(&mut self, from: u64, to: u64) -> Result<u64, Answer> {
        let sender = self.station_at(from)?;
        let message = self.stations[sender].message_for(to)?;
        let empty = self.pool.iter().position(|place| place.is_none());
        let place = empty.ok_or(Answer::PoolFull)?;
        self.pool[place] = Some(message);
        Ok(place as u64)
    }

    /// "Deliver lets the receiver take the message at a place by the five
    /// rules. The message stays." Refusals 1, 7, 8, 10.
    pub fn deliver(&mut self, place: u64, fault: Fault) -> Told {
        match self.message_at(place) {
            Ok((_, message)) => {
                rules::take(&mut self.stations[message.to as usize], &message, fault)
            }
            Err(answer) => Told::refused(answer),
        }
    }

    /// "Lose empties a place. Result 0." Refusals 1, 7, 8.
    pub fn lose(&mut self, place: u64) -> Told {
        match self.message_at(place) {
            Ok((index, _)) => {
                self.pool[index] = None;
                Told::done(0)
            }
            Err(answer) => Told::refused(answer),
        }
    }

    /// "The sum on the way can be asked of a table (1)." "A token is on the
    /// way while its destination has a slot for its maker with both clocks
    /// the same."
    pub fn on_the_way(&self) -> Told {
        if !self.is_sound() {
            return Told::refused(Answer::NotSound);
        }
        let mut sum = 0;
        for (maker, station) in self.seated().iter().enumerate() {
            for (peer, token) in station.tokens.iter().enumerate() {
                let slot = &self.stations[peer].slots[maker];
                if let (Some(token), Some(slot)) = (token, slot) {
                    if token.agrees(slot) {
                        sum += token.quantity;
                    }
                }
            }
        }
        Told::done(sum)
    }

    /// The place of a station: refusals 1, 2.
    fn station_at(&self, station: u64) -> Result<usize, Answer> {
        if !self.is_sound() {
            return Err(Answer::NotSound);
        }
        if station >= self.count {
            return Err(Answer::NotBelowCount);
        }
        Ok(station as usize)
    }

    /// The message at a place: refusals 1, 7, 8.
    fn message_at(&self, place: u64) -> Result<(usize, Message), Answer> {
        if !self.is_sound() {
            return Err(Answer::NotSound);
        }
        if place >= MOST_PLACES as u64 {
            return Err(Answer::NoSuchPlace);
        }
        let index = place as usize;
        match self.pool[index] {
            Some(message) => Ok((index, message)),
            None => Err(Answer::EmptyPlace),
        }
    }
}
