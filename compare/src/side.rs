//! The calls at one station and on records, in the shape in which both
//! implementations offer them: rows of numbers, and bytes.

use second::{record, Answer, Fault, Station, Told};

use crate::flat::{self, FlatMessage, FlatStation};

/// What a call tells, as five numbers. `rules` is the sum of 1, 2, 4, 8, 16
/// for rules 1 to 5.
#[derive(Clone, Copy, Debug, PartialEq, Eq)]
pub struct ToldRow {
    pub answer: u64,
    pub result: u64,
    pub rules: u64,
    pub opened: u64,
    pub made: u64,
}

impl From<Told> for ToldRow {
    fn from(told: Told) -> ToldRow {
        ToldRow {
            answer: told.answer.number(),
            result: told.result,
            rules: told.report.rules_sum(),
            opened: told.report.opened,
            made: told.report.made,
        }
    }
}

/// One implementation. "Every refusal has result 0 and changes nothing lent."
pub trait Side {
    fn fresh(&mut self, number: u64, count: u64, station: &mut FlatStation) -> ToldRow;
    fn check(&mut self, station: &FlatStation) -> ToldRow;
    fn add(&mut self, station: &mut FlatStation, amount: u64) -> ToldRow;
    fn draw(&mut self, station: &mut FlatStation, amount: u64) -> ToldRow;
    fn write(&mut self, station: &FlatStation, to: u64, out: &mut [u8]) -> ToldRow;
    fn receive(&mut self, station: &mut FlatStation, record: &[u8]) -> ToldRow;
    fn read(&mut self, record: &[u8], message: &mut FlatMessage) -> ToldRow;
    fn write_given(&mut self, message: &FlatMessage, out: &mut [u8]) -> ToldRow;
}

/// The second implementation, with a fault planted or none.
pub struct Own {
    pub fault: Fault,
}

/// Does a call at the station of these numbers, and puts back what it left.
/// Numbers that are no station are a station that is not sound.
fn at(row: &mut FlatStation, call: impl FnOnce(&mut Station) -> Told) -> ToldRow {
    let Some(mut station) = flat::to_station(row) else {
        return Told::refused(Answer::NotSound).into();
    };
    let told = call(&mut station);
    *row = flat::from_station(&station);
    told.into()
}

impl Side for Own {
    fn fresh(&mut self, number: u64, count: u64, station: &mut FlatStation) -> ToldRow {
        let (told, made) = Station::fresh(number, count);
        if told.answer == Answer::Done {
            *station = flat::from_station(&made);
        }
        told.into()
    }

    fn check(&mut self, station: &FlatStation) -> ToldRow {
        at(&mut station.clone(), |station| station.check())
    }

    fn add(&mut self, station: &mut FlatStation, amount: u64) -> ToldRow {
        at(station, |station| station.add(amount))
    }

    fn draw(&mut self, station: &mut FlatStation, amount: u64) -> ToldRow {
        at(station, |station| station.draw(amount, self.fault))
    }

    fn write(&mut self, station: &FlatStation, to: u64, out: &mut [u8]) -> ToldRow {
        at(&mut station.clone(), |station| station.write(to, out))
    }

    fn receive(&mut self, station: &mut FlatStation, record: &[u8]) -> ToldRow {
        at(station, |station| station.receive(record, self.fault))
    }

    fn read(&mut self, record: &[u8], message: &mut FlatMessage) -> ToldRow {
        let (told, read) = record::read(record);
        if told.answer == Answer::Done {
            *message = flat::from_message(&read);
        }
        told.into()
    }

    fn write_given(&mut self, message: &FlatMessage, out: &mut [u8]) -> ToldRow {
        match flat::to_message(message) {
            Some(message) => record::write(&message, out).into(),
            None => Told::refused(Answer::NoRecord).into(),
        }
    }
}
