//! The first implementation, through the archive's functions.

use quynhabet_archive::{self as archive, Told};

use crate::flat::{FlatMessage, FlatStation};
use crate::side::{Side, ToldRow};

impl From<Told> for ToldRow {
    fn from(told: Told) -> ToldRow {
        let Told { answer, result, rules, opened, made } = told;
        ToldRow { answer, result, rules, opened, made }
    }
}

/// The functions of the linked archive.
pub struct Linked;

impl Side for Linked {
    fn fresh(&mut self, number: u64, count: u64, station: &mut FlatStation) -> ToldRow {
        archive::station_fresh(number, count, station).into()
    }

    fn check(&mut self, station: &FlatStation) -> ToldRow {
        archive::station_check(station).into()
    }

    fn add(&mut self, station: &mut FlatStation, amount: u64) -> ToldRow {
        archive::station_add(station, amount).into()
    }

    fn draw(&mut self, station: &mut FlatStation, amount: u64) -> ToldRow {
        archive::station_draw(station, amount).into()
    }

    fn write(&mut self, station: &FlatStation, to: u64, out: &mut [u8]) -> ToldRow {
        archive::station_write(station, to, out).into()
    }

    fn receive(&mut self, station: &mut FlatStation, record: &[u8]) -> ToldRow {
        archive::station_receive(station, record).into()
    }

    fn read(&mut self, record: &[u8], message: &mut FlatMessage) -> ToldRow {
        archive::record_read(record, message).into()
    }

    fn write_given(&mut self, message: &FlatMessage, out: &mut [u8]) -> ToldRow {
        archive::record_write(message, out).into()
    }
}
