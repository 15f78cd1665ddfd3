//! Records read and written, and bytes received at a station.

use std::hint::black_box;

use quynhabet_archive as proved;
use speed::{numbers, record};

use crate::inputs::{records, stations, Random};
use crate::timing::{print_row, timed};

type Records = [(Vec<u8>, [u64; 13])];

/// What the proved code told, as the code by hand tells it.
fn told(told: proved::Told) -> record::Told {
    let proved::Told { answer, result, rules, opened, made } = told;
    record::Told { answer, result, rules, opened, made }
}

/// Reading and writing.
pub fn time_records(turns: usize, random: &mut Random) {
    let all = records(random, 4096);
    let mut out = [0u8; 80];
    for (bytes, message) in &all {
        let mut read = [[0u64; 13]; 2];
        let first = told(proved::record_read(bytes, &mut read[0]));
        assert_eq!(first, record::read(bytes, &mut read[1]));
        assert_eq!((read[0], read[1]), (*message, *message));
        let first = told(proved::record_write(message, &mut out));
        assert_eq!(first, record::write(message, &mut [0u8; 80]));
        assert_eq!(&out[..bytes.len()], &bytes[..]);
    }
    time_reading(turns, &all);
    time_writing(turns, &all);
}

fn time_reading(turns: usize, all: &Records) {
    let mut messages = [[0u64; 13]; 2];
    let [first, second] = &mut messages;
    let times = timed(
        turns,
        all.len(),
        || {
            all.iter().for_each(|(bytes, _)| {
                black_box(proved::record_read(black_box(bytes), first));
            })
        },
        || {
            all.iter().for_each(|(bytes, _)| {
                black_box(record::read(black_box(bytes), second));
            })
        },
    );
    print_row("a record read", times);
}

fn time_writing(turns: usize, all: &Records) {
    let mut out = [[0u8; 80]; 2];
    let [first, second] = &mut out;
    let times = timed(
        turns,
        all.len(),
        || {
            all.iter().for_each(|(_, m)| {
                black_box(proved::record_write(black_box(m), first));
            })
        },
        || {
            all.iter().for_each(|(_, m)| {
                black_box(record::write(black_box(m), second));
            })
        },
    );
    print_row("a record written", times);
}

/// Receiving.
pub fn time_receiving(turns: usize, random: &mut Random) {
    let all = stations(random, 512);
    for (station, bytes) in &all {
        let mut both = [*station, *station];
        let first = told(proved::station_receive(&mut both[0], bytes));
        assert_eq!(first, numbers::receive(&mut both[1], bytes));
        assert_eq!(both[0], both[1]);
    }
    let mut first = all.clone();
    let mut second = all.clone();
    let times = timed(
        turns,
        all.len(),
        || {
            first.iter_mut().for_each(|(s, bytes)| {
                black_box(proved::station_receive(s, black_box(bytes)));
            })
        },
        || {
            second.iter_mut().for_each(|(s, bytes)| {
                black_box(numbers::receive(s, black_box(bytes)));
            })
        },
    );
    print_row("bytes received at a station of 16", times);
}
