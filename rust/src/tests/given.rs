//! What the tests are given: two stations, and what is told of a refusal.

use quynhabet_archive::Told;

use crate::*;

/// Station 5 of 16, with a slot and a token for every other, and every number another one.
pub fn full_numbers() -> [u64; STATION_NUMBERS] {
    let mut numbers = [0; STATION_NUMBERS];
    numbers[..6].copy_from_slice(&[5, 16, MOST_VALUE, MOST_INTAKE, LAST_CLOCK, LAST_CLOCK - 1]);
    for peer in (0..16).filter(|peer| *peer != 5) {
        let mark = 10 * peer as u64;
        numbers[6 + 4 * peer..][..4].copy_from_slice(&[1, LAST_CLOCK, mark + 1, mark + 2]);
        numbers[70 + 4 * peer..][..4].copy_from_slice(&[1, mark + 3, LAST_CLOCK, mark + 4]);
    }
    numbers
}

/// Station 1 of 3 after a few steps: value 5, a slot for 0, a slot and a token for 2.
pub fn busy_station() -> Station {
    let mut giver = Station::fresh(0, 3).unwrap();
    let mut station = Station::fresh(1, 3).unwrap();
    let mut taker = Station::fresh(2, 3).unwrap();
    giver.add(100).unwrap();
    station.add(10).unwrap();
    taker.receive(&station.record_for(2).unwrap()).unwrap();
    station.receive(&taker.record_for(1).unwrap()).unwrap();
    station.receive(&giver.record_for(1).unwrap()).unwrap();
    taker.add(200).unwrap();
    station.receive(&taker.record_for(1).unwrap()).unwrap();
    station
}

/// What the archive told of a refusal.
pub fn refusal(refusal: Refusal) -> Told {
    Told { answer: refusal.number(), result: 0, rules: 0, opened: 0, made: 0 }
}
