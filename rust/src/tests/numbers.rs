//! Numbers in and numbers out, and saves.

use super::given::{busy_station, full_numbers};
use crate::*;

#[test]
fn numbers_go_in_and_come_out() {
    let numbers = full_numbers();
    let station = Station::from_numbers(&numbers).unwrap();
    assert_eq!((station.number(), station.count()), (5, 16));
    assert_eq!((station.value(), station.intake()), (MOST_VALUE, MOST_INTAKE));
    assert_eq!(station.source_clock(), SourceClock(u32::MAX));
    assert_eq!(station.destination_clock(), DestinationClock(u32::MAX - 1));
    for peer in (0..16).filter(|peer| *peer != 5) {
        let mark = 10 * peer as u32;
        let slot = station.slot_for(peer).unwrap();
        assert_eq!(slot.source_clock, SourceClock(u32::MAX));
        assert_eq!(slot.destination_clock, DestinationClock(mark + 1));
        assert_eq!(slot.quantity, 10 * peer + 2);
        let token = station.token_for(peer).unwrap();
        assert_eq!(token.source_clock, SourceClock(mark + 3));
        assert_eq!(token.destination_clock, DestinationClock(u32::MAX));
        assert_eq!(token.quantity, 10 * peer + 4);
    }
    for peer in [5, 16, u64::MAX] {
        assert_eq!((station.slot_for(peer), station.token_for(peer)), (None, None));
    }
    assert_eq!(station.to_numbers(), numbers);
}

#[test]
fn steps_change_the_numbers_they_should() {
    let mut wanted = [0; STATION_NUMBERS];
    wanted[..6].copy_from_slice(&[1, 3, 5, 10, 1, 2]);
    wanted[6..10].copy_from_slice(&[1, 0, 0, 47]);
    wanted[14..18].copy_from_slice(&[1, 0, 1, 97]);
    wanted[78..82].copy_from_slice(&[1, 0, 0, 5]);
    assert_eq!(busy_station().to_numbers(), wanted);
}

#[test]
fn numbers_that_are_not_sound_are_refused() {
    for place in 0..STATION_NUMBERS {
        let mut numbers = full_numbers();
        numbers[place] = u64::MAX;
        assert_eq!(
            Station::from_numbers(&numbers).unwrap_err(),
            Refusal::NotSound,
            "place {place}"
        );
    }
    for place in 6..STATION_NUMBERS {
        let mut numbers = Station::fresh(0, 16).unwrap().to_numbers();
        numbers[place] = 1;
        assert_eq!(
            Station::from_numbers(&numbers).unwrap_err(),
            Refusal::NotSound,
            "place {place}"
        );
    }
}

#[test]
fn a_save_is_the_version_and_the_numbers() {
    let numbers = full_numbers();
    let save = Station::from_numbers(&numbers).unwrap().to_bytes();
    assert_eq!(save.len(), 1080);
    assert_eq!(save[..8], [0, 0, 0, 0, 0, 0, 0, 1]);
    for (bytes, number) in save[8..].chunks_exact(8).zip(numbers) {
        assert_eq!(bytes, number.to_be_bytes());
    }
    assert_eq!(Station::from_bytes(&save).unwrap().to_numbers(), numbers);
}

#[test]
fn a_save_that_is_none_is_refused() {
    let save = busy_station().to_bytes();
    let fault = |save: &[u8]| Station::from_bytes(save).unwrap_err();
    assert_eq!(fault(&[]), LoadFault::Length(0));
    assert_eq!(fault(&save[..7]), LoadFault::Length(7));
    assert_eq!(fault(&save[..1079]), LoadFault::Length(1079));
    assert_eq!(fault(&[&save[..], &[0]].concat()), LoadFault::Length(1081));
    let mut other = save;
    other[7] = 2;
    assert_eq!(fault(&other), LoadFault::Version(2));
    let mut other = save;
    other[15] = 3; // number 3 of 3
    assert_eq!(fault(&other), LoadFault::Refused(Refusal::NotSound));
}
