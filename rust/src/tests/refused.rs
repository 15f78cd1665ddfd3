//! Refusals that leave everything as it was, at a station and in what is lent to the archive.

use quynhabet_archive::{self as archive, Told};

use super::given::{busy_station, refusal};
use crate::refusal::done;
use crate::*;

#[test]
fn a_station_that_refuses_stays_as_it_was() {
    let mut station = busy_station();
    let before = station.to_numbers();
    let own = station.record_for(0).unwrap();
    let far = Station::fresh(3, 4).unwrap().record_for(1).unwrap();
    let cut = &far[..29];
    assert_eq!(station.add(0).unwrap_err(), Refusal::BadAmount);
    assert_eq!(station.add(MOST_AMOUNT + 1).unwrap_err(), Refusal::BadAmount);
    assert_eq!(station.add(MOST_AMOUNT).unwrap_err(), Refusal::IntakeLimit);
    assert_eq!(station.draw(0).unwrap_err(), Refusal::BadAmount);
    assert_eq!(station.draw(u64::MAX).unwrap_err(), Refusal::BadAmount);
    assert_eq!(station.draw(MOST_AMOUNT + 1).unwrap_err(), Refusal::BadAmount);
    assert_eq!(station.draw(MOST_AMOUNT).unwrap_err(), Refusal::TooFew);
    assert_eq!(station.draw(station.value() + 1).unwrap_err(), Refusal::TooFew);
    assert_eq!(station.record_for(3).unwrap_err(), Refusal::NotBelowCount);
    assert_eq!(station.record_for(1).unwrap_err(), Refusal::SameStation);
    assert_eq!(station.receive(&[]).unwrap_err(), Refusal::NoRecord);
    assert_eq!(station.receive(cut).unwrap_err(), Refusal::NoRecord);
    assert_eq!(station.receive(&[&far[..], &[0]].concat()).unwrap_err(), Refusal::NoRecord);
    assert_eq!(station.receive(&far).unwrap_err(), Refusal::NotBelowCount);
    assert_eq!(station.receive(&own).unwrap_err(), Refusal::ForAnother);
    assert_eq!(station.to_numbers(), before);
}

#[test]
fn a_value_that_would_be_too_high_is_refused() {
    let mut numbers = busy_station().to_numbers();
    numbers[2] = MOST_VALUE;
    let mut station = Station::from_numbers(&numbers).unwrap();
    let token =
        Token { source_clock: SourceClock(0), destination_clock: DestinationClock(0), quantity: 1 };
    let message = Message {
        from: 0,
        to: 1,
        value: 0,
        source_clock: SourceClock(1),
        destination_clock: DestinationClock(0),
        slot: None,
        token: Some(token),
    };
    assert_eq!(station.add(1).unwrap_err(), Refusal::ValueLimit);
    assert_eq!(station.receive(&message.write().unwrap()).unwrap_err(), Refusal::ValueLimit);
    assert_eq!(station.to_numbers(), numbers);
}

#[test]
fn numbers_lent_that_are_not_sound_stay_as_they_were() {
    let mut numbers = busy_station().to_numbers();
    numbers[133] = 7;
    let before = numbers;
    let mut out = [7; RECORD_MAX];
    let record = Station::fresh(0, 3).unwrap().record_for(1).unwrap();
    let wanted = refusal(Refusal::NotSound);
    assert_eq!(archive::station_check(&numbers), wanted);
    assert_eq!(archive::station_add(&mut numbers, 1), wanted);
    assert_eq!(archive::station_draw(&mut numbers, 1), wanted);
    assert_eq!(archive::station_write(&numbers, 0, &mut out), wanted);
    assert_eq!(archive::station_receive(&mut numbers, &record), wanted);
    assert_eq!((numbers, out), (before, [7; RECORD_MAX]));
}

#[test]
fn numbers_to_be_filled_stay_as_they_were_on_a_refusal() {
    let mut station = [7; STATION_NUMBERS];
    assert_eq!(archive::station_fresh(0, 1, &mut station), refusal(Refusal::NotSound));
    assert_eq!(archive::station_fresh(2, 2, &mut station), refusal(Refusal::NotBelowCount));
    assert_eq!(station, [7; STATION_NUMBERS]);
    let mut message = [7; MESSAGE_NUMBERS];
    assert_eq!(archive::record_read(&[1, 0, 1], &mut message), refusal(Refusal::NoRecord));
    assert_eq!(message, [7; MESSAGE_NUMBERS]);
}

#[test]
fn a_buffer_has_the_record_or_is_as_it_was() {
    let numbers = busy_station().to_numbers();
    for (to, len) in [(0, 49), (2, 68)] {
        let mut short = vec![7; len - 1];
        assert_eq!(archive::station_write(&numbers, to, &mut short), refusal(Refusal::ShortBuffer));
        assert_eq!(short, vec![7; len - 1]);
        let mut long = [7; RECORD_MAX];
        assert_eq!(
            done(archive::station_write(&numbers, to, &mut long)).unwrap().result,
            len as u64
        );
        assert_eq!(long[len..], vec![7; RECORD_MAX - len]);
    }
    let sound = [0, 1, 10, 0, 0, 0, 0, 0, 0, 0, 0, 0, 0];
    let mut out = [7; 29];
    assert_eq!(archive::record_write(&sound, &mut out), refusal(Refusal::ShortBuffer));
    let mut unsound = sound;
    unsound[12] = 1;
    assert_eq!(archive::record_write(&unsound, &mut out), refusal(Refusal::NoRecord));
    assert_eq!(out, [7; 29]);
}

#[test]
fn a_draw_is_all_or_none() {
    let mut numbers = busy_station().to_numbers();
    let before = numbers;
    assert_eq!(archive::station_draw(&mut numbers, 6), refusal(Refusal::TooFew));
    assert_eq!(numbers, before);
    let told = Told { answer: 0, result: 5, rules: 0, opened: 0, made: 0 };
    assert_eq!(archive::station_draw(&mut numbers, 5), told);
    let mut wanted = before;
    wanted[2] = 0;
    assert_eq!(numbers, wanted);
}
