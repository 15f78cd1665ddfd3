//! Records, and a spent token that goes though a slot is shown.

use crate::*;

#[test]
fn the_worked_record_has_its_bytes() {
    let mut station = Station::fresh(0, 2).unwrap();
    station.add(10).unwrap();
    let wanted =
        [1, 0, 1, 0, 2, 0, 1, 1, 3, 0, 8, 0, 0, 0, 0, 0, 0, 0, 10, 4, 0, 8, 0, 0, 0, 0, 0, 0, 0, 0];
    assert_eq!(station.record_for(1).unwrap()[..], wanted);
}

#[test]
fn a_message_goes_through_its_record() {
    let mut message = Message {
        from: 15,
        to: 14,
        value: MOST_VALUE,
        source_clock: SourceClock(u32::MAX),
        destination_clock: DestinationClock(8),
        slot: Some(Slot {
            source_clock: SourceClock(1),
            destination_clock: DestinationClock(7),
            quantity: 3,
        }),
        token: Some(Token {
            source_clock: SourceClock(4),
            destination_clock: DestinationClock(u32::MAX),
            quantity: 0,
        }),
    };
    let record = message.write().unwrap();
    assert_eq!(record.len(), 68);
    assert_eq!(Message::read(&record).unwrap(), message);
    message.to = 15;
    assert_eq!(message.write().unwrap_err(), Refusal::NoRecord);
    assert_eq!(Message::read(&record[..67]).unwrap_err(), Refusal::NoRecord);
}

#[test]
fn a_spent_token_goes_for_a_newer_slot() {
    let mut giver = Station::fresh(0, 2).unwrap();
    let mut taker = Station::fresh(1, 2).unwrap();
    giver.add(10).unwrap();
    let late = giver.record_for(1).unwrap();
    taker.receive(&late).unwrap();
    giver.receive(&taker.record_for(0).unwrap()).unwrap();
    taker.receive(&giver.record_for(1).unwrap()).unwrap();
    assert_eq!((giver.value(), taker.value()), (5, 5));
    assert!(taker.receive(&late).unwrap().acted(Rule::OpenSlot));
    let report = giver.receive(&taker.record_for(0).unwrap()).unwrap();
    assert!(report.acted(Rule::DropToken) && !report.acted(Rule::MakeToken));
    assert_eq!((giver.value(), giver.token_for(1)), (5, None));
}
