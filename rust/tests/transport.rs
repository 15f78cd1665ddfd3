//! What the transport owes, shown by breaking it: the library does not see a bit that was changed,
//! nor a record that was cut short just behind a field. The figures stand in the documents.

use quynhabet::{Record, Station};

/// The passes on the way from a giver to a receiver: those of its token, if the receiver has the
/// slot that it fits.
fn on_the_way(giver: &Station, receiver: &Station) -> u64 {
    let token = giver.token_for(receiver.number());
    let slot = receiver.slot_for(giver.number());
    match (token, slot) {
        (Some(token), Some(slot)) if token.fits(&slot) => token.quantity,
        _ => 0,
    }
}

/// All passes of two stations, at them and on the way.
fn passes(one: &Station, other: &Station) -> u64 {
    one.value() + other.value() + on_the_way(one, other) + on_the_way(other, one)
}

fn copy(station: &Station) -> Station {
    Station::from_numbers(&station.to_numbers()).expect("it is sound")
}

/// A giver with a token of 5 for a taker with its slot, and the records by which they got there:
/// the taker's, which showed the slot, and the giver's, which shows the token.
fn half_way() -> (Station, Station, Record, Record) {
    let mut giver = Station::fresh(0, 2).unwrap();
    let mut taker = Station::fresh(1, 2).unwrap();
    giver.add(10).unwrap();
    taker.receive(&giver.record_for(1).unwrap()).unwrap();
    let asks = taker.record_for(0).unwrap();
    giver.receive(&asks).unwrap();
    let pays = giver.record_for(1).unwrap();
    assert_eq!((asks.len(), pays.len(), passes(&giver, &taker)), (49, 49, 10));
    (giver, taker, asks, pays)
}

#[test]
fn a_changed_bit_can_make_or_lose_passes() {
    let (giver, taker, _, pays) = half_way();
    let (mut taken, mut more, mut fewer) = (0, 0, 0);
    for bit in 0..8 * pays.len() {
        let mut bytes = pays.to_vec();
        bytes[bit / 8] ^= 1 << (bit % 8);
        let mut taker = copy(&taker);
        if taker.receive(&bytes).is_ok() {
            let passes = passes(&giver, &taker);
            taken += 1;
            more += u64::from(passes > 10);
            fewer += u64::from(passes < 10);
        }
    }
    assert_eq!((8 * pays.len(), taken, more, fewer), (392, 163, 32, 34));
}

#[test]
fn a_record_that_is_cut_can_lose_passes() {
    let (mut giver, taker, asks, _) = half_way();
    let report = giver.receive(&asks[..30]).unwrap();
    assert!(report.acted(quynhabet::Rule::DropToken));
    assert_eq!(passes(&giver, &taker), 5);
}

#[test]
fn a_record_that_comes_whole_keeps_them() {
    let (mut giver, mut taker, asks, pays) = half_way();
    for _ in 0..2 {
        taker.receive(&pays).unwrap();
        giver.receive(&asks).unwrap();
        assert_eq!(passes(&giver, &taker), 10);
    }
    assert_eq!((giver.value(), taker.value()), (5, 5));
}
