//! The link between the stations.

use quynhabet::Record;

use crate::lab::{Lab, STATIONS};
use crate::picture::{arrow, words};

/// A small generator of numbers that look random. The same seed gives the same numbers.
pub struct Dice(pub u64);

impl Dice {
    pub fn roll(&mut self, sides: u64) -> u64 {
        self.0 = self.0.wrapping_mul(6364136223846793005).wrapping_add(1442695040888963407);
        (self.0 >> 33) % sides
    }
}

/// A record on the link.
struct Flight {
    name: u64,
    from: u64,
    to: u64,
    due: u64,
    again: bool,
    record: Record,
}

/// The link: it loses, repeats, delays and reorders.
pub struct Link {
    pub dice: Dice,
    flights: Vec<Flight>,
    /// The name of the newest record that arrived, for each sender and receiver.
    newest: [[u64; STATIONS as usize]; STATIONS as usize],
}

impl Link {
    /// One on which nothing is.
    pub fn new(seed: u64) -> Link {
        Link { dice: Dice(seed), flights: Vec::new(), newest: Default::default() }
    }

    /// A record leaves its station. The dice say what becomes of it.
    pub fn send(&mut self, lab: &Lab, name: u64, from: u64, to: u64) {
        let record = lab.record(from, to);
        let (lost, repeated) = (self.dice.roll(7) == 0, self.dice.roll(6) == 0);
        let delay = [0, 0, 0, 1, 2, 5][self.dice.roll(6) as usize];
        let fate = match (lost, repeated) {
            (true, _) => "is lost",
            (false, true) => "leaves, and will come twice",
            (false, false) => "leaves, and will be late",
        };
        if lost || repeated || delay > 0 {
            lab.show(&arrow(from, to, name, '-', lost), &format!("#{name} {fate}"));
        }
        let copies = if lost { 0 } else { 1 + u64::from(repeated) };
        for copy in 0..copies {
            let due = name + delay + 3 * copy;
            self.flights.push(Flight { name, from, to, due, again: copy > 0, record });
        }
    }

    /// Every record that is due reaches its station.
    pub fn deliver(&mut self, lab: &mut Lab, now: u64) {
        let (due, waiting) = self.flights.drain(..).partition(|flight| flight.due <= now);
        self.flights = waiting;
        let due: Vec<Flight> = due;
        for flight in due {
            let report = lab.receive(flight.to, &flight.record);
            let newest = &mut self.newest[flight.from as usize][flight.to as usize];
            let how = match (flight.again, *newest > flight.name) {
                (true, _) => " again",
                (false, true) => " overtaken",
                (false, false) => "",
            };
            *newest = flight.name.max(*newest);
            let drawn = arrow(flight.from, flight.to, flight.name, '=', false);
            lab.show(&drawn, &format!("#{}{how}: {}", flight.name, words(flight.to, &report)));
            assert!(lab.fits(), "a pass is lost or doubled");
        }
    }
}
