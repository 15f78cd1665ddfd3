//! The stations, and the sum that has to fit.

use quynhabet::{Record, Refusal, Report, Station};

use crate::picture::GAP;

/// How many stations there are.
pub const STATIONS: u64 = 3;

/// The stations. Between two calls there is nothing but their saves.
pub struct Lab {
    pub saves: Vec<Vec<u8>>,
    added: u64,
    drawn: u64,
}

impl Lab {
    pub fn new() -> Lab {
        let mut lab = Lab { saves: vec![Vec::new(); STATIONS as usize], added: 0, drawn: 0 };
        for number in 0..STATIONS {
            lab.save(&Station::fresh(number, STATIONS).expect("the number is below the count"));
        }
        lab
    }

    fn load(&self, number: u64) -> Station {
        Station::from_bytes(&self.saves[number as usize]).expect("what was saved loads")
    }

    fn save(&mut self, station: &Station) {
        self.saves[station.number() as usize] = station.to_bytes().to_vec();
    }

    pub fn add(&mut self, number: u64, amount: u64) {
        let mut station = self.load(number);
        station.add(amount).expect("a small amount can be added");
        self.save(&station);
        self.added += amount;
    }

    pub fn draw(&mut self, number: u64, amount: u64) -> Result<(), Refusal> {
        let mut station = self.load(number);
        station.draw(amount)?;
        self.save(&station); // before the passes are used
        self.drawn += amount;
        Ok(())
    }

    /// The record shows what is saved already, so it may leave at once.
    pub fn record(&self, from: u64, to: u64) -> Record {
        self.load(from).record_for(to).expect("two stations of the lab")
    }

    pub fn receive(&mut self, number: u64, record: &Record) -> Report {
        let mut station = self.load(number);
        let report = station.receive(record).expect("the record is whole and for this station");
        self.save(&station); // before the next record leaves
        report
    }

    fn values(&self) -> Vec<u64> {
        (0..STATIONS).map(|number| self.load(number).value()).collect()
    }

    /// A token is on the way while its destination has a slot for its maker with the same clocks.
    fn on_the_way(&self) -> u64 {
        let quantity = |maker, destination| {
            let token = self.load(maker).token_for(destination)?;
            let slot = self.load(destination).slot_for(maker)?;
            token.fits(&slot).then_some(token.quantity)
        };
        let from = |maker| (0..STATIONS).filter_map(move |to| quantity(maker, to)).sum::<u64>();
        (0..STATIONS).map(from).sum()
    }

    /// Whether the values and the passes on the way are those added less those drawn.
    pub fn fits(&self) -> bool {
        self.values().iter().sum::<u64>() + self.on_the_way() == self.added - self.drawn
    }

    /// One line of the picture: the values, an arrow between them, the passes on the way, words.
    pub fn show(&self, arrow: &str, words: &str) {
        let (v, way) = (self.values(), self.on_the_way());
        let (left, right) = arrow.split_at(GAP);
        println!("{:>4} {left} {:>2} {right} {:<3} {way:>6}   {words}", v[0], v[1], v[2]);
    }

    pub fn show_sum(&self) {
        let (v, way) = (self.values(), self.on_the_way());
        let sum = v.iter().sum::<u64>() + way;
        let sign = if self.fits() { "=" } else { "is not" };
        println!("\n{} + {} + {} at the stations + {way} on the way = {sum}", v[0], v[1], v[2]);
        println!("{sum} {sign} {} added - {} drawn", self.added, self.drawn);
    }
}
