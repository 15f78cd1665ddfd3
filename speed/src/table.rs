//! A table of stations changed in place, tested for soundness before every step or once before a
//! run: what the proved table is timed against.

use crate::limits::{MOST_AMOUNT, MOST_VALUE};
use crate::rules::Message;
use crate::seat::Station;

/// All stations, and the messages that wait.
pub struct Table {
    count: usize,
    stations: [Station; 16],
    pool: [Option<Message>; 64],
}

impl Table {
    /// A fresh table of a count from 2 to 16.
    pub fn fresh(count: usize) -> Table {
        let mut stations = [Station::fresh(0, 0); 16];
        for (k, s) in stations.iter_mut().enumerate().take(count) {
            *s = Station::fresh(k, count);
        }
        Table { count, stations, pool: [None; 64] }
    }

    /// Whether it is sound.
    pub fn sound(&self) -> bool {
        (2..=16).contains(&self.count)
            && (0..self.count).all(|k| {
                let s = &self.stations[k];
                s.sound() && s.number == k && s.count == self.count
            })
            && self.pool.iter().flatten().all(|m| m.sound(self.count))
    }

    /// One step with the test before it: its result.
    pub fn step(&mut self, kind: u64, a: u64, b: u64) -> Result<u64, u8> {
        if !self.sound() {
            return Err(1);
        }
        self.step_of_sound(kind, a, b).map(|told| told[0])
    }

    /// One step, of three numbers: 0 add, 1 draw, 2 send, 3 deliver, 4 lose. Its result and its
    /// report.
    fn step_of_sound(&mut self, kind: u64, a: u64, b: u64) -> Result<[u64; 4], u8> {
        let plain = |result| [result, 0, 0, 0];
        match kind {
            0 => self.add(a, b).map(plain),
            1 => self.draw(a, b).map(plain),
            2 => self.send(a, b).map(plain),
            3 => self.deliver(a),
            4 => self.lose(a).map(plain),
            _ => Err(12),
        }
    }

    /// As many steps as there is room to tell of, after one test: how many were done.
    pub fn run(&mut self, codes: &[u64], told: &mut [u64]) -> u64 {
        if !self.sound() {
            return 0;
        }
        let mut done = 0;
        for (code, tell) in codes.chunks_exact(3).zip(told.chunks_exact_mut(5)) {
            match self.step_of_sound(code[0], code[1], code[2]) {
                Ok(report) => {
                    tell[0] = 0;
                    tell[1..].copy_from_slice(&report);
                }
                Err(answer) => tell.copy_from_slice(&[u64::from(answer), 0, 0, 0, 0]),
            }
            done += 1;
        }
        done
    }

    fn add(&mut self, k: u64, amount: u64) -> Result<u64, u8> {
        if k >= self.count as u64 {
            return Err(2);
        }
        if amount == 0 || amount > MOST_AMOUNT {
            return Err(4);
        }
        let s = &mut self.stations[k as usize];
        if s.intake + amount > MOST_AMOUNT {
            return Err(5);
        }
        if s.value + amount > MOST_VALUE {
            return Err(10);
        }
        s.value += amount;
        s.intake += amount;
        Ok(s.value)
    }

    fn draw(&mut self, k: u64, amount: u64) -> Result<u64, u8> {
        if k >= self.count as u64 {
            return Err(2);
        }
        if amount == 0 || amount > MOST_AMOUNT {
            return Err(4);
        }
        let s = &mut self.stations[k as usize];
        if s.value < amount {
            return Err(15);
        }
        s.value -= amount;
        Ok(amount)
    }

    fn send(&mut self, from: u64, to: u64) -> Result<u64, u8> {
        let count = self.count as u64;
        if from >= count || to >= count {
            return Err(2);
        }
        if from == to {
            return Err(3);
        }
        let Some(place) = self.pool.iter().position(Option::is_none) else {
            return Err(6);
        };
        let (s, to) = (&self.stations[from as usize], to as usize);
        self.pool[place] = Some(Message {
            from: from as usize,
            to,
            value: s.value,
            source: s.source,
            destination: s.destination,
            slot: s.slots[to],
            token: s.tokens[to],
        });
        Ok(place as u64)
    }

    fn deliver(&mut self, p: u64) -> Result<[u64; 4], u8> {
        if p >= 64 {
            return Err(7);
        }
        let Some(m) = &self.pool[p as usize] else {
            return Err(8);
        };
        self.stations[m.to].take(m)
    }

    fn lose(&mut self, p: u64) -> Result<u64, u8> {
        if p >= 64 {
            return Err(7);
        }
        self.pool[p as usize].take().map(|_| 0).ok_or(8)
    }

    /// Each station's value and clocks.
    pub fn stations(&self) -> impl Iterator<Item = (u64, u32, u32)> + '_ {
        self.stations[..self.count].iter().map(|s| (s.value, s.source, s.destination))
    }

    /// The passes on the way.
    pub fn on_the_way(&self) -> u64 {
        let pairs = (0..self.count).flat_map(|i| (0..self.count).map(move |j| (i, j)));
        pairs
            .filter_map(|(i, j)| {
                let (t, l) = (self.stations[i].tokens[j]?, self.stations[j].slots[i]?);
                t.fits(&l).then_some(t.quantity)
            })
            .sum()
    }
}

/// The last result of steps from a fresh table on; a refusal's result is 0.
pub fn last_result(count: u64, codes: &[u64]) -> u64 {
    let mut table = Table::fresh(count as usize);
    let mut last = 0;
    for code in codes.chunks_exact(3) {
        last = table.step(code[0], code[1], code[2]).unwrap_or(0);
    }
    last
}

/// A run of steps from a fresh table on: how many were done.
pub fn run(count: u64, codes: &[u64], told: &mut [u64]) -> u64 {
    Table::fresh(count as usize).run(codes, told)
}
