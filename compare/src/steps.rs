//! The steps of a random script.

use second::limits::{MOST_AMOUNT, MOST_INTAKE, MOST_PLACES};
use second::{Answer, Told};

use crate::odd_lines::ODD_NUMBERS;
use crate::writer::Writer;

impl Writer {
    /// One step, or a few that belong together.
    pub(crate) fn some_lines(&mut self) {
        if self.random.chance(self.kind.odd) {
            return self.odd_step();
        }
        if self.sent.len() > self.kind.waiting && self.random.chance(60) {
            return self.lose();
        }
        match self.random.weighed(&[10, 30, 12, 6, 3, 16, 10]) {
            0 => {
                self.send();
            }
            1 => self.deliver(),
            2 => self.add(),
            3 => self.draw(),
            4 => self.lose(),
            5 => self.exchange(),
            _ => self.late_exchange(),
        }
    }

    /// Two different stations, mostly of low numbers.
    fn pair(&mut self) -> (u64, u64) {
        let few = if self.random.chance(60) { self.kind.count.min(3) } else { self.kind.count };
        let from = self.random.below(few);
        let to = (from + 1 + self.random.below(few - 1)) % few;
        (from, to)
    }

    /// A pair, mostly with the richer one first.
    fn rich_and_poor(&mut self) -> (u64, u64) {
        let (one, other) = self.pair();
        let value = |station: u64| self.table.stations[station as usize].value;
        if value(one) < value(other) && self.random.chance(80) {
            (other, one)
        } else {
            (one, other)
        }
    }

    fn send(&mut self) -> Option<Told> {
        let (from, to) = self.pair();
        self.line(format!("send {from} {to}"))
    }

    /// The newest message, the last one again, an old one, or any.
    fn deliver(&mut self) {
        let place = match (self.random.weighed(&[25, 20, 25, 30]), self.sent.last()) {
            (0, Some(newest)) => *newest,
            (1, _) => self.delivered,
            (2, Some(_)) => self.sent[self.random.below(self.sent.len() as u64 / 2 + 1) as usize],
            (_, Some(_)) => self.random.pick(&self.sent),
            (_, None) => self.random.below(MOST_PLACES as u64),
        };
        self.line(format!("deliver {place}"));
    }

    fn lose(&mut self) {
        let place = match self.sent.first() {
            Some(oldest) if self.random.chance(30) => *oldest,
            Some(_) => self.random.pick(&self.sent),
            None => self.random.below(MOST_PLACES as u64),
        };
        self.line(format!("lose {place}"));
    }

    /// A small amount, a large one, or just what the intake still allows.
    fn add(&mut self) {
        let (station, _) = self.pair();
        let left = MOST_INTAKE - self.table.stations[station as usize].intake;
        let amount = match self.random.weighed(&[70, 10, 6, 6, 8]) {
            0 => self.random.between(1, self.kind.amounts),
            1 => self.random.between(1, MOST_AMOUNT),
            2 => left,
            3 => left + 1,
            _ => left.saturating_sub(self.random.below(3)),
        };
        self.line(format!("add {station} {amount}"));
    }

    /// All there is, about that, some of it, or any amount.
    fn draw(&mut self) {
        let (station, _) = self.pair();
        let there = self.drawable(station);
        let amount = match self.random.weighed(&[20, 20, 40, 20]) {
            0 => there,
            1 => self.random.around(there),
            2 => self.random.between(1, there),
            _ => self.random.between(1, self.kind.amounts),
        };
        self.line(format!("draw {station} {amount}"));
    }

    /// What a station has, as an amount that may be asked for: 1 if it has
    /// nothing, and then the draw is refused.
    fn drawable(&self, station: u64) -> u64 {
        self.table.stations[station as usize].value.clamp(1, MOST_AMOUNT)
    }

    /// Three messages to and fro, each delivered: slot, token, fill. Between
    /// them the maker may be drawn empty, which makes a token of 0.
    fn exchange(&mut self) {
        let (rich, poor) = self.rich_and_poor();
        let empties = self.random.chance(25);
        for (turn, (from, to)) in [(rich, poor), (poor, rich), (rich, poor)].into_iter().enumerate()
        {
            if empties && turn == 1 {
                let all = self.drawable(rich);
                self.line(format!("draw {rich} {all}"));
            }
            let place = match self.line(format!("send {from} {to}")) {
                Some(Told { answer: Answer::Done, result, .. }) => result,
                _ => return,
            };
            if self.random.chance(85) {
                self.line(format!("deliver {place}"));
            }
            if self.random.chance(20) {
                self.deliver();
            }
        }
    }

    /// A token is asked for and made, and before it lands the slot is dropped
    /// and another opened by messages that are late.
    fn late_exchange(&mut self) {
        let (rich, poor) = self.rich_and_poor();
        let Some(early) = self.line(format!("send {rich} {poor}")) else {
            return;
        };
        self.line(format!("deliver {}", early.result));
        let Some(asking) = self.line(format!("send {poor} {rich}")) else {
            return;
        };
        self.line(format!("deliver {}", asking.result));
        let Some(carrying) = self.line(format!("send {rich} {poor}")) else {
            return;
        };
        for _ in 0..self.random.between(1, 5) {
            let place = self.random.pick(&[early, asking, carrying, carrying]).result;
            self.line(format!("deliver {place}"));
        }
    }

    /// A step with a number at an edge.
    fn odd_step(&mut self) {
        let odd = self.random.pick(&ODD_NUMBERS);
        let station = self.random.below(self.kind.count + 1);
        let line = match self.random.below(9) {
            0 => format!("add {station} {odd}"),
            1 => format!("add {odd} {}", self.random.below(3)),
            2 => format!("draw {station} {odd}"),
            3 => format!("draw {odd} {}", self.random.below(3)),
            4 => format!("send {station} {odd}"),
            5 => format!("send {odd} {station}"),
            6 => format!("send {station} {station}"),
            7 => format!("deliver {odd}"),
            _ => format!("lose {odd}"),
        };
        self.line(line);
    }
}
