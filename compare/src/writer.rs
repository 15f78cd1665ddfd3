//! A script being written, line by line.
//!
//! The writer keeps a table of its own beside the script, to know which
//! places hold messages and what each station has.

use second::limits::MOST_PLACES;
use second::script::{do_step, step_line, Step};
use second::{Answer, Fault, Table, Told};

use crate::counts::Counts;
use crate::kind::Kind;
use crate::odd_lines;
use crate::random::Random;

/// A script being written.
pub(crate) struct Writer {
    pub(crate) random: Random,
    pub(crate) kind: Kind,
    pub(crate) table: Table,
    pub(crate) script: Vec<u8>,
    /// Places in the order they were sent to, the newest last.
    pub(crate) sent: Vec<u64>,
    pub(crate) delivered: u64,
    pub(crate) counts: Counts,
}

impl Writer {
    /// The first line, for a kind at random.
    pub(crate) fn new(mut random: Random) -> Writer {
        let kind = Kind::new(&mut random);
        Writer {
            random,
            table: Table::fresh(kind.count).1,
            script: format!("stations {}\n", kind.count).into_bytes(),
            kind,
            sent: Vec::new(),
            delivered: 0,
            counts: Counts::default(),
        }
    }

    /// Writes a line, damaged now and then, and does it at the table.
    pub(crate) fn line(&mut self, text: String) -> Option<Told> {
        let mut line = text.into_bytes();
        if self.random.chance(self.kind.damage) {
            line = odd_lines::damaged(&line, &mut self.random);
        }
        self.script.extend_from_slice(&line);
        self.script.push(10);
        self.counts.lines += 1;
        let Some(step) = step_line(&line) else {
            self.counts.unreadable += 1;
            return None;
        };
        let delivered = match step {
            Step::Deliver { place } if place < MOST_PLACES as u64 => {
                self.table.pool[place as usize]
            }
            _ => None,
        };
        let told = do_step(&mut self.table, step, Fault::None);
        self.counts.step(&told, delivered.as_ref());
        self.remember(step, &told);
        Some(told)
    }

    /// Keeps the order of sending up to date.
    fn remember(&mut self, step: Step, told: &Told) {
        if told.answer != Answer::Done {
            return;
        }
        match step {
            Step::Send { .. } => self.sent.push(told.result),
            Step::Deliver { place } => self.delivered = place,
            Step::Lose { place } => self.sent.retain(|sent| *sent != place),
            Step::Add { .. } | Step::Draw { .. } => (),
        }
    }
}
