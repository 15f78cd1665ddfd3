//! How long a comparison goes on, and its progress line.

use std::time::{Duration, Instant};

/// Until so many steps are done, or so many seconds have passed.
#[derive(Clone, Copy, Debug, PartialEq, Eq)]
pub enum Limit {
    Steps(u64),
    Seconds(u64),
}

/// What has been done so far of a limit.
pub struct Budget {
    limit: Limit,
    name: &'static str,
    started: Instant,
    spoke: Instant,
    pub cases: u64,
    pub steps: u64,
}

const SPEAK_EVERY: Duration = Duration::from_secs(5);

impl Budget {
    /// Nothing done yet; the name stands in the progress line.
    pub fn new(name: &'static str, limit: Limit) -> Budget {
        let now = Instant::now();
        Budget { limit, name, started: now, spoke: now, cases: 0, steps: 0 }
    }

    /// Counts a case of so many steps.
    pub fn count(&mut self, steps: u64) {
        self.cases += 1;
        self.steps += steps;
        if self.spoke.elapsed() >= SPEAK_EVERY {
            self.spoke = Instant::now();
            eprintln!("{}: {}", self.name, self.so_far());
        }
    }

    /// Is there something left to do?
    pub fn goes_on(&self) -> bool {
        match self.limit {
            Limit::Steps(steps) => self.steps < steps,
            Limit::Seconds(seconds) => self.started.elapsed() < Duration::from_secs(seconds),
        }
    }

    /// Cases, steps and time so far.
    pub fn so_far(&self) -> String {
        let seconds = self.started.elapsed().as_secs_f64();
        format!("{} cases, {} steps, {seconds:.1} seconds", self.cases, self.steps)
    }
}
