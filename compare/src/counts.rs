//! What happened in the scripts of a comparison.

use second::{Answer, Message, Told};

/// How often what matters happened.
#[derive(Clone, Copy, Debug, Default)]
pub struct Counts {
    pub lines: u64,
    pub unreadable: u64,
    pub refused: u64,
    pub pool_full: u64,
    pub too_few: u64,
    pub deliveries: u64,
    pub fills: u64,
    pub slots_dropped: u64,
    pub slots_opened: u64,
    pub slots_reopened: u64,
    pub tokens_dropped: u64,
    pub tokens_made: u64,
    pub tokens_of_0: u64,
    pub stale_tokens: u64,
}

impl Counts {
    /// Counts one step; the message is the one delivered, if any.
    pub fn step(&mut self, told: &Told, delivered: Option<&Message>) {
        let rules = told.report.rules;
        self.refused += u64::from(told.answer != Answer::Done);
        self.pool_full += u64::from(told.answer == Answer::PoolFull);
        self.too_few += u64::from(told.answer == Answer::TooFew);
        let Some(message) = delivered else { return };
        self.deliveries += 1;
        self.fills += u64::from(rules[0]);
        self.slots_dropped += u64::from(rules[1]);
        self.slots_opened += u64::from(rules[2]);
        self.slots_reopened += u64::from((rules[0] || rules[1]) && rules[2]);
        self.tokens_dropped += u64::from(rules[3]);
        self.tokens_made += u64::from(rules[4]);
        self.tokens_of_0 += u64::from(rules[4] && told.report.made == 0);
        self.stale_tokens += u64::from(message.token.is_some() && !rules[0]);
    }

    /// Adds the counts of another script.
    pub fn join(&mut self, other: &Counts) {
        self.lines += other.lines;
        self.unreadable += other.unreadable;
        self.refused += other.refused;
        self.pool_full += other.pool_full;
        self.too_few += other.too_few;
        self.deliveries += other.deliveries;
        self.fills += other.fills;
        self.slots_dropped += other.slots_dropped;
        self.slots_opened += other.slots_opened;
        self.slots_reopened += other.slots_reopened;
        self.tokens_dropped += other.tokens_dropped;
        self.tokens_made += other.tokens_made;
        self.tokens_of_0 += other.tokens_of_0;
        self.stale_tokens += other.stale_tokens;
    }

    /// What happened, in words and numbers.
    pub fn told(&self) -> String {
        format!(
            "deliveries {}, fills {}, slots dropped {}, opened {}, reopened {}, tokens dropped {}, \
             made {}, of 0 {}, stale {}, refused {}, pool full {}, too few to draw {}, \
             unreadable {}",
            self.deliveries,
            self.fills,
            self.slots_dropped,
            self.slots_opened,
            self.slots_reopened,
            self.tokens_dropped,
            self.tokens_made,
            self.tokens_of_0,
            self.stale_tokens,
            self.refused,
            self.pool_full,
            self.too_few,
            self.unreadable
        )
    }
}
