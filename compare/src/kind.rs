//! The kinds of random scripts.

use second::limits::MOST_AMOUNT;

use crate::random::Random;

/// What kind of script is written.
pub struct Kind {
    pub count: u64,
    pub lines: u64,
    /// About so many messages wait in the pool.
    pub waiting: usize,
    /// So many lines in a hundred are damaged.
    pub damage: u64,
    /// So many lines in a hundred have a number at an edge.
    pub odd: u64,
    /// Amounts are up to this, most of the time.
    pub amounts: u64,
}

impl Kind {
    /// A kind at random.
    pub fn new(random: &mut Random) -> Kind {
        let count = match random.weighed(&[50, 20, 10, 12, 8]) {
            0 => 2,
            1 => 3,
            2 => 4,
            3 => random.between(5, 16),
            _ => 16,
        };
        let lines = match random.weighed(&[40, 40, 17, 3]) {
            0 => random.between(1, 30),
            1 => random.between(30, 200),
            2 => random.between(200, 1500),
            _ => random.between(1500, 6000),
        };
        Kind {
            count,
            lines,
            waiting: random.pick(&[2, 4, 8, 16, 32, 60, 200]),
            damage: random.pick(&[0, 0, 0, 0, 1, 4, 25]),
            odd: random.pick(&[0, 1, 3, 10]),
            amounts: random.pick(&[3, 10, 100, 100_000, MOST_AMOUNT]),
        }
    }
}
