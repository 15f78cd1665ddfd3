//! The limits.

/// The most that a value or a quantity may be.
pub const MOST_VALUE: u64 = 16_000_000_000;

/// The most that may be added or drawn at once, and the most that a station may ever add.
pub const MOST_AMOUNT: u64 = 1_000_000_000;

/// The end of a clock.
pub const LAST_CLOCK: u64 = u32::MAX as u64;
