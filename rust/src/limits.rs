//! The limits.

/// How many stations there are at least.
pub const LEAST_STATIONS: u64 = 2;

/// How many stations there are at most.
pub const MOST_STATIONS: u64 = 16;

/// The largest amount that can be added or drawn at once. The smallest is 1.
pub const MOST_AMOUNT: u64 = 1_000_000_000;

/// The largest intake: all that was ever added at a station.
pub const MOST_INTAKE: u64 = 1_000_000_000;

/// The largest value or quantity.
pub const MOST_VALUE: u64 = 16_000_000_000;

/// The end of a clock.
pub const LAST_CLOCK: u64 = 4_294_967_295;
