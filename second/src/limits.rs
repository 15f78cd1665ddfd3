//! The numbers of the document, each with the words that give it.
//!
//! Everything is kept in u64, wider than any limit, so that stations and
//! messages that break a limit can be held and tested for soundness.

/// "A table has 2 to 16 stations, numbered from 0."
pub const LEAST_STATIONS: u64 = 2;
/// "A table has 2 to 16 stations, numbered from 0."
pub const MOST_STATIONS: u64 = 16;
/// Room for a slot and a token by peer number.
pub const PEERS: usize = 16;
/// A message's from and to are "different and at most 15".
pub const MOST_NUMBER: u64 = 15;
/// "An added or drawn amount is 1 to 1,000,000,000."
pub const MOST_AMOUNT: u64 = 1_000_000_000;
/// "A station's lifetime intake (all it ever added) is at most 1,000,000,000."
pub const MOST_INTAKE: u64 = 1_000_000_000;
/// "No value or quantity passes 16,000,000,000."
pub const MOST_VALUE: u64 = 16_000_000_000;
/// "Clocks run 0 to 4,294,967,295."
pub const LAST_CLOCK: u64 = 4_294_967_295;
/// "The pool is 64 places, each empty or holding one message."
pub const MOST_PLACES: usize = 64;
/// "the script is longer than 65,536 bytes" is answer 13.
pub const MOST_BYTES: usize = 65_536;
/// "numbers of 1 to 10 decimal digits".
pub const MOST_DIGITS: usize = 10;

/// Is this a count a table may have: "2 to 16"?
pub fn is_count(count: u64) -> bool {
    (LEAST_STATIONS..=MOST_STATIONS).contains(&count)
}

/// Is this an amount that may be added or drawn: "1 to 1,000,000,000"?
pub fn is_amount(amount: u64) -> bool {
    (1..=MOST_AMOUNT).contains(&amount)
}

/// Is this a clock: "0 to 4,294,967,295"?
pub fn is_clock(clock: u64) -> bool {
    clock <= LAST_CLOCK
}

/// Is this a value or a quantity that may stand: at most 16,000,000,000?
pub fn is_value(value: u64) -> bool {
    value <= MOST_VALUE
}
