//! What the proved code is timed against: the same operations with the same tests, written by hand
//! and in place.

#![forbid(unsafe_code)]

mod limits;
pub mod numbers;
pub mod record;
mod rules;
pub mod script;
mod seat;
pub mod table;
