//! The comparison of the two implementations: scripts through both bench
//! programs, and calls and records through the archive's functions.

#![forbid(unsafe_code)]

pub mod bench;
pub mod budget;
mod call_shrink;
pub mod calls;
mod case;
mod case_shrink;
mod counts;
mod difference;
pub mod faults;
pub mod flat;
mod generator;
mod kind;
mod lent;
#[cfg(feature = "linked")]
pub mod linked;
mod lower;
mod messages;
mod numbers;
mod odd_lines;
mod odd_records;
pub mod options;
pub mod outcome;
pub mod plants;
mod random;
pub mod records;
mod script_shrink;
pub mod scripts;
pub mod side;
mod stations;
mod steps;
mod writer;
