//! A second implementation of stations that share passes by quantity
//! transfer, written from the scope document alone and sharing no code with
//! the first. It is here to be compared with the first, and knows nothing of
//! the comparison but that a fault may be planted.

#![forbid(unsafe_code)]

pub mod answer;
pub mod fault;
pub mod held;
pub mod limits;
pub mod message;
mod receiving;
pub mod record;
pub mod rules;
pub mod script;
pub mod station;
pub mod table;

pub use answer::{Answer, Report, Told};
pub use fault::Fault;
pub use held::Held;
pub use message::Message;
pub use station::Station;
pub use table::Table;
