//! One station that hands run passes to others by records, over a network that loses, repeats,
//! delays and reorders.
//!
//! The work is done by functions that are proved in Rattle and linked as `libquynhabet.a`. This
//! package puts safe types over them and decides nothing itself. What is proved is that each call
//! tells and leaves exactly what its definition says. That no pass is lost or doubled is proved of
//! whole runs of a table of stations; for stations that are linked by records, as here, no theorem
//! says it yet. `docs/FROM-C-AND-RUST.md` has this at length.
//!
//! ```
//! use quynhabet::{Refusal, Station};
//!
//! fn main() -> Result<(), Refusal> {
//!     let mut giver = Station::fresh(0, 2)?;
//!     let mut taker = Station::fresh(1, 2)?;
//!     giver.add(10)?;
//!
//!     // The giver shows its value. The taker opens a slot for half of the difference.
//!     let shown = giver.record_for(1)?;
//!     assert_eq!(taker.receive(&shown)?.opened(), Some(5));
//!
//!     // The taker shows its slot. The giver makes a token for exactly that slot.
//!     let asked = taker.record_for(0)?;
//!     assert_eq!(giver.receive(&asked)?.made(), Some(5));
//!
//!     // The giver shows its token. The taker fills its slot, once.
//!     let given = giver.record_for(1)?;
//!     assert_eq!(taker.receive(&given)?.filled(), Some(5));
//!     assert_eq!(taker.receive(&given)?.filled(), None);
//!
//!     assert_eq!((giver.value(), taker.value()), (5, 5));
//!     Ok(())
//! }
//! ```
//!
//! # What the transport owes
//!
//! A record arrives whole and unaltered, or not at all. Nothing here can see that a record was
//! changed or cut short; then passes may be made out of nothing or be gone. Use a transport that
//! checks what it hands over, and that authenticates where stations may be hostile.
//!
//! # Saving
//!
//! A station keeps its state on disk, as [`Station::to_bytes`] gives it. It is saved before any
//! record or drawn pass leaves the station, and an older save is never loaded again: the rule in
//! full is in `docs/FROM-C-AND-RUST.md`, and the example `three_stations` shows what breaking it
//! does.

#![deny(missing_docs)]
#![forbid(unsafe_code)]

mod held;
mod limits;
mod message;
mod record;
mod refusal;
mod report;
mod station;
mod station_save;
#[cfg(test)]
mod tests;

pub use held::{DestinationClock, Slot, SourceClock, Token};
pub use limits::{LAST_CLOCK, LEAST_STATIONS, MOST_AMOUNT, MOST_INTAKE, MOST_STATIONS, MOST_VALUE};
pub use message::Message;
#[doc(inline)]
pub use quynhabet_archive::layout::{LAYOUT_VERSION, MESSAGE_NUMBERS, RECORD_MAX, STATION_NUMBERS};
pub use record::Record;
pub use refusal::Refusal;
pub use report::{Report, Rule};
pub use station::Station;
pub use station_save::{LoadFault, SAVE_BYTES};
