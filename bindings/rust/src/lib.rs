//! The Givuntha monitor of timed agreements, for Rust.
//!
//! The four entries are the proved C functions of `include/givuntha.h`; this crate only lends them memory and gives
//! their numbers names. An agreement is bytes, and so is a reading; the state of a run is a table of [`CELLS`] cells.
//! [`Table`] owns one; the functions [`start`], [`reading`] and [`preview`] work on any cells that are lent. All three
//! answer the forecast too: the [`Breach`] that the run comes to without further readings, or none. A preview tells
//! what a reading would do before it is entered. Times are in minutes.
//!
//! Party 0 owes a salinity of at least 250 within 60 minutes of minute 100:
//!
//! ```
//! use givuntha::{check, record, Refusal, Refused, State, Table, Times};
//!
//! let agreement = [
//!     0x40, 0, 1, 0, 100, 0, 0, 0, 2, 1, 0, 6, 0, 2, 0, 1, 1, 0x2F, 0, 17, 0, 0, 1, 0x15, 0, 36, 0, 17, 0, 42, 0, 5,
//!     0, 35, 0, 0, 8, 0, 32, 0, 250, 0, 0, 0, 8, 0, 32, 0, 0, 0, 0, 0, 8, 0, 32, 0, 60, 0, 0, 0, 4, 0, 16, 0,
//! ];
//! assert!(check(&agreement)?.contains(0));
//!
//! let (mut table, ahead) = Table::start(&agreement)?;
//! let breach = ahead.expect("a breach if nothing is read");
//! assert_eq!((breach.time, breach.parties.bits()), (160, 1));
//!
//! let taken = table.reading(&agreement, &record::reading(110, 1, &[240]))?;
//! assert_eq!(taken.ahead, Some(breach));
//! assert_eq!(table.state(), Some(State::Running));
//! assert_eq!(table.times(), Some(Times { last_reading: 110, last_moved: 100 }));
//! let past = table.reading(&agreement, &record::reading(105, 1, &[250]));
//! assert_eq!(past, Err(Refused::Other(Refusal::ReadingTime)));
//! let (foreseen, after) = table.preview(&agreement, &record::reading(160, 1, &[250]))?;
//! assert_eq!((after.state(), table.state()), (Some(State::Fulfilled), Some(State::Running)));
//! let taken = table.reading(&agreement, &record::reading(160, 1, &[250]))?;
//! assert_eq!(taken.ahead, None);
//! assert_eq!((taken, &table), (foreseen, &after));
//! assert_eq!(table.times(), Some(Times { last_reading: 160, last_moved: 160 }));
//! # Ok::<(), Refusal>(())
//! ```
//!
//! An accepted reading is answered with [`Taken`], which has the forecast and says whether the reading came too early
//! and what it cost, a refused one with [`Refused`], which has a cost where the reading was followed: on 11. A preview
//! answers as the reading would.
//!
//! A sized agreement, one with templates that are all of kind 4, declares how many units its templates need. Where it
//! is accepted, no reading in a run from its start is refused with 11, nor is the start.
//!
//! [`STACK`] bytes of stack are enough for every call; the deepest that we built runs in 357,248. The stacks of the
//! main thread and of threads that the standard library makes are larger. Where the stack is too small the program is
//! stopped, as at any overflow.

mod entries;
mod parties;
mod raw;
pub mod record;
mod refusal;
mod refused;
mod stack;
mod state;
mod table;

pub use entries::{check, preview, reading, start, version, Breach, Taken, MOST_COST};
pub use parties::Parties;
pub use refusal::Refusal;
pub use refused::Refused;
pub use stack::STACK;
pub use state::{State, Times};
pub use table::{Table, CELLS};
