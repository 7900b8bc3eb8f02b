//! A board of the Janus algorithm, written by hand from document 01 and the
//! change requests of document 02 alone.
//!
//! It shares no table, code or generator with the proved implementation. It is
//! the second reading of the documents that random sheets are run against, and
//! the yardstick of the benchmark; so state is changed in place, no entry
//! allocates, and no session is copied.
//!
//! Names follow the field; document 01's own term stands at each definition:
//!
//! | here | in document 01 |
//! |---|---|
//! | process | seat |
//! | phase | stance |
//! | estimate | own value |
//! | decision | D |
//! | counts | tally |
//! | sheet | turn sheet |
//! | leader | hint |
//! | step | work turn |
//! | learn | look |
//!
//! Words that are printed are document 01's.

#![forbid(unsafe_code)]

pub mod board;
pub mod house;
pub mod houses;
pub mod phase;
pub mod poll;
pub mod polls;
pub mod random;
pub mod readout;
pub mod refusal;
pub mod report;
pub mod runner;
pub mod session;
pub mod sheet;
pub mod short;
pub mod sound;
pub mod trace;
pub mod write;

#[cfg(test)]
mod tests;

pub use board::{Access, Counts, Registers};
pub use house::{House, Place, Stance, Worker};
pub use houses::{house_bytes, houses, HouseCall};
pub use phase::{Phase, Process};
pub use poll::{Answer, Poll, Voter};
pub use polls::{poll_bytes, polls, Call};
pub use refusal::Refusal;
pub use report::{report, report_of};
pub use runner::{entry, run, Ending};
pub use session::{window, Caller, Limits, Session};
pub use sheet::{Operation, Sheet};
pub use trace::{trace, trace_at, traces};
pub use write::write;
