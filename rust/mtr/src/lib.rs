//! The move-to-rear list scheduler for Rust hosts.
//!
//! [`Scheduler`] is the scheduler as a value with methods, [`blocks`] its event
//! journal, [`PriorityTable`] a customer's own table of priorities. Errors are
//! [`Refusal`]s, by name and by number. Nothing here
//! panics, allocates or needs the standard library, and the library behind it
//! is proved: every call returns, and a refused one changes nothing.
//!
//! ```
//! use mtr::{Dispatch, Reason, Refusal, Scheduler, Settings};
//!
//! # fn run(_thread: u8, slice: u32) -> (Reason, u32) { (Reason::Tick, slice) }
//! let mut scheduler = Scheduler::new(Settings::default())?;
//! scheduler.open(1, 0, 300)?;
//! scheduler.admit(0, 0, 500)?;
//! scheduler.admit(1, 1, 100)?;
//! for _ in 0..8 {
//!     match scheduler.dispatch()? {
//!         Dispatch::Run { thread, slice, .. } => {
//!             let (reason, used) = run(thread, slice);
//!             scheduler.report(reason, used)?;
//!         }
//!         Dispatch::Idle { .. } => break,
//!     }
//! }
//! assert_eq!(scheduler.meter(), 120_000);
//! assert_eq!(scheduler.share(0)?, 833);
//! # Ok::<(), Refusal>(())
//! ```
//!
//! A thread with a reservation stands in the list. A best-effort thread has a
//! weight instead and shares, by weight, the time that no reserved thread
//! takes: [`admit_best_effort`](Scheduler::admit_best_effort).
//!
//! Below the types, [`numbers`] has the same functions on numbers, and [`raw`]
//! the declarations that are generated from the library's sources.

#![no_std]
#![deny(unsafe_code)]

pub mod blocks;
#[allow(unsafe_code)]
pub mod numbers;
mod priorities;
#[allow(unsafe_code)]
pub mod raw;
mod refusal;
mod scheduler;
mod values;

pub use blocks::Event;
pub use priorities::{reservation_of, PriorityRow, PriorityTable, TableError};
pub use refusal::Refusal;
pub use scheduler::Scheduler;
pub use values::{Dispatch, Entry, Reason, Settings, ThreadState};

/// The version of the library that is linked: 10000 times the major, 100 times
/// the minor, and the patch. It is that of this crate, [`raw::VERSION`].
///
/// ```
/// assert_eq!(mtr::version(), mtr::raw::VERSION);
/// ```
pub fn version() -> u32 {
    raw::mtr_version()
}
