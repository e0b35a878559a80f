//! Reference model of the move-to-rear list scheduler.
//!
//! Written from the description of the rule alone, which docs/RULE.md states,
//! and without sight of any other implementation. It serves two ends: another
//! implementation is compared with it, state by state and byte by byte, and
//! its in-place calls are the baseline that the other one's speed is measured
//! against.
//!
//! - [`rule`]: the state and the calls, in place.
//! - [`by_value`]: the same calls on a state handed over and handed back.
//! - [`accounts`]: lag, achieved share and the roster.
//! - [`blocks`]: the 512-byte event blocks.
//! - [`calls`]: the calls as values, and the records that stand for them.
//! - [`replay`]: what `mtrrun` prints for a journal.
//! - [`why`]: what `mtrwhy` prints for a journal and a record's number.
//! - [`usage`]: what `mtrsum` writes for a journal, and `mtrask` prints for that.
//! - [`table`]: customers' own priority tables.

#![forbid(unsafe_code)]

pub mod accounts;
pub mod blocks;
pub mod by_value;
pub mod calls;
pub mod replay;
pub mod rule;
pub mod table;
pub mod usage;
pub mod why;
