//! Calls, states, journals and tables for tests and measurements: the one place that makes them.
//!
//! - [`records`]: records by hand, and journals of them.
//! - [`examples`]: the worked examples, one text each, which every test of one reads.
//! - [`random`]: generated states, calls, journals, summaries and tables.

#![forbid(unsafe_code)]

pub mod examples;
pub mod random;
pub mod records;
