//! The static library and the programs beside the reference model.
//!
//! - [`compare`]: a call on both sides, asserted equal.
//! - [`bytes`]: the bytes that cross the boundary.
//! - [`share`]: what occurred of shares.
//! - [`late`]: what occurred of overruns.
//! - [`changes`]: what occurred of changes of a reservation.
//! - [`best_effort`]: what occurred of best-effort threads.
//! - [`ties`]: the roster's order by its meaning, and what occurred of equal lags.
//! - [`tables`]: what occurred of tables of priorities.
//! - [`table_recipe`]: a table of priorities made of any bytes, and what both sides answer under it.
//! - [`program`]: `mtrrun`, `mtrwhy`, `mtrsum` and `mtrask`, run as they were built.
//! - [`traced`]: a program that is stopped where it reads, seeks and writes.
//! - [`why`]: questions to `mtrwhy`, and the sorts of their answers.
//! - [`usage`]: what occurred of summaries, and of questions to `mtrask`.
//! - [`attack`]: arbitrary bytes and arguments to every exported function.
//! - [`guard`]: memory to lend between two pages that nobody may touch.
//! - [`faults`]: names the call at which a signal ended the process.
//! - [`stack`]: the stack that each call needs.
//! - [`journal`]: a journal made of any bytes, and its replay on every side.
//! - [`antt`]: definitions, proofs and code as text.
//! - [`statements`]: what the theorems say that docs/PROOFS.md names.
//! - `fuzzer`: the programs as functions, in the build for libFuzzer only (`fuzz/build.sh`).

#![deny(unsafe_op_in_unsafe_fn)]

#[macro_use]
mod sorts;

pub mod antt;
pub mod attack;
pub mod best_effort;
pub mod bytes;
pub mod changes;
pub mod compare;
pub mod faults;
#[cfg(fuzzing)]
mod fuzzer;
pub mod guard;
pub mod journal;
pub mod late;
pub mod program;
pub mod share;
pub mod stack;
pub mod statements;
pub mod table_recipe;
pub mod tables;
pub mod ties;
pub mod traced;
pub mod usage;
pub mod why;
