//! Journals of the move-to-rear list scheduler as text, as pictures and in
//! figures; a customer's own table of priorities checked.
//!
//! - [`text`]: text to blocks and back.
//! - [`playback`]: a journal run record by record.
//! - [`track`]: a journal as spans of time, whole or in part.
//! - [`why`]: why the thread that a dispatch chose had the processor.
//! - [`draw`]: a journal as a picture. [`stats`]: a journal in figures.
//! - [`priorities`]: a table of priorities as text, and what is wrong with one.
//! - [`codec`], [`engine`], [`priorities`]: the only modules that name the library
//!   underneath, the proved one.
//! - [`names`]: names of threads. [`words`]: words for answers.
//! - [`scale`]: numbers and times for people. [`progress`]: the progress line.

#![forbid(unsafe_code)]

pub mod codec;
pub mod draw;
pub mod engine;
pub mod names;
pub mod playback;
pub mod priorities;
pub mod progress;
pub mod scale;
pub mod stats;
pub mod text;
pub mod track;
pub mod why;
pub mod words;
