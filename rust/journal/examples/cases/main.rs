//! A controller whose exporter sends results to a server, by the rule and by a
//! broken one, one whose timer fires late, one that gives readout more for a
//! while, and one that prints reports and packs logs in spare time. The page
//! docs/CASES.md shows what comes of it.
//!
//! - Without an argument: the shares, as a table.
//! - `--broken`: the picture of the broken rule, to standard output.
//! - `--renew`: writes the shipped journals, their texts and the pictures.

#![forbid(unsafe_code)]

mod answer;
mod broken;
mod controller;
mod files;
mod late;
mod raised;
mod spare;
mod table;

use std::io::{self, Write};
use std::process::ExitCode;

fn main() -> ExitCode {
    let arguments: Vec<String> = std::env::args().skip(1).collect();
    let words: Vec<&str> = arguments.iter().map(String::as_str).collect();
    let printed = answer::answer(&words).and_then(|text| {
        let mut out = io::stdout();
        let written = out.write_all(text.as_bytes()).and_then(|()| out.flush());
        written.map_err(|e| format!("standard output: {e}"))
    });
    match printed {
        Ok(()) => ExitCode::SUCCESS,
        Err(message) => {
            eprintln!("{message}");
            ExitCode::from(1)
        }
    }
}
