//! Writes the summary of a journal, as `mtrsum` does. Argument: the journal's
//! file.

#![forbid(unsafe_code)]

use std::ffi::OsString;
use std::io;
use std::process::ExitCode;

fn main() -> ExitCode {
    let args: Vec<OsString> = std::env::args_os().skip(1).collect();
    match model::usage::sum_program(&args, io::stdout().lock()) {
        Ok(()) => ExitCode::SUCCESS,
        Err(e) => {
            eprintln!("model-sum: {e}");
            ExitCode::FAILURE
        }
    }
}
