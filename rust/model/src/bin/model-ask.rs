//! Answers questions about processor use from a summary, as `mtrask` does.
//! Arguments: the summary's file, then a thread and two blocks for each question.

#![forbid(unsafe_code)]

use std::ffi::OsString;
use std::io::{self, Write};
use std::process::ExitCode;

fn main() -> ExitCode {
    let args: Vec<OsString> = std::env::args_os().skip(1).collect();
    let printed = model::usage::ask_program(&args);
    match printed.and_then(|bytes| io::stdout().write_all(&bytes)) {
        Ok(()) => ExitCode::SUCCESS,
        Err(e) => {
            eprintln!("model-ask: {e}");
            ExitCode::FAILURE
        }
    }
}
