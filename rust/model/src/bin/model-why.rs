//! Says why a thread had the processor, as `mtrwhy` does. Arguments: a journal's
//! file, then the number of a dispatch's record.

#![forbid(unsafe_code)]

use std::ffi::OsString;
use std::io::{self, Write};
use std::process::ExitCode;

fn main() -> ExitCode {
    let args: Vec<OsString> = std::env::args_os().skip(1).collect();
    let printed = model::why::program(&args);
    match printed.and_then(|bytes| io::stdout().write_all(&bytes)) {
        Ok(()) => ExitCode::SUCCESS,
        Err(e) => {
            eprintln!("model-why: {e}");
            ExitCode::FAILURE
        }
    }
}
