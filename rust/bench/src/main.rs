//! Times of the static library beside those of the reference model.
//!
//! ```text
//! bench               every row, as ratios (bench.sh)
//! bench one CALL N    each accepted case of a call N times (callgrind.sh)
//! bench journals      the programs mtrrun and mtrwhy beside the model (after make programs)
//! bench usage         the programs mtrsum and mtrask beside mtrrun, the model and plain reading
//! bench long          the same on a journal of 1 GiB, and the memory that they hold: about 6 GB in the folder for temporary files
//! bench calls         the names that `bench one` takes
//! ```

mod cases;
mod journals;
mod plain;
mod rounds;
mod states;
mod times;
mod usage;

use std::process::ExitCode;

fn main() -> ExitCode {
    let words: Vec<String> = std::env::args().skip(1).collect();
    let words: Vec<&str> = words.iter().map(String::as_str).collect();
    match words[..] {
        [] => times::print(),
        ["journals"] => journals::print(),
        ["usage"] => usage::print(),
        ["long"] => usage::long(),
        ["calls"] => println!("{}", cases::CALLS.join("\n")),
        ["one", call, n] if cases::CALLS.contains(&call) => match n.parse() {
            Ok(n) => cases::run(call, n),
            Err(e) => {
                eprintln!("bench: {n}: {e}");
                return ExitCode::FAILURE;
            }
        },
        _ => {
            eprintln!("usage: bench | bench journals | bench usage | bench long | bench calls | bench one CALL N");
            return ExitCode::FAILURE;
        }
    }
    ExitCode::SUCCESS
}
