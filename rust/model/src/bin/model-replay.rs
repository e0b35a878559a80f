//! Replays a journal from standard input to standard output, as `mtrrun`
//! does. Arguments are ignored.

#![forbid(unsafe_code)]

use std::io;
use std::process::ExitCode;

fn main() -> ExitCode {
    // Unbuffered beyond the replay's own buffers: whole chunks pass through
    // the line-buffered standard output as single writes of complete lines.
    match model::replay::replay_from(io::stdin().lock(), io::stdout().lock()) {
        Ok(()) => ExitCode::SUCCESS,
        Err(e) => {
            eprintln!("model-replay: {e}");
            ExitCode::FAILURE
        }
    }
}
