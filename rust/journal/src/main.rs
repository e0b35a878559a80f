//! The command `journal`.

#![deny(unsafe_code)]

mod command;

use std::io::{self, Write};
use std::process::ExitCode;

use command::{line, output, work, Stop};

fn main() -> ExitCode {
    let done = line::parse(std::env::args_os().skip(1)).and_then(|asked| match asked {
        line::Asked::Print(text) => output::write_all(None, text.as_bytes()),
        line::Asked::Do(job) => work::work(*job),
    });
    match done {
        Ok(()) | Err(Stop::Closed) => ExitCode::SUCCESS,
        Err(Stop::Bad(messages)) => {
            for message in &messages {
                command::say(message);
            }
            ExitCode::from(1)
        }
        Err(Stop::Usage(message)) => {
            command::say(&message);
            let _ = writeln!(io::stderr(), "Try 'journal --help'.");
            ExitCode::from(2)
        }
    }
}
