//! The parts of the command: its line, its help, what it reads and writes.

pub mod help;
pub mod input;
pub mod line;
pub mod output;
pub mod work;

mod standard;

use std::io::{self, Write};

/// Why there is no result.
pub enum Stop {
    /// The command line is wrong.
    Usage(String),
    /// Input or output failed, or the input is bad; a line each.
    Bad(Vec<String>),
    /// Whoever reads the result has had enough.
    Closed,
}

impl Stop {
    pub fn bad(message: String) -> Stop {
        Stop::Bad(vec![message])
    }
}

/// A line on standard error, which may be closed.
pub fn say(message: &str) {
    let _ = writeln!(io::stderr(), "journal: {message}");
}

/// An error as it is told, without the number that the library adds.
pub fn told(e: &io::Error) -> String {
    let text = e.to_string();
    match text.find(" (os error ") {
        Some(end) => text[..end].to_string(),
        None => text,
    }
}
