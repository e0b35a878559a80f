//! A progress line on standard error.

use std::io::{self, IsTerminal, Write};
use std::time::{Duration, Instant};

/// Nothing is shown in a run's first second.
const QUIET: Duration = Duration::from_secs(1);
/// Least time between two lines.
const PACE: Duration = Duration::from_millis(200);
/// The clock is read once in so many steps.
const STRIDE: u32 = 256;

/// A line that tells how far a run is, where standard error is a terminal and
/// the run takes longer than a second.
#[derive(Debug)]
pub struct Progress {
    started: Option<Instant>,
    shown: Option<Instant>,
    doing: &'static str,
    steps: u32,
}

impl Progress {
    /// Shows nothing.
    pub fn silent() -> Progress {
        Progress {
            started: None,
            shown: None,
            doing: "",
            steps: 0,
        }
    }

    /// Shows a line if standard error is a terminal.
    pub fn new() -> Progress {
        Progress {
            started: io::stderr().is_terminal().then(Instant::now),
            ..Progress::silent()
        }
    }

    /// Names what is being done from here on.
    pub fn doing(&mut self, what: &'static str) {
        self.doing = what;
    }

    /// Called often: `done` bytes of `total` are behind.
    #[inline]
    pub fn at(&mut self, done: u64, total: Option<u64>) {
        self.steps = self.steps.wrapping_add(1);
        if self.steps.is_multiple_of(STRIDE) {
            self.show(done, total);
        }
    }

    /// As [`Progress::at`], with the clock read at once.
    pub fn show(&mut self, done: u64, total: Option<u64>) {
        let Some(started) = self.started else { return };
        let now = Instant::now();
        let due = match self.shown {
            None => now - started > QUIET,
            Some(last) => now - last > PACE,
        };
        if due {
            self.shown = Some(now);
            let line = line(self.doing, done, total);
            let _ = write!(io::stderr(), "\r\x1b[K{line}");
        }
    }

    /// Takes the line off the terminal.
    pub fn clear(&mut self) {
        if self.shown.take().is_some() {
            let _ = write!(io::stderr(), "\r\x1b[K");
        }
    }
}

impl Default for Progress {
    fn default() -> Self {
        Progress::new()
    }
}

impl Drop for Progress {
    fn drop(&mut self) {
        self.clear();
    }
}

fn line(doing: &str, done: u64, total: Option<u64>) -> String {
    let megabytes = |n: u64| n as f64 / 1e6;
    match total {
        Some(total) if total > 0 => format!(
            "journal: {doing} {:.1} of {:.1} MB ({} %)",
            megabytes(done),
            megabytes(total),
            (done as u128 * 100 / total as u128).min(100)
        ),
        _ => format!("journal: {doing} {:.1} MB", megabytes(done)),
    }
}

#[cfg(test)]
mod tests {
    use super::*;

    #[test]
    fn the_line_names_the_part_done() {
        assert_eq!(
            line("drawing", 500_000, Some(2_000_000)),
            "journal: drawing 0.5 of 2.0 MB (25 %)"
        );
        assert_eq!(line("reading", 1_500_000, None), "journal: reading 1.5 MB");
        assert_eq!(line("reading", 0, Some(0)), "journal: reading 0.0 MB");
    }
}
