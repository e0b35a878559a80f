//! The tables of figures.

use std::fmt::Write;

use crate::names::Names;
use crate::track::{thousandths, Apart, Portion, Thread};

use super::{became, lag_ms, ms};

/// What a row is about: a thread, what it had as a best-effort one, and the
/// weights of all of these together.
#[derive(Clone, Copy)]
pub struct Row<'a> {
    pub thread: u8,
    pub t: &'a Thread,
    pub portion: Option<Portion>,
    pub weights: u64,
    pub names: &'a Names,
}

impl Row<'_> {
    fn label(&self) -> String {
        self.names.label(self.thread)
    }

    /// Its weight in thousandths of all.
    pub fn by_weight(&self) -> u64 {
        let weight = self.portion.map_or(0, |portion| portion.weight);
        thousandths(weight, self.weights)
    }

    pub fn farthest(&self) -> Option<Apart> {
        self.portion.and_then(|portion| portion.farthest)
    }

    fn of_portion(&self, value: fn(&Portion) -> u64) -> String {
        self.portion.as_ref().map_or(0, value).to_string()
    }

    fn of_farthest(&self, value: impl Fn(&Apart) -> String) -> String {
        self.farthest().as_ref().map_or("-".into(), value)
    }
}

/// A table's column: heading, whether to the left, and a row's value.
pub type Column = (&'static str, bool, fn(&Row) -> String);

/// What a reserved thread has and does.
pub const HAS: [Column; 9] = [
    ("thread", true, |r| r.label()),
    ("group", false, |r| r.t.group.to_string()),
    ("reserved", false, |r| r.t.reserved.last.to_string()),
    ("share", false, |r| r.t.share.to_string()),
    ("runs", false, |r| r.t.runs.to_string()),
    ("wakes", false, |r| r.t.wakes.to_string()),
    ("refused", false, |r| r.t.refused.to_string()),
    ("lives", false, |r| r.t.lives.to_string()),
    ("at the end", true, |r| became(r.t.end).to_string()),
];

/// The longest and the largest, and where they are.
pub const MOST: [Column; 9] = [
    ("thread", true, |r| r.label()),
    ("longest run", false, |r| ms(r.t.longest_run.ticks)),
    ("from record", false, |r| {
        record(r.t.longest_run.ticks, r.t.longest_run.record)
    }),
    ("longest wait", false, |r| ms(r.t.longest_wait.ticks)),
    ("from record", false, |r| {
        record(r.t.longest_wait.ticks, r.t.longest_wait.record)
    }),
    ("largest lag", false, |r| lag_ms(r.t.largest.lag)),
    ("at time", false, |r| match r.t.largest.lag {
        0 => "-".into(),
        _ => ms(r.t.largest.at),
    }),
    ("bound", false, |r| lag_ms(r.t.largest.bound)),
    ("of it", false, |r| match r.t.largest.bound {
        0 => "-".into(),
        bound => format!("{} %", r.t.largest.lag * 100 / bound),
    }),
];

/// What a best-effort thread has and does.
pub const SHARES: [Column; 10] = [
    ("best effort", true, |r| r.label()),
    ("weight", false, |r| r.of_portion(|p| p.weight)),
    ("by weight", false, |r| r.by_weight().to_string()),
    ("of the rest", false, |r| r.of_portion(Portion::share)),
    ("share", false, |r| r.t.share.to_string()),
    ("runs", false, |r| r.t.runs.to_string()),
    ("wakes", false, |r| r.t.wakes.to_string()),
    ("refused", false, |r| r.t.refused.to_string()),
    ("lives", false, |r| r.t.lives.to_string()),
    ("at the end", true, |r| became(r.t.end).to_string()),
];

/// The longest, of best-effort threads.
pub const WAITS: [Column; 5] = [
    ("best effort", true, |r| r.label()),
    MOST[1],
    MOST[2],
    MOST[3],
    MOST[4],
];

/// How far best-effort threads came apart.
pub const APART: [Column; 6] = [
    ("best effort", true, |r| r.label()),
    ("farthest from", true, |r| {
        r.of_farthest(|a| r.names.label(a.other))
    }),
    ("apart", false, |r| {
        r.of_farthest(|a| ms(a.per_weight().round() as u64))
    }),
    ("at time", false, |r| r.of_farthest(|a| ms(a.at))),
    ("limit", false, |r| {
        r.of_farthest(|a| ms(a.limit_per_weight().round() as u64))
    }),
    ("of it", false, |r| {
        r.of_farthest(|a| format!("{} %", a.ticks * 100 / a.limit))
    }),
];

/// Runs beyond their slices.
pub const BEYOND: [Column; 5] = [
    ("thread", true, |r| r.label()),
    ("overruns", false, |r| r.t.overruns.to_string()),
    ("together", false, |r| ms(r.t.overrun)),
    ("longest", false, |r| ms(r.t.longest_overrun.ticks)),
    ("at record", false, |r| {
        record(r.t.longest_overrun.ticks, r.t.longest_overrun.record)
    }),
];

/// Changes of reservations, of the threads that have any.
pub const CHANGED: [Column; 5] = [
    ("thread", true, |r| r.label()),
    ("changes", false, |r| r.t.changes.to_string()),
    ("last at record", false, |r| {
        record(r.t.changes, r.t.last_change.map_or(0, |last| last.record))
    }),
    ("at time", false, |r| {
        ms(r.t.last_change.map_or(0, |last| last.time))
    }),
    ("reservations", true, |r| r.t.reserved.told()),
];

fn record(ticks: u64, number: u64) -> String {
    match ticks {
        0 => "-".into(),
        _ => number.to_string(),
    }
}

/// Appends a table.
pub fn put(columns: &[Column], rows: &[Row], out: &mut String) {
    let headings = columns.iter().map(|(heading, _, _)| heading.to_string());
    let mut cells: Vec<Vec<String>> = vec![headings.collect()];
    for row in rows {
        let values = columns.iter().map(|(_, _, value)| value(row));
        cells.push(values.collect());
    }
    let width = |c: usize| cells.iter().map(|row| row[c].chars().count()).max();
    let widths: Vec<usize> = (0..columns.len()).map(|c| width(c).unwrap_or(0)).collect();
    for row in &cells {
        let mut line = String::new();
        for ((cell, width), (_, left, _)) in row.iter().zip(&widths).zip(columns) {
            let pad = " ".repeat(width - cell.chars().count());
            // Writing to a string does not fail.
            let _ = match left {
                true => write!(line, "{cell}{pad}  "),
                false => write!(line, "{pad}{cell}  "),
            };
        }
        let _ = writeln!(out, "{}", line.trim_end());
    }
}
