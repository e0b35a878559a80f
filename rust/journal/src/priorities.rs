//! A customer's own table of priorities as text, a row a line: what each
//! priority has under it, or in words what is wrong with it. Whether a table
//! can be used is decided by the proved library alone.

use std::fmt::Write;

use mtr::raw::{HIGHEST_PRIORITY, LOWEST_PRIORITY, PRIORITY_ROWS, WHOLE};
use mtr::{PriorityRow, PriorityTable, Refusal, TableError};

use crate::text::line::{number, shown, without_mark, words_of};
use crate::text::{Problem, PROBLEMS};

const FORM: &str = "a row is 'first last reservation'";

/// A table that can be used.
#[derive(Clone, Debug, PartialEq, Eq)]
pub struct Table {
    table: PriorityTable,
    /// The line of each row.
    lines: Vec<u64>,
}

/// Why a text has no table that can be used.
#[derive(Clone, Debug, PartialEq, Eq)]
pub enum Wrong {
    /// These lines are wrong.
    Lines(Vec<Problem>),
    /// Something is missing, and no line is wrong.
    Whole(String),
}

impl Table {
    /// Reads a text with a row a line, its first and its last priority and its
    /// reservation; `#` begins a comment, empty lines count for nothing.
    pub fn read(text: &[u8]) -> Result<Table, Wrong> {
        let (mut rows, mut lines, mut problems) = (Vec::new(), Vec::new(), Vec::new());
        let mut count = 0;
        for (line, bytes) in (1u64..).zip(without_mark(text).split(|&b| b == b'\n')) {
            match row(bytes) {
                Ok(None) => {}
                Ok(Some(row)) => {
                    count += 1;
                    // One row too many tells as much as all of them.
                    if count <= PRIORITY_ROWS + 1 {
                        rows.push(row);
                        lines.push(line);
                    }
                }
                Err(message) => problems.push(Problem { line, message }),
            }
            if problems.len() == PROBLEMS {
                break;
            }
        }
        if !problems.is_empty() {
            return Err(Wrong::Lines(problems));
        }
        match PriorityTable::new(&rows) {
            Ok(table) => Ok(Table { table, lines }),
            Err(error) => Err(wrong(error, &rows, count, &lines)),
        }
    }

    /// The ten priorities from the highest down, each with its reservation, the
    /// standard one and the line of its row.
    pub fn text(&self) -> String {
        let digits = |line: &u64| line.to_string().len();
        let width = self.lines.last().map_or(0, digits).max("line".len());
        let mut out = format!("priority    reservation  standard  {:>width$}\n", "line");
        for priority in (LOWEST_PRIORITY as u8..=HIGHEST_PRIORITY as u8).rev() {
            let own = told(self.table.reservation_of(priority));
            let standard = told(mtr::reservation_of(priority));
            let label = format!("{priority:>2} {}", name(priority));
            let mut holding = holding(priority, self.table.rows(), &self.lines);
            let line = holding.next().map_or("-".into(), |line| line.to_string());
            let _ = writeln!(out, "{label:<10}  {own:>11}  {standard:>8}  {line:>width$}");
        }
        out
    }
}

/// A reservation, or why there is none.
fn told(reservation: Result<u16, Refusal>) -> String {
    match reservation {
        Ok(thousandths) => thousandths.to_string(),
        Err(refusal) => refusal.to_string(),
    }
}

/// The name of a priority in the published table.
fn name(priority: u8) -> &'static str {
    match priority {
        10 => "highest",
        5 => "normal",
        1 => "lowest",
        _ => "",
    }
}

/// The row of a line, if it has one.
fn row(bytes: &[u8]) -> Result<Option<PriorityRow>, String> {
    if std::str::from_utf8(bytes).is_err() {
        return Err("this is not text in UTF-8".into());
    }
    let line = bytes.strip_suffix(b"\r").unwrap_or(bytes);
    if line.contains(&b'\r') {
        return Err(
            "a carriage return within the line; it may stand at the line's end alone".into(),
        );
    }
    let mut words = words_of(line);
    let Some(first) = words.next() else {
        return Ok(None);
    };
    let field = |word: Option<&[u8]>, name| match word {
        None => Err(format!("the line ends before {name}; {FORM}")),
        word => number(word, name, u64::MAX),
    };
    let row = PriorityRow {
        first: field(Some(first), "the first priority")?,
        last: field(words.next(), "the last priority")?,
        reservation: field(words.next(), "the reservation")?,
    };
    match words.next() {
        None => Ok(Some(row)),
        Some(word) => Err(format!("{} after the reservation; {FORM}", shown(word))),
    }
}

/// The lines of the rows that a priority stands in.
fn holding<'t>(
    priority: u8,
    rows: &'t [PriorityRow],
    lines: &'t [u64],
) -> impl Iterator<Item = u64> + 't {
    let held = move |row: &PriorityRow| (row.first..=row.last).contains(&priority.into());
    let rows = rows.iter().zip(lines);
    rows.filter_map(move |(row, &line)| held(row).then_some(line))
}

/// What the library refuses, with its line and in words.
fn wrong(error: TableError, rows: &[PriorityRow], count: usize, lines: &[u64]) -> Wrong {
    let most = PRIORITY_ROWS;
    let (line, words) = match error {
        TableError::Count(_) => match lines.get(most) {
            Some(&line) => {
                let words = format!("row {} of {count}; a table has 1 to {most} rows", most + 1);
                (Some(line), words)
            }
            None => (None, format!("no rows; a table has 1 to {most}")),
        },
        TableError::Row(place) => {
            let words = rows.get(place).map(faults).unwrap_or_default();
            (lines.get(place).copied(), words)
        }
        TableError::Priority(priority) => {
            let mut held = holding(priority, rows, lines);
            match (held.next(), held.next()) {
                (None, _) => (None, format!("priority {priority} stands in no row")),
                (Some(first), Some(second)) => {
                    let words = format!("priority {priority} stands in line {first} already");
                    (Some(second), words)
                }
                (line, None) => (line, String::new()),
            }
        }
    };
    let refusal = error.refusal();
    let words = match words.is_empty() {
        true => refusal.meaning(),
        false => &words,
    };
    let message = format!("{words} (refused with {})", refusal.number());
    match line {
        Some(line) => Wrong::Lines(vec![Problem { line, message }]),
        None => Wrong::Whole(message),
    }
}

/// All that is wrong with a row.
fn faults(row: &PriorityRow) -> String {
    let PriorityRow {
        first,
        last,
        reservation,
    } = *row;
    let outside = |what: &str, value: u64, least: u64, most: u64| {
        let fault = || format!("{what} {value} is outside {least} to {most}");
        (value < least || value > most).then(fault)
    };
    let priority = |value| outside("priority", value, LOWEST_PRIORITY, HIGHEST_PRIORITY);
    let faults = [
        (first > last).then(|| format!("the row is upside down: first {first}, last {last}")),
        priority(first),
        priority(last).filter(|_| last != first),
        outside("reservation", reservation, 1, WHOLE.into()),
    ];
    let faults: Vec<String> = faults.into_iter().flatten().collect();
    faults.join("; ")
}

#[cfg(test)]
mod tests {
    use super::*;

    /// Words never make a table usable: without fitting ones the library's stand.
    #[test]
    fn a_refusal_without_words_of_its_own_is_told_in_the_librarys() {
        let rows = [PriorityRow {
            first: 1,
            last: 10,
            reservation: 5,
        }];
        for error in [TableError::Row(0), TableError::Priority(4)] {
            let refusal = error.refusal();
            let message = format!("{} (refused with {})", refusal.meaning(), refusal.number());
            let problem = Problem { line: 3, message };
            assert_eq!(wrong(error, &rows, 1, &[3]), Wrong::Lines(vec![problem]));
        }
    }
}
