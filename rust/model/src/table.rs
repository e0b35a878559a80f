//! Customers' own priority tables.
//!
//! A row gives the priorities from its first to its last one reservation. In a
//! usable table every row is well formed and each priority of 1 to 10 stands in
//! exactly one.

use std::ops::RangeInclusive;

use crate::rule::{self, answer};

/// Rows of a table at most.
pub const ROWS: usize = 10;

const PRIORITIES: RangeInclusive<u64> = 1..=10;
const RESERVATIONS: RangeInclusive<u64> = 1..=1000;

#[derive(Clone, Copy, Debug, PartialEq, Eq, Default)]
pub struct Row {
    pub first: u64,
    pub last: u64,
    pub reservation: u64,
}

impl Row {
    /// Not upside down, both priorities and the reservation in their ranges.
    fn well_formed(&self) -> bool {
        self.first <= self.last
            && PRIORITIES.contains(&self.first)
            && PRIORITIES.contains(&self.last)
            && RESERVATIONS.contains(&self.reservation)
    }

    fn holds(&self, priority: u64) -> bool {
        self.first <= priority && priority <= self.last
    }
}

/// Any bit pattern. The first `count` entries are the table's rows; those past
/// the count are not looked at.
#[derive(Clone, Copy, Debug, PartialEq, Eq, Default)]
pub struct Table {
    pub rows: [Row; ROWS],
    pub count: u64,
}

/// What is answered if a table is asked for a priority.
#[derive(Clone, Copy, Debug, PartialEq, Eq, Default)]
pub struct Line {
    pub answer: u32,
    /// With 22 the row, with 23 the priority, else 0.
    pub place: u32,
    /// 0 in a refusal.
    pub reservation: u32,
}

impl Line {
    fn accepted(reservation: u32) -> Line {
        Line {
            answer: answer::ACCEPTED,
            place: 0,
            reservation,
        }
    }

    fn refused(answer: u32, place: u32) -> Line {
        Line {
            answer,
            place,
            reservation: 0,
        }
    }
}

/// The reservation of a priority under a table. In order: 4, the number of rows
/// is not 1 to 10; 22 with the first row, from 0, that is not well formed; 23
/// with the lowest priority in no row or in several; 4, the priority is not 1 to
/// 10.
pub fn asked(table: &Table, priority: u64) -> Line {
    if table.count < 1 || table.count > ROWS as u64 {
        return Line::refused(answer::AMOUNT, 0);
    }
    let rows = &table.rows[..table.count as usize];
    for (place, row) in rows.iter().enumerate() {
        if !row.well_formed() {
            return Line::refused(answer::ROW, place as u32);
        }
    }
    for p in PRIORITIES {
        if holding(rows, p).len() != 1 {
            return Line::refused(answer::PRIORITY, p as u32);
        }
    }
    if !PRIORITIES.contains(&priority) {
        return Line::refused(answer::AMOUNT, 0);
    }
    let row = holding(rows, priority)[0];
    Line::accepted(row.reservation as u32)
}

/// The rows that hold a priority.
fn holding(rows: &[Row], priority: u64) -> Vec<Row> {
    let mut held = rows.to_vec();
    held.retain(|row| row.holds(priority));
    held
}

/// The table that stands for the mapping without one, [`rule::priority`].
pub fn standard() -> Table {
    let row = |priority, reservation| Row {
        first: priority,
        last: priority,
        reservation,
    };
    Table {
        rows: [
            row(10, 20),
            row(9, 19),
            row(8, 18),
            row(7, 17),
            row(6, 16),
            row(5, 15),
            row(4, 14),
            row(3, 13),
            row(2, 12),
            row(1, 11),
        ],
        count: 10,
    }
}

/// The reservation of a priority under a table, or by [`rule::priority`] if none
/// is given.
pub fn given(table: Option<&Table>, priority: u64) -> Line {
    match table {
        Some(table) => asked(table, priority),
        None => match rule::priority(priority) {
            Ok(reservation) => Line::accepted(reservation),
            Err(refusal) => Line::refused(refusal, 0),
        },
    }
}
