//! A priority under a table as one would write it: the model's answer without its lists.

use model::table::{Line, Row, Table};

/// The reservation of a priority under a table, or the refusal and its place.
#[inline(never)]
pub fn under(table: &Table, priority: u64) -> Line {
    let n @ 1..=10 = table.count else {
        return refused(4, 0);
    };
    let rows = &table.rows[..n as usize];
    if let Some(place) = rows.iter().position(|row| !formed(row)) {
        return refused(22, place as u32);
    }
    for p in 1..=10 {
        if rows.iter().filter(|row| holds(row, p)).count() != 1 {
            return refused(23, p as u32);
        }
    }
    match rows.iter().find(|row| holds(row, priority)) {
        Some(row) => Line {
            answer: 0,
            place: 0,
            reservation: row.reservation as u32,
        },
        None => refused(4, 0),
    }
}

fn formed(row: &Row) -> bool {
    let ends = 1 <= row.first && row.first <= row.last && row.last <= 10;
    ends && 1 <= row.reservation && row.reservation <= 1000
}

fn holds(row: &Row, priority: u64) -> bool {
    row.first <= priority && priority <= row.last
}

fn refused(answer: u32, place: u32) -> Line {
    Line {
        answer,
        place,
        reservation: 0,
    }
}
