//! A table of priorities made of any bytes, and what the library and the model
//! answer under it.
//!
//! The bytes are a recipe, read from its end: runs of priorities one after the
//! other, which make a table that can be used, and then changes to it, of which
//! most leave one thing wrong.

use crate::compare::to_library_table;
use model::table::{asked, Line, Row, Table, ROWS};
use mtr::numbers;

/// Numbers at the edges of priorities, reservations and counts.
const EDGES: [u64; 16] = [
    0,
    1,
    2,
    5,
    9,
    10,
    11,
    257,
    999,
    1000,
    1001,
    1 << 16 | 5,
    1 << 32 | 1,
    1 << 32 | 10,
    1 << 63,
    u64::MAX,
];

/// The recipe's bytes from the rear, and 0 past its front.
struct Bytes<'a>(&'a [u8]);

impl Bytes<'_> {
    fn byte(&mut self) -> usize {
        match self.0.split_last() {
            Some((&last, rest)) => {
                self.0 = rest;
                last.into()
            }
            None => 0,
        }
    }

    fn edge(&mut self) -> u64 {
        EDGES[self.byte() % EDGES.len()]
    }
}

/// Runs of priorities from 1 to 10, in some order.
fn runs(bytes: &mut Bytes) -> Vec<Row> {
    let (mut rows, mut first) = (Vec::new(), 1);
    while first <= 10 {
        let byte = bytes.byte() as u64;
        let last = (first + byte % 16).min(10);
        let reservation = [1, 20, 20, 1000][byte as usize / 16 % 4];
        rows.push(Row {
            first,
            last,
            reservation,
        });
        first = last + 1;
    }
    let turn = bytes.byte() % rows.len();
    rows.rotate_left(turn);
    rows
}

/// One change of a table; false for none.
fn change(table: &mut Table, bytes: &mut Bytes) -> bool {
    let sort = bytes.byte();
    let row = bytes.byte() % ROWS;
    match sort % 8 {
        1 => table.rows[row].first = bytes.edge(),
        2 => table.rows[row].last = bytes.edge(),
        3 => table.rows[row].reservation = bytes.edge(),
        4 => table.count = bytes.edge(),
        5 => table.count = table.count.saturating_sub(1),
        6 => table.count = table.count.saturating_add(1),
        7 => table.rows[row] = table.rows[bytes.byte() % ROWS],
        _ => return false,
    }
    true
}

/// The table and the priority of a recipe.
pub fn table(recipe: &[u8]) -> (Table, u64) {
    let mut bytes = Bytes(recipe);
    let priority = match bytes.byte() {
        byte if byte % 4 == 3 => bytes.edge(),
        byte => 1 + byte as u64 / 4 % 10,
    };
    let rows = runs(&mut bytes);
    let mut table = Table {
        count: rows.len() as u64,
        ..Table::default()
    };
    table.rows[..rows.len()].copy_from_slice(&rows);
    for _ in 0..4 {
        if !change(&mut table, &mut bytes) {
            break;
        }
    }
    (table, priority)
}

/// What both answer for the recipe's table and priority.
pub fn compared(recipe: &[u8]) -> (Table, u64, Line) {
    let (table, priority) = table(recipe);
    let wanted = asked(&table, priority);
    let found = numbers::priority_under(to_library_table(&table), priority);
    assert_eq!(
        (found.answer, found.place, found.reservation),
        (wanted.answer, wanted.place, wanted.reservation),
        "{table:?}, {priority}"
    );
    (table, priority, wanted)
}
