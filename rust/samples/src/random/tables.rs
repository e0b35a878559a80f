//! Priority tables.

use super::Rng;
use model::table::{standard, Row, Table, ROWS};

/// Numbers at edges.
const EDGES: [u64; 10] = [
    0,
    1,
    10,
    11,
    1000,
    1001,
    1 << 32,
    (1 << 32) + 1,
    1 << 63,
    u64::MAX,
];

/// A usable table: 1 to 10 parted into runs, the rows in any order, and anything
/// in the entries past the count.
pub fn usable_table(r: &mut Rng) -> Table {
    let rows = usable_rows(r);
    table_of(r, &rows)
}

/// For each damage a table that is usable but for it.
pub fn damaged_tables(r: &mut Rng) -> Vec<(&'static str, Table)> {
    let mut out = Vec::new();
    for (name, damage) in DAMAGES {
        let mut rows = usable_rows(r);
        damage(r, &mut rows);
        out.push((name, table_of(r, &rows)));
    }
    out.push(("a wrong count", miscounted(r)));
    out
}

/// A table of any sort.
pub fn any_table(r: &mut Rng) -> Table {
    let mut rows = match r.below(16) {
        0 => return standard(),
        1 => return miscounted(r),
        2 => return any_bits(r),
        // Rows that are well formed.
        3 => rows_by(r, formed_row),
        // Rows of small numbers.
        4 => rows_by(r, small_row),
        // Rows of numbers at edges.
        5 => rows_by(r, edge_row),
        _ => usable_rows(r),
    };
    match r.below(16) {
        0..=4 => {}
        // A number of a row replaced by one at an edge.
        5 | 6 => {
            let place = any_place(r, &rows);
            let with = r.pick(&EDGES);
            *field(r, &mut rows[place]) = with;
        }
        // A number that is the old one once cut to 8, 16 or 32 bits.
        7 => {
            let place = any_place(r, &rows);
            let above = 1 << r.pick(&[8, 16, 32, 32]);
            let number = field(r, &mut rows[place]);
            *number = number.wrapping_add(above);
        }
        // Several damages.
        8 | 9 => {
            for _ in 0..r.range(2, 4) {
                one_damage(r, &mut rows);
            }
        }
        _ => one_damage(r, &mut rows),
    }
    table_of(r, &rows)
}

/// A priority to ask for.
pub fn asked_priority(r: &mut Rng) -> u64 {
    match r.below(10) {
        0 => r.pick(&[0, 11]),
        1 => r.pick(&EDGES),
        // Of 1 to 10 once cut to 8, 16 or 32 bits.
        2 => (1 << r.pick(&[8, 16, 32, 32])) + r.range(1, 10),
        3 => r.bits(),
        _ => r.range(1, 10),
    }
}

/// Rows of a usable table.
fn usable_rows(r: &mut Rng) -> Vec<Row> {
    let mut cuts: [u64; 9] = [1, 2, 3, 4, 5, 6, 7, 8, 9];
    r.shuffle(&mut cuts);
    let mut ends = cuts[..r.edgy(0, 9) as usize].to_vec();
    ends.push(10);
    ends.sort();
    let mut rows = Vec::new();
    let mut first = 1;
    for last in ends {
        rows.push(Row {
            first,
            last,
            reservation: reservation(r),
        });
        first = last + 1;
    }
    r.shuffle(&mut rows);
    rows
}

/// Of 1 to 1000, and often one that another row has too.
fn reservation(r: &mut Rng) -> u64 {
    match r.below(3) {
        0 => r.pick(&[1, 10, 11, 20, 1000]),
        1 => r.edgy(1, 1000),
        _ => r.range(1, 1000),
    }
}

/// 1 to 10 rows.
fn rows_by(r: &mut Rng, row: fn(&mut Rng) -> Row) -> Vec<Row> {
    (0..r.range(1, 10)).map(|_| row(r)).collect()
}

fn formed_row(r: &mut Rng) -> Row {
    let first = r.range(1, 10);
    Row {
        first,
        last: first + r.below(11 - first),
        reservation: reservation(r),
    }
}

fn small_row(r: &mut Rng) -> Row {
    let first = r.below(12);
    Row {
        first,
        last: r.range(first.saturating_sub(1), 11),
        reservation: r.edgy(0, 1001),
    }
}

fn edge_row(r: &mut Rng) -> Row {
    Row {
        first: r.pick(&EDGES),
        last: r.pick(&EDGES),
        reservation: r.pick(&EDGES),
    }
}

fn bits_row(r: &mut Rng) -> Row {
    Row {
        first: r.bits(),
        last: r.bits(),
        reservation: r.bits(),
    }
}

fn any_bits(r: &mut Rng) -> Table {
    let mut table = Table {
        rows: [Row::default(); ROWS],
        count: if r.chance(1, 3) {
            r.bits()
        } else {
            r.below(12)
        },
    };
    for row in &mut table.rows {
        *row = bits_row(r);
    }
    table
}

/// What the entries past a table's rows hold.
const REST: [fn(&mut Rng) -> Row; 4] = [|_| Row::default(), bits_row, edge_row, formed_row];

/// The table of these rows, of which at most ten have an entry. The entries past
/// them hold anything.
fn table_of(r: &mut Rng, rows: &[Row]) -> Table {
    let rest = r.pick(&REST);
    let mut table = Table {
        count: rows.len() as u64,
        ..Table::default()
    };
    for (i, entry) in table.rows.iter_mut().enumerate() {
        *entry = match rows.get(i) {
            Some(row) => *row,
            None => rest(r),
        };
    }
    table
}

/// A table that is usable but for its count.
fn miscounted(r: &mut Rng) -> Table {
    let mut table = usable_table(r);
    let right = table.count;
    table.count = match r.below(9) {
        0 => 0,
        1 => 11,
        2 => u64::MAX,
        3 => right - 1,
        4 => right + 1,
        // The right one once cut to 8, 16 or 32 bits.
        5 | 6 => right + (1 << r.pick(&[8, 16, 32, 32])),
        7 => r.range(12, u64::MAX),
        _ => r.below(right),
    };
    table
}

fn any_place(r: &mut Rng, rows: &[Row]) -> usize {
    r.below(rows.len() as u64) as usize
}

fn field<'a>(r: &mut Rng, row: &'a mut Row) -> &'a mut u64 {
    match r.below(3) {
        0 => &mut row.first,
        1 => &mut row.last,
        _ => &mut row.reservation,
    }
}

/// Changes rows; after one of these a usable table is not usable.
type Damage = fn(&mut Rng, &mut Vec<Row>);

const DAMAGES: [(&str, Damage); 9] = [
    ("an end moved", |r, rows| move_end(r, rows)),
    ("a row upside down", |r, rows| turn(r, rows)),
    ("a reservation of 0", |r, rows| reserve(r, rows, 0)),
    ("a reservation of 1001", |r, rows| reserve(r, rows, 1001)),
    ("a huge reservation", |r, rows| {
        let huge = match r.below(3) {
            0 => r.pick(&[u32::MAX as u64, u64::MAX]),
            // Of 1 to 1000 once cut to 16 or 32 bits.
            1 => (1 << r.pick(&[16, 32])) + r.range(1, 1000),
            _ => r.range(1002, u64::MAX),
        };
        reserve(r, rows, huge)
    }),
    ("a row dropped", drop_row),
    ("a row doubled", double),
    ("an overlap of equal reservations", overlap),
    ("a gap", gap),
];

/// Does nothing where no row is left.
fn one_damage(r: &mut Rng, rows: &mut Vec<Row>) {
    if !rows.is_empty() {
        let (_, damage) = r.pick(&DAMAGES);
        damage(r, rows);
    }
}

/// Mostly by one.
fn move_end(r: &mut Rng, rows: &mut [Row]) {
    let place = any_place(r, rows);
    let row = &mut rows[place];
    let end = if r.chance(1, 2) {
        &mut row.first
    } else {
        &mut row.last
    };
    let by = r.pick(&[1, 1, 1, 2, 5]);
    *end = if r.chance(1, 2) {
        end.wrapping_add(by)
    } else {
        end.wrapping_sub(by)
    };
}

fn turn(r: &mut Rng, rows: &mut [Row]) {
    let place = any_place(r, rows);
    let row = &mut rows[place];
    if row.first != row.last {
        std::mem::swap(&mut row.first, &mut row.last);
    } else if row.first < 10 {
        row.first += 1;
    } else {
        row.last -= 1;
    }
}

fn reserve(r: &mut Rng, rows: &mut [Row], reservation: u64) {
    let place = any_place(r, rows);
    rows[place].reservation = reservation;
}

fn drop_row(r: &mut Rng, rows: &mut Vec<Row>) {
    let place = any_place(r, rows);
    rows.remove(place);
}

/// In place of another one where ten rows are there.
fn double(r: &mut Rng, rows: &mut Vec<Row>) {
    let row = rows[any_place(r, rows)];
    if rows.len() < ROWS {
        let at = r.below(rows.len() as u64 + 1) as usize;
        rows.insert(at, row);
    } else {
        let others: Vec<usize> = (0..rows.len()).filter(|&i| rows[i] != row).collect();
        if !others.is_empty() {
            rows[r.pick(&others)] = row;
        }
    }
}

/// A row reaches into others, and all of them have its reservation. A row that
/// is alone gets another one inside.
fn overlap(r: &mut Rng, rows: &mut Vec<Row>) {
    let place = any_place(r, rows);
    let mut row = rows[place];
    if rows.len() == 1 {
        let p = r.range(row.first, row.last);
        let inner = Row {
            first: p,
            last: p,
            ..row
        };
        rows.insert(r.below(2) as usize, inner);
        return;
    }
    // The neighbour below or above, or any row.
    let mut others: Vec<Row> = rows.clone();
    others.remove(place);
    let near = |o: &Row| o.first == row.last.wrapping_add(1) || o.last.wrapping_add(1) == row.first;
    if r.chance(3, 4) && others.iter().any(near) {
        others.retain(near);
    }
    let other = r.pick(&others);
    if other.first > row.last {
        row.last = r.range(other.first, other.last);
    } else {
        row.first = r.range(other.first, other.last);
    }
    rows[place] = row;
    for o in rows.iter_mut() {
        if o.first <= row.last && row.first <= o.last {
            o.reservation = row.reservation;
        }
    }
}

/// A row loses an end, or is dropped where all rows have one priority each.
fn gap(r: &mut Rng, rows: &mut Vec<Row>) {
    let long: Vec<usize> = (0..rows.len())
        .filter(|&i| rows[i].first < rows[i].last)
        .collect();
    if long.is_empty() {
        return drop_row(r, rows);
    }
    let row = &mut rows[r.pick(&long)];
    if r.chance(1, 2) {
        row.first += 1;
    } else {
        row.last -= 1;
    }
}
