//! Priorities: the published mapping, and customers' own tables, which are made of usable rows alone.

use mtr::{numbers, raw, reservation_of, PriorityRow, PriorityTable, Refusal, TableError};

const fn row(first: u64, last: u64, reservation: u64) -> PriorityRow {
    PriorityRow {
        first,
        last,
        reservation,
    }
}

/// A row for each priority, from the lowest up, with ten times its number.
fn single() -> [PriorityRow; 10] {
    std::array::from_fn(|i| row(i as u64 + 1, i as u64 + 1, 10 * (i as u64 + 1)))
}

const THREE: [PriorityRow; 3] = [row(8, 10, 40), row(1, 3, 1), row(4, 7, 1000)];

fn error(rows: &[PriorityRow]) -> TableError {
    PriorityTable::new(rows).unwrap_err()
}

/// The reservations of 1 to 10, and all other numbers refused.
fn mapped(of: impl Fn(u8) -> Result<u16, Refusal>) -> Vec<u16> {
    for priority in (0..=0).chain(11..=u8::MAX) {
        assert_eq!(of(priority), Err(Refusal::Amount), "{priority}");
    }
    (1..=10).map(|priority| of(priority).unwrap()).collect()
}

/// One row, some and as many as there can be, as they are given.
#[test]
fn of_usable_rows() {
    for (rows, wanted) in [
        (&[row(1, 10, 7)][..], vec![7; 10]),
        (&THREE, vec![1, 1, 1, 1000, 1000, 1000, 1000, 40, 40, 40]),
        (&single(), (1..=10).map(|p| 10 * p).collect()),
    ] {
        let table = PriorityTable::new(rows).unwrap();
        assert_eq!(table.rows(), rows);
        assert_eq!(mapped(|priority| table.reservation_of(priority)), wanted);
    }
}

#[test]
fn the_standard_table() {
    let table = PriorityTable::standard();
    assert_eq!(table, PriorityTable::default());
    let wanted: Vec<u16> = (11..=20).collect();
    assert_eq!(mapped(reservation_of), wanted);
    assert_eq!(mapped(|priority| table.reservation_of(priority)), wanted);
    // From the highest down, and of these rows the same table is made.
    let rows: Vec<PriorityRow> = (1..=10).rev().map(|p| row(p, p, 10 + p)).collect();
    assert_eq!(table.rows(), rows);
    assert_eq!(PriorityTable::new(table.rows()), Ok(table));
}

/// Each cause is told with its place, the first that applies.
#[test]
fn of_no_other_rows() {
    assert_eq!(error(&[]), TableError::Count(0));
    // The first ten alone could be used. Before anything that is wrong with a row.
    let eleven = [&single()[..], &[row(1, 1, 1)]].concat();
    assert_eq!(error(&eleven), TableError::Count(11));
    assert_eq!(error(&[row(0, 0, 0); 11]), TableError::Count(11));
    // A number that is 10 once cut to 8 bits.
    assert_eq!(error(&[row(1, 10, 7); 266]), TableError::Count(266));

    for place in [0, 5, 9] {
        let p = place as u64 + 1;
        for bad in [row(p + 1, p, 10), row(p, p, 1001), row(u64::MAX, p, 10)] {
            let mut rows = single();
            rows[place] = bad;
            assert_eq!(error(&rows), TableError::Row(place), "{bad:?}");
            // The first of them, and before a priority that is in no row.
            rows[9] = row(0, 0, 0);
            assert_eq!(error(&rows[..]), TableError::Row(place), "{bad:?}");
            assert_eq!(error(&rows[..=place]), TableError::Row(place), "{bad:?}");
        }
        let mut rest = single().to_vec();
        rest.remove(place);
        assert_eq!(error(&rest), TableError::Priority(p as u8));
        let twice = [row(1, 10, 7), row(p, p, 7)];
        assert_eq!(error(&twice), TableError::Priority(p as u8));
    }
}

#[test]
fn texts() {
    for (error, refusal, text) in [
        (
            TableError::Count(11),
            Refusal::Amount,
            "4: a table has 1 to 10 rows, and not 11",
        ),
        (
            TableError::Row(9),
            Refusal::TableRow,
            "22: row 9 is upside down, or has a priority outside 1 to 10 or a reservation outside 1 to 1000",
        ),
        (
            TableError::Priority(7),
            Refusal::TableCover,
            "23: priority 7 stands in no row or in several",
        ),
    ] {
        assert_eq!(error.refusal(), refusal);
        let error: Box<dyn std::error::Error> = Box::new(error);
        assert_eq!(error.to_string(), text);
    }
}

/// The numbers below the types: a refusal goes with its place.
#[test]
fn the_numbers_below() {
    let mut table = raw::PriorityTable {
        count: 3,
        ..raw::PriorityTable::default()
    };
    table.rows[..3].copy_from_slice(&THREE);
    let asked = |table, priority| numbers::priority_under(table, priority).result();
    assert_eq!(asked(table, 10), Ok(40));
    assert_eq!(asked(table, 0), Err((4, 0)));
    table.rows[1].last = 2;
    assert_eq!(asked(table, 10), Err((23, 3)));
}
