//! The lab's side of the controller: programs that the lab imports, in a group
//! of their own. A program comes with a priority, and what the priority is worth
//! stands in the lab's own table.

use mtr::{PriorityRow, PriorityTable, TableError};

/// The group and its ceiling.
pub const LAB: u8 = 1;
pub const LAB_CEILING: u16 = 150;

const fn row(first: u64, last: u64, reservation: u64) -> PriorityRow {
    PriorityRow {
        first,
        last,
        reservation,
    }
}

/// The tables that the lab sends at power-up.
const SENT: [[PriorityRow; 2]; 2] = [
    // 6 is in no row.
    [row(1, 5, 50), row(7, 10, 100)],
    [row(1, 5, 50), row(6, 10, 100)],
];

/// The lab's table at power-up: the standard one until the lab has sent one that
/// can be used, here at its second attempt. One that can't be is refused with its
/// place, and the one before it stays.
pub fn table() -> PriorityTable {
    let mut table = PriorityTable::standard();
    for rows in &SENT {
        match PriorityTable::new(rows) {
            Ok(sent) => table = sent,
            Err(error) => {
                let (refusal, place) = (error.refusal(), place(error));
                let (number, meaning) = (refusal.number(), refusal.meaning());
                eprintln!("controller: the lab's table is refused, {number} at {place}: {meaning}");
            }
        }
    }
    table
}

/// The row or the priority of a table that can't be used; 0 where it is neither.
fn place(error: TableError) -> usize {
    match error {
        TableError::Count(_) => 0,
        TableError::Row(row) => row,
        TableError::Priority(priority) => priority.into(),
    }
}

#[cfg(test)]
mod tests {
    use super::*;

    /// The first table is refused at 6, the second is the one in force.
    #[test]
    fn the_second_is_taken() {
        let errors = SENT.map(|rows| PriorityTable::new(&rows).err());
        assert_eq!(errors, [Some(TableError::Priority(6)), None]);
        assert_eq!(errors[0].map(place), Some(6));
        let table = table();
        assert_eq!(table.rows(), SENT[1]);
        assert_eq!(
            (table.reservation_of(3), table.reservation_of(8)),
            (Ok(50), Ok(100))
        );
    }
}
