//! Priorities: the published mapping, and customers' own tables.

use core::error::Error;
use core::fmt;

use crate::refusal::accepted;
use crate::{numbers, raw, Refusal};

pub use crate::raw::PriorityRow;

/// The reservation of a priority of 1 to 10 where no table is given: the
/// highest, 10, has 20, each one below it one less; the normal one, 5, has 15;
/// the lowest, 1, has 11. Refused with [`Amount`](Refusal::Amount).
///
/// ```
/// assert_eq!(mtr::reservation_of(5), Ok(15));
/// assert_eq!(mtr::reservation_of(11), Err(mtr::Refusal::Amount));
/// ```
pub fn reservation_of(priority: u8) -> Result<u16, Refusal> {
    let mapped = numbers::priority(priority.into());
    accepted(mapped.answer)?;
    Ok(mapped.reservation as u16)
}

/// A customer's own table of priorities. It is made of rows that can be used
/// and of no others: 1 to 10 of them, each well formed, and each priority from
/// 1 to 10 in exactly one.
///
/// ```
/// use mtr::{PriorityRow, PriorityTable, TableError};
///
/// let row = |first, last, reservation| PriorityRow { first, last, reservation };
/// let table = PriorityTable::new(&[row(1, 7, 10), row(8, 10, 40)])?;
/// assert_eq!(table.reservation_of(7), Ok(10));
/// assert_eq!(table.reservation_of(8), Ok(40));
///
/// let gap = PriorityTable::new(&[row(1, 6, 10), row(8, 10, 40)]);
/// assert_eq!(gap, Err(TableError::Priority(7)));
/// let swapped = PriorityTable::new(&[row(1, 7, 10), row(10, 8, 40)]);
/// assert_eq!(swapped, Err(TableError::Row(1)));
/// # Ok::<(), TableError>(())
/// ```
#[derive(Clone, Copy, Debug, PartialEq, Eq)]
pub struct PriorityTable {
    table: raw::PriorityTable,
}

impl PriorityTable {
    /// The table of these rows, in any order.
    pub fn new(rows: &[PriorityRow]) -> Result<PriorityTable, TableError> {
        let mut table = raw::PriorityTable {
            count: rows.len() as u64,
            ..Default::default()
        };
        for (own, row) in table.rows.iter_mut().zip(rows) {
            *own = *row;
        }
        // Any priority of the range tells whether the table can be used.
        let line = numbers::priority_under(table, raw::LOWEST_PRIORITY);
        match line.answer {
            raw::ACCEPTED => Ok(PriorityTable { table }),
            raw::REFUSED_TABLE_ROW => Err(TableError::Row(line.place as usize)),
            raw::REFUSED_TABLE_COVER => Err(TableError::Priority(line.place as u8)),
            _ => Err(TableError::Count(rows.len())),
        }
    }

    /// The table that stands for [`reservation_of`]: a row for each priority,
    /// from the highest down.
    pub fn standard() -> PriorityTable {
        PriorityTable {
            table: numbers::standard_table(),
        }
    }

    /// Its rows, in the order in which they were given.
    pub fn rows(&self) -> &[PriorityRow] {
        &self.table.rows[..self.table.count as usize]
    }

    /// The reservation of a priority of 1 to 10 under this table. Refused with
    /// [`Amount`](Refusal::Amount).
    pub fn reservation_of(&self, priority: u8) -> Result<u16, Refusal> {
        let line = numbers::priority_under(self.table, priority.into());
        accepted(line.answer)?;
        Ok(line.reservation as u16)
    }
}

impl Default for PriorityTable {
    /// The standard table.
    fn default() -> Self {
        PriorityTable::standard()
    }
}

/// Why rows make no table that can be used: the first of these that applies.
#[derive(Clone, Copy, Debug, PartialEq, Eq, PartialOrd, Ord, Hash)]
pub enum TableError {
    /// There are so many rows, and not 1 to 10.
    Count(usize),
    /// The first row, from 0, that is upside down, or has a priority outside 1
    /// to 10 or a reservation outside 1 to 1000.
    Row(usize),
    /// The lowest priority that stands in no row or in several.
    Priority(u8),
}

impl TableError {
    /// The refusal that the library answers.
    pub const fn refusal(self) -> Refusal {
        match self {
            TableError::Count(_) => Refusal::Amount,
            TableError::Row(_) => Refusal::TableRow,
            TableError::Priority(_) => Refusal::TableCover,
        }
    }
}

impl fmt::Display for TableError {
    fn fmt(&self, f: &mut fmt::Formatter<'_>) -> fmt::Result {
        write!(f, "{}: ", self.refusal().number())?;
        match self {
            TableError::Count(rows) => write!(f, "a table has 1 to 10 rows, and not {rows}"),
            TableError::Row(row) => write!(
                f,
                "row {row} is upside down, or has a priority outside 1 to 10 or a reservation outside 1 to 1000"
            ),
            TableError::Priority(priority) => {
                write!(f, "priority {priority} stands in no row or in several")
            }
        }
    }
}

impl Error for TableError {}
