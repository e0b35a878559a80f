//! What occurred of tables of priorities, so that a test can ask that all of it did.

use model::table::{Line, Table, ROWS};
use std::collections::BTreeMap;

/// A sort of answers: the number, the place and the cause. An accepted one has the number of rows for a place.
pub type Sort = (u32, u32, &'static str);

/// Every sort that there is.
pub fn sorts() -> Vec<Sort> {
    let mut all = Vec::new();
    all.extend((1..=10).map(|rows| (0, rows, "rows")));
    all.extend(["no row", "too many rows", "asked outside"].map(|cause| (4, 0, cause)));
    for cause in ["upside down", "priority", "reservation"] {
        all.extend((0..10).map(|row| (22, row, cause)));
    }
    for cause in ["in none", "in several"] {
        all.extend((1..=10).map(|priority| (23, priority, cause)));
    }
    all.sort_unstable();
    all
}

/// How often each sort occurred.
#[derive(Clone, Debug, Default, PartialEq, Eq)]
pub struct Tables {
    sorts: BTreeMap<Sort, u64>,
    /// Of the refusals with 22 and 23 those where the priority asked for is outside 1 to 10 as well.
    pub outside: u64,
}

impl Tables {
    /// Counts what the model answers.
    pub fn line(&mut self, table: &Table, priority: u64, line: Line) {
        *self.sorts.entry(sort(table, line)).or_default() += 1;
        let outside = !(1..=10).contains(&priority);
        self.outside += (line.answer > 4 && outside) as u64;
    }

    /// The sorts that occurred, by number, place and cause.
    pub fn seen(&self) -> Vec<Sort> {
        self.sorts.keys().copied().collect()
    }

    /// Those of these sorts that occurred less often than this.
    pub fn rarer(&self, of: &[Sort], times: u64) -> Vec<Sort> {
        let count = |sort: &Sort| self.sorts.get(sort).copied().unwrap_or(0);
        let rare = of.iter().filter(|sort| count(sort) < times);
        rare.copied().collect()
    }
}

fn sort(table: &Table, line: Line) -> Sort {
    let cause = match line.answer {
        0 => return (0, table.count as u32, "rows"),
        4 if table.count == 0 => "no row",
        4 if table.count > ROWS as u64 => "too many rows",
        4 => "asked outside",
        22 => {
            let bad = &table.rows[line.place as usize];
            match (bad.first > bad.last, bad.first == 0 || bad.last > 10) {
                (true, _) => "upside down",
                (false, true) => "priority",
                (false, false) => "reservation",
            }
        }
        _ => {
            let place = u64::from(line.place);
            let rows = &table.rows[..table.count as usize];
            match rows.iter().any(|r| (r.first..=r.last).contains(&place)) {
                true => "in several",
                false => "in none",
            }
        }
    };
    (line.answer, line.place, cause)
}
