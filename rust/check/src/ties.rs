//! The roster's order by its meaning, and what occurred of equal lags, so that a test can ask that all of it did.

use model::accounts::Entry;
use model::rule::{Scheduler, Thread};

/// A record of a roster with its thread.
#[derive(Clone, Copy)]
struct Row<'a> {
    entry: &'a Entry,
    thread: &'a Thread,
    runs: bool,
}

impl Row<'_> {
    fn best_effort(&self) -> bool {
        self.thread.is_best_effort()
    }

    /// What the order counts as its reservation.
    fn counts_as(&self) -> u16 {
        if self.best_effort() {
            0
        } else {
            self.thread.reservation
        }
    }

    /// Of a best-effort thread.
    fn weight(&self) -> u16 {
        self.thread.group_or_weight.into()
    }
}

/// Two records that follow each other and have equal lags.
pub struct Tie<'a> {
    first: Row<'a>,
    second: Row<'a>,
}

impl Tie<'_> {
    fn both_reserved(&self) -> bool {
        !self.first.best_effort() && !self.second.best_effort()
    }

    fn both_best_effort(&self) -> bool {
        self.first.best_effort() && self.second.best_effort()
    }

    /// A best-effort thread and a reserved one.
    fn mixed(&self) -> bool {
        self.first.best_effort() && !self.second.best_effort()
    }

    fn equal(&self) -> bool {
        self.first.counts_as() == self.second.counts_as()
    }

    /// The number alone would put them the other way round.
    fn higher_first(&self) -> bool {
        self.first.entry.number > self.second.entry.number
    }

    fn at_zero(&self) -> bool {
        self.first.entry.lag == 0
    }
}

/// A sort of ties: its name, and which belong to it.
type Sort = (&'static str, fn(&Tie) -> bool);

/// Every sort that a test asks for.
pub const SORTS: [Sort; 12] = [
    ("smaller reservation, lower number", |t| {
        t.both_reserved() && !t.equal() && !t.higher_first()
    }),
    ("smaller reservation, higher number", |t| {
        t.both_reserved() && t.higher_first()
    }),
    ("smaller reservation by one", |t| {
        t.both_reserved() && t.first.counts_as() + 1 == t.second.counts_as()
    }),
    ("smaller reservation at a lag above 0", |t| {
        t.first.entry.lag > 0 && !t.equal()
    }),
    ("smaller reservation at a lag below 0", |t| {
        t.first.entry.lag < 0 && !t.equal()
    }),
    ("equal reservations", |t| t.both_reserved() && t.equal()),
    ("equal reservations at a lag other than 0", |t| {
        t.equal() && !t.at_zero()
    }),
    ("best-effort before reserved, higher number", |t| {
        t.mixed() && t.higher_first()
    }),
    ("best-effort before reserved, weight above it", |t| {
        t.mixed() && t.first.weight() > t.second.counts_as()
    }),
    ("two best-effort, the heavier first", |t| {
        t.both_best_effort() && t.first.weight() > t.second.weight()
    }),
    ("one runs", |t| t.first.runs || t.second.runs),
    ("best-effort with an allotment in its entry", |t| {
        t.first.best_effort() && t.first.thread.allotment != 0
    }),
];

/// How often each of [`SORTS`] occurred.
#[derive(Clone, Copy, Default, PartialEq, Eq)]
pub struct Ties([u64; SORTS.len()]);

counts_of!(Ties, SORTS);

impl Ties {
    /// Counts the ties of a sound state's roster.
    ///
    /// # Panics
    ///
    /// If of two records the first has the smaller lag, or the same and the larger reservation, or the same of both and not
    /// the lower number.
    pub fn roster(&mut self, s: &Scheduler, entries: &[Entry]) {
        for pair in entries.windows(2) {
            let [first, second] = [&pair[0], &pair[1]].map(|entry| Row {
                entry,
                thread: &s.threads[entry.number as usize],
                runs: s.running == entry.number,
            });
            if pair[0].lag != pair[1].lag {
                assert!(pair[0].lag > pair[1].lag, "{pair:?}");
                continue;
            }
            let (less, more) = (first.counts_as(), second.counts_as());
            let numbers = pair[0].number < pair[1].number;
            assert!(less < more || less == more && numbers, "{pair:?} {s:?}");
            let tie = Tie { first, second };
            for (count, (_, is)) in self.0.iter_mut().zip(SORTS) {
                *count += is(&tie) as u64;
            }
        }
    }
}
