//! The states that are measured, made by the model's calls.

use model::blocks::{fields, Record, RECORDS};
use model::rule::{Scheduler, BLOCK, METER_LIMIT, TICK};
use model::table::{Row, Table};

/// Reservation of each of n threads: all fit group 0 with 40 to spare, and half
/// of them fit 480.
pub fn reservation(n: u64) -> u64 {
    (960 / n.max(1)).min(480)
}

/// The threads 0 to n − 1 of a state, and where they stand.
#[derive(Clone, Copy)]
pub struct Shape {
    pub n: u64,
    /// All 16 groups are open, each below the one before, and every other
    /// reserved thread is in the last; else all are in group 0.
    pub deep: bool,
    /// The upper half of the threads are best-effort ones.
    pub mixed: bool,
}

impl Shape {
    /// n reserved threads in group 0.
    pub fn plain(n: u64) -> Shape {
        Shape {
            n,
            deep: false,
            mixed: false,
        }
    }

    /// How many of the threads are reserved.
    pub fn reserved(self) -> u64 {
        if self.mixed {
            self.n / 2
        } else {
            self.n
        }
    }

    /// Admits the threads.
    fn admit(self, s: &mut Scheduler) {
        for number in 0..self.reserved() {
            let group = if self.deep && number % 2 == 1 { 15 } else { 0 };
            assert_eq!(s.admit(number, group, reservation(self.n)), 0);
        }
        for number in self.reserved()..self.n {
            assert_eq!(s.admit_best_effort(number, weight(number)), 0);
        }
    }
}

/// The weight of a best-effort thread.
pub fn weight(number: u64) -> u64 {
    1 + number % 16
}

/// Default settings and runnable threads, the reserved ones listed by number.
pub fn threads(of: Shape) -> Scheduler {
    let mut s = chain(if of.deep { 15 } else { 0 }, 480);
    of.admit(&mut s);
    s
}

/// Groups 1 to `last`, each below the one before.
fn chain(last: u64, ceiling: u64) -> Scheduler {
    let mut s = Scheduler::default();
    for g in 1..=last {
        assert_eq!(s.open(g, g - 1, ceiling), 0);
    }
    s
}

/// Threads in group 0 above a chain of empty groups 1 to `last`.
pub fn above_groups(of: Shape, last: u64) -> Scheduler {
    let mut s = chain(last, 20);
    Shape { deep: false, ..of }.admit(&mut s);
    s
}

/// The first threads that a dispatch takes block: those of the list, then the
/// best-effort ones by number.
pub fn block_first(s: &mut Scheduler, blocked: u64) {
    for _ in 0..blocked {
        s.dispatch();
        assert_eq!(s.report(BLOCK, 0), 0);
    }
}

/// Threads of which this one runs.
pub fn running(of: Shape, thread: u64) -> Scheduler {
    let mut s = threads(of);
    block_first(&mut s, thread);
    assert_eq!(s.dispatch().thread as u64, thread);
    for number in 0..thread {
        assert_eq!(s.wake(number), 0);
    }
    s
}

/// The reserved threads are blocked and the best-effort ones runnable, with tags
/// that fall with the number: the last goes first.
pub fn left_over(of: Shape) -> Scheduler {
    let mut s = threads(of);
    block_first(&mut s, of.reserved());
    s.meter = 1;
    for number in of.reserved()..of.n {
        s.threads[number as usize].tag = of.n - number;
    }
    assert!(s.sound());
    s
}

/// Threads that have run for a while, so that the lags of the reserved ones
/// differ.
pub fn worn(of: Shape) -> Scheduler {
    let mut s = threads(of);
    for round in 0..3 * of.n {
        let reply = s.dispatch();
        let used = (reply.slice as u64).min(300 + 97 * (round % 11));
        assert_eq!(s.report(if round % 3 == 0 { 2 } else { TICK }, used), 0);
    }
    s
}

/// Threads whose lags fall or rise with the number, those of best-effort ones
/// aside, which are 0.
pub fn sloped(of: Shape, falling: bool) -> Scheduler {
    let mut s = threads(of);
    s.meter = METER_LIMIT;
    for k in 0..of.n {
        let behind = if falling { of.n - k } else { k + 1 };
        let t = &mut s.threads[k as usize];
        t.anchor = s.meter - 1_000_000 * behind;
        t.ticks = s.meter / 64;
    }
    s
}

/// Threads of equal lags whose reservations fall or rise with the number, those
/// of best-effort ones aside, as many different ones as fit: from 1 to nearly
/// twice the even share. 64 different ones are more than there is.
pub fn tiered(of: Shape, falling: bool) -> Scheduler {
    let mut s = threads(of);
    for k in 0..of.reserved() {
        let place = if falling { of.reserved() - 1 - k } else { k };
        let t = &mut s.threads[k as usize];
        t.reservation = (1 + place * (2 * reservation(of.n) - 1) / of.n) as u16;
        t.allotment = (t.reservation * s.settings.thousandth) as i32;
    }
    assert!(s.sound());
    s
}

/// A table of priorities of 1, 2, 5 or 10 rows, each with as many priorities,
/// from the lowest up or from the highest down.
pub fn even_table(count: usize, down: bool) -> Table {
    let size = 10 / count as u64;
    let mut table = Table {
        count: count as u64,
        ..Table::default()
    };
    let rows = &mut table.rows[..count];
    for (row, place) in rows.iter_mut().zip(0..) {
        *row = Row {
            first: 1 + size * place,
            last: size * (place + 1),
            reservation: 11 + place,
        };
    }
    if down {
        rows.reverse();
    }
    table
}

/// A full block's records, of every kind.
pub fn records() -> [Record; RECORDS] {
    std::array::from_fn(|i| {
        let i = i as u8;
        let kind = 1 + i % 10;
        let uses = fields(kind).unwrap_or_default();
        Record {
            kind,
            subject: if uses.subject { i } else { 0 },
            group: if uses.group { i / 2 } else { 0 },
            reason: if uses.reason { i % 4 } else { 0 },
            amount: if uses.amount { 20 * i as u16 } else { 0 },
            overrun: if uses.overrun { i as u16 } else { 0 },
            ticks: if uses.ticks { 20_000 } else { 0 },
        }
    })
}
