//! What occurred of changes of a reservation, so that a test can ask that all of it did.

use model::calls::Call;
use model::rule::{Scheduler, Thread, BLOCKED, NONE, WHOLE};

/// A change on a sound state, the thread's numbers being those before it.
pub struct Change {
    number: u64,
    amount: u64,
    answer: u32,
    old: u64,
    allotment: u64,
    /// The new quantum.
    quantum: u64,
    lag: i64,
    blocked: bool,
    /// The thread is a best-effort one, and it runs.
    best_effort: bool,
    runs: bool,
    /// Another thread is running.
    beside: bool,
    group: usize,
    /// A best-effort thread has its number as weight.
    weighed: bool,
    /// What the thread may have: what its group has free, and its old reservation.
    room: u64,
    /// What the group above has free.
    above: u64,
}

impl Change {
    fn accepted(&self) -> bool {
        self.answer == 0
    }

    /// The amount is one that some thread may have.
    fn in_range(&self) -> bool {
        (1..=WHOLE as u64).contains(&self.amount)
    }

    /// Accepted with all the room there is, and there is more than before.
    fn fills(&self) -> bool {
        self.accepted() && self.amount == self.room && self.room > self.old
    }

    /// Refused for one thousandth.
    fn exceeds(&self) -> bool {
        self.answer == 5 && self.amount == self.room + 1
    }
}

/// A sort of changes: its name, and which belong to it.
type Sort = (&'static str, fn(&Change) -> bool);

/// Every sort that a test asks for.
pub const SORTS: [Sort; 27] = [
    ("cut to the new quantum", |c| {
        c.accepted() && c.allotment > c.quantum
    }),
    ("cut by one tick", |c| {
        c.accepted() && c.allotment == c.quantum + 1
    }),
    ("the allotment is the new quantum", |c| {
        c.accepted() && c.allotment == c.quantum && c.amount != c.old
    }),
    ("smaller, and the allotment stays", |c| {
        c.accepted() && c.amount < c.old && c.allotment < c.quantum
    }),
    ("larger, and the allotment stays", |c| {
        c.accepted() && c.amount > c.old
    }),
    ("the same amount", |c| c.accepted() && c.amount == c.old),
    ("with a lag", |c| c.accepted() && c.lag != 0),
    ("of a blocked thread", |c| c.accepted() && c.blocked),
    ("while another runs", |c| c.accepted() && c.beside),
    ("in a group other than 0", |c| c.accepted() && c.group > 0),
    ("all the room of group 0", |c| c.fills() && c.group == 0),
    ("all the room of another", |c| c.fills() && c.group > 0),
    ("one more than group 0 has", |c| c.exceeds() && c.group == 0),
    ("one more than another has", |c| c.exceeds() && c.group > 0),
    ("larger below a full group", |c| {
        c.accepted() && c.amount > c.old && c.group > 0 && c.above == 0
    }),
    ("5 where the group above has room", |c| {
        c.answer == 5 && c.group > 0 && c.old + c.above >= c.amount
    }),
    ("4 for 0", |c| c.answer == 4 && c.amount == 0),
    ("4 for more than 1000", |c| {
        c.answer == 4 && c.amount > 1_000
    }),
    ("7 above 63", |c| c.answer == 7 && c.number > 63),
    ("7 for a number not admitted", |c| {
        c.answer == 7 && c.number < 64 && !c.best_effort
    }),
    ("7 for a best-effort thread", |c| {
        c.answer == 7 && c.best_effort && !c.runs
    }),
    ("7 for a best-effort thread that runs", |c| {
        c.answer == 7 && c.best_effort && c.runs
    }),
    ("7 for a best-effort thread, before 4", |c| {
        c.answer == 7 && c.best_effort && !c.in_range()
    }),
    (
        "while a best-effort thread has the group's number as weight",
        |c| c.accepted() && c.weighed,
    ),
    ("7 before 4", |c| c.answer == 7 && !c.in_range()),
    ("9", |c| c.answer == 9 && c.in_range()),
    ("9 before 4", |c| c.answer == 9 && !c.in_range()),
];

/// How often each of [`SORTS`] occurred.
#[derive(Clone, Copy, Default, PartialEq, Eq)]
pub struct Changes([u64; SORTS.len()]);

impl Changes {
    /// Counts a call made on a sound state, the one before it.
    pub fn call(&mut self, before: &Scheduler, call: Call, answer: u32) {
        let Call::Change {
            number,
            reservation,
        } = call
        else {
            return;
        };
        let change = change(before, number, reservation, answer);
        for (count, (_, is)) in self.0.iter_mut().zip(SORTS) {
            *count += is(&change) as u64;
        }
    }
}

counts_of!(Changes, SORTS);

fn change(s: &Scheduler, number: u64, amount: u64, answer: u32) -> Change {
    let t = s.threads.get(number as usize);
    let t = t.filter(|_| number < 64).unwrap_or(&Thread::UNUSED);
    let best_effort = t.is_best_effort();
    let group = if t.is_reserved() { t.group() } else { 0 };
    let mut others = s.threads.iter().filter(|t| t.is_best_effort());
    Change {
        number,
        amount,
        answer,
        old: t.reservation as u64,
        allotment: t.allotment as u64,
        quantum: amount.saturating_mul(s.settings.thousandth as u64),
        lag: s.lag(number).unwrap_or(0),
        blocked: t.status == BLOCKED,
        best_effort,
        runs: s.running as u64 == number,
        beside: s.running != NONE && s.running as u64 != number,
        group,
        weighed: others.any(|t| t.weight() == group as u64),
        room: free(s, group) + t.reservation as u64,
        above: free(s, s.groups[group].parent as usize % 16),
    }
}

/// What a group has free.
fn free(s: &Scheduler, group: usize) -> u64 {
    (s.groups[group].ceiling as u64).saturating_sub(s.taken(group) as u64)
}
