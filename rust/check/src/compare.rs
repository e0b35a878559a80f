//! The library beside the model: the same call on both, asserted equal.
//!
//! States are held as the model's. The library's are made from them field by
//! field, and what it hands back is read field by field, so that every number
//! of a state is compared, and then byte by byte.

#![forbid(unsafe_code)]

use crate::best_effort::BestEffort;
use crate::bytes;
use crate::changes::Changes;
use crate::late::Late;
use model::accounts::Entry;
use model::blocks::{kind, Record};
use model::calls::{self, Call};
use model::rule::{self, Group, Reply, Scheduler, Settings, Thread};
use model::table::{Line, Row, Table};
use mtr::numbers;

/// The state made of the types of a module, each field from that of its name.
macro_rules! state {
    ($side:ident, $s:expr) => {
        $side::Scheduler {
            threads: $s.threads.map(|t| $side::Thread {
                admission: t.admission,
                anchor: t.anchor,
                ticks: t.ticks,
                since: t.since,
                allotment: t.allotment,
                reservation: t.reservation,
                group_or_weight: t.group_or_weight,
                status: t.status,
                tag: t.tag,
            }),
            order: $s.order,
            groups: $s.groups.map(|g| $side::Group {
                ceiling: g.ceiling,
                parent: g.parent,
                opened: g.opened,
            }),
            meter: $s.meter,
            time: $s.time,
            settings: $side::Settings {
                interval: $s.settings.interval,
                thousandth: $s.settings.thousandth,
                overrun: $s.settings.overrun,
            },
            count: $s.count,
            running: $s.running,
        }
    };
}

/// The state as the library takes it.
pub fn to_library(s: &Scheduler) -> numbers::Scheduler {
    state!(numbers, s)
}

/// A state of the library's as the model holds it.
pub fn to_model(s: &numbers::Scheduler) -> Scheduler {
    state!(rule, s)
}

/// A record as the library takes it.
pub fn to_library_record(record: &Record) -> numbers::Record {
    numbers::Record {
        kind: record.kind,
        subject: record.subject,
        group: record.group,
        reason: record.reason,
        amount: record.amount,
        overrun: record.overrun,
        ticks: record.ticks,
    }
}

/// A record of the library's as the model holds it.
pub fn to_model_record(record: &numbers::Record) -> Record {
    Record {
        kind: record.kind,
        subject: record.subject,
        group: record.group,
        reason: record.reason,
        amount: record.amount,
        overrun: record.overrun,
        ticks: record.ticks,
    }
}

/// A table of priorities as the library takes it.
pub fn to_library_table(table: &Table) -> numbers::PriorityTable {
    numbers::PriorityTable {
        rows: table.rows.map(|row| numbers::PriorityRow {
            first: row.first,
            last: row.last,
            reservation: row.reservation,
        }),
        count: table.count,
    }
}

/// A table of the library's as the model holds it.
pub fn to_model_table(table: &numbers::PriorityTable) -> Table {
    Table {
        rows: table.rows.map(|row| Row {
            first: row.first,
            last: row.last,
            reservation: row.reservation,
        }),
        count: table.count,
    }
}

/// What a priority has under a table, as the library answers it.
pub fn to_library_line(line: Line) -> numbers::PriorityLine {
    numbers::PriorityLine {
        answer: line.answer,
        place: line.place,
        reservation: line.reservation,
    }
}

/// An entry of the library's roster as the model holds it.
pub fn to_model_entry(entry: &numbers::Entry) -> Entry {
    Entry {
        number: entry.number,
        state: entry.state,
        allotment: entry.allotment,
        share: entry.share,
        lag: entry.lag,
    }
}

/// The state whose fields are all 0, which a refused start has.
pub const ZEROS: Scheduler = Scheduler {
    threads: [Thread::UNUSED; 64],
    order: [0; 64],
    groups: [Group::CLOSED; 16],
    meter: 0,
    time: 0,
    settings: Settings {
        interval: 0,
        thousandth: 0,
        overrun: 0,
    },
    count: 0,
    running: 0,
};

/// What the library answers to a call.
pub fn made(state: numbers::Scheduler, call: Call) -> numbers::Reply {
    match call {
        Call::Open {
            number,
            parent,
            ceiling,
        } => numbers::open(state, number, parent, ceiling),
        Call::Close { number } => numbers::close(state, number),
        Call::Admit {
            number,
            group,
            reservation,
        } => numbers::admit(state, number, group, reservation),
        Call::Remove { number } => numbers::remove(state, number),
        Call::Wake { number } => numbers::wake(state, number),
        Call::Dispatch => numbers::dispatch(state),
        Call::Report { reason, used } => numbers::report(state, reason, used),
        Call::Change {
            number,
            reservation,
        } => numbers::change(state, number, reservation),
        Call::AdmitBestEffort { number, weight } => {
            numbers::admit_best_effort(state, number, weight)
        }
    }
}

/// Reply and state of a call of the library's.
pub fn library(s: &Scheduler, call: Call) -> (Reply, Scheduler) {
    parts(&made(to_library(s), call))
}

fn parts(reply: &numbers::Reply) -> (Reply, Scheduler) {
    let numbers = Reply {
        answer: reply.answer,
        thread: reply.thread,
        slice: reply.slice,
        before: reply.before,
    };
    (numbers, to_model(&reply.state))
}

/// Makes the call on both sides. The replies and the states after it are the
/// same, number by number and byte by byte, and a refusal leaves the state as
/// it was.
pub fn both(s: &mut Scheduler, call: Call) -> Reply {
    let before = *s;
    let made = made(to_library(&before), call);
    let (reply, after) = parts(&made);
    let wanted = calls::apply(s, call);
    assert!(
        reply == wanted && after == *s,
        "{call:?}\nthe library's {reply:?}\nthe model's   {wanted:?}\nin {before:?}\nthe library's {after:?}\nthe model's   {s:?}"
    );
    assert!(
        bytes::of(&made) == bytes::reply(&wanted, s),
        "{call:?}: bytes"
    );
    if reply.answer != 0 {
        assert_eq!(reply, Reply::plain(reply.answer));
        assert!(after == before, "{call:?} changed the state");
    }
    reply
}

/// Runs a record on both sides; an accepted start replaces the state.
///
/// # Panics
///
/// If its kind is no call's, and where something differs.
pub fn step(s: &mut Scheduler, r: &Record) -> Reply {
    if r.kind == kind::START {
        let started = start(r.amount as u64, r.ticks as u64, r.overrun as u64);
        *s = started.unwrap_or(*s);
        return Reply::plain(started.err().unwrap_or(0));
    }
    both(s, calls::recorded(r).expect("a call's record"))
}

/// Starts both sides. A refused start has a state of zeros.
pub fn start(m: u64, p: u64, o: u64) -> Result<Scheduler, u32> {
    let made = numbers::start(m, p, o);
    let (reply, state) = parts(&made);
    assert_eq!(reply, Reply::plain(reply.answer));
    let wanted = Scheduler::start(m, p, o);
    let (answer, after) = match wanted {
        Ok(s) => (0, s),
        Err(refusal) => (refusal, ZEROS),
    };
    assert!(
        reply.answer == answer && state == after,
        "start {m} {p} {o}: {made:?}"
    );
    assert!(bytes::of(&made) == bytes::reply(&Reply::plain(answer), &after));
    wanted
}

/// The soundness test on both sides.
pub fn sound(s: &Scheduler) -> bool {
    let wanted = s.sound();
    assert_eq!(
        mtr::raw::mtr_by_value_sound(to_library(s)),
        wanted as u32,
        "{s:?}"
    );
    wanted
}

/// Kinds of calls in the order of their record numbers, of which start, 8, is none.
pub const KINDS: [&str; 9] = [
    "open",
    "close",
    "admit",
    "remove",
    "wake",
    "dispatch",
    "report",
    "change",
    "admit best-effort",
];

/// The call's place in [`KINDS`].
pub fn kind(call: Call) -> usize {
    match calls::record(call).kind {
        number @ (kind::CHANGE | kind::ADMIT_BEST_EFFORT) => number as usize - 2,
        number => number as usize - 1,
    }
}

/// How often each call gave each answer.
#[derive(Default)]
pub struct Tally {
    counts: [[u64; 17]; KINDS.len()],
    /// Accepted dispatches that found no runnable thread.
    pub idle: u64,
    /// What occurred of overruns.
    pub late: Late,
    /// What occurred of changes.
    pub changes: Changes,
    /// What occurred of best-effort threads.
    pub best_effort: BestEffort,
}

impl Tally {
    /// Makes the call on both sides and counts it.
    pub fn both(&mut self, s: &mut Scheduler, call: Call) -> Reply {
        let before = *s;
        let reply = both(s, call);
        if reply.answer != 16 {
            self.late.call(&before, call, reply.answer);
            self.changes.call(&before, call, reply.answer);
            self.best_effort.call(&before, call, reply, s);
        }
        self.add(call, reply);
        reply
    }

    fn add(&mut self, call: Call, reply: Reply) {
        self.counts[kind(call)][reply.answer as usize] += 1;
        self.idle += (call == Call::Dispatch && reply.answer == 0 && reply.thread == 64) as u64;
    }

    /// How often a kind of call gave an answer.
    pub fn count(&self, kind: usize, answer: u32) -> u64 {
        self.counts[kind][answer as usize]
    }

    /// The answers that a kind of call gave at least `least` times.
    pub fn seen(&self, kind: usize, least: u64) -> Vec<u32> {
        (0..17)
            .filter(|&a| self.counts[kind][a as usize] >= least)
            .collect()
    }

    pub fn total(&self) -> u64 {
        self.counts.iter().flatten().sum()
    }

    /// One line per call: answer × count.
    pub fn print(&self) {
        for (name, counts) in KINDS.iter().zip(&self.counts) {
            let seen: Vec<String> = counts
                .iter()
                .enumerate()
                .filter(|(_, &n)| n > 0)
                .map(|(answer, n)| format!("{answer} × {n}"))
                .collect();
            println!("{name}: {}", seen.join(", "));
        }
        println!("idle dispatches: {}", self.idle);
        println!("{:?}", self.late);
        println!("{:?}", self.changes);
        println!("{:?}", self.best_effort);
    }
}
