//! What a journal shows, and the trait of those who take it.

use crate::engine::{Class, Settings};

/// A point in time, and how many gaps lie before it.
#[derive(Clone, Copy, Debug, PartialEq, Eq, PartialOrd, Ord, Default)]
pub struct At {
    pub time: u64,
    pub gaps: u64,
}

#[derive(Clone, Copy, Debug, PartialEq, Eq)]
pub enum What {
    /// Has the core.
    Run,
    /// Runnable without the core.
    Wait,
    Blocked,
}

/// Where something begins: the time and the record.
#[derive(Clone, Copy, Debug, PartialEq, Eq)]
pub struct Begun {
    pub time: u64,
    pub record: u64,
}

/// A thread does one thing for a time above 0. The core given to the same
/// thread again without a break is one span; a change of the thread's
/// reservation parts it.
#[derive(Clone, Copy, Debug, PartialEq, Eq)]
pub struct Span {
    pub thread: u8,
    /// Of a best-effort thread, whose lag and bounds are 0.
    pub best_effort: bool,
    pub what: What,
    pub from: At,
    pub to: u64,
    /// Lag at `from`, and its growth per tick.
    pub lag: i64,
    pub slope: i64,
    /// The most that the share guarantee lets the lag be at `from` and at `to`.
    pub bound: i64,
    pub last_bound: i64,
    /// Ticks of all overruns in the journal before `from`.
    pub overruns: u64,
    /// The record it began with.
    pub record: u64,
    /// Where that which it does began, with the spans before it from which
    /// changes alone part it.
    pub begun: Begun,
}

impl Span {
    pub fn end(&self) -> At {
        At {
            time: self.to,
            ..self.from
        }
    }

    pub fn length(&self) -> u64 {
        self.to - self.from.time
    }

    /// Lag at `to`, before what happens there.
    pub fn last_lag(&self) -> i64 {
        self.lag + self.slope * self.length() as i64
    }
}

/// The part of a run beyond its slice.
#[derive(Clone, Copy, Debug, PartialEq, Eq)]
pub struct Overrun {
    pub thread: u8,
    pub from: At,
    pub to: u64,
    /// The report.
    pub record: u64,
}

impl Overrun {
    pub fn end(&self) -> At {
        At {
            time: self.to,
            ..self.from
        }
    }

    pub fn length(&self) -> u64 {
        self.to - self.from.time
    }
}

/// The most that the share guarantee lets a thread's lag be, for a time. It is
/// level, or rises with the lag where another thread overruns its slice while
/// this one waits. What is counted of the others' overruns is given back where
/// the lag is counted afresh. A change of the reservation begins another.
#[derive(Clone, Copy, Debug, PartialEq, Eq)]
pub struct Limit {
    pub thread: u8,
    pub from: At,
    pub to: u64,
    /// At `from`, and its growth per tick.
    pub bound: i64,
    pub slope: i64,
    /// Without overruns.
    pub bare: i64,
}

impl Limit {
    pub fn end(&self) -> At {
        At {
            time: self.to,
            ..self.from
        }
    }

    /// At `to`.
    pub fn last_bound(&self) -> i64 {
        self.bound + self.slope * (self.to - self.from.time) as i64
    }

    /// Of a life without length, or touched by a part at its edge alone.
    pub fn is_empty(&self) -> bool {
        self.to == self.from.time
    }
}

/// A thread was given another reservation, or the same again. From here its
/// lag is counted afresh.
#[derive(Clone, Copy, Debug, PartialEq, Eq)]
pub struct Change {
    pub thread: u8,
    pub at: At,
    pub record: u64,
    /// The reservation before and from here on.
    pub old: u64,
    pub new: u64,
    /// The most that the share guarantee lets the lag be without overruns,
    /// before and from here on.
    pub old_bound: i64,
    pub new_bound: i64,
}

/// How a thread's time ended.
#[derive(Clone, Copy, Debug, PartialEq, Eq)]
pub enum End {
    /// By its exit or by a remove, with the record.
    Left(u64),
    /// By a start, with the record.
    Restarted(u64),
    /// Not known: a damaged block follows.
    Lost,
    /// Not at all: it is admitted at the journal's end and does this there.
    Stays(What),
    /// Not in the part that is looked at.
    Later,
}

/// From a thread's admission to its end.
#[derive(Clone, Copy, Debug, PartialEq, Eq)]
pub struct Life {
    pub thread: u8,
    pub from: At,
    pub to: u64,
    /// At the end.
    pub class: Class,
    pub settings: Settings,
    /// The most that the share guarantee lets its lag be without overruns, by
    /// the reservation at the end; 0 of a best-effort thread.
    pub bound: i64,
    pub end: End,
}

/// What befalls a best-effort thread.
#[derive(Clone, Copy, Debug, PartialEq, Eq)]
pub enum Effort {
    /// It is admitted and runnable.
    Admitted {
        weight: u64,
        settings: Settings,
    },
    Woken,
    Blocked,
    /// It has had the core up to this time.
    Ran {
        to: u64,
    },
    /// Its time is over.
    Gone,
}

/// From a damaged or missing block to the next accepted start, or to the end.
#[derive(Clone, Copy, Debug, PartialEq, Eq)]
pub struct Gap {
    pub at: At,
    /// Places of its first and its last damaged or missing block.
    pub first: u64,
    pub last: u64,
    /// The first one's refusal; none if the blocks before the part are missing.
    pub refusal: Option<u32>,
    pub damaged: u64,
    /// Records in good blocks that were not run.
    pub skipped: u64,
}

/// A record that was refused.
#[derive(Clone, Copy, Debug)]
pub struct Refused {
    pub at: At,
    pub number: u64,
    pub answer: u32,
    /// Why.
    pub words: &'static str,
    /// The thread that it names, or that runs when a report is refused.
    pub thread: Option<u8>,
}

/// A record's place in time. It may have moved the meter itself.
#[derive(Clone, Copy, Debug)]
pub struct Moment {
    pub number: u64,
    pub before: At,
    pub after: At,
    /// It was not run.
    pub skipped: bool,
}

/// Takes what a journal shows. Every call has an empty default.
pub trait Sink {
    /// A block, with its refusal if it is damaged.
    fn block(&mut self, _place: u64, _refusal: Option<u32>) {}
    fn record(&mut self, _: &Moment) {}
    fn span(&mut self, _: &Span) {}
    /// The core was given to a thread.
    fn dispatch(&mut self, _thread: u8, _at: At, _record: u64) {}
    /// The core was given and taken back without a tick.
    fn empty_run(&mut self, _thread: u8, _at: At, _record: u64) {}
    /// A run went on beyond its slice. Comes before every span that ends there
    /// or later.
    fn overrun(&mut self, _: &Overrun) {}
    /// A reserved thread's limits follow each other from its admission to its end.
    fn limit(&mut self, _: &Limit) {}
    /// A thread's changes come in their order, before its life.
    fn change(&mut self, _: &Change) {}
    fn life(&mut self, _: &Life) {}
    /// What befalls the best-effort threads comes in the order of time, of all of
    /// them also where some are shown; before a part all but runs.
    fn effort(&mut self, _thread: u8, _at: At, _: Effort) {}
    fn wake(&mut self, _thread: u8, _at: At, _record: u64) {}
    fn idle(&mut self, _at: At, _record: u64) {}
    fn refusal(&mut self, _: &Refused) {}
    /// An accepted start.
    fn start(&mut self, _at: At, _record: u64) {}
    /// A group was opened, with its parent and ceiling, or closed.
    fn group(&mut self, _group: u8, _at: At, _opened: Option<(u8, u64)>) {}
    fn gap(&mut self, _: &Gap) {}
    /// The journal's end, and the thread that runs there.
    fn end(&mut self, _at: At, _running: Option<u8>) {}
}
