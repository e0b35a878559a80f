//! A journal as spans of time: what each thread did from when to when, and
//! its lag meanwhile.
//!
//! Time is the meter, summed over all starts of the journal. It moves at
//! accepted reports only. In a span the lag is a straight line: f per tick
//! while another thread has the core, f − 1000 while it has it itself, and
//! level at 0 while it is blocked.
//!
//! The bound of the share guarantee goes with the lag: level, but for the time
//! that another thread runs beyond its slice while this one waits, in which both
//! grow by f per tick. A change of a thread's reservation parts its spans: from
//! there its lag begins at 0, with the slope and the bound of the new one.
//!
//! Best-effort threads have spans and no lag; how fairly they share is counted
//! from what befalls them all, in its order.

mod bounds;
mod changes;
mod clip;
mod fairness;
mod sink;
mod survey;
mod view;

#[cfg(test)]
mod tests;

use std::ops::ControlFlow;

use crate::codec::{answer, kind, reason, Record, GROUPS, NONE, THREADS};
use crate::engine::{Class, Engine, Reply, Settings};
use crate::playback::{play, Journal, Step};
use crate::progress::Progress;
use crate::words;

pub use clip::{Clip, Window};
pub use fairness::{Apart, Fairness, Portion};
pub use sink::{
    At, Begun, Change, Effort, End, Gap, Life, Limit, Moment, Overrun, Refused, Sink, Span, What,
};
pub use survey::{thousandths, Greatest, Group, Longest, Refusals, Reserved, Survey, Thread};
pub use view::{Mark, View};

#[derive(Clone, Copy)]
struct Piece {
    what: What,
    from: u64,
    lag: i64,
    bound: i64,
    /// Ticks of all overruns before it.
    overruns: u64,
    record: u64,
    begun: Begun,
}

#[derive(Clone, Copy)]
struct Alive {
    from: At,
    class: Class,
    settings: Settings,
    /// The bound of its lag, what it is without overruns, and since when it is
    /// level.
    bound: i64,
    bare: i64,
    level: u64,
    piece: Piece,
    /// A span not handed out yet: what follows may prolong it.
    held: Option<Span>,
    /// When a change last parted what the thread does, and nothing else did.
    parted: Option<u64>,
}

impl Alive {
    /// Growth of the lag per tick while it does something.
    fn slope(&self, what: What) -> i64 {
        match (self.class, what) {
            (Class::Reserved { reservation, .. }, What::Run) => reservation as i64 - 1000,
            (Class::Reserved { reservation, .. }, What::Wait) => reservation as i64,
            (Class::Reserved { .. }, What::Blocked) | (Class::BestEffort { .. }, _) => 0,
        }
    }
}

struct Tracker<'s, S: Sink> {
    sink: &'s mut S,
    at: At,
    alive: [Option<Alive>; THREADS],
    gap: Option<Gap>,
    /// Ticks of all overruns.
    overruns: u64,
    /// The thread that runs.
    ran: Option<u8>,
    /// Groups that are open beside group 0.
    open: [bool; GROUPS],
}

impl<S: Sink> Tracker<'_, S> {
    /// Ends what the thread does; what is held then ends here too.
    fn finish(&mut self, n: usize) {
        let at = self.at;
        let Some(alive) = &mut self.alive[n] else {
            return;
        };
        let piece = alive.piece;
        if piece.from == at.time {
            if piece.what == What::Run {
                self.sink.empty_run(n as u8, at, piece.record);
            }
            return;
        }
        if let Some(span) = alive.held.take() {
            self.sink.span(&span);
        }
        alive.held = Some(Span {
            thread: n as u8,
            best_effort: alive.class.is_best_effort(),
            what: piece.what,
            from: At {
                time: piece.from,
                ..at
            },
            to: at.time,
            lag: piece.lag,
            slope: alive.slope(piece.what),
            bound: piece.bound,
            last_bound: alive.bound,
            overruns: piece.overruns,
            record: piece.record,
            begun: piece.begun,
        });
    }

    /// From here on the thread does this, its lag counted afresh or not.
    fn becomes(&mut self, n: usize, what: What, lag: i64, afresh: bool, record: u64) {
        self.finish(n);
        if afresh {
            self.unbind(n);
            if let Some(alive) = &mut self.alive[n] {
                alive.parted = None;
            }
        }
        self.begins(n, what, lag, record);
    }

    /// What the thread does begins, or goes on with the span that is held.
    fn begins(&mut self, n: usize, what: What, lag: i64, record: u64) {
        let (now, overruns) = (self.at.time, self.overruns);
        let Some(alive) = &mut self.alive[n] else {
            return;
        };
        let (bound, slope) = (alive.bound, alive.slope(what));
        alive.piece = Piece {
            what,
            from: now,
            lag,
            bound,
            overruns,
            record,
            begun: Begun { time: now, record },
        };
        let Some(span) = alive
            .held
            .filter(|span| (span.what, span.to) == (what, now))
        else {
            return;
        };
        if (span.last_lag(), span.slope, span.last_bound) == (lag, slope, bound) {
            alive.held = None;
            alive.piece = Piece {
                what,
                from: span.from.time,
                lag: span.lag,
                bound: span.bound,
                overruns: span.overruns,
                record: span.record,
                begun: span.begun,
            };
        } else if alive.parted == Some(now) {
            alive.piece.begun = span.begun;
        }
    }

    /// Something befalls a best-effort thread.
    fn effort(&mut self, n: usize, at: At, effort: Effort) {
        if self.alive[n].is_some_and(|alive| alive.class.is_best_effort()) {
            self.sink.effort(n as u8, at, effort);
        }
    }

    /// The thread's time is over; without an end it stays admitted.
    fn dies(&mut self, n: usize, end: Option<End>) {
        self.finish(n);
        self.level(n, self.at.time);
        self.effort(n, self.at, Effort::Gone);
        if let Some(alive) = self.alive[n].take() {
            if let Some(span) = alive.held {
                self.sink.span(&span);
            }
            self.sink.life(&Life {
                thread: n as u8,
                from: alive.from,
                to: self.at.time,
                class: alive.class,
                settings: alive.settings,
                bound: alive.class.bound(alive.settings),
                end: end.unwrap_or(End::Stays(alive.piece.what)),
            });
        }
    }

    fn all_die(&mut self, end: Option<End>) {
        for n in 0..THREADS {
            self.dies(n, end);
        }
    }

    fn all_close(&mut self) {
        for (group, open) in (0..).zip(&mut self.open) {
            if std::mem::take(open) {
                self.sink.group(group, self.at, None);
            }
        }
    }

    fn close_gap(&mut self) {
        if let Some(gap) = self.gap.take() {
            self.sink.gap(&gap);
        }
    }

    /// The blocks before a part of a journal are missing.
    fn missing(&mut self, blocks: u64) {
        self.gap = Some(Gap {
            at: self.at,
            first: 0,
            last: blocks - 1,
            refusal: None,
            damaged: 0,
            skipped: 0,
        });
        self.at.gaps += 1;
    }

    fn damaged(&mut self, place: u64, refusal: u32) {
        self.sink.block(place, Some(refusal));
        self.all_die(Some(End::Lost));
        self.all_close();
        self.ran = None;
        match &mut self.gap {
            Some(gap) => {
                gap.last = place;
                gap.damaged += 1;
            }
            None => {
                self.gap = Some(Gap {
                    at: self.at,
                    first: place,
                    last: place,
                    refusal: Some(refusal),
                    damaged: 1,
                    skipped: 0,
                });
                self.at.gaps += 1;
            }
        }
    }

    fn record(&mut self, number: u64, r: &Record, reply: Reply, overrun: u32, e: &impl Engine) {
        let before = self.at;
        match reply.answer {
            answer::ACCEPTED if r.kind == kind::REPORT => {
                self.reported(number, r, overrun.into(), e);
                self.ran = e.running();
            }
            answer::ACCEPTED => {
                self.accepted(number, r, reply.thread, e);
                self.ran = e.running();
            }
            answer::NOT_STARTED => {
                if let Some(gap) = &mut self.gap {
                    gap.skipped += 1;
                }
            }
            refused => {
                let named = (r.subject < THREADS as u8).then_some(r.subject);
                self.sink.refusal(&Refused {
                    at: self.at,
                    number,
                    answer: refused,
                    words: words::refusal(r, refused, e),
                    thread: match r.kind {
                        kind::ADMIT | kind::BEST_EFFORT => named,
                        kind::REMOVE | kind::WAKE | kind::CHANGE => named,
                        kind::REPORT => self.ran,
                        _ => None,
                    },
                });
            }
        }
        self.sink.record(&Moment {
            number,
            before,
            after: self.at,
            skipped: reply.answer == answer::NOT_STARTED,
        });
    }

    fn accepted(&mut self, number: u64, r: &Record, thread: u32, e: &impl Engine) {
        let subject = r.subject as usize;
        match r.kind {
            kind::START => {
                self.all_die(Some(End::Restarted(number)));
                self.all_close();
                self.close_gap();
                self.sink.start(self.at, number);
            }
            kind::OPEN => {
                let opened = (r.group, r.amount.into());
                self.open[subject] = true;
                self.sink.group(r.subject, self.at, Some(opened));
            }
            kind::CLOSE => {
                self.open[subject] = false;
                self.sink.group(r.subject, self.at, None);
            }
            kind::ADMIT | kind::BEST_EFFORT => self.admitted(number, r.subject, e),
            kind::REMOVE => self.dies(subject, Some(End::Left(number))),
            kind::WAKE => {
                self.becomes(subject, What::Wait, e.lag(r.subject), true, number);
                self.effort(subject, self.at, Effort::Woken);
                self.sink.wake(r.subject, self.at, number);
            }
            kind::CHANGE => self.changes(subject, r.amount.into(), number),
            kind::DISPATCH if thread == NONE => self.sink.idle(self.at, number),
            kind::DISPATCH => {
                let n = thread as u8;
                self.becomes(n as usize, What::Run, e.lag(n), false, number);
                self.sink.dispatch(n, self.at, number);
            }
            _ => {}
        }
    }

    /// A thread is admitted, as the engine after it says.
    fn admitted(&mut self, number: u64, thread: u8, e: &impl Engine) {
        let Some(class) = e.class(thread) else { return };
        let settings = e.settings();
        let bound = class.bound(settings);
        self.alive[thread as usize] = Some(Alive {
            from: self.at,
            class,
            settings,
            bound,
            bare: bound,
            level: self.at.time,
            piece: Piece {
                what: What::Wait,
                from: self.at.time,
                lag: 0,
                bound,
                overruns: self.overruns,
                record: number,
                begun: Begun {
                    time: self.at.time,
                    record: number,
                },
            },
            held: None,
            parted: None,
        });
        if let Class::BestEffort { weight } = class {
            let admitted = Effort::Admitted { weight, settings };
            self.sink.effort(thread, self.at, admitted);
        }
    }

    fn reported(&mut self, number: u64, r: &Record, overrun: u64, e: &impl Engine) {
        let begun = self.at;
        self.at.time += u64::from(r.ticks);
        let Some(ran) = self.ran else { return };
        if overrun > 0 {
            self.overran(ran, overrun, number);
        }
        let n = ran as usize;
        let to = self.at.time;
        self.effort(n, begun, Effort::Ran { to });
        match r.reason {
            reason::EXIT => self.dies(n, Some(End::Left(number))),
            reason::BLOCK => {
                self.becomes(n, What::Blocked, 0, true, number);
                self.effort(n, self.at, Effort::Blocked);
            }
            reason => {
                let yields = reason == reason::YIELD;
                self.becomes(n, What::Wait, e.lag(ran), yields, number);
            }
        }
    }
}

/// Runs a journal and hands out what it shows, each thread's spans in the
/// order of time.
pub fn track<E: Engine>(journal: Journal, progress: &mut Progress, sink: &mut impl Sink) {
    let mut t = Tracker {
        sink,
        at: At::default(),
        alive: [None; THREADS],
        gap: None,
        overruns: 0,
        ran: None,
        open: [false; GROUPS],
    };
    if journal.first > 0 {
        t.missing(journal.first);
    }
    play::<E>(journal, progress, |step, engine| {
        match step {
            Step::Block { place } => t.sink.block(place, None),
            Step::Damaged { place, refusal, .. } => t.damaged(place, refusal),
            Step::Record {
                number,
                record,
                reply,
                overrun,
            } => t.record(number, &record, reply, overrun, engine),
        }
        ControlFlow::Continue(())
    });
    t.all_die(None);
    t.close_gap();
    t.sink.end(t.at, t.ran);
}
