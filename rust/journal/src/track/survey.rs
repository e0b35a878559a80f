//! What a journal or a part of it holds on the whole. The picture is laid out
//! by it, and the figures are taken from it.

use std::cmp::Ordering;
use std::collections::BTreeMap;

use crate::codec::{GROUPS, THREADS};
use crate::engine::{Class, Engine, Settings};
use crate::text::Tally;

use super::fairness::Fairness;
use super::sink::{
    At, Begun, Change, Effort, End, Gap, Life, Limit, Moment, Overrun, Refused, Sink, Span, What,
};

/// The longest span of a kind, where it begins and with which record.
#[derive(Clone, Copy, Debug, Default, PartialEq, Eq)]
pub struct Longest {
    pub ticks: u64,
    pub at: u64,
    pub record: u64,
}

impl Longest {
    fn take(&mut self, ticks: u64, at: u64, record: u64) {
        if ticks > self.ticks {
            *self = Longest { ticks, at, record };
        }
    }
}

/// The largest lag, where it stood, in a span that began with the record, and
/// the most that it could be there.
#[derive(Clone, Copy, Debug, Default, PartialEq, Eq)]
pub struct Greatest {
    pub lag: i64,
    pub at: u64,
    pub record: u64,
    pub bound: i64,
}

/// Ticks in thousandths of a time, to the nearest, half to even, as the library
/// rounds a share; 0 of no time.
pub fn thousandths(ticks: u64, time: u64) -> u64 {
    if time == 0 {
        return 0;
    }
    let (quotient, rest) = (1000 * ticks / time, 1000 * ticks % time);
    match (2 * rest).cmp(&time) {
        Ordering::Less => quotient,
        Ordering::Equal => quotient + quotient % 2,
        Ordering::Greater => quotient + 1,
    }
}

/// What a thread reserved in a life.
#[derive(Clone, Copy, Debug, Default, PartialEq, Eq)]
pub struct Reserved {
    /// How often it changed.
    pub changes: u64,
    /// At the beginning, after the first change, and at the end.
    pub first: u64,
    pub second: u64,
    pub last: u64,
}

impl Reserved {
    fn change(&mut self, c: &Change) {
        if self.changes == 0 {
            (self.first, self.second) = (c.old, c.new);
        }
        self.changes += 1;
    }

    fn end(mut self, last: u64) -> Reserved {
        if self.changes == 0 {
            self.first = last;
        }
        Reserved { last, ..self }
    }

    /// One after the other, all of up to three.
    pub fn told(&self) -> String {
        let Reserved {
            first,
            second,
            last,
            ..
        } = self;
        match self.changes {
            0 => last.to_string(),
            1 => format!("{first} \u{2192} {last}"),
            2 => format!("{first} \u{2192} {second} \u{2192} {last}"),
            _ => format!("{first} \u{2192} \u{2026} \u{2192} {last}"),
        }
    }
}

/// A thread number.
#[derive(Clone, Copy, Debug, Default, PartialEq, Eq)]
pub struct Thread {
    pub lives: u64,
    pub spans: u64,
    /// Dispatches.
    pub runs: u64,
    pub wakes: u64,
    /// Records that name it, or reports of its runs, that were refused.
    pub refused: u64,
    pub ticks: u64,
    pub longest_run: Longest,
    pub longest_wait: Longest,
    pub longest_block: Longest,
    /// Runs beyond their slices, their ticks beyond them, and the longest with
    /// its report.
    pub overruns: u64,
    pub overrun: u64,
    pub longest_overrun: Longest,
    pub lowest: i64,
    pub largest: Greatest,
    /// The largest bound of its lag, and how often a bound has risen by an
    /// overrun.
    pub bound: i64,
    pub rises: u64,
    /// Changes of its reservation, and the last.
    pub changes: u64,
    pub last_change: Option<Begun>,
    /// Lives with a reservation; of the last of them the reservations and the
    /// group.
    pub reserved_lives: u64,
    pub reserved: Reserved,
    pub group: u8,
    /// Of its last life: whether it was a best-effort thread, its achieved share
    /// and its end.
    pub best_effort: bool,
    pub share: u64,
    pub end: Option<End>,
    /// Of the life that has not ended yet. Its bound is that of a limit without
    /// length if there is no other.
    ticks_now: u64,
    largest_now: Greatest,
    bound_now: i64,
    bound_here: i64,
    reserved_now: Reserved,
}

/// A group, as it was opened last.
#[derive(Clone, Copy, Debug, PartialEq, Eq)]
pub struct Group {
    pub parent: u8,
    pub ceiling: u64,
    pub open: bool,
}

/// Refusals with the same number and words.
#[derive(Clone, Copy, Debug, PartialEq, Eq)]
pub struct Refusals {
    pub count: u64,
    /// Number and time of the first.
    pub record: u64,
    pub at: u64,
}

#[derive(Clone, Debug)]
pub struct Survey {
    /// Every block of the journal.
    pub tally: Tally,
    pub from: At,
    pub to: At,
    pub records: u64,
    /// Numbers of the first and the last record.
    pub numbers: Option<(u64, u64)>,
    pub starts: u64,
    /// Those of the lives, the default ones if there are none.
    pub settings: Settings,
    pub one_setting: bool,
    pub refusals: BTreeMap<(u32, &'static str), Refusals>,
    pub skipped: u64,
    pub idle: u64,
    /// The bounds of some lags have grown by others' overruns.
    pub grown: bool,
    pub gaps: Vec<Gap>,
    pub threads: [Thread; THREADS],
    pub fairness: Fairness,
    pub groups: [Option<Group>; GROUPS],
    /// The thread that runs at the end.
    pub running: Option<u8>,
}

impl Survey {
    pub fn new<E: Engine>(from: At) -> Survey {
        Survey {
            tally: Tally::default(),
            from,
            to: from,
            records: 0,
            numbers: None,
            starts: 0,
            settings: E::default().settings(),
            one_setting: true,
            refusals: BTreeMap::new(),
            skipped: 0,
            idle: 0,
            grown: false,
            gaps: Vec::new(),
            threads: [Thread::default(); THREADS],
            fairness: Fairness::new(from),
            groups: [None; GROUPS],
            running: None,
        }
    }

    /// The numbers of the threads that were admitted, in order.
    pub fn admitted(&self) -> impl Iterator<Item = u8> + '_ {
        (0..THREADS as u8).filter(|&n| self.threads[n as usize].lives > 0)
    }

    /// How much time it covers.
    pub fn time(&self) -> u64 {
        self.to.time - self.from.time
    }

    /// How many records were refused.
    pub fn refused(&self) -> u64 {
        self.refusals.values().map(|r| r.count).sum()
    }

    /// How many runs went on beyond their slices.
    pub fn overruns(&self) -> u64 {
        self.threads.iter().map(|t| t.overruns).sum()
    }

    /// How many reservations were changed.
    pub fn changes(&self) -> u64 {
        self.threads.iter().map(|t| t.changes).sum()
    }

    fn thread(&mut self, n: u8) -> &mut Thread {
        &mut self.threads[n as usize]
    }
}

impl Sink for Survey {
    fn block(&mut self, place: u64, refusal: Option<u32>) {
        match refusal {
            None => self.tally.blocks += 1,
            Some(refusal) => self.tally.damage(place, refusal),
        }
    }

    fn record(&mut self, moment: &Moment) {
        self.records += 1;
        let first = self.numbers.map_or(moment.number, |(first, _)| first);
        self.numbers = Some((first, moment.number));
    }

    fn span(&mut self, span: &Span) {
        let t = self.thread(span.thread);
        t.spans += 1;
        let longest = match span.what {
            What::Run => {
                t.ticks += span.length();
                t.ticks_now += span.length();
                &mut t.longest_run
            }
            What::Wait => &mut t.longest_wait,
            What::Blocked => &mut t.longest_block,
        };
        let Begun { time, record } = span.begun;
        longest.take(span.to - time, time, record);
        for (lag, at, bound) in [
            (span.lag, span.from.time, span.bound),
            (span.last_lag(), span.to, span.last_bound),
        ] {
            t.lowest = t.lowest.min(lag);
            if lag > t.largest_now.lag {
                t.largest_now = Greatest {
                    lag,
                    at,
                    record: span.record,
                    bound,
                };
            }
        }
    }

    fn dispatch(&mut self, thread: u8, _: At, _: u64) {
        self.thread(thread).runs += 1;
    }

    fn empty_run(&mut self, thread: u8, _: At, _: u64) {
        self.thread(thread).spans += 1;
    }

    fn overrun(&mut self, o: &Overrun) {
        let t = self.thread(o.thread);
        t.overruns += 1;
        t.overrun += o.length();
        t.longest_overrun.take(o.length(), o.from.time, o.record);
    }

    fn limit(&mut self, limit: &Limit) {
        let t = self.thread(limit.thread);
        if limit.is_empty() {
            t.bound_here = limit.bound;
            return;
        }
        t.bound_now = t.bound_now.max(limit.last_bound());
        t.rises += u64::from(limit.slope > 0);
        self.grown |= limit.last_bound() > limit.bare;
    }

    fn change(&mut self, c: &Change) {
        let t = self.thread(c.thread);
        t.changes += 1;
        t.last_change = Some(Begun {
            time: c.at.time,
            record: c.record,
        });
        t.reserved_now.change(c);
    }

    fn life(&mut self, life: &Life) {
        let earlier = self.admitted().next().is_some();
        self.one_setting &= !earlier || self.settings == life.settings;
        self.settings = life.settings;
        let t = self.thread(life.thread);
        t.lives += 1;
        t.best_effort = life.class.is_best_effort();
        t.end = Some(life.end);
        let time = life.to - life.from.time;
        let ticks = std::mem::take(&mut t.ticks_now);
        t.share = thousandths(ticks, time);
        let Class::Reserved { reservation, group } = life.class else {
            return;
        };
        t.reserved_lives += 1;
        let here = std::mem::take(&mut t.bound_here);
        let bound = match std::mem::take(&mut t.bound_now) {
            0 => here,
            bound => bound,
        };
        t.bound = t.bound.max(bound);
        t.reserved = std::mem::take(&mut t.reserved_now).end(reservation);
        t.group = group;
        let mut largest = std::mem::take(&mut t.largest_now);
        if largest.lag == 0 {
            largest.bound = life.bound;
        }
        if t.reserved_lives == 1 || largest.lag > t.largest.lag {
            t.largest = largest;
        }
    }

    fn effort(&mut self, thread: u8, at: At, effort: Effort) {
        self.fairness.take(thread, at, effort);
    }

    fn wake(&mut self, thread: u8, _: At, _: u64) {
        self.thread(thread).wakes += 1;
    }

    fn idle(&mut self, _: At, _: u64) {
        self.idle += 1;
    }

    fn refusal(&mut self, r: &Refused) {
        let like = self
            .refusals
            .entry((r.answer, r.words))
            .or_insert(Refusals {
                count: 0,
                record: r.number,
                at: r.at.time,
            });
        like.count += 1;
        if let Some(thread) = r.thread {
            self.thread(thread).refused += 1;
        }
    }

    fn start(&mut self, _: At, _: u64) {
        self.starts += 1;
    }

    fn group(&mut self, group: u8, at: At, opened: Option<(u8, u64)>) {
        let before = at < self.from;
        let Some(entry) = self.groups.get_mut(group as usize) else {
            return;
        };
        *entry = match (opened, *entry) {
            (Some((parent, ceiling)), _) => Some(Group {
                parent,
                ceiling,
                open: true,
            }),
            // One that is closed before the part is of no interest.
            (None, Some(_)) if before => None,
            (None, entry) => entry.map(|group| Group {
                open: false,
                ..group
            }),
        };
    }

    fn gap(&mut self, gap: &Gap) {
        self.skipped += gap.skipped;
        self.gaps.push(*gap);
    }

    fn end(&mut self, at: At, running: Option<u8>) {
        self.to = at;
        self.running = running;
    }
}
