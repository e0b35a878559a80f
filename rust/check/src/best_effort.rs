//! What occurred of best-effort threads, so that a test can ask that all of it did; and calls that leave them time.

use model::calls::Call;
use model::rule::{
    Reply, Scheduler, Thread, BLOCK, BLOCKED, EXIT, NONE, RUNNABLE, TAG_UNIT, TICK, WEIGHT_MOST,
    YIELD,
};
use samples::random::{call, Rng};

/// A random call as the model's, but that reserved threads mostly block and stay so. Best-effort threads then run.
pub fn quiet_call(r: &mut Rng, s: &Scheduler) -> Call {
    let reserved = |n: u64| n < 64 && s.threads[n as usize].is_reserved();
    let next = |r: &mut Rng| match s.threads.get(s.running as usize) {
        None => Call::Dispatch,
        Some(t) => Call::Report {
            reason: if t.is_reserved() { BLOCK } else { r.below(3) },
            used: r.edgy(0, t.slice(&s.settings) as u64 + s.settings.overrun as u64),
        },
    };
    match call(r, s) {
        Call::Report { used, .. } if reserved(s.running as u64) && !r.chance(1, 6) => {
            Call::Report {
                reason: BLOCK,
                used,
            }
        }
        Call::Wake { number } if reserved(number) && !r.chance(1, 6) => next(r),
        Call::Admit { .. } if !r.chance(1, 3) => next(r),
        other => other,
    }
}

/// A call on a sound state, with what it answered and left.
pub struct Made<'a> {
    before: &'a Scheduler,
    call: Call,
    reply: Reply,
    after: &'a Scheduler,
    /// The best-effort threads before the call, with their numbers.
    others: Vec<(usize, &'a Thread)>,
}

impl<'a> Made<'a> {
    fn accepted(&self) -> bool {
        self.reply.answer == 0
    }

    /// The best-effort threads that were runnable.
    fn ready(&self) -> impl Iterator<Item = &(usize, &'a Thread)> {
        self.others.iter().filter(|(_, t)| t.status == RUNNABLE)
    }

    /// The thread of a number as it was, if it was a best-effort one.
    fn one(&self, number: u64) -> Option<&'a Thread> {
        let t = self.before.threads.get(usize::try_from(number).ok()?);
        t.filter(|t| t.is_best_effort())
    }

    /// The best-effort thread that a dispatch chose.
    fn chosen(&self) -> Option<(usize, &'a Thread)> {
        let n = self.reply.thread;
        let dispatched = self.call == Call::Dispatch && self.accepted();
        let t = self.one(n as u64).filter(|_| dispatched)?;
        Some((n as usize, t))
    }

    fn idle(&self) -> bool {
        self.call == Call::Dispatch && self.accepted() && self.reply.thread == NONE
    }

    /// The best-effort thread that an accepted report was of, the reason and the ticks used.
    fn reported(&self) -> Option<(&'a Thread, u64, u64)> {
        let t = self.one(self.before.running as u64)?;
        match self.call {
            Call::Report { reason, used } if self.accepted() => Some((t, reason, used)),
            _ => None,
        }
    }

    /// The best-effort thread that was woken.
    fn woken(&self) -> Option<&'a Thread> {
        match self.call {
            Call::Wake { number } if self.accepted() => self.one(number),
            _ => None,
        }
    }

    /// The best-effort thread that was removed.
    fn removed(&self) -> Option<&'a Thread> {
        match self.call {
            Call::Remove { number } if self.accepted() => self.one(number),
            _ => None,
        }
    }

    /// The weight of an accepted admission.
    fn weight(&self) -> Option<u64> {
        match self.call {
            Call::AdmitBestEffort { weight, .. } if self.accepted() => Some(weight),
            _ => None,
        }
    }

    /// The number and the weight of an admission that was refused so.
    fn refused(&self, answer: u32) -> Option<(u64, u64)> {
        match self.call {
            Call::AdmitBestEffort { number, weight } if self.reply.answer == answer => {
                Some((number, weight))
            }
            _ => None,
        }
    }

    /// A report of the running best-effort thread with a reason that there is, refused so.
    fn over(&self, answer: u32) -> bool {
        let most = self.before.settings.interval as u64 + self.before.settings.overrun as u64;
        let runs = self.one(self.before.running as u64).is_some();
        let more = matches!(self.call, Call::Report { reason, used } if reason <= EXIT && used == most + 1);
        runs && more && self.reply.answer == answer
    }
}

fn in_range(weight: u64) -> bool {
    (1..=WEIGHT_MOST as u64).contains(&weight)
}

/// A sort of calls: its name, and which belong to it.
type Sort = (&'static str, fn(&Made) -> bool);

/// Every sort that a test asks for.
pub const SORTS: [Sort; 51] = [
    ("admitted with weight 1", |m| m.weight() == Some(1)),
    ("admitted with weight 16", |m| m.weight() == Some(16)),
    ("admitted with another weight", |m| {
        m.weight().is_some_and(|w| 1 < w && w < 16)
    }),
    ("admitted above virtual time 0", |m| {
        m.weight().is_some() && m.before.time > 0
    }),
    ("admitted while a best-effort thread runs", |m| {
        m.weight().is_some() && m.one(m.before.running as u64).is_some()
    }),
    ("admitted while a reserved thread runs", |m| {
        let running = m.before.threads.get(m.before.running as usize);
        m.weight().is_some() && running.is_some_and(Thread::is_reserved)
    }),
    ("admitted where nothing is left to reserve", |m| {
        m.weight().is_some() && m.before.taken(0) == 1_000
    }),
    ("admitted under the last free number", |m| {
        m.weight().is_some() && m.after.threads.iter().all(|t| t.status != 0)
    }),
    ("7", |m| m.refused(7).is_some_and(|(_, w)| in_range(w))),
    ("7 before 4", |m| {
        m.refused(7).is_some_and(|(_, w)| !in_range(w))
    }),
    ("8 for a reserved thread", |m| {
        m.refused(8).is_some_and(|(n, _)| m.one(n).is_none())
    }),
    ("8 for a best-effort thread", |m| {
        m.refused(8).is_some_and(|(n, _)| m.one(n).is_some())
    }),
    ("8 before 4", |m| {
        m.refused(8).is_some_and(|(_, w)| !in_range(w))
    }),
    ("4 for 0", |m| m.refused(4).is_some_and(|(_, w)| w == 0)),
    ("4 for 17", |m| m.refused(4).is_some_and(|(_, w)| w == 17)),
    ("4 for more", |m| m.refused(4).is_some_and(|(_, w)| w > 17)),
    (
        "8 for a reserved thread of a best-effort one's number",
        |m| {
            let taken = matches!(m.call, Call::Admit { number, .. } if m.one(number).is_some());
            taken && m.reply.answer == 8
        },
    ),
    ("chosen alone", |m| {
        m.chosen().is_some() && m.ready().count() == 1
    }),
    ("chosen of several", |m| {
        m.chosen().is_some() && m.ready().count() > 1
    }),
    ("chosen for its tag, of a higher number", |m| {
        m.chosen()
            .is_some_and(|(n, _)| m.ready().any(|(k, _)| *k < n))
    }),
    ("chosen for its number, of equal tags", |m| {
        let equal = |n, tag| m.ready().any(|(k, t)| *k != n && t.tag == tag);
        m.chosen().is_some_and(|(n, t)| equal(n, t.tag))
    }),
    ("chosen past a blocked one of a smaller tag", |m| {
        let smaller = |tag| {
            m.others
                .iter()
                .any(|(_, t)| t.status == BLOCKED && t.tag < tag)
        };
        m.chosen().is_some_and(|(_, t)| smaller(t.tag))
    }),
    ("chosen past blocked reserved threads", |m| {
        m.chosen().is_some() && m.reply.before > 0
    }),
    ("chosen where there is no reserved thread", |m| {
        m.chosen().is_some() && m.reply.before == 0
    }),
    ("chosen, and the virtual time grows", |m| {
        m.chosen().is_some() && m.after.time > m.before.time
    }),
    ("chosen, and the virtual time stays", |m| {
        m.chosen().is_some() && m.after.time == m.before.time
    }),
    ("a reserved thread is chosen first", |m| {
        let chosen = m.call == Call::Dispatch && m.accepted() && !m.idle();
        chosen && m.chosen().is_none() && m.ready().count() > 0
    }),
    ("idle with best-effort threads alone", |m| {
        m.idle() && !m.others.is_empty() && m.before.count == 0
    }),
    ("idle with both kinds", |m| {
        m.idle() && !m.others.is_empty() && m.before.count > 0
    }),
    ("idle with reserved threads alone", |m| {
        m.idle() && m.others.is_empty() && m.before.count > 0
    }),
    ("12 while one runs", |m| {
        m.reply.answer == 12 && m.one(m.before.running as u64).is_some()
    }),
    ("15 where one is runnable", |m| {
        m.reply.answer == 15 && m.ready().count() > 0
    }),
    ("tick", |m| m.reported().is_some_and(|r| r.1 == TICK)),
    ("block", |m| m.reported().is_some_and(|r| r.1 == BLOCK)),
    ("yield", |m| m.reported().is_some_and(|r| r.1 == YIELD)),
    ("exit", |m| m.reported().is_some_and(|r| r.1 == EXIT)),
    ("reported without a tick", |m| {
        m.reported().is_some_and(|r| r.2 == 0)
    }),
    ("reported beyond the slice", |m| {
        let slice = m.before.settings.interval as u64;
        m.reported().is_some_and(|r| r.2 > slice)
    }),
    ("reported with all of P and O", |m| {
        let (p, o) = (m.before.settings.interval, m.before.settings.overrun);
        m.reported()
            .is_some_and(|r| o > 0 && r.2 == p as u64 + o as u64)
    }),
    ("13 for one tick more", |m| m.over(13)),
    ("reported with another allotment than 0 in its entry", |m| {
        m.reported().is_some_and(|r| r.0.allotment != 0)
    }),
    ("finish tag at its end", |m| {
        let tag = |n: u32| m.after.threads[n as usize].tag;
        let end = TAG_UNIT * m.after.meter;
        m.reported()
            .is_some_and(|r| r.1 != EXIT && r.2 > 0 && end == tag(m.before.running))
    }),
    ("woken above the virtual time", |m| {
        m.woken().is_some_and(|t| t.tag > m.before.time)
    }),
    ("woken at the virtual time", |m| {
        m.woken().is_some_and(|t| t.tag == m.before.time)
    }),
    ("woken below the virtual time", |m| {
        m.woken().is_some_and(|t| t.tag < m.before.time)
    }),
    ("woken while another runs", |m| {
        m.woken().is_some() && m.before.running != NONE
    }),
    ("10", |m| {
        let named = matches!(m.call, Call::Wake { number } if m.one(number).is_some());
        named && m.reply.answer == 10
    }),
    ("removed while runnable", |m| {
        m.removed().is_some_and(|t| t.status == RUNNABLE)
    }),
    ("removed while blocked", |m| {
        m.removed().is_some_and(|t| t.status == BLOCKED)
    }),
    ("9", |m| {
        let named = matches!(m.call, Call::Remove { number } if m.one(number).is_some());
        named && m.reply.answer == 9
    }),
    ("a group closed whose number is a weight", |m| {
        let weighed = |number| m.others.iter().any(|(_, t)| t.weight() == number);
        m.accepted() && matches!(m.call, Call::Close { number } if weighed(number))
    }),
];

/// How often each of [`SORTS`] occurred.
#[derive(Clone, Copy, PartialEq, Eq)]
pub struct BestEffort([u64; SORTS.len()]);

impl Default for BestEffort {
    fn default() -> Self {
        BestEffort([0; SORTS.len()])
    }
}

impl BestEffort {
    /// Counts a call made on a sound state, `before`, with the state after it.
    pub fn call(&mut self, before: &Scheduler, call: Call, reply: Reply, after: &Scheduler) {
        let all = before.threads.iter().enumerate();
        let made = Made {
            before,
            call,
            reply,
            after,
            others: all.filter(|(_, t)| t.is_best_effort()).collect(),
        };
        // Nothing of them, before or after.
        if made.others.is_empty() && !matches!(call, Call::AdmitBestEffort { .. } | Call::Dispatch)
        {
            return;
        }
        for (count, (_, is)) in self.0.iter_mut().zip(SORTS) {
            *count += is(&made) as u64;
        }
    }
}

counts_of!(BestEffort, SORTS);
