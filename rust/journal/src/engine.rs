//! What a journal is run on: [`Proved`], the proved library, which is the only
//! one that the command `journal` has.

use mtr::{raw, Dispatch, Event, Scheduler};

pub use mtr::raw::METER_LIMIT;
pub use mtr::Settings;

use crate::codec::{answer, Record, NONE, THREADS};

/// What a thread is admitted as.
#[derive(Clone, Copy, Debug, PartialEq, Eq)]
pub enum Class {
    /// With thousandths of the core, in a group and in the list.
    Reserved { reservation: u64, group: u8 },
    /// With a weight, for the time that reserved threads leave.
    BestEffort { weight: u64 },
}

impl Class {
    pub fn is_best_effort(self) -> bool {
        matches!(self, Class::BestEffort { .. })
    }

    /// The most that the share guarantee lets its lag be, without overruns. A
    /// best-effort thread has no lag.
    pub fn bound(self, settings: Settings) -> i64 {
        match self {
            Class::Reserved { reservation, .. } => bound(reservation, settings),
            Class::BestEffort { .. } => 0,
        }
    }
}

/// Answers records and keeps the accounts. A fresh one has the default
/// settings and no threads.
pub trait Engine: Default {
    /// Who answers, in a sentence for those who look at the result.
    const SAYS: &'static str;

    /// Makes the record's call. An accepted start replaces the state.
    fn run(&mut self, record: &Record) -> Reply;

    /// f × (meter since the anchor) − 1000 × (ticks since the anchor); 0 while
    /// blocked, 0 for a best-effort thread and for a number that is not admitted.
    fn lag(&self, thread: u8) -> i64;

    /// Achieved share in thousandths, of an admitted thread.
    fn share(&self, thread: u8) -> Option<u64>;

    /// What an admitted thread is.
    fn class(&self, thread: u8) -> Option<Class>;

    /// m, P and O.
    fn settings(&self) -> Settings;

    /// The running thread.
    fn running(&self) -> Option<u8>;

    /// All reserved threads, front of the list first.
    fn list(&self) -> &[u8];

    /// All best-effort threads, by number.
    fn best_effort(&self) -> impl Iterator<Item = u8> + '_ {
        let effort = |n: &u8| self.class(*n).is_some_and(Class::is_best_effort);
        (0..THREADS as u8).filter(effort)
    }

    /// Ticks of all accepted reports since the start.
    fn meter(&self) -> u64;
}

/// What a record is answered: 0 or the refusal, and for an accepted dispatch
/// the thread, its slice and how many reserved threads stood before it; where it
/// is idle the number of all threads.
#[derive(Clone, Copy, Debug, PartialEq, Eq, Default)]
pub struct Reply {
    pub answer: u32,
    pub thread: u32,
    pub slice: u32,
    pub before: u32,
}

impl Reply {
    /// An answer alone.
    pub fn plain(answer: u32) -> Reply {
        Reply {
            answer,
            ..Reply::default()
        }
    }
}

/// The most that the share guarantee lets the lag of a thread be while no other
/// thread overruns its slice: 2f(1000 − f)m + fP. Each tick of another's overrun
/// since the lag is counted adds f.
pub fn bound(reservation: u64, settings: Settings) -> i64 {
    let (m, p) = (u64::from(settings.thousandth), u64::from(settings.interval));
    let f = reservation;
    (2 * f * (1000 - f) * m + f * p) as i64
}

/// The most by which the ticks of two best-effort threads, each times the
/// other's weight, differ while both stay runnable: (v + w)(P + O).
pub fn apart(v: u64, w: u64, settings: Settings) -> u64 {
    (v + w) * (u64::from(settings.interval) + u64::from(settings.overrun))
}

/// Version of the proved library, as it is told.
pub fn version() -> String {
    let number = mtr::version();
    let (major, minor, patch) = (number / 10_000, number / 100 % 100, number % 100);
    format!("{major}.{minor}.{patch}")
}

/// The proved library.
#[derive(Clone, Debug, Default)]
pub struct Proved {
    state: Scheduler,
}

impl Engine for Proved {
    const SAYS: &'static str =
        "Answers, shares and lags are computed anew from the journal's calls by the proved library.";

    fn run(&mut self, record: &Record) -> Reply {
        let called = Event::try_from(*record).and_then(|event| self.state.call(event));
        match called {
            Err(refusal) => Reply::plain(refusal.number()),
            Ok(None) => Reply::plain(answer::ACCEPTED),
            Ok(Some(Dispatch::Idle { before })) => Reply {
                thread: NONE,
                before,
                ..Reply::default()
            },
            Ok(Some(Dispatch::Run {
                thread,
                slice,
                before,
            })) => Reply {
                thread: thread.into(),
                slice,
                before,
                ..Reply::default()
            },
        }
    }

    fn lag(&self, thread: u8) -> i64 {
        self.state.lag(thread).unwrap_or(0)
    }

    fn share(&self, thread: u8) -> Option<u64> {
        self.state.share(thread).ok().map(u64::from)
    }

    fn class(&self, thread: u8) -> Option<Class> {
        let entry = self.state.as_raw().threads.get(thread as usize)?;
        match (entry.status, entry.reservation) {
            (raw::STATUS_FREE, _) => None,
            (_, 0) => Some(Class::BestEffort {
                weight: entry.group_or_weight.into(),
            }),
            (_, reservation) => Some(Class::Reserved {
                reservation: reservation.into(),
                group: entry.group_or_weight,
            }),
        }
    }

    fn settings(&self) -> Settings {
        self.state.settings()
    }

    fn running(&self) -> Option<u8> {
        self.state.running()
    }

    fn list(&self) -> &[u8] {
        self.state.list()
    }

    fn meter(&self) -> u64 {
        self.state.meter()
    }
}
