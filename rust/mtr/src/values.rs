//! What calls take and tell: settings, reasons, decisions, entries of the roster.

use crate::raw;

/// The settings that a scheduler is started with.
///
/// ```
/// use mtr::{Refusal, Scheduler, Settings};
///
/// // The timer may fire up to 50 microseconds after the end of a slice.
/// let settings = Settings { overrun: 50, ..Settings::default() };
/// assert_eq!(Scheduler::new(settings)?.settings(), settings);
///
/// let most = Settings { overrun: settings.thousandth, ..settings };
/// assert_eq!(Scheduler::new(most), Err(Refusal::Settings));
/// # Ok::<(), Refusal>(())
/// ```
#[derive(Clone, Copy, Debug, PartialEq, Eq, Hash)]
pub struct Settings {
    /// m: ticks per thousandth of the virtual time quantum, 1 to 1000.
    pub thousandth: u16,
    /// P: the preemption interval in ticks, 1 to 1,000,000.
    pub interval: u32,
    /// O, the overrun limit: the ticks that a report may use beyond its slice,
    /// as when a timer fires late; 0 to m − 1.
    pub overrun: u16,
}

impl Default for Settings {
    /// A quantum of 100 ms, a preemption interval of 20 ms and no overrun.
    fn default() -> Self {
        Settings {
            thousandth: raw::DEFAULT_THOUSANDTH as u16,
            interval: raw::DEFAULT_INTERVAL,
            overrun: raw::DEFAULT_OVERRUN as u16,
        }
    }
}

/// Why a thread's run ended.
#[derive(Clone, Copy, Debug, PartialEq, Eq, Hash)]
pub enum Reason {
    /// It stays runnable.
    Tick,
    /// It blocks until it is woken.
    Block,
    /// It moves to the rear with a full allotment, less its debt. A best-effort
    /// thread stays runnable, as after a tick.
    Yield,
    /// It leaves the list and frees its number and reservation.
    Exit,
}

impl Reason {
    /// The number that stands for the reason in event records.
    pub const fn number(self) -> u8 {
        (match self {
            Reason::Tick => raw::REASON_TICK,
            Reason::Block => raw::REASON_BLOCK,
            Reason::Yield => raw::REASON_YIELD,
            Reason::Exit => raw::REASON_EXIT,
        }) as u8
    }

    /// The reason of a number; none above 3.
    pub const fn from_number(number: u8) -> Option<Reason> {
        match number as u64 {
            raw::REASON_TICK => Some(Reason::Tick),
            raw::REASON_BLOCK => Some(Reason::Block),
            raw::REASON_YIELD => Some(Reason::Yield),
            raw::REASON_EXIT => Some(Reason::Exit),
            _ => None,
        }
    }
}

/// What an accepted dispatch decides.
#[derive(Clone, Copy, Debug, PartialEq, Eq, Hash)]
pub enum Dispatch {
    /// The thread is to run for at most `slice` ticks. `before` threads, all
    /// blocked, stood before it in the list; before a best-effort thread it is
    /// the whole list, so that `before` is the number of reserved threads.
    Run { thread: u8, slice: u32, before: u32 },
    /// No thread of either kind is runnable; there are `before` threads,
    /// reserved and best-effort ones.
    Idle { before: u32 },
}

/// State of an admitted thread.
#[derive(Clone, Copy, Debug, PartialEq, Eq, Hash, Default)]
pub enum ThreadState {
    #[default]
    Runnable,
    Blocked,
    Running,
}

/// One thread in the roster.
#[derive(Clone, Copy, Debug, PartialEq, Eq, Hash, Default)]
pub struct Entry {
    pub thread: u8,
    pub state: ThreadState,
    /// Ticks left of its quantum, from which a debt is already taken: at least
    /// 1 in a sound state. 0 of a best-effort thread.
    pub allotment: i32,
    /// Thousandths of ticks that it is behind its reservation; below 0 it is
    /// ahead. 0 of a best-effort thread.
    pub lag: i64,
    /// Thousandths of the meter since its admission, to the nearest, half to
    /// even.
    pub share: u32,
}

impl Entry {
    pub(crate) fn of(entry: &raw::Entry) -> Entry {
        Entry {
            thread: entry.number as u8,
            state: match entry.state {
                raw::ROSTER_BLOCKED => ThreadState::Blocked,
                raw::ROSTER_RUNNING => ThreadState::Running,
                _ => ThreadState::Runnable,
            },
            allotment: entry.allotment,
            lag: entry.lag,
            share: entry.share,
        }
    }
}
