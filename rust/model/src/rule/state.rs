//! The state, its numbers and the answers of the calls.

/// Number of thread entries.
pub const THREADS: usize = 64;
/// Number of group entries.
pub const GROUPS: usize = 16;
/// `running` while no thread runs; also the thread of an idle dispatch.
pub const NONE: u32 = 64;
/// The whole processor in thousandths, and group 0's ceiling.
pub const WHOLE: u16 = 1000;
/// The largest weight of a best-effort thread.
pub const WEIGHT_MOST: u8 = 16;
/// What a tick adds to the tag of a thread of weight 1. Every weight divides it.
pub const TAG_UNIT: u64 = 720_720;
/// From this meter on no thread is dispatched.
pub const METER_LIMIT: u64 = 10_000_000_000_000;
/// The largest meter of a sound state, whatever the overrun limit is: the longest
/// interval and the largest overrun beyond the limit.
pub const METER_MAX: u64 = METER_LIMIT + 1_000_000 + 999;

/// Thread status: the entry is not in use.
pub const FREE: u8 = 0;
/// Thread status: may be dispatched.
pub const RUNNABLE: u8 = 1;
/// Thread status: is passed over; a reserved thread keeps its place in the list.
pub const BLOCKED: u8 = 2;

/// Report reason: the interval ended, the thread stays runnable.
pub const TICK: u64 = 0;
/// Report reason: the thread blocks.
pub const BLOCK: u64 = 1;
/// Report reason: the thread yields.
pub const YIELD: u64 = 2;
/// Report reason: the thread exits.
pub const EXIT: u64 = 3;

/// The answers of the calls by number.
pub mod answer {
    pub const ACCEPTED: u32 = 0;
    pub const SETTINGS: u32 = 1;
    pub const GROUP: u32 = 2;
    pub const GROUP_NUMBER: u32 = 3;
    pub const AMOUNT: u32 = 4;
    pub const ROOM: u32 = 5;
    pub const GROUP_IN_USE: u32 = 6;
    pub const THREAD: u32 = 7;
    pub const ADMITTED: u32 = 8;
    pub const RUNS: u32 = 9;
    pub const NOT_BLOCKED: u32 = 10;
    pub const NOTHING_RUNS: u32 = 11;
    pub const A_THREAD_RUNS: u32 = 12;
    pub const USED: u32 = 13;
    pub const REASON: u32 = 14;
    pub const METER: u32 = 15;
    pub const UNSOUND: u32 = 16;
    pub const LENGTH: u32 = 17;
    pub const CHECK: u32 = 18;
    pub const FORM: u32 = 19;
    pub const NOT_STARTED: u32 = 20;
    pub const NO_DISPATCH: u32 = 21;
    pub const ROW: u32 = 22;
    pub const PRIORITY: u32 = 23;
    pub const QUESTION: u32 = 24;
}

#[repr(C)]
#[derive(Clone, Copy, Debug, PartialEq, Eq)]
pub struct Settings {
    /// P: the preemption interval in ticks.
    pub interval: u32,
    /// m: ticks per thousandth of the virtual time quantum.
    pub thousandth: u16,
    /// O: the ticks that a report may use beyond the slice, fewer than m.
    pub overrun: u16,
}

impl Settings {
    pub const DEFAULT_THOUSANDTH: u16 = 100;
    pub const DEFAULT_INTERVAL: u32 = 20_000;
    pub const DEFAULT_OVERRUN: u16 = 0;
    pub const MAX_THOUSANDTH: u16 = 1000;
    pub const MAX_INTERVAL: u32 = 1_000_000;

    /// Each setting lies in its range.
    #[inline]
    pub fn sound(&self) -> bool {
        self.thousandth.wrapping_sub(1) < Self::MAX_THOUSANDTH
            && self.interval.wrapping_sub(1) < Self::MAX_INTERVAL
            && self.overrun < self.thousandth
    }
}

impl Default for Settings {
    fn default() -> Self {
        Settings {
            interval: Self::DEFAULT_INTERVAL,
            thousandth: Self::DEFAULT_THOUSANDTH,
            overrun: Self::DEFAULT_OVERRUN,
        }
    }
}

/// What a tick adds to a tag, by weight; 0 where no thread has that weight.
const STEPS: [u64; WEIGHT_MOST as usize + 1] = {
    let mut steps = [0; WEIGHT_MOST as usize + 1];
    let mut weight = 1;
    while weight < steps.len() {
        steps[weight] = TAG_UNIT / weight as u64;
        weight += 1;
    }
    steps
};

/// A reserved thread, which stands in the list and in a group, or a best-effort
/// thread, which stands in neither: the one has a reservation, the other has 0.
#[repr(C)]
#[derive(Clone, Copy, Debug, PartialEq, Eq)]
pub struct Thread {
    /// Meter at admission.
    pub admission: u64,
    /// Meter at the anchor.
    pub anchor: u64,
    /// Ticks since admission.
    pub ticks: u64,
    /// Ticks since the anchor.
    pub since: u64,
    /// Ticks left before the thread moves to the rear: 1 to its quantum. Of no
    /// meaning in a best-effort thread.
    pub allotment: i32,
    /// Thousandths reserved; 0 in a best-effort thread.
    pub reservation: u16,
    /// Group of a reserved thread, weight of a best-effort one.
    pub group_or_weight: u8,
    /// 0 free, 1 runnable, 2 blocked.
    pub status: u8,
    /// Start tag of a best-effort thread, its last finish tag while it is blocked.
    /// Of no meaning in a reserved thread.
    pub tag: u64,
}

impl Thread {
    /// An entry not in use, as exit and remove leave it.
    pub const UNUSED: Thread = Thread {
        admission: 0,
        anchor: 0,
        ticks: 0,
        since: 0,
        allotment: 0,
        reservation: 0,
        group_or_weight: 0,
        status: FREE,
        tag: 0,
    };

    /// Admitted with a reservation.
    #[inline]
    pub fn is_reserved(&self) -> bool {
        self.status != FREE && self.reservation != 0
    }

    /// Admitted with a weight.
    #[inline]
    pub fn is_best_effort(&self) -> bool {
        self.status != FREE && self.reservation == 0
    }

    /// Group of a reserved thread.
    #[inline]
    pub fn group(&self) -> usize {
        self.group_or_weight as usize
    }

    /// Weight of a best-effort thread.
    #[inline]
    pub fn weight(&self) -> u64 {
        self.group_or_weight as u64
    }

    /// What a tick adds to the tag of a best-effort thread: 720,720 / weight, and
    /// 0 for a weight that no sound state holds.
    #[inline]
    pub fn step(&self) -> u64 {
        STEPS
            .get(self.group_or_weight as usize)
            .copied()
            .unwrap_or(0)
    }

    /// The smaller of the allotment and P, and P for a best-effort thread. An
    /// allotment below 0, which no sound state holds, counts as 0.
    #[inline]
    pub fn slice(&self, settings: &Settings) -> u32 {
        if self.reservation == 0 {
            return settings.interval;
        }
        (self.allotment.max(0) as u32).min(settings.interval)
    }
}

#[repr(C)]
#[derive(Clone, Copy, Debug, PartialEq, Eq)]
pub struct Group {
    pub ceiling: u16,
    pub parent: u8,
    /// 0 closed, 1 open.
    pub opened: u8,
}

impl Group {
    /// A closed group, as close leaves it.
    pub const CLOSED: Group = Group {
        ceiling: 0,
        parent: 0,
        opened: 0,
    };
    /// Group 0 of a fresh start.
    pub const ROOT: Group = Group {
        ceiling: WHOLE,
        parent: 0,
        opened: 1,
    };
}

#[repr(C)]
#[derive(Clone, Copy, Debug, PartialEq, Eq)]
pub struct Scheduler {
    pub threads: [Thread; THREADS],
    /// The list is the first `count` entries, front first: the reserved threads.
    pub order: [u8; THREADS],
    pub groups: [Group; GROUPS],
    /// Ticks of all accepted reports since the start.
    pub meter: u64,
    /// The virtual time: start tag of the last best-effort dispatch.
    pub time: u64,
    pub settings: Settings,
    pub count: u32,
    /// Number of the running thread, 64 for none.
    pub running: u32,
}

#[repr(C)]
#[derive(Clone, Copy, Debug, PartialEq, Eq, Default)]
pub struct Reply {
    pub answer: u32,
    pub thread: u32,
    pub slice: u32,
    pub before: u32,
}

impl Reply {
    /// An answer with nothing beside it.
    #[inline]
    pub fn plain(answer: u32) -> Reply {
        Reply {
            answer,
            ..Reply::default()
        }
    }
}
