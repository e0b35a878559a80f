//! What the states are counted by.

use model::rule::{Scheduler, Thread, BLOCKED, METER_MAX, RUNNABLE, TAG_UNIT};
use mtr::raw;

/// What a state was made of.
pub const ORIGINS: [&str; 7] = [
    "any bytes",
    "sound, bytes changed",
    "sound, fields changed",
    "sound, the overrun limit or allotments changed",
    "sound, tags, weights or the virtual time changed",
    "sound but for one condition",
    "sound",
];

/// Of the origins that one, and every so many rounds have it.
pub(super) const BROKEN: usize = 5;
pub(super) const BROKEN_EACH: u64 = 16;

/// The overrun limit of a state, and whether a sound one can have it.
pub const LIMITS: [(&str, bool); 6] = [
    ("0", true),
    ("below m - 1", true),
    ("m - 1", true),
    ("m", false),
    ("above m", false),
    ("65535", false),
];

pub(super) fn limit(s: &raw::Settings) -> usize {
    let (m, o) = (s.thousandth, s.overrun);
    match o {
        u16::MAX => 5,
        _ if o > m => 4,
        _ if o == m => 3,
        0 => 0,
        _ if o == m - 1 => 2,
        _ => 1,
    }
}

/// The allotment of a listed thread, and whether one in a sound state can have it.
pub const ALLOTMENTS: [(&str, bool); 9] = [
    ("the least number", false),
    ("below -O", false),
    ("-O to -1", false),
    ("0", false),
    ("1", true),
    ("below the quantum", true),
    ("the quantum", true),
    ("above the quantum", false),
    ("the greatest number", false),
];

pub(super) fn allotment(t: &raw::Thread, s: &raw::Settings) -> usize {
    let quantum = t.reservation as i64 * s.thousandth as i64;
    let (allotment, overrun) = (t.allotment as i64, s.overrun as i64);
    match t.allotment {
        i32::MIN => 0,
        _ if allotment < -overrun => 1,
        _ if allotment < 0 => 2,
        0 => 3,
        i32::MAX => 8,
        _ if allotment > quantum => 7,
        _ if allotment == quantum => 6,
        1 => 4,
        _ => 5,
    }
}

/// A best-effort thread's tag among what bounds it, in wide numbers.
struct Tagged {
    tag: i128,
    time: i128,
    /// How far it may be above the virtual time; of a weight that there is not, not at all.
    reach: i128,
    /// 720,720 times the meter.
    most: i128,
    weight: u8,
    allotment: i32,
    status: u8,
    runs: bool,
    listed: bool,
}

impl Tagged {
    fn new(s: &Scheduler, n: usize) -> Tagged {
        let t = &s.threads[n];
        let longest = s.settings.interval as i128 + s.settings.overrun as i128;
        Tagged {
            tag: t.tag.into(),
            time: s.time.into(),
            reach: s.time as i128 + longest * t.step() as i128,
            most: TAG_UNIT as i128 * s.meter as i128,
            weight: t.group_or_weight,
            allotment: t.allotment,
            status: t.status,
            runs: s.running as usize == n,
            listed: s.list().contains(&(n as u8)),
        }
    }

    fn waits(&self) -> bool {
        self.status == RUNNABLE && !self.runs
    }

    fn blocked(&self) -> bool {
        self.status == BLOCKED && !self.runs
    }

    /// So far above the virtual time.
    fn past_time(&self, distance: i128) -> bool {
        self.tag == self.time + distance
    }

    /// So far above its reach, where that is the nearer of the two bounds above.
    fn past_reach(&self, distance: i128) -> bool {
        self.tag == self.reach + distance && self.reach < self.most
    }

    /// So far above 720,720 times the meter, where that is the nearer one.
    fn past_most(&self, distance: i128) -> bool {
        self.tag == self.most + distance && self.most < self.reach
    }
}

/// A state with what is told of its best-effort threads.
pub struct View<'a> {
    s: &'a Scheduler,
    others: Vec<Tagged>,
}

impl<'a> View<'a> {
    pub(super) fn new(s: &'a Scheduler) -> View<'a> {
        let others = (0..64).filter(|&n| s.threads[n].is_best_effort());
        View {
            s,
            others: others.map(|n| Tagged::new(s, n)).collect(),
        }
    }

    fn any(&self, is: impl Fn(&Tagged) -> bool) -> bool {
        self.others.iter().any(is)
    }

    fn reserved(&self, is: impl Fn(&Thread) -> bool) -> bool {
        self.s.threads.iter().any(|t| t.is_reserved() && is(t))
    }

    /// The virtual time is so far above 720,720 times the meter.
    fn time(&self, distance: i128) -> bool {
        self.s.time as i128 == TAG_UNIT as i128 * self.s.meter as i128 + distance
    }
}

/// Something of a state, whether a sound one can have it, and which have it.
type Property = (&'static str, bool, fn(&View) -> bool);

/// Tags, weights, the virtual time, and what is free in the entries of either kind.
pub const PROPERTIES: [Property; 45] = [
    ("runnable, tag one below the virtual time", false, |v| {
        v.any(|t| t.waits() && t.past_time(-1))
    }),
    ("runnable, tag at the virtual time", true, |v| {
        v.any(|t| t.waits() && t.past_time(0))
    }),
    ("runnable, tag one above the virtual time", true, |v| {
        v.any(|t| t.waits() && t.past_time(1))
    }),
    ("runnable, tag one below its reach", true, |v| {
        v.any(|t| t.waits() && t.past_reach(-1))
    }),
    ("runnable, tag at its reach", true, |v| {
        v.any(|t| t.waits() && t.past_reach(0))
    }),
    ("runnable, tag one above its reach", false, |v| {
        v.any(|t| t.waits() && t.past_reach(1))
    }),
    ("runnable, tag one below 720720 meters", true, |v| {
        v.any(|t| t.waits() && t.past_most(-1))
    }),
    ("runnable, tag at 720720 meters", true, |v| {
        v.any(|t| t.waits() && t.past_most(0))
    }),
    ("runnable, tag one above 720720 meters", false, |v| {
        v.any(|t| t.waits() && t.past_most(1))
    }),
    ("blocked, tag one below the virtual time", true, |v| {
        v.any(|t| t.blocked() && t.past_time(-1))
    }),
    ("blocked, tag at the virtual time", true, |v| {
        v.any(|t| t.blocked() && t.past_time(0))
    }),
    ("blocked, tag one above the virtual time", true, |v| {
        v.any(|t| t.blocked() && t.past_time(1))
    }),
    ("blocked, tag one below its reach", true, |v| {
        v.any(|t| t.blocked() && t.past_reach(-1))
    }),
    ("blocked, tag at its reach", true, |v| {
        v.any(|t| t.blocked() && t.past_reach(0))
    }),
    ("blocked, tag one above its reach", false, |v| {
        v.any(|t| t.blocked() && t.past_reach(1))
    }),
    ("blocked, tag one below 720720 meters", true, |v| {
        v.any(|t| t.blocked() && t.past_most(-1))
    }),
    ("blocked, tag at 720720 meters", true, |v| {
        v.any(|t| t.blocked() && t.past_most(0))
    }),
    ("blocked, tag one above 720720 meters", false, |v| {
        v.any(|t| t.blocked() && t.past_most(1))
    }),
    ("blocked, tag 0", true, |v| {
        v.any(|t| t.blocked() && t.tag == 0 && t.time > 0)
    }),
    ("running, tag one below the virtual time", false, |v| {
        v.any(|t| t.runs && t.past_time(-1))
    }),
    ("running, tag at the virtual time", true, |v| {
        v.any(|t| t.runs && t.past_time(0))
    }),
    ("running, tag one above the virtual time", false, |v| {
        v.any(|t| t.runs && t.past_time(1))
    }),
    ("the greatest tag", false, |v| {
        v.any(|t| t.tag == u64::MAX as i128)
    }),
    ("weight 0", false, |v| v.any(|t| t.weight == 0)),
    ("weight 1", true, |v| v.any(|t| t.weight == 1)),
    ("weight 16", true, |v| v.any(|t| t.weight == 16)),
    ("weight 17", false, |v| v.any(|t| t.weight == 17)),
    ("weight 255", false, |v| v.any(|t| t.weight == 255)),
    ("best-effort, the least allotment", true, |v| {
        v.any(|t| t.allotment == i32::MIN)
    }),
    ("best-effort, allotment below 0", true, |v| {
        v.any(|t| t.allotment < 0)
    }),
    ("best-effort, allotment 0", true, |v| {
        v.any(|t| t.allotment == 0)
    }),
    ("best-effort, allotment above 0", true, |v| {
        v.any(|t| t.allotment > 0)
    }),
    ("best-effort, the greatest allotment", true, |v| {
        v.any(|t| t.allotment == i32::MAX)
    }),
    ("best-effort, listed", false, |v| v.any(|t| t.listed)),
    ("reserved, group 15", true, |v| {
        v.reserved(|t| t.group_or_weight == 15)
    }),
    ("reserved, group 16", false, |v| {
        v.reserved(|t| t.group_or_weight == 16)
    }),
    ("reserved, tag 0", true, |v| v.reserved(|t| t.tag == 0)),
    ("reserved, tag below the virtual time", true, |v| {
        v.reserved(|t| t.tag < v.s.time)
    }),
    ("reserved, the greatest tag", true, |v| {
        v.reserved(|t| t.tag == u64::MAX)
    }),
    ("virtual time 0, above meter 0", true, |v| {
        v.s.time == 0 && v.s.meter > 0
    }),
    ("virtual time one below its end", true, |v| v.time(-1)),
    ("virtual time at its end", true, |v| v.time(0)),
    ("virtual time at the end of the meter", true, |v| {
        v.time(0) && v.s.meter == METER_MAX
    }),
    ("virtual time one above its end", false, |v| v.time(1)),
    ("the greatest virtual time", false, |v| v.s.time == u64::MAX),
];
