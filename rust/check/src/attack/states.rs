//! The states that are passed: arbitrary bytes, sound states, and sound ones with something changed.

use super::inputs::any_bytes;
use crate::bytes::{self, STATE};
use crate::compare::to_library;
use model::rule::{Scheduler, Thread, METER_LIMIT, METER_MAX, NONE, RUNNABLE, TAG_UNIT};
use mtr::raw;
use samples::random::{broken_states, hostile_state, sound_state, Rng};

/// States that are sound but for one condition, by turns each condition.
pub(super) struct Broken {
    seed: u64,
    turn: u64,
    states: Vec<(&'static str, Scheduler)>,
}

impl Broken {
    pub(super) fn new(seed: u64) -> Broken {
        let mut broken = Broken {
            seed,
            turn: 0,
            states: Vec::new(),
        };
        broken.make(0);
        broken
    }

    fn make(&mut self, turn: u64) {
        self.turn = turn;
        self.states = broken_states(&mut Rng::new(Rng::new(self.seed ^ turn).bits()));
    }

    /// State i of them, and what is broken in it. It follows from the seed and i alone.
    pub(super) fn state(&mut self, i: u64) -> (&'static str, raw::Scheduler) {
        let conditions = self.states.len() as u64;
        if i / conditions != self.turn {
            self.make(i / conditions);
        }
        let (name, s) = &self.states[(i % conditions) as usize];
        (name, to_library(s))
    }

    /// The conditions.
    pub(super) fn names(&self) -> impl Iterator<Item = &'static str> + '_ {
        self.states.iter().map(|(name, _)| *name)
    }
}

/// A state, and of which origin it is.
pub(super) fn any_state(r: &mut Rng) -> (usize, raw::Scheduler) {
    match r.below(10) {
        0 => {
            let mut any = [0; STATE];
            any_bytes(r, &mut any);
            (0, bytes::to(&any))
        }
        1 | 2 => (1, changed(r)),
        3 => (2, to_library(&hostile_state(r))),
        4 => (3, owing(r)),
        5 => (4, to_library(&tagged(r))),
        _ => (6, to_library(&sound(r))),
    }
}

/// A sound state, in which a report of the running thread may end its allotment beyond its slice.
fn sound(r: &mut Rng) -> Scheduler {
    let s = sound_state(r);
    let mut shorter = s;
    if let (Some(t), true) = (s.threads.get(s.running as usize), r.chance(1, 4)) {
        let beyond = r.edgy(0, s.settings.overrun as u64) as u32;
        shorter.settings.interval = (t.allotment as u32).saturating_sub(beyond).max(1);
    }
    // A tag may be beyond the reach that the shorter interval gives it.
    if shorter.sound() {
        shorter
    } else {
        s
    }
}

/// Sets a thread's ticks, and the meter at its admission, so that its share is a number and a half, or a tick beside
/// that. The lag begins anew.
pub(super) fn near_half(r: &mut Rng, state: &mut raw::Scheduler, number: u64) {
    let most = state.meter / 2000;
    let Some(t) = state.threads.get_mut(number as usize) else {
        return;
    };
    if most > 0 {
        let unit = r.edgy(1, most);
        t.admission = state.meter - 2000 * unit;
        t.ticks = (2 * r.below(1000) + 1) * unit + r.below(3) - 1;
        (t.anchor, t.since) = (state.meter, 0);
    }
}

/// Gives threads one lag, of either sign, by their anchors and their ticks since: those that were admitted early enough for
/// it. The lags of blocked threads and best-effort ones stay 0.
pub(super) fn tied(r: &mut Rng, state: &mut raw::Scheduler) {
    let meter = state.meter;
    let growth = |t: &raw::Thread| meter.saturating_sub(t.admission);
    let units = state.threads.iter().map(|t| growth(t) / 1000);
    let Some(unit) = units.filter(|&unit| unit > 0).min() else {
        return;
    };
    if meter > METER_MAX {
        return;
    }
    let unit = r.edgy(1, unit);
    let most = 1000 * unit;
    // In thousands.
    let lag = r.edgy(0, 2 * unit) as i64 - unit as i64;
    for t in &mut state.threads {
        let since = (t.reservation as u64 * unit) as i64 - lag;
        if growth(t) >= most && (0..=most as i64).contains(&since) {
            (t.anchor, t.since) = (meter - most, since as u64);
        }
    }
}

/// Bytes of the threads, which come first.
const THREADS: u64 = 64 * size_of::<raw::Thread>() as u64;

/// A sound state with some bytes changed.
fn changed(r: &mut Rng) -> raw::Scheduler {
    let mut whole = bytes::state(&sound_state(r));
    for _ in 0..r.edgy(1, 6) {
        // Half of them past the threads, in the smaller part.
        let at = if r.chance(1, 2) {
            r.range(THREADS, STATE as u64 - 1)
        } else {
            r.below(STATE as u64)
        };
        let byte = &mut whole[at as usize];
        *byte = match r.below(3) {
            0 => r.bits() as u8,
            1 => *byte ^ 1 << r.below(8),
            _ => r.edgy(0, 64) as u8,
        };
    }
    bytes::to(&whole)
}

/// A sound state with another overrun limit or other allotments, of any value.
fn owing(r: &mut Rng) -> raw::Scheduler {
    let mut s = sound_state(r);
    let m = s.settings.thousandth;
    if s.count == 0 || r.chance(1, 2) {
        s.settings.overrun = match r.below(4) {
            0 => r.bits() as u16,
            1 => r.edgy(0, u16::MAX as u64) as u16,
            2 => m - r.below(2) as u16,
            _ => m + r.below(2) as u16,
        };
        return to_library(&s);
    }
    for _ in 0..r.range(1, 3) {
        let n = r.pick(s.list()) as usize;
        let t = &mut s.threads[n];
        let quantum = t.reservation as i32 * m as i32;
        let overrun = s.settings.overrun as u64;
        t.allotment = match r.below(8) {
            0 => r.bits() as i32,
            1 => r.edgy(0, u32::MAX as u64) as u32 as i32,
            2 => r.pick(&[i32::MIN, i32::MAX]),
            3 => quantum + r.below(2) as i32,
            4 => r.below(2) as i32,
            5 | 6 => -(r.edgy(0, overrun) as i32),
            _ => -(overrun as i32) - r.below(2) as i32,
        };
    }
    to_library(&s)
}

/// Numbers of the threads of a kind.
fn those(s: &Scheduler, kind: fn(&Thread) -> bool) -> Vec<usize> {
    (0..64).filter(|&n| kind(&s.threads[n])).collect()
}

/// A number or one beside it.
fn beside(r: &mut Rng, number: u64) -> u64 {
    number.wrapping_add(r.below(3)).wrapping_sub(1)
}

/// A sound state with best-effort threads, in which one or two numbers that belong to them are set to an edge or beside it.
fn tagged(r: &mut Rng) -> Scheduler {
    let mut s = sound_state(r);
    while those(&s, Thread::is_best_effort).is_empty() {
        s = sound_state(r);
    }
    if r.chance(1, 8) {
        last(r, &mut s);
    }
    for _ in 0..r.pick(&[1, 1, 1, 2]) {
        retag(r, &mut s);
    }
    s
}

/// The meter at its end, and the virtual time and all tags as great as they can be.
fn last(r: &mut Rng, s: &mut Scheduler) {
    s.meter = if s.running == NONE {
        r.pick(&[METER_LIMIT, METER_MAX - 1, METER_MAX])
    } else {
        METER_LIMIT - 1
    };
    s.time = TAG_UNIT * s.meter;
    for n in those(s, Thread::is_best_effort) {
        s.threads[n].tag = s.time;
    }
}

/// Sets one number of a best-effort thread, or one that has to do with it.
fn retag(r: &mut Rng, s: &mut Scheduler) {
    let others = those(s, Thread::is_best_effort);
    let reserved = those(s, Thread::is_reserved);
    let n = r.pick(&others);
    let (time, most) = (s.time, TAG_UNIT.wrapping_mul(s.meter));
    let t = s.threads[n];
    let longest = s.settings.interval as u64 + s.settings.overrun as u64;
    let reach = time.wrapping_add(longest * t.step());
    match r.below(16) {
        0..=4 => {
            let bound = r.pick(&[time, reach, reach, most, reach.min(most)]);
            s.threads[n].tag = beside(r, bound);
        }
        5 => s.threads[n].tag = r.pick(&[0, u64::MAX]),
        6 | 7 if s.meter < METER_LIMIT => {
            s.running = n as u32;
            s.threads[n].status = RUNNABLE;
            s.threads[n].tag = beside(r, time);
        }
        8 => s.threads[n].group_or_weight = r.pick(&[0, 1, 16, 17, 255]),
        9 => s.threads[n].allotment = r.pick(&[i32::MIN, -1, 0, 1, i32::MAX]),
        10 | 11 => {
            s.time = r.pick(&[
                0,
                most.wrapping_sub(1),
                most,
                most,
                most.wrapping_add(1),
                u64::MAX,
            ]);
            // Half of them with tags that go with it.
            if r.chance(1, 2) {
                for n in others {
                    s.threads[n].tag = s.time.min(most);
                }
            }
        }
        12 if s.count < 64 => {
            s.order[s.count as usize] = n as u8;
            s.count += 1;
        }
        13 if !reserved.is_empty() => {
            s.threads[r.pick(&reserved)].group_or_weight = r.pick(&[15, 16, 16, 17, 255]);
        }
        14 if !reserved.is_empty() => {
            let bound = r.pick(&[0, time, most, u64::MAX]);
            s.threads[r.pick(&reserved)].tag = bound;
        }
        _ => s.settings.interval = r.pick(&[1, s.settings.interval.saturating_sub(1), 1_000_000]),
    }
}
