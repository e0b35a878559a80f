//! Sound states.

use super::Rng;
use model::rule::{
    Group, Scheduler, Settings, Thread, BLOCKED, FREE, GROUPS, METER_LIMIT, METER_MAX, RUNNABLE,
    TAG_UNIT, THREADS, WEIGHT_MOST,
};

pub(super) fn any_thread(r: &mut Rng) -> Thread {
    Thread {
        admission: r.bits(),
        anchor: r.bits(),
        ticks: r.bits(),
        since: r.bits(),
        allotment: r.bits() as i32,
        reservation: r.bits() as u16,
        group_or_weight: r.bits() as u8,
        status: r.bits() as u8,
        tag: r.bits(),
    }
}

pub(super) fn any_group(r: &mut Rng) -> Group {
    Group {
        ceiling: r.bits() as u16,
        parent: r.bits() as u8,
        opened: r.bits() as u8,
    }
}

pub(super) fn free_in(s: &Scheduler, group: usize) -> u64 {
    (s.groups[group].ceiling as u64).saturating_sub(s.taken(group) as u64)
}

pub(super) fn open_groups(s: &Scheduler) -> Vec<usize> {
    (0..GROUPS).filter(|&g| s.groups[g].opened == 1).collect()
}

pub(super) fn with_status(s: &Scheduler, status: u8) -> Vec<usize> {
    (0..THREADS)
        .filter(|&n| s.threads[n].status == status)
        .collect()
}

pub(super) fn admitted(s: &Scheduler) -> Vec<usize> {
    (0..THREADS)
        .filter(|&n| s.threads[n].status != FREE)
        .collect()
}

pub(super) fn reserved(s: &Scheduler) -> Vec<usize> {
    (0..THREADS)
        .filter(|&n| s.threads[n].is_reserved())
        .collect()
}

pub(super) fn best_effort(s: &Scheduler) -> Vec<usize> {
    (0..THREADS)
        .filter(|&n| s.threads[n].is_best_effort())
        .collect()
}

/// How far the tag of a best-effort thread may lie above the virtual time. Of a
/// state of any bits it is what its settings would give.
pub(super) fn reach(s: &Scheduler, t: &Thread) -> u64 {
    (s.settings.interval as u64 + s.settings.overrun as u64) * t.step()
}

/// The largest tag of a best-effort thread in a state with a sound frame.
pub(super) fn highest(s: &Scheduler, t: &Thread) -> u64 {
    (s.time + reach(s, t)).min(TAG_UNIT * s.meter)
}

fn any_meter(r: &mut Rng) -> u64 {
    match r.below(9) {
        0 => 0,
        1 => r.below(100),
        2 => r.below(10_000_000),
        3 | 4 => r.below(METER_LIMIT),
        5 => METER_LIMIT - 1_000 + r.below(2_000),
        6 => METER_LIMIT + r.below(1_001_000),
        7 => METER_MAX - r.below(100),
        _ => r.pick(&[1, METER_LIMIT - 1, METER_LIMIT, METER_MAX - 1, METER_MAX]),
    }
}

/// A random sound state. Every sound state can come out up to the random
/// values' ranges; edges of all of them are frequent.
pub fn sound_state(r: &mut Rng) -> Scheduler {
    let mut s = Scheduler::default();
    if !r.chance(1, 4) {
        s.settings = Settings {
            interval: if r.chance(1, 2) {
                r.edgy(1, 1_000_000) as u32
            } else {
                r.edgy(1, 2_000) as u32
            },
            thousandth: r.edgy(1, 1000) as u16,
            ..s.settings
        };
    }
    if s.settings.thousandth > 1 && r.chance(3, 4) {
        s.settings.overrun = r.edgy(1, s.settings.thousandth as u64 - 1) as u16;
    }
    s.meter = any_meter(r);
    s.time = any_time(r, s.meter);
    if r.chance(3, 4) {
        leave(r, &mut s);
    }
    open_some(r, &mut s);
    admit_some(r, &mut s);
    if r.chance(2, 3) {
        add_best_effort(r, &mut s);
    }
    let len = s.count as usize;
    if r.chance(3, 4) {
        r.shuffle(&mut s.order[..len]);
    }

    // Tight ceilings, children before parents.
    if r.chance(1, 3) {
        for g in (1..GROUPS).rev() {
            if s.groups[g].opened == 1 {
                s.groups[g].ceiling = s.taken(g).max(1) as u16;
            }
        }
    }

    let runnable = with_status(&s, RUNNABLE);
    if s.meter < METER_LIMIT && !runnable.is_empty() && r.chance(1, 2) {
        let n = r.pick(&runnable);
        s.running = n as u32;
        if s.threads[n].is_best_effort() {
            s.threads[n].tag = s.time;
        }
    }
    s
}

/// A virtual time of a state with this meter.
fn any_time(r: &mut Rng, meter: u64) -> u64 {
    let most = TAG_UNIT * meter;
    match r.below(8) {
        0 => 0,
        1 => most,
        // Near the end: the tags are held down by the meter.
        2 => most - r.below(TAG_UNIT * 1000).min(most),
        // As after dispatches of some ticks.
        3 | 4 => r.below(meter.min(5_000_000) + 1) * (TAG_UNIT / r.range(1, 16)),
        _ => r.edgy(0, most),
    }
}

/// Leftovers, which no call may look at.
fn leave(r: &mut Rng, s: &mut Scheduler) {
    for t in &mut s.threads {
        *t = any_thread(r);
        if r.chance(1, 2) {
            t.group_or_weight = r.below(17) as u8;
        }
        if r.chance(1, 4) {
            t.reservation = 0;
        }
        t.status = FREE;
    }
    for g in &mut s.groups[1..] {
        *g = any_group(r);
        if r.chance(1, 2) {
            g.parent = r.below(16) as u8;
        }
        g.opened = 0;
    }
    for n in &mut s.order {
        *n = if r.chance(1, 2) {
            r.below(64) as u8
        } else {
            r.bits() as u8
        };
    }
    s.groups[0].parent = r.edgy(0, 255) as u8;
}

/// The group tree.
fn open_some(r: &mut Rng, s: &mut Scheduler) {
    let density = r.below(5);
    let shape = r.below(4);
    for g in 1..GROUPS {
        if !r.chance(density, 4) {
            continue;
        }
        let mut parents = open_groups(s);
        parents.retain(|&p| p < g && free_in(s, p) > 0);
        let parent = match (shape, parents.last()) {
            (_, None) => continue,
            (0, Some(_)) => parents[0],
            (1, Some(&last)) => last,
            _ => r.pick(&parents),
        };
        let room = free_in(s, parent);
        let ceiling = match r.below(4) {
            0 => r.range(1, room.min(20)),
            1 => r.range(1, room.div_ceil(2)),
            2 => room,
            _ => r.edgy(1, room),
        };
        s.groups[g] = Group {
            ceiling: ceiling as u16,
            parent: parent as u8,
            opened: 1,
        };
    }
}

/// The reserved threads, listed in the order of their admission.
fn admit_some(r: &mut Rng, s: &mut Scheduler) {
    let want = if r.chance(1, 3) {
        r.below(65)
    } else {
        r.edgy(0, 64)
    };
    let thrifty = r.chance(2, 3);
    let mood = r.below(5);
    let mut numbers: Vec<usize> = (0..THREADS).collect();
    if r.chance(3, 4) {
        r.shuffle(&mut numbers);
    }
    for k in 0..want {
        let mut groups = open_groups(s);
        groups.retain(|&g| free_in(s, g) > 0);
        if groups.is_empty() {
            break;
        }
        let group = r.pick(&groups);
        let room = free_in(s, group);
        let reservation = if thrifty {
            r.edgy(1, (room / (want - k)).max(1))
        } else {
            r.edgy(1, room)
        };
        let n = numbers[k as usize];
        s.threads[n] = some_thread(r, s, group, reservation, mood);
        s.order[k as usize] = n as u8;
        s.count += 1;
    }
}

/// Best-effort threads under free numbers; at times no reserved one is runnable.
fn add_best_effort(r: &mut Rng, s: &mut Scheduler) {
    let mut free = with_status(s, FREE);
    if r.chance(3, 4) {
        r.shuffle(&mut free);
    }
    let want = match r.below(4) {
        0 => 1,
        1 => r.range(1, 4),
        _ => r.edgy(1, free.len() as u64),
    };
    if r.chance(2, 5) {
        for n in reserved(s) {
            s.threads[n].status = BLOCKED;
        }
    }
    let mood = r.below(5);
    let tied = r.chance(1, 3);
    for &n in free.iter().take(want as usize) {
        let mut t = some_account(r, s, mood);
        t.group_or_weight = r.edgy(1, WEIGHT_MOST as u64) as u8;
        let any = r.bits() as i32;
        t.allotment = r.pick(&[0, 1, i32::MIN, i32::MAX, any]);
        let high = highest(s, &t);
        let low = if t.status == RUNNABLE { s.time } else { 0 };
        t.tag = match r.below(8) {
            0 | 1 => s.time,
            2 | 3 => high,
            // As after a run from the virtual time.
            4 => (s.time + r.below(1_001_000) * t.step()).min(high),
            5 => s.time.saturating_sub(r.below(3)).max(low),
            _ => r.edgy(low, high),
        };
        // The tag of another one.
        let others = best_effort(s);
        if tied && !others.is_empty() {
            let other = s.threads[r.pick(&others)].tag;
            if (low..=high).contains(&other) {
                t.tag = other;
            }
        }
        s.threads[n] = t;
    }
}

/// A reserved thread of a sound state.
fn some_thread(r: &mut Rng, s: &Scheduler, group: usize, reservation: u64, mood: u64) -> Thread {
    let m = s.settings.thousandth as u64;
    // At times the quantum of a smaller reservation.
    let allotment = if r.chance(1, 6) {
        r.range(1, reservation) * m
    } else {
        r.edgy(1, reservation * m)
    };
    let any = r.bits();
    Thread {
        allotment: allotment as i32,
        reservation: reservation as u16,
        group_or_weight: group as u8,
        tag: r.pick(&[0, s.time, u64::MAX, any]),
        ..some_account(r, s, mood)
    }
}

/// A thread of a sound state but for what its kind asks.
fn some_account(r: &mut Rng, s: &Scheduler, mood: u64) -> Thread {
    let admission = r.edgy(0, s.meter);
    let anchor = r.edgy(admission, s.meter);
    let runnable = match mood {
        0 => true,
        1 => false,
        2 => r.chance(1, 8),
        3 => r.chance(7, 8),
        _ => r.chance(1, 2),
    };
    Thread {
        admission,
        anchor,
        ticks: r.edgy(0, s.meter - admission),
        since: r.edgy(0, s.meter - anchor),
        status: if runnable { RUNNABLE } else { BLOCKED },
        ..Thread::UNUSED
    }
}
