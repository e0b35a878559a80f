//! States in which one condition on best-effort threads or tags is broken.

use super::broken::{low, room, some, such, Broken};
use super::states::{best_effort, highest, reach, reserved, with_status};
use super::Rng;
use model::rule::{Scheduler, FREE, NONE, RUNNABLE, TAG_UNIT};

/// Best-effort threads with a property.
fn those(s: &Scheduler, wanted: impl Fn(&Scheduler, usize) -> bool) -> Vec<usize> {
    let mut numbers = best_effort(s);
    numbers.retain(|&n| wanted(s, n));
    numbers
}

/// A sound state and one of its best-effort threads with a property.
fn one(r: &mut Rng, wanted: impl Fn(&Scheduler, usize) -> bool) -> (Scheduler, usize) {
    let s = such(r, |s| !those(s, &wanted).is_empty());
    let n = r.pick(&those(&s, &wanted));
    (s, n)
}

fn waits(s: &Scheduler, n: usize) -> bool {
    s.running != n as u32
}

fn most(s: &Scheduler) -> u64 {
    TAG_UNIT * s.meter
}

/// Weight, status and list place.
pub(super) fn best_effort_threads(r: &mut Rng, out: &mut Broken) {
    let level = |s: &Scheduler, n: usize| s.threads[n].tag <= s.time;
    let (mut s, n) = one(r, level);
    s.threads[n].group_or_weight = 0;
    out.push(("weight is 0", s));
    let (mut s, n) = one(r, level);
    s.threads[n].group_or_weight = r.edgy(17, 255) as u8;
    out.push(("weight above 16", s));
    let (mut s, n) = one(r, waits);
    s.threads[n].status = r.edgy(3, 255) as u8;
    out.push(("status above 2, best-effort", s));
    let mut s = such(r, |s| !best_effort(s).is_empty());
    s.order[s.count as usize] = r.pick(&best_effort(&s)) as u8;
    s.count += 1;
    out.push(("a best-effort thread in the list", s));
    let mut s = such(r, |s| some(s) && !best_effort(s).is_empty());
    let i = r.below(s.count as u64) as usize;
    s.order[i] = r.pick(&best_effort(&s)) as u8;
    out.push(("a best-effort thread in place of a reserved one", s));
    // Listed as a reserved thread, which it was but for its reservation.
    let mut s = such(r, some);
    let n = r.pick(&reserved(&s));
    let t = &mut s.threads[n];
    (t.reservation, t.tag) = (0, s.time);
    t.group_or_weight = r.edgy(1, 16) as u8;
    out.push(("a listed thread of reservation 0", s));
    // And one that has a reservation, but no place.
    let mut s = such(r, |s| room(s) && s.taken(0) < 1000);
    let n = r.pick(&with_status(&s, FREE));
    let t = &mut s.threads[n];
    (t.status, t.reservation, t.group_or_weight) = (RUNNABLE, 1, 0);
    (t.admission, t.anchor) = (s.meter, s.meter);
    (t.ticks, t.since, t.allotment) = (0, 0, 1);
    out.push(("a reserved thread outside the list", s));
}

/// Tags and the virtual time.
pub(super) fn tags(r: &mut Rng, out: &mut Broken) {
    let (mut s, n) = one(r, |s, n| {
        waits(s, n) && highest(s, &s.threads[n]) < most(s) && s.threads[n].status == RUNNABLE
    });
    s.threads[n].tag = r.edgy(s.time + reach(&s, &s.threads[n]) + 1, most(&s));
    out.push(("tag beyond its reach, runnable", s));
    let (mut s, n) = one(r, |s, n| {
        waits(s, n) && highest(s, &s.threads[n]) < most(s) && s.threads[n].status != RUNNABLE
    });
    s.threads[n].tag = r.edgy(s.time + reach(&s, &s.threads[n]) + 1, most(&s));
    out.push(("tag beyond its reach, blocked", s));
    let (mut s, n) = one(r, |s, n| {
        waits(s, n) && s.time + reach(s, &s.threads[n]) > most(s)
    });
    s.threads[n].tag = r.edgy(most(&s) + 1, s.time + reach(&s, &s.threads[n]));
    out.push(("tag above 720720 times the meter", s));
    let (mut s, n) = one(r, |s, n| {
        waits(s, n) && s.time > 0 && s.threads[n].status == RUNNABLE
    });
    s.threads[n].tag = r.edgy(0, s.time - 1);
    out.push(("tag of a runnable thread below the virtual time", s));
    let (mut s, n) = one(r, |s, n| s.time > 0 && !waits(s, n));
    s.threads[n].tag = r.edgy(0, s.time - 1);
    out.push(("tag of the running thread below the virtual time", s));
    let (mut s, n) = one(r, |s, n| !waits(s, n) && highest(s, &s.threads[n]) > s.time);
    s.threads[n].tag = r.edgy(s.time + 1, highest(&s, &s.threads[n]));
    out.push(("tag of the running thread above the virtual time", s));
    // It runs, but is not one whose tag is the virtual time.
    let (mut s, n) = one(r, |s, n| {
        low(s) && s.running == NONE && s.threads[n].tag > s.time && s.threads[n].status == RUNNABLE
    });
    s.running = n as u32;
    out.push(("a thread ahead of the virtual time runs", s));
    let mut s = such(r, |s| best_effort(s).is_empty());
    s.time = r.edgy(most(&s) + 1, u64::MAX);
    out.push(("virtual time above 720720 times the meter", s));
    let mut s = such(r, |s| {
        let all = best_effort(s);
        !all.is_empty() && all.iter().all(|&n| s.threads[n].status != RUNNABLE)
    });
    s.time = r.edgy(most(&s) + 1, u64::MAX);
    out.push(("virtual time above it, blocked threads", s));
}
