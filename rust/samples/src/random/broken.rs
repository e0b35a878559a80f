//! States in which one condition of soundness is broken.

use super::broken_tags::{best_effort_threads, tags};
use super::states::{admitted, free_in, highest, open_groups, reserved, sound_state, with_status};
use super::Rng;
use model::rule::{Scheduler, Thread, BLOCKED, FREE, GROUPS, METER_LIMIT, METER_MAX, NONE, WHOLE};

/// States with the condition that each breaks.
pub(super) type Broken = Vec<(&'static str, Scheduler)>;

/// For each condition of soundness a state in which it is broken and the
/// others hold.
///
/// Four cannot be broken alone and are given with what they entail: an m of 0
/// leaves no allowed O, a reservation or ceiling above 1000 exceeds the ceiling of
/// the group it stands in, and a running best-effort thread's tag below the virtual
/// time is one of a runnable thread.
pub fn broken_states(r: &mut Rng) -> Vec<(&'static str, Scheduler)> {
    let mut out = Vec::new();
    settings(r, &mut out);
    meter(r, &mut out);
    running(r, &mut out);
    meanings(r, &mut out);
    root(r, &mut out);
    tree(r, &mut out);
    rooms(r, &mut out);
    threads(r, &mut out);
    list(r, &mut out);
    accounts(r, &mut out);
    best_effort_threads(r, &mut out);
    tags(r, &mut out);
    out
}

/// A sound state of a sort.
pub(super) fn such(r: &mut Rng, wanted: impl Fn(&Scheduler) -> bool) -> Scheduler {
    loop {
        let s = sound_state(r);
        if wanted(&s) {
            return s;
        }
    }
}

pub(super) fn low(s: &Scheduler) -> bool {
    s.meter < METER_LIMIT
}

pub(super) fn some(s: &Scheduler) -> bool {
    s.count > 0
}

/// A number is free.
pub(super) fn room(s: &Scheduler) -> bool {
    !with_status(s, FREE).is_empty()
}

/// Open groups other than 0.
fn inner(s: &Scheduler) -> Vec<usize> {
    open_groups(s).into_iter().filter(|&g| g > 0).collect()
}

/// Those of them with neither thread nor child.
fn idle_groups(s: &Scheduler) -> Vec<usize> {
    inner(s).into_iter().filter(|&g| s.taken(g) == 0).collect()
}

fn shut_groups(s: &Scheduler) -> Vec<usize> {
    (0..GROUPS).filter(|&g| s.groups[g].opened == 0).collect()
}

/// Settings out of their ranges.
fn settings(r: &mut Rng, out: &mut Broken) {
    let mut s = such(r, |s| s.count == 0);
    s.settings.thousandth = 0;
    out.push(("m is 0", s));
    let mut s = such(r, |_| true);
    s.settings.thousandth = r.edgy(1001, u16::MAX as u64) as u16;
    out.push(("m above 1000", s));
    let mut s = such(r, |_| true);
    s.settings.interval = 0;
    for n in 0..s.threads.len() {
        if s.threads[n].is_best_effort() {
            s.threads[n].tag = s.threads[n].tag.min(highest(&s, &s.threads[n]));
        }
    }
    out.push(("P is 0", s));
    let mut s = such(r, |_| true);
    s.settings.interval = r.edgy(1_000_001, u32::MAX as u64) as u32;
    out.push(("P above 1000000", s));
    let mut s = such(r, |_| true);
    s.settings.overrun = s.settings.thousandth;
    out.push(("O is m", s));
    let mut s = such(r, |_| true);
    s.settings.overrun = r.edgy(s.settings.thousandth as u64 + 1, u16::MAX as u64) as u16;
    out.push(("O above m", s));
}

/// The meter.
fn meter(r: &mut Rng, out: &mut Broken) {
    let mut s = such(r, |s| s.running == NONE);
    s.meter = r.edgy(METER_MAX + 1, u64::MAX);
    out.push(("meter above its bound", s));
    let mut s = such(r, |s| s.running != NONE);
    s.meter = r.edgy(METER_LIMIT, METER_MAX);
    out.push(("meter at its limit while a thread runs", s));
}

/// The running thread.
fn running(r: &mut Rng, out: &mut Broken) {
    let mut s = such(r, low);
    s.running = r.edgy(65, u32::MAX as u64) as u32;
    out.push(("running above 64", s));
    let mut s = such(r, |s| low(s) && room(s));
    s.running = r.pick(&with_status(&s, FREE)) as u32;
    out.push(("running a free entry", s));
    let mut s = such(r, |s| low(s) && !with_status(s, BLOCKED).is_empty());
    let n = r.pick(&with_status(&s, BLOCKED));
    s.running = n as u32;
    if s.threads[n].is_best_effort() {
        s.threads[n].tag = s.time;
    }
    out.push(("running a blocked thread", s));
}

/// Status and opened of no meaning.
fn meanings(r: &mut Rng, out: &mut Broken) {
    let mut s = such(r, |s| reserved(s).iter().any(|&n| n as u32 != s.running));
    let others: Vec<usize> = reserved(&s)
        .into_iter()
        .filter(|&n| n as u32 != s.running)
        .collect();
    let n = r.pick(&others);
    s.threads[n].status = r.edgy(3, 255) as u8;
    out.push(("status above 2, listed", s));
    // Free but for the status: its other fields would do for a thread.
    let mut s = such(r, |s| room(s) && free_in(s, 0) > 0);
    let n = r.pick(&with_status(&s, FREE));
    s.threads[n] = Thread {
        admission: s.meter,
        anchor: s.meter,
        allotment: 1,
        reservation: 1,
        status: r.edgy(3, 255) as u8,
        ..Thread::UNUSED
    };
    out.push(("status above 2, not listed", s));
    let mut s = such(r, |s| !inner(s).is_empty());
    let g = r.pick(&inner(&s));
    s.groups[g].opened = r.edgy(2, 255) as u8;
    out.push(("opened above 1, a group in use", s));
    let mut s = such(r, |s| open_groups(s).len() < GROUPS);
    let g = r.pick(&shut_groups(&s));
    s.groups[g].opened = r.edgy(2, 255) as u8;
    out.push(("opened above 1, a closed group", s));
}

/// Group 0.
fn root(r: &mut Rng, out: &mut Broken) {
    let mut s = such(r, |s| s.taken(0) == 0);
    s.groups[0].opened = 0;
    out.push(("group 0 closed", s));
    let mut s = such(r, |_| true);
    s.groups[0].opened = r.edgy(2, 255) as u8;
    out.push(("group 0 opened above 1", s));
    let mut s = such(r, |s| s.taken(0) < 1000);
    s.groups[0].ceiling = r.edgy(s.taken(0) as u64, 999) as u16;
    out.push(("group 0 ceiling below 1000", s));
    let mut s = such(r, |_| true);
    s.groups[0].ceiling = r.edgy(1001, 65_535) as u16;
    out.push(("group 0 ceiling above 1000", s));
}

/// Parents and ceilings of the other groups.
fn tree(r: &mut Rng, out: &mut Broken) {
    let mut s = such(r, |s| !inner(s).is_empty());
    let g = r.pick(&inner(&s));
    s.groups[g].parent = r.edgy(16, 255) as u8;
    out.push(("parent above 15", s));
    let below_closed = move |s: &Scheduler| -> Vec<(usize, usize)> {
        let mut pairs = Vec::new();
        for g in inner(s) {
            for p in (0..g).filter(|&p| s.groups[p].opened == 0) {
                pairs.push((g, p));
            }
        }
        pairs
    };
    let mut s = such(r, |s| !below_closed(s).is_empty());
    let (g, p) = r.pick(&below_closed(&s));
    s.groups[g].parent = p as u8;
    out.push(("parent closed", s));
    let mut s = such(r, |s| !idle_groups(s).is_empty());
    let g = r.pick(&idle_groups(&s));
    s.groups[g].parent = g as u8;
    out.push(("parent is the group itself", s));
    let above_open = move |s: &Scheduler| -> Vec<(usize, usize)> {
        let mut pairs = Vec::new();
        for g in inner(s) {
            for p in inner(s) {
                if p > g && free_in(s, p) >= s.groups[g].ceiling as u64 {
                    pairs.push((g, p));
                }
            }
        }
        pairs
    };
    let mut s = such(r, |s| !above_open(s).is_empty());
    let (g, p) = r.pick(&above_open(&s));
    s.groups[g].parent = p as u8;
    out.push(("parent of a higher number", s));
    let mut s = such(r, |s| !idle_groups(s).is_empty());
    let g = r.pick(&idle_groups(&s));
    s.groups[g].ceiling = 0;
    out.push(("ceiling is 0", s));
    let mut s = such(r, |s| !inner(s).is_empty());
    let g = r.pick(&inner(&s));
    s.groups[g].ceiling = r.edgy(1001, 65_535) as u16;
    out.push(("ceiling above 1000", s));
}

/// Room in a group.
fn rooms(r: &mut Rng, out: &mut Broken) {
    let raise_thread = |s: &Scheduler, root: bool| -> Vec<usize> {
        let mut numbers = reserved(s);
        numbers.retain(|&n| {
            let t = &s.threads[n];
            (t.group() == 0) == root && t.reservation as u64 + free_in(s, t.group()) < WHOLE as u64
        });
        numbers
    };
    for (root, name) in [
        (true, "threads exceed group 0"),
        (false, "threads exceed another group"),
    ] {
        let mut s = such(r, |s| !raise_thread(s, root).is_empty());
        let n = r.pick(&raise_thread(&s, root));
        s.threads[n].reservation += free_in(&s, s.threads[n].group()) as u16 + 1;
        out.push((name, s));
    }
    let raise_child = move |s: &Scheduler, root: bool| -> Vec<usize> {
        let mut groups = inner(s);
        groups.retain(|&g| {
            let p = s.groups[g].parent as usize;
            (p == 0) == root && s.groups[g].ceiling as u64 + free_in(s, p) < WHOLE as u64
        });
        groups
    };
    for (root, name) in [
        (true, "child ceilings exceed group 0"),
        (false, "child ceilings exceed another group"),
    ] {
        let mut s = such(r, |s| !raise_child(s, root).is_empty());
        let g = r.pick(&raise_child(&s, root));
        s.groups[g].ceiling += free_in(&s, s.groups[g].parent as usize) as u16 + 1;
        out.push((name, s));
    }
}

/// Fields of a reserved thread.
fn threads(r: &mut Rng, out: &mut Broken) {
    let mut s = such(r, some);
    let n = r.pick(&reserved(&s));
    s.threads[n].reservation = r.edgy(1001, 65_535) as u16;
    out.push(("reservation above 1000", s));
    let mut s = such(r, |s| some(s) && open_groups(s).len() < GROUPS);
    let n = r.pick(&reserved(&s));
    s.threads[n].group_or_weight = r.pick(&shut_groups(&s)) as u8;
    out.push(("group of a thread closed", s));
    let mut s = such(r, some);
    let n = r.pick(&reserved(&s));
    s.threads[n].group_or_weight = r.edgy(16, 255) as u8;
    out.push(("group of a thread above 15", s));
    let mut s = such(r, some);
    let n = r.pick(&reserved(&s));
    s.threads[n].allotment = 0;
    out.push(("allotment is 0", s));
    let mut s = such(r, some);
    let n = r.pick(&reserved(&s));
    s.threads[n].allotment = r.edgy(0, i32::MAX as u64) as i32 - i32::MAX - 1;
    out.push(("allotment below 0", s));
    let mut s = such(r, |s| some(s) && s.settings.overrun > 0);
    let n = r.pick(&reserved(&s));
    s.threads[n].allotment = -(r.edgy(1, s.settings.overrun as u64) as i32);
    out.push(("allotment a debt within O", s));
    let mut s = such(r, some);
    let n = r.pick(&reserved(&s));
    let quantum = s.threads[n].reservation as u64 * s.settings.thousandth as u64;
    s.threads[n].allotment = r.edgy(quantum + 1, i32::MAX as u64) as i32;
    out.push(("allotment above the quantum", s));
}

/// The list.
fn list(r: &mut Rng, out: &mut Broken) {
    let mut s = such(r, |s| s.count == 64);
    s.count = r.edgy(65, u32::MAX as u64) as u32;
    out.push(("count above 64", s));
    let mut s = such(r, |s| s.count > 1);
    let i = r.below(s.count as u64) as usize;
    let mut j = r.below(s.count as u64 - 1) as usize;
    j += (j >= i) as usize;
    s.order[i] = s.order[j];
    out.push(("a thread twice in the list, one missing", s));
    let mut s = such(r, |s| some(s) && s.count < 64);
    s.order[s.count as usize] = s.order[r.below(s.count as u64) as usize];
    s.count += 1;
    out.push(("a thread twice in the list, none missing", s));
    let mut s = such(r, some);
    s.count -= 1;
    out.push(("a thread missing in the list", s));
    let mut s = such(r, room);
    s.order[s.count as usize] = r.pick(&with_status(&s, FREE)) as u8;
    s.count += 1;
    out.push(("a free number in the list", s));
    let mut s = such(r, |s| some(s) && room(s));
    let i = r.below(s.count as u64) as usize;
    s.order[i] = r.pick(&with_status(&s, FREE)) as u8;
    out.push(("a free number in place of a thread", s));
    let mut s = such(r, room);
    s.order[s.count as usize] = r.edgy(64, 255) as u8;
    s.count += 1;
    out.push(("a number above 63 in the list", s));
    let mut s = such(r, some);
    let i = r.below(s.count as u64) as usize;
    s.order[i] = r.edgy(64, 255) as u8;
    out.push(("a number above 63 in place of a thread", s));
}

/// Accounts, of either kind of thread.
fn accounts(r: &mut Rng, out: &mut Broken) {
    let early = |s: &Scheduler| -> Vec<usize> {
        let mut numbers = admitted(s);
        numbers.retain(|&n| s.threads[n].anchor < s.meter);
        numbers
    };
    for (kind, names) in [
        (
            Thread::is_reserved as fn(&Thread) -> bool,
            [
                "admission after the anchor",
                "anchor after the meter",
                "ticks above the growth since admission",
                "ticks above the growth since the anchor",
            ],
        ),
        (
            Thread::is_best_effort,
            [
                "admission after the anchor, best-effort",
                "anchor after the meter, best-effort",
                "ticks above the growth since admission, best-effort",
                "ticks above the growth since the anchor, best-effort",
            ],
        ),
    ] {
        let of = |s: &Scheduler, mut numbers: Vec<usize>| -> Vec<usize> {
            numbers.retain(|&n| kind(&s.threads[n]));
            numbers
        };
        let all = |s: &Scheduler| of(s, admitted(s));
        let mut s = such(r, |s| !of(s, early(s)).is_empty());
        let n = r.pick(&of(&s, early(&s)));
        let t = &mut s.threads[n];
        t.admission = r.edgy(t.anchor + 1, s.meter);
        t.ticks = r.edgy(0, s.meter - t.admission);
        out.push((names[0], s));
        let mut s = such(r, |s| !all(s).is_empty());
        let n = r.pick(&all(&s));
        s.threads[n].anchor = r.edgy(s.meter + 1, u64::MAX);
        s.threads[n].since = 0;
        out.push((names[1], s));
        let mut s = such(r, |s| !all(s).is_empty());
        let n = r.pick(&all(&s));
        s.threads[n].ticks = r.edgy(s.meter - s.threads[n].admission + 1, u64::MAX);
        out.push((names[2], s));
        let mut s = such(r, |s| !all(s).is_empty());
        let n = r.pick(&all(&s));
        s.threads[n].since = r.edgy(s.meter - s.threads[n].anchor + 1, u64::MAX);
        out.push((names[3], s));
    }
}
