//! Random calls from sound states and from the start, the library beside the model: every answer of every call, overruns, changes and
//! best-effort threads of every sort. States that are not sound are the hostile host's.

use check::best_effort::quiet_call;
use check::compare::{sound, start, step, Tally, KINDS};
use model::calls::Call;
use model::rule::{Scheduler, METER_LIMIT, METER_MAX, NONE};
use samples::random::{call, edge_value, sound_state, Rng};
use samples::records::{admit, admit_weight, dispatch, report, wake, BLOCK};

/// The answers of each call on a sound state.
const ANSWERS: [&[u32]; 9] = [
    &[0, 2, 3, 4, 5],
    &[0, 2, 6],
    &[0, 2, 4, 5, 7, 8],
    &[0, 7, 9],
    &[0, 7, 10],
    &[0, 12, 15],
    &[0, 11, 13, 14],
    &[0, 4, 5, 7, 9],
    &[0, 4, 7, 8],
];

#[test]
fn from_sound_states() {
    let mut r = Rng::new(31);
    let mut tally = Tally::default();
    let (mut running, mut full, mut last) = (0, 0, 0);
    while tally.total() < 400_000 {
        let mut s = sound_state(&mut r);
        assert!(sound(&s));
        running += (s.running != NONE) as u32;
        full += (s.count == 64) as u32;
        last += (s.meter >= METER_LIMIT - 1_000) as u32;
        for _ in 0..15 {
            let c = call(&mut r, &s);
            tally.both(&mut s, c);
        }
        assert!(sound(&s));
    }
    tally.print();
    for (k, name) in KINDS.iter().enumerate() {
        assert_eq!(tally.seen(k, 1), ANSWERS[k], "{name}");
        assert_eq!(tally.seen(k, 50), ANSWERS[k], "{name}");
    }
    assert!(tally.idle > 1_000);
    assert!(tally.late.all_reports(10), "{:?}", tally.late);
    assert!(tally.changes.rarer(50).is_empty(), "{:?}", tally.changes);
    let best_effort = tally.best_effort;
    assert!(best_effort.rarer(50).is_empty(), "{best_effort:?}");
    assert!(running > 1_000 && full > 1_000 && last > 1_000);
}

/// An overrun limit for m: mostly an allowed one, m itself or any.
fn limit(r: &mut Rng, m: u64) -> u64 {
    match r.below(8) {
        0 => edge_value(r),
        1 => m,
        2 => 0,
        _ => r.edgy(0, m.saturating_sub(1)),
    }
}

/// So many calls from start states, each drawn so.
fn from_start(seed: u64, least: u64, next: fn(&mut Rng, &Scheduler) -> Call) -> Tally {
    let mut r = Rng::new(seed);
    let mut tally = Tally::default();
    while tally.total() < least {
        let (m, p) = match r.below(4) {
            0 => (100, 20_000),
            1 => (edge_value(&mut r), edge_value(&mut r)),
            2 => (r.edgy(0, 1_001), r.edgy(0, 1_000_001)),
            _ => (r.edgy(1, 1_000), r.edgy(1, 1_000_000)),
        };
        let o = limit(&mut r, m);
        let started = start(m, p, o);
        tally.late.start(m, p, o, started.err().unwrap_or(0));
        let Ok(mut s) = started else { continue };
        // At the start the list is empty; long runs fill and empty it.
        for _ in 0..r.edgy(0, 4_000) {
            let c = next(&mut r, &s);
            tally.both(&mut s, c);
        }
        assert!(sound(&s));
    }
    tally.print();
    for (k, name) in KINDS.iter().enumerate() {
        // The meter's limit is some 10^7 reports away.
        let mut wanted = ANSWERS[k].to_vec();
        wanted.retain(|&a| a != 15);
        assert_eq!(tally.seen(k, 1), wanted, "{name}");
        assert_eq!(tally.seen(k, 20), wanted, "{name}");
    }
    assert!(tally.idle > 20);
    tally
}

#[test]
fn from_the_start_state() {
    let tally = from_start(32, 200_000, call);
    let (late, changes) = (tally.late, tally.changes);
    assert!(late.all_reports(5) && late.all_starts(5), "{late:?}");
    assert!(changes.rarer(20).is_empty(), "{changes:?}");
}

/// The same with time for best-effort threads.
#[test]
fn from_the_start_state_with_idle_time() {
    let tally = from_start(38, 200_000, quiet_call);
    // The meter's limit is as far away, and no call writes a best-effort thread's allotment.
    let never = [
        "15 where one is runnable",
        "reported with another allotment than 0 in its entry",
    ];
    assert_eq!(tally.best_effort.rarer(1), never);
    let mut rare = tally.best_effort.rarer(50);
    rare.retain(|sort| !never.contains(sort) && *sort != "finish tag at its end");
    assert!(rare.is_empty(), "{:?}", tally.best_effort);
}

/// 64 threads of which one after the other blocks, then all are woken: how many stand before the chosen one.
#[test]
fn a_full_list() {
    let mut s = start(100, 20_000, 0).unwrap();
    for n in 0..64 {
        assert_eq!(step(&mut s, &admit(63 - n, 0, 15)).answer, 0);
    }
    for n in 0..64 {
        let reply = step(&mut s, &dispatch());
        assert_eq!(
            (reply.thread, reply.slice, reply.before),
            (63 - n, 1_500, n)
        );
        assert_eq!(step(&mut s, &report(BLOCK, 0)).answer, 0);
    }
    let reply = step(&mut s, &dispatch());
    assert_eq!((reply.thread, reply.before), (64, 64));
    for number in 0..64 {
        assert_eq!(step(&mut s, &wake(number)).answer, 0);
    }
    assert_eq!(step(&mut s, &dispatch()).thread, 63);
}

/// The longest report from the last tick before the meter's limit, by each reason and of either kind of thread.
#[test]
fn the_end_of_the_meter() {
    for admission in [admit(9, 0, 1_000), admit_weight(9, 1)] {
        let mut s = start(1_000, 1_000_000, 999).unwrap();
        s.meter = METER_LIMIT - 1;
        assert_eq!(step(&mut s, &admission).answer, 0);
        assert_eq!(step(&mut s, &dispatch()).slice, 1_000_000);
        for reason in 0..4 {
            let mut s = s;
            let mut used = |ticks| step(&mut s, &report(reason, ticks)).answer;
            assert_eq!([used(1_001_000), used(1_000_999)], [13, 0]);
            assert_eq!(s.meter, METER_MAX - 1);
            assert_eq!(step(&mut s, &dispatch()).answer, 15);
        }
    }
}

/// Settings at their ends together, and numbers that fit only once cut.
#[test]
fn starts() {
    let cut = |n: u64| [n, n + (1 << 16), n + (1 << 32)];
    for m in [0, 1, 2, 999, 1_000, 1_001].into_iter().flat_map(cut) {
        for p in [0, 1, 2, 999_999, 1_000_000, 1_000_001]
            .into_iter()
            .flat_map(cut)
        {
            for o in [0, 1, 998, 999, 1_000, m.saturating_sub(1), m, m + (1 << 16)] {
                let fits = (1..=1_000).contains(&m) && (1..=1_000_000).contains(&p) && o < m;
                assert_eq!(start(m, p, o).is_ok(), fits, "{m} {p} {o}");
            }
        }
    }
}
