//! What the generators make is what they say, and varied.

use model::rule::{BLOCKED, METER_MAX, NONE, RUNNABLE};
use samples::random::{broken_states, hostile_state, sound_state, Rng};

#[test]
fn sound_states() {
    let mut r = Rng::new(2);
    let mut counts = [0u32; 65];
    let (mut running, mut last, mut deep) = (0, 0, 0);
    // Of best-effort threads: runnable ones at the virtual time, between, at the bound of their weight, at that of the meter; blocked ones
    // below the virtual time; running; equal tags; such threads alone.
    let mut tags = [0u32; 8];
    // O by what it is: 0, between, m − 1 above 0.
    let mut limits = [0u32; 3];
    for _ in 0..10_000 {
        let s = sound_state(&mut r);
        assert!(s.sound());
        counts[s.count as usize] += 1;
        running += (s.running != NONE) as u32;
        last += (s.meter == METER_MAX) as u32;
        deep += (s.groups[15].opened == 1 && s.groups[15].parent == 14) as u32;
        let (m, o) = (s.settings.thousandth, s.settings.overrun);
        limits[(o > 0) as usize + (o > 0 && o == m - 1) as usize] += 1;
        let others: Vec<usize> = (0..64).filter(|&n| s.threads[n].is_best_effort()).collect();
        for &n in &others {
            let t = &s.threads[n];
            let reach = (s.settings.interval as u64 + o as u64) * (720_720 / t.weight());
            let (most, full) = (s.time + reach, 720_720 * s.meter);
            let waits = t.status == RUNNABLE && s.running != n as u32;
            let equal = |k: &&usize| s.threads[**k].tag == t.tag;
            let marks = [
                waits && t.tag == s.time,
                waits && t.tag > s.time && t.tag < most.min(full),
                waits && t.tag == most && most < full,
                waits && t.tag == full && full < most,
                t.status == BLOCKED && t.tag < s.time,
                s.running == n as u32,
                waits && others.iter().filter(equal).count() > 1,
            ];
            for (n, mark) in tags.iter_mut().zip(marks) {
                *n += mark as u32;
            }
        }
        tags[7] += (s.count == 0 && !others.is_empty()) as u32;
    }
    assert!(tags.iter().all(|&n| n > 200), "{tags:?}");
    assert!(limits.iter().all(|&n| n > 500), "{limits:?}");
    assert!(counts.iter().all(|&c| c > 0), "{counts:?}");
    assert!(running > 500 && last > 20 && deep > 20);
}

/// States that are sound but for one condition are not sound, and have names of their own.
#[test]
fn broken_states_are_unsound() {
    let mut r = Rng::new(4);
    for _ in 0..20 {
        let mut names = Vec::new();
        for (name, s) in broken_states(&mut r) {
            assert!(!s.sound(), "{name}");
            names.push(name);
        }
        let all = names.len();
        names.sort();
        names.dedup();
        assert_eq!(names.len(), all);
        assert!(all > 60, "{all}");
    }
}

#[test]
fn hostile_states() {
    let mut r = Rng::new(3);
    let sound = (0..10_000)
        .filter(|_| hostile_state(&mut r).sound())
        .count();
    assert!((250..7_500).contains(&sound), "{sound}");
}
