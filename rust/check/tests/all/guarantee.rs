//! That each term of the share guarantee, and each of its premises, is needed: stretches that exceed the limits without it. That the limits
//! hold is a theorem.

use check::compare::{start, step, to_library};
use model::rule::Scheduler;
use mtr::numbers;
use samples::records::{admit, admit_weight, change, dispatch, report, wake, TICK};

/// Dispatches, expects a thread and its slice, and reports.
fn run(s: &mut Scheduler, thread: u32, slice: u32, reason: u64, used: u64) {
    let reply = step(s, &dispatch());
    assert_eq!((reply.thread, reply.slice), (thread, slice));
    assert_eq!(step(s, &report(reason, used)).answer, 0);
}

/// A thread that leaves takes its debt along: one that leaves late in every round and comes back takes its overruns from
/// the other, and in time more than the first limit without them.
#[test]
fn the_first_limit_needs_the_overruns() {
    let (f, m, p, o) = (500, 10, 5_000, 9);
    let mut s = start(m, p, o).unwrap();
    for number in [1, 2] {
        assert_eq!(step(&mut s, &admit(number, 0, 500)).answer, 0);
    }
    let limit = 2 * f * (1000 - f) * m + f * p;
    let rounds = limit / (f * o) + 1;
    for round in 1..=rounds {
        run(&mut s, 1, 5_000, 0, 5_000);
        run(&mut s, 2, 5_000, 3, 5_009);
        assert_eq!(step(&mut s, &admit(2, 0, 500)).answer, 0);
        // The lag of the first thread is what it is owed: never anchored since the state after its admission.
        let owed = numbers::lag(to_library(&s), 1).result().unwrap() as u64;
        assert_eq!(owed, f * o * round);
        assert_eq!(owed > limit, round == rounds);
    }
}

/// A thread with a tick left, woken before a running one that then runs late twice: that one gets more than the second
/// limit without its overruns, as it had its whole quantum at the beginning of the stretch and is in debt at its end.
#[test]
fn the_second_limit_needs_the_overruns() {
    let (f, g, m) = (500, 500, 10);
    let mut s = start(m, 5_000, 9).unwrap();
    for number in [1, 2] {
        assert_eq!(step(&mut s, &admit(number, 0, 500)).answer, 0);
    }
    run(&mut s, 1, 5_000, 1, 4_999);
    assert_eq!(step(&mut s, &dispatch()).thread, 2);
    assert_eq!(step(&mut s, &wake(1)).answer, 0);
    // The stretch begins.
    assert_eq!(step(&mut s, &report(TICK, 5_009)).answer, 0);
    run(&mut s, 1, 1, 0, 1);
    run(&mut s, 2, 4_991, 0, 5_000);
    let (had, second, overruns) = (1, 5_009 + 5_000, 9 + 9);
    let limit = g * had + 2 * f * g * m;
    assert!(f * second > limit && f * second <= limit + f * overruns);
}

/// A best-effort thread runs for P at the beginning of the stretch, and the first limit needs its last term: without others it is reached to
/// the tick, and with another thread, full and before the first, which has a tick left, nearly so.
#[test]
fn the_first_limit_needs_the_interval() {
    for (p, o) in [(20_000, 0), (1, 0), (1_000_000, 0), (20_000, 99)] {
        let mut s = start(100, p, o).unwrap();
        assert_eq!(step(&mut s, &admit_weight(9, 1)).answer, 0);
        assert_eq!(step(&mut s, &dispatch()).thread, 9);
        assert_eq!(step(&mut s, &admit(1, 0, 1000)).answer, 0);
        // The stretch begins. Its others' overruns are o.
        let used = p + o;
        assert_eq!(step(&mut s, &report(TICK, used)).answer, 0);
        let owed = numbers::lag(to_library(&s), 1).result().unwrap() as u64;
        assert_eq!(owed, 1000 * p + 1000 * o);
        assert_eq!(step(&mut s, &dispatch()).thread, 1);
    }

    let (f, m, p) = (500, 100, 20_000);
    let mut s = start(m, p, 0).unwrap();
    for (number, reservation) in [(2, 500), (1, 500)] {
        assert_eq!(step(&mut s, &admit(number, 0, reservation)).answer, 0);
    }
    run(&mut s, 2, 20_000, 1, 0);
    run(&mut s, 1, 20_000, 0, 20_000);
    run(&mut s, 1, 20_000, 0, 20_000);
    run(&mut s, 1, 10_000, 1, 9_999);
    assert_eq!(step(&mut s, &admit_weight(9, 16)).answer, 0);
    assert_eq!(step(&mut s, &dispatch()).thread, 9);
    for number in [1, 2] {
        assert_eq!(step(&mut s, &wake(number)).answer, 0);
    }
    // The stretch begins.
    assert_eq!(step(&mut s, &report(TICK, p)).answer, 0);
    let mut sums = Sums {
        all: p,
        ..Sums::default()
    };
    sums.run(&mut s, 2, &[20_000, 20_000, 10_000]);
    sums.run(&mut s, 1, &[1]);
    sums.run(&mut s, 2, &[20_000, 20_000, 10_000]);
    let owed = f * sums.all - 1000 * sums.first;
    let limit = 2 * f * (1000 - f) * m;
    assert_eq!(
        (owed, limit, limit + f * p),
        (59_999_500, 50_000_000, 60_000_000)
    );
    assert_eq!(numbers::lag(to_library(&s), 1).result(), Ok(owed as i64));
}

/// What counts in a stretch from its beginning on: ticks of all, of thread 1 and of thread 2.
#[derive(Default)]
struct Sums {
    all: u64,
    first: u64,
    second: u64,
}

impl Sums {
    /// Runs a thread for these slices, each to its end.
    fn run(&mut self, s: &mut Scheduler, thread: u32, slices: &[u32]) {
        for &slice in slices {
            run(s, thread, slice, 0, slice as u64);
            self.all += slice as u64;
            match thread {
                1 => self.first += slice as u64,
                _ => self.second += slice as u64,
            }
        }
    }
}

/// Threads 1 and 2 of these reservations with the default settings.
fn two(f: u64, g: u64) -> Scheduler {
    let mut s = start(100, 20_000, 0).unwrap();
    for (number, reservation) in [(1, f), (2, g)] {
        assert_eq!(step(&mut s, &admit(number, 0, reservation)).answer, 0);
    }
    s
}

fn changed(s: &mut Scheduler, number: u64, reservation: u64) {
    assert_eq!(step(s, &change(number, reservation)).answer, 0);
}

/// It is not enough that the reservation of the first thread is the same at both ends: changed to 1 and back in every
/// round, its allotment is cut each time, and both limits are exceeded. Changed to what it is, it has its half.
#[test]
fn the_limits_need_the_first_reservation_at_every_point() {
    let (f, g, m, p) = (500, 500, 100, 20_000);
    let limit = 2 * f * (1000 - f) * m + f * p;
    let mut s = two(f, g);
    let mut sums = Sums::default();
    for round in 1..=20 {
        changed(&mut s, 1, 1);
        changed(&mut s, 1, f);
        sums.run(&mut s, 1, &[100]);
        sums.run(&mut s, 2, &[20_000, 20_000, 10_000]);
        assert_eq!(s.threads[1].reservation as u64, f);
        let owed = f * sums.all - 1000 * sums.first;
        assert_eq!(owed, 24_950_000 * round);
        assert_eq!(owed > limit, round > 2);
        let ahead = f * sums.second - g * sums.first;
        assert_eq!(ahead > 2 * f * g * m, round > 2);
    }
    assert_eq!(limit, 60_000_000);
    assert_eq!(f * sums.all - 1000 * sums.first, 499_000_000);

    let mut s = two(f, g);
    let mut sums = Sums::default();
    for _ in 0..20 {
        for thread in [1, 2] {
            for slice in [20_000, 20_000, 10_000] {
                changed(&mut s, 1, f);
                sums.run(&mut s, thread, &[slice]);
            }
        }
        assert_eq!(f * sums.all, 1000 * sums.first);
    }
}

/// Nor that of the second: with 1 at both ends and 500 while it moves to the rear, it gets more than the second limit. The
/// first limit holds meanwhile, since the second thread is one of the others there.
#[test]
fn the_second_limit_needs_the_second_reservation_at_every_point() {
    let (f, g, m, p) = (500, 1, 100, 20_000);
    let mut s = two(f, g);
    let mut sums = Sums::default();
    for round in 1..=20 {
        sums.run(&mut s, 1, &[20_000, 20_000, 10_000]);
        changed(&mut s, 2, 500);
        sums.run(&mut s, 2, &[100]);
        sums.run(&mut s, 1, &[20_000, 20_000, 10_000]);
        sums.run(&mut s, 2, &[20_000, 20_000]);
        changed(&mut s, 2, g);
        sums.run(&mut s, 2, &[100]);
        assert_eq!(s.threads[2].reservation as u64, g);
        assert_eq!((sums.first, sums.second), (100_000 * round, 40_200 * round));
        assert!(f * sums.second > g * sums.first + 2 * f * g * m);
        assert!(f * sums.all <= 1000 * sums.first + 2 * f * (1000 - f) * m + f * p);
    }
}
