//! What best-effort threads have of what is left, and how far two come apart,
//! beside a count on the model's states.

use super::*;
use model::rule::RUNNABLE;

/// What the survey is to find, counted on the model's states.
struct Count {
    model: Scheduler,
    /// Of each pair that is runnable, what stands between the two after each call.
    since: Vec<Vec<i64>>,
    /// Of each thread the largest part of a limit that a pair came apart by.
    farthest: [(u64, u64); THREADS],
    /// Ticks of the last life and of all since its admission.
    own: [Option<(u64, u64)>; THREADS],
    ticks: u64,
    most: u64,
}

impl Count {
    fn new() -> Count {
        Count {
            model: Scheduler::default(),
            since: vec![Vec::new(); THREADS * THREADS],
            farthest: [(0, 1); THREADS],
            own: [None; THREADS],
            ticks: 0,
            most: 0,
        }
    }

    /// A state, after a call or when a run has ended and nothing else has changed.
    fn look(&mut self, s: &Scheduler) {
        let limit = u64::from(s.settings.interval + u32::from(s.settings.overrun));
        for a in 0..THREADS {
            for b in a + 1..THREADS {
                let (x, y) = (&s.threads[a], &s.threads[b]);
                let ready = |t: &model::rule::Thread| t.is_best_effort() && t.status == RUNNABLE;
                let since = &mut self.since[THREADS * a + b];
                if !ready(x) || !ready(y) {
                    since.clear();
                    continue;
                }
                since.push((y.weight() * x.ticks) as i64 - (x.weight() * y.ticks) as i64);
                let (least, most) = (since.iter().min(), since.iter().max());
                let apart = most.unwrap().abs_diff(*least.unwrap());
                let limit = limit * (x.weight() + y.weight());
                // The theorem of fairness.
                assert!(apart <= limit, "{a} {b}: {apart} of {limit}");
                self.most = self.most.max(100 * apart / limit);
                for n in [a, b] {
                    let (ticks, of) = self.farthest[n];
                    if apart * of > ticks * limit {
                        self.farthest[n] = (apart, limit);
                    }
                }
            }
        }
    }

    fn record(&mut self, record: &Record) {
        let r = of_model(record);
        let before = self.model;
        if calls::run(&mut self.model, &r).answer != answer::ACCEPTED {
            return;
        }
        match record.kind {
            kind::BEST_EFFORT => self.own[record.subject as usize] = Some((0, 0)),
            kind::REPORT if before.threads[before.running as usize].is_best_effort() => {
                let ticks = u64::from(record.ticks);
                let mut ended = before;
                ended.threads[before.running as usize].ticks += ticks;
                self.look(&ended);
                self.ticks += ticks;
                for n in (0..THREADS).filter(|&n| before.threads[n].is_best_effort()) {
                    let (own, all) = self.own[n].as_mut().unwrap();
                    *own += if n == before.running as usize {
                        ticks
                    } else {
                        0
                    };
                    *all += ticks;
                }
            }
            _ => {}
        }
        let after = self.model;
        self.look(&after);
    }
}

#[test]
fn shares_and_pairs_agree_with_a_count_on_the_model() {
    let mut r = Rng::new(71);
    let (mut pairs, mut most, mut ticks) = (0, 0, 0);
    for i in 0..120 {
        let journal = match i % 10 {
            0 => late_journal(&mut r, 300),
            1..=5 => random::blocking(&mut r),
            _ => random::journal(&mut r),
        };
        let mut count = Count::new();
        let whole = Journal::whole(&journal);
        play::<Proved>(whole, &mut Progress::silent(), |step, _| {
            match step {
                Step::Damaged { .. } => {
                    count.model = Scheduler::default();
                    count.look(&Scheduler::default());
                }
                Step::Record { record, reply, .. } if reply.answer != answer::NOT_STARTED => {
                    count.record(&record)
                }
                _ => {}
            }
            ControlFlow::Continue(())
        });
        let fairness = surveyed(&journal, &Window::whole()).fairness;
        assert_eq!(fairness.ticks(), count.ticks);
        for n in 0..THREADS {
            let portion = fairness.portion(n as u8);
            assert_eq!(portion.map(|p| (p.ticks, p.of)), count.own[n], "thread {n}");
            let farthest = portion.and_then(|p| p.farthest);
            let (apart, limit) = count.farthest[n];
            let found = farthest.map_or((0, 1), |a| (a.ticks, a.limit));
            assert_eq!(found.0 * limit, apart * found.1, "thread {n}");
            pairs += u64::from(apart > 0);
        }
        (most, ticks) = (most.max(count.most), ticks + count.ticks);
    }
    assert!(pairs > 150 && most > 50, "{pairs} {most}");
    assert!(ticks > 200_000, "{ticks}");
}
