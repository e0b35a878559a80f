//! The bound of a lag is that of the thread's reservation; it counts what the
//! other threads overran since the lag is counted, and nothing else.

use super::*;
use model::rule::{BLOCK, EXIT, RUNNABLE, YIELD};

/// What the survey is to find, counted on the model's states.
struct Count {
    model: Scheduler,
    /// Since its lag is counted, what others overran.
    others: [u64; THREADS],
    /// Of the present life and of all: the largest lag with its bound.
    now: [(i64, i64); THREADS],
    largest: [Option<(i64, i64)>; THREADS],
    overruns: [(u64, u64); THREADS],
}

impl Count {
    fn bound(&self, n: usize) -> i64 {
        let (t, s) = (&self.model.threads[n], &self.model.settings);
        let f = i64::from(t.reservation);
        let (m, p) = (i64::from(s.thousandth), i64::from(s.interval));
        2 * f * (1000 - f) * m + f * p + f * self.others[n] as i64
    }

    /// A life of a reserved thread ends.
    fn ends(&mut self, n: usize) {
        let now = self.now[n];
        if self.largest[n].is_none_or(|(lag, _)| now.0 > lag) {
            self.largest[n] = Some(now);
        }
    }

    fn all_end(&mut self) {
        for n in self.model.list().to_vec() {
            self.ends(n.into());
        }
        self.model = Scheduler::default();
    }

    fn report(&mut self, before: &Scheduler, r: &blocks::Record) {
        let ran = before.running as usize;
        let over = r
            .ticks
            .saturating_sub(before.threads[ran].slice(&before.settings));
        self.overruns[ran].0 += u64::from(over > 0);
        self.overruns[ran].1 += u64::from(over);
        for n in (0..THREADS).filter(|&n| before.threads[n].status == RUNNABLE) {
            self.others[n] += if n == ran { 0 } else { over.into() };
        }
        match u64::from(r.reason) {
            BLOCK | YIELD => self.others[ran] = 0,
            EXIT if before.threads[ran].is_reserved() => self.ends(ran),
            _ => {}
        }
        for n in (0..THREADS).filter(|&n| self.model.threads[n].status == RUNNABLE) {
            let lag = self.model.lag(n as u64).unwrap();
            assert!(lag <= self.bound(n));
            if lag > self.now[n].0 {
                self.now[n] = (lag, self.bound(n));
            }
        }
    }

    fn record(&mut self, record: &Record, answered: u32) {
        let r = of_model(record);
        let before = self.model;
        let n = record.subject as usize;
        if record.kind == kind::START && answered == answer::ACCEPTED {
            self.all_end();
        }
        let removed = record.kind == kind::REMOVE && answered == answer::ACCEPTED;
        if removed && before.threads[n].is_reserved() {
            self.ends(n);
        }
        assert_eq!(calls::run(&mut self.model, &r).answer, answered);
        match (answered, record.kind) {
            (answer::ACCEPTED, kind::ADMIT) => {
                self.others[n] = 0;
                self.now[n] = (0, self.bound(n));
            }
            (answer::ACCEPTED, kind::CHANGE) => {
                assert_eq!(self.model.lag(n as u64), Ok(0));
                self.others[n] = 0;
                if self.now[n].0 == 0 {
                    self.now[n].1 = self.bound(n);
                }
            }
            (answer::ACCEPTED, kind::REPORT) => self.report(&before, &r),
            _ => {}
        }
    }
}

fn counted(journal: &[u8]) -> Count {
    let mut count = Count {
        model: Scheduler::default(),
        others: [0; THREADS],
        now: [(0, 0); THREADS],
        largest: [None; THREADS],
        overruns: [(0, 0); THREADS],
    };
    let whole = Journal::whole(journal);
    play::<Proved>(whole, &mut Progress::silent(), |step, _| {
        match step {
            Step::Damaged { .. } => count.all_end(),
            Step::Record { record, reply, .. } if reply.answer != answer::NOT_STARTED => {
                count.record(&record, reply.answer)
            }
            _ => {}
        }
        ControlFlow::Continue(())
    });
    count.all_end();
    count
}

#[test]
fn bounds_and_overruns_agree_with_a_count_on_the_model() {
    let mut r = Rng::new(21);
    let (mut overruns, mut grown) = (0, 0);
    for i in 0..150 {
        let journal = match i % 10 {
            0 => late_journal(&mut r, 1000),
            _ => random::journal(&mut r),
        };
        let count = counted(&journal);
        let survey = surveyed(&journal, &Window::whole());
        for (n, t) in survey.threads.iter().enumerate() {
            assert_eq!((t.overruns, t.overrun), count.overruns[n]);
            let largest = (t.reserved_lives > 0).then_some((t.largest.lag, t.largest.bound));
            assert_eq!(largest, count.largest[n], "thread {n}");
        }
        overruns += survey.overruns();
        grown += u64::from(survey.grown);
    }
    assert!(overruns > 600 && grown > 40, "{overruns} {grown}");
}
