//! How the best-effort threads share what the reserved ones leave.
//!
//! Two of them, of weights v and w, have had A and B ticks while both stay
//! runnable: w × A and v × B differ by at most (v + w)(P + O) (RULE 9.9). A run
//! counts whole, also the one at whose end a thread blocks.

use crate::codec::THREADS;
use crate::engine::{apart, Settings};

use super::sink::{At, Effort};
use super::survey::thousandths;

/// How far a thread and another came apart while both stayed runnable. Ticks
/// are times the other's weight.
#[derive(Clone, Copy, Debug, PartialEq, Eq)]
pub struct Apart {
    pub other: u8,
    /// The weights, and the most that they may be apart.
    pub weights: (u64, u64),
    pub ticks: u64,
    pub limit: u64,
    /// When they were.
    pub at: u64,
}

impl Apart {
    /// Ticks per weight.
    pub fn per_weight(&self) -> f64 {
        self.divided(self.ticks)
    }

    /// The most that it may be.
    pub fn limit_per_weight(&self) -> f64 {
        self.divided(self.limit)
    }

    fn divided(&self, ticks: u64) -> f64 {
        ticks as f64 / (self.weights.0 * self.weights.1) as f64
    }

    /// A larger part of what it may be.
    fn exceeds(&self, other: &Apart) -> bool {
        let part = |a: &Apart, b: &Apart| u128::from(a.ticks) * u128::from(b.limit);
        part(self, other) > part(other, self)
    }
}

/// A best-effort thread, by its last life as one.
#[derive(Clone, Copy, Debug, PartialEq, Eq)]
pub struct Portion {
    pub weight: u64,
    /// Its ticks, and those of all best-effort threads meanwhile.
    pub ticks: u64,
    pub of: u64,
    /// Of all its lives the other thread from which it came apart by the largest
    /// part of what the two may be.
    pub farthest: Option<Apart>,
}

impl Portion {
    /// Of what the best-effort threads had, in thousandths.
    pub fn share(&self) -> u64 {
        thousandths(self.ticks, self.of)
    }
}

#[derive(Clone, Copy, Debug)]
struct Thread {
    weight: u64,
    settings: Settings,
    runnable: bool,
    ticks: u64,
    /// Ticks of all at its admission and at its end.
    since: u64,
    until: Option<u64>,
    farthest: Option<Apart>,
}

/// Of two threads that stay runnable, the lower number first: its ticks times
/// the other's weight less those of the other times its own, now, at the least
/// and at the most.
#[derive(Clone, Copy, Debug, Default)]
struct Pair {
    now: i64,
    least: i64,
    most: i64,
}

/// What becomes of the best-effort threads of a journal or of a part of it.
#[derive(Clone, Debug)]
pub struct Fairness {
    /// The part begins here.
    from: At,
    ticks: u64,
    threads: [Option<Thread>; THREADS],
    /// By both numbers; none before there is a thread.
    pairs: Vec<Pair>,
}

impl Fairness {
    pub fn new(from: At) -> Fairness {
        Fairness {
            from,
            ticks: 0,
            threads: [None; THREADS],
            pairs: Vec::new(),
        }
    }

    /// Ticks of all best-effort threads.
    pub fn ticks(&self) -> u64 {
        self.ticks
    }

    /// The weights of all of them together.
    pub fn weights(&self) -> u64 {
        self.threads.iter().flatten().map(|t| t.weight).sum()
    }

    /// What a thread had, if it was a best-effort one.
    pub fn portion(&self, thread: u8) -> Option<Portion> {
        let t = self.threads.get(thread as usize)?.as_ref()?;
        Some(Portion {
            weight: t.weight,
            ticks: t.ticks,
            of: t.until.unwrap_or(self.ticks) - t.since,
            farthest: t.farthest,
        })
    }

    /// What befalls a thread.
    pub fn take(&mut self, thread: u8, at: At, effort: Effort) {
        let n = thread as usize;
        match effort {
            Effort::Admitted { weight, settings } => {
                self.threads[n] = Some(Thread {
                    weight,
                    settings,
                    runnable: true,
                    ticks: 0,
                    since: self.ticks,
                    until: None,
                    farthest: self.threads[n].and_then(|before| before.farthest),
                });
                self.begin(n);
            }
            Effort::Woken => {
                self.set(n, true);
                self.begin(n);
            }
            Effort::Blocked => self.set(n, false),
            Effort::Ran { to } => self.ran(n, to - at.time, to),
            Effort::Gone => {
                self.set(n, false);
                // One that is gone before the part is of no interest.
                if at < self.from {
                    self.threads[n] = None;
                } else if let Some(t) = &mut self.threads[n] {
                    t.until = Some(self.ticks);
                }
            }
        }
    }

    fn set(&mut self, n: usize, runnable: bool) {
        if let Some(t) = &mut self.threads[n] {
            t.runnable = runnable;
        }
    }

    /// From here on a thread is runnable, beside any other that is.
    fn begin(&mut self, n: usize) {
        self.pairs.resize(THREADS * THREADS, Pair::default());
        for other in 0..THREADS {
            self.pairs[place(n, other)] = Pair::default();
        }
    }

    fn ran(&mut self, n: usize, ticks: u64, at: u64) {
        if ticks == 0 {
            return;
        }
        self.ticks += ticks;
        let Some(t) = &mut self.threads[n] else {
            return;
        };
        t.ticks += ticks;
        let t = *t;
        for i in (0..THREADS).filter(|&i| i != n) {
            let Some(other) = self.threads[i].filter(|other| other.runnable) else {
                continue;
            };
            let more = (ticks * other.weight) as i64;
            let pair = &mut self.pairs[place(n, i)];
            pair.now += if n < i { more } else { -more };
            (pair.least, pair.most) = (pair.least.min(pair.now), pair.most.max(pair.now));
            let found = |other: usize, weights: (u64, u64)| Apart {
                other: other as u8,
                weights,
                ticks: pair.most.abs_diff(pair.least),
                limit: apart(weights.0, weights.1, t.settings),
                at,
            };
            let (own, others) = (
                found(i, (t.weight, other.weight)),
                found(n, (other.weight, t.weight)),
            );
            for (n, found) in [(n, own), (i, others)] {
                if let Some(t) = &mut self.threads[n] {
                    if t.farthest.is_none_or(|before| found.exceeds(&before)) {
                        t.farthest = Some(found);
                    }
                }
            }
        }
    }
}

/// Where a pair stands.
fn place(a: usize, b: usize) -> usize {
    THREADS * a.min(b) + a.max(b)
}
