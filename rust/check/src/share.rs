//! What occurred of shares, so that a test can ask that all of it did.

use model::rule::Scheduler;
use std::cmp::Ordering;

/// Shares by how they were rounded.
#[derive(Clone, Copy, Debug, Default, PartialEq, Eq)]
pub struct Shares {
    pub no_growth: u64,
    pub exact: u64,
    /// To the next number down and up, not from a half.
    pub down: u64,
    pub up: u64,
    /// Halves, down and up to the even number.
    pub halves: [u64; 2],
}

impl Shares {
    /// Counts the share that an admitted thread of a sound state has.
    pub fn share(&mut self, s: &Scheduler, number: usize, share: u64) {
        let t = &s.threads[number];
        let (parts, growth) = (1000 * t.ticks as u128, (s.meter - t.admission) as u128);
        let shown = share as u128 * growth;
        let half = 2 * shown.abs_diff(parts) == growth;
        let count = match (growth, shown.cmp(&parts)) {
            (0, _) => &mut self.no_growth,
            (_, Ordering::Equal) => &mut self.exact,
            (_, Ordering::Less) if half => &mut self.halves[0],
            (_, Ordering::Greater) if half => &mut self.halves[1],
            (_, Ordering::Less) => &mut self.down,
            (_, Ordering::Greater) => &mut self.up,
        };
        *count += 1;
    }

    fn counts(&mut self) -> [&mut u64; 6] {
        let [low, high] = &mut self.halves;
        let (none, exact) = (&mut self.no_growth, &mut self.exact);
        [none, exact, &mut self.down, &mut self.up, low, high]
    }

    /// Adds what occurred elsewhere.
    pub fn join(&mut self, mut other: Shares) {
        for (count, more) in self.counts().into_iter().zip(other.counts()) {
            *count += *more;
        }
    }

    /// Each has occurred at least so often.
    pub fn all(mut self, times: u64) -> bool {
        self.counts().into_iter().all(|count| *count >= times)
    }
}
