//! What occurred of overruns of reserved threads, so that a test can ask that all of it did.

use model::calls::Call;
use model::rule::{Scheduler, EXIT};

/// Reports beyond a slice, and starts with an overrun limit.
#[derive(Clone, Copy, Debug, Default, PartialEq, Eq)]
pub struct Late {
    /// Accepted reports of more than the slice by reason, with something left of the allotment.
    pub left: [u64; 4],
    /// The same with nothing left.
    pub even: [u64; 4],
    /// The same with a debt.
    pub debt: [u64; 4],
    /// Reports of the slice and a limit above 0, accepted.
    pub last: u64,
    /// Reports of one tick more, refused with 13.
    pub beyond: u64,
    /// Starts with O = m − 1 above 0, accepted.
    pub most: u64,
    /// Starts with O = m, where nothing else is bad, refused.
    pub over: u64,
    /// Starts with m = 1 and so O = 0, accepted.
    pub least: u64,
}

impl Late {
    /// Counts a call made on a sound state, the one before it.
    pub fn call(&mut self, before: &Scheduler, call: Call, answer: u32) {
        let Call::Report { reason, used } = call else {
            return;
        };
        let Some(t) = before.threads.get(before.running as usize) else {
            return;
        };
        // A best-effort thread has no allotment.
        if t.reservation == 0 {
            return;
        }
        let slice = t.slice(&before.settings) as u64;
        let overrun = before.settings.overrun as u64;
        if overrun > 0 && reason <= EXIT {
            self.last += (answer == 0 && used == slice + overrun) as u64;
            self.beyond += (answer == 13 && used == slice + overrun + 1) as u64;
        }
        if answer == 0 && used > slice {
            let counts = match t.allotment as i64 - used as i64 {
                1.. => &mut self.left,
                0 => &mut self.even,
                _ => &mut self.debt,
            };
            counts[reason as usize] += 1;
        }
    }

    /// Counts a start.
    pub fn start(&mut self, m: u64, p: u64, o: u64, answer: u32) {
        let others = (1..=1_000).contains(&m) && (1..=1_000_000).contains(&p);
        self.most += (answer == 0 && o > 0 && o + 1 == m) as u64;
        self.over += (answer == 1 && others && o == m) as u64;
        self.least += (answer == 0 && m == 1 && o == 0) as u64;
    }

    /// Adds what occurred elsewhere.
    pub fn join(&mut self, other: &Late) {
        for reason in 0..4 {
            self.left[reason] += other.left[reason];
            self.even[reason] += other.even[reason];
            self.debt[reason] += other.debt[reason];
        }
        self.last += other.last;
        self.beyond += other.beyond;
        self.most += other.most;
        self.over += other.over;
        self.least += other.least;
    }

    /// Each kind of report has occurred at least so often.
    pub fn all_reports(&self, times: u64) -> bool {
        let by_reason = [self.left, self.even, self.debt];
        let mut counts = by_reason.iter().flatten();
        counts.all(|&n| n >= times) && self.last.min(self.beyond) >= times
    }

    /// Each kind of start has occurred at least so often.
    pub fn all_starts(&self, times: u64) -> bool {
        self.most.min(self.over).min(self.least) >= times
    }
}
