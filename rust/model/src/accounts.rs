//! Lag, achieved share and the roster.

use std::cmp::Reverse;

use crate::rule::{answer, Scheduler, Thread, BLOCKED, FREE, THREADS};

/// One thread record of the roster.
#[repr(C)]
#[derive(Clone, Copy, Debug, PartialEq, Eq, Default)]
pub struct Entry {
    pub number: u32,
    /// 0 runnable, 1 blocked, 2 running.
    pub state: u32,
    pub allotment: i32,
    pub share: u32,
    pub lag: i64,
}

/// Lag of an admitted thread of a sound state: at most 1000 times the largest
/// meter on either side of 0; 0 for a best-effort one.
#[inline]
fn lag_of(t: &Thread, meter: u64) -> i64 {
    if t.status == BLOCKED || t.reservation == 0 {
        return 0;
    }
    let due = t.reservation as u64 * (meter - t.anchor);
    let had = 1000 * t.since;
    due as i64 - had as i64
}

/// The whole number nearest to parts ÷ whole, half to even; `whole` is not 0.
/// Of the two numbers beside the quotient it is the one whose product with
/// `whole` is nearer to `parts`, and the even one where both are as near. No
/// product of a share exceeds 1001 × the largest meter.
#[inline]
fn nearest(parts: u64, whole: u64) -> u64 {
    let rank = |n: u64| (parts.abs_diff(n * whole), n % 2);
    let low = parts / whole;
    let high = low + 1;
    if rank(low) < rank(high) {
        low
    } else {
        high
    }
}

/// Achieved share of an admitted thread of a sound state: at most 1000.
#[inline]
fn share_of(t: &Thread, meter: u64) -> u64 {
    match meter - t.admission {
        0 => 0,
        growth => nearest(1000 * t.ticks, growth),
    }
}

impl Scheduler {
    fn account(&self, number: u64) -> Result<&Thread, u32> {
        if !self.sound() {
            return Err(answer::UNSOUND);
        }
        if !self.admitted(number) {
            return Err(answer::THREAD);
        }
        Ok(&self.threads[number as usize])
    }

    /// f × (meter since the anchor) − 1000 × (ticks since the anchor), and 0
    /// while blocked or for a best-effort thread. 16 on an unsound state, 7 where not admitted.
    pub fn lag(&self, number: u64) -> Result<i64, u32> {
        self.account(number).map(|t| lag_of(t, self.meter))
    }

    /// 1000 × ticks since admission divided by the meter's growth since then,
    /// to the nearest whole number, half to even, and 0 without growth. 16 and 7
    /// as in [`Scheduler::lag`].
    pub fn share(&self, number: u64) -> Result<u64, u32> {
        self.account(number).map(|t| share_of(t, self.meter))
    }

    /// Fills the table with every admitted thread, largest lag first, equal lags
    /// by smaller reservation and then by lower number. A best-effort thread has
    /// neither allotment nor reservation: each counts as 0. Records past the last
    /// stay as they were.
    pub fn roster(&self, table: &mut [Entry]) -> u32 {
        if !self.sound() {
            return answer::UNSOUND;
        }
        let count = self.threads.iter().filter(|t| t.status != FREE).count();
        if table.len() < count {
            return answer::LENGTH;
        }
        let table = &mut table[..count];
        // By thread number: what equal lags go by, the reservation that counts and
        // below it the number.
        let mut ranks = [0; THREADS];
        let mut filled = 0;
        for (n, t) in self.threads.iter().enumerate() {
            if t.status == FREE {
                continue;
            }
            let (allotment, reservation) = if t.is_reserved() {
                (t.allotment, t.reservation)
            } else {
                (0, 0)
            };
            ranks[n] = reservation as usize * THREADS + n;
            table[filled] = Entry {
                number: n as u32,
                state: if n as u32 == self.running {
                    2
                } else {
                    (t.status == BLOCKED) as u32
                },
                allotment,
                share: share_of(t, self.meter) as u32,
                lag: lag_of(t, self.meter),
            };
            filled += 1;
        }
        table.sort_unstable_by_key(|e| (Reverse(e.lag), ranks[e.number as usize % THREADS]));
        answer::ACCEPTED
    }
}
