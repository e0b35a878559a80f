//! The most that the share guarantee lets a lag be, as a journal goes on.
//!
//! 2f(1000 − f)m + fP, and f more for each tick that other threads ran beyond
//! their slices since the lag is counted.

use crate::codec::THREADS;

use super::sink::{At, Limit, Overrun, Sink, What};
use super::{Alive, Tracker};

impl<S: Sink> Tracker<'_, S> {
    /// Hands out the bound of a reserved thread's lag, level up to a time. A life
    /// without length has one too.
    pub(super) fn level(&mut self, n: usize, to: u64) {
        let Some(alive) = self.alive[n].as_mut().filter(|a| !a.class.is_best_effort()) else {
            return;
        };
        if alive.level < to || alive.from.time == to {
            self.sink.limit(&Limit {
                thread: n as u8,
                from: At {
                    time: alive.level,
                    ..self.at
                },
                to,
                bound: alive.bound,
                slope: 0,
                bare: alive.bare,
            });
        }
        alive.level = to;
    }

    /// From here on no overrun before counts for the bound of the thread's lag,
    /// and its present reservation does.
    pub(super) fn unbind(&mut self, n: usize) {
        let Some(alive) = self.alive[n] else { return };
        let bare = alive.class.bound(alive.settings);
        if (alive.bound, alive.bare) != (bare, bare) {
            if alive.level < self.at.time {
                self.level(n, self.at.time);
            }
            self.alive[n] = Some(Alive {
                bound: bare,
                bare,
                level: self.at.time,
                ..alive
            });
        }
    }

    /// A run has gone beyond its slice, up to now. With the lag of each thread
    /// that waited for its end the bound has grown.
    pub(super) fn overran(&mut self, thread: u8, ticks: u64, record: u64) {
        let (from, to) = (self.at.time - ticks, self.at.time);
        let at = At {
            time: from,
            ..self.at
        };
        self.sink.overrun(&Overrun {
            thread,
            from: at,
            to,
            record,
        });
        self.overruns += ticks;
        for n in 0..THREADS {
            let waits =
                |alive: &Alive| alive.piece.what == What::Wait && !alive.class.is_best_effort();
            if !self.alive[n].as_ref().is_some_and(waits) {
                continue;
            }
            self.level(n, from);
            let Some(alive) = &mut self.alive[n] else {
                continue;
            };
            let rising = Limit {
                thread: n as u8,
                from: at,
                to,
                bound: alive.bound,
                slope: alive.slope(What::Wait),
                bare: alive.bare,
            };
            self.sink.limit(&rising);
            (alive.bound, alive.level) = (rising.last_bound(), to);
        }
    }
}
