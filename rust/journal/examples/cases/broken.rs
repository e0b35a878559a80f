//! A broken rule, to show what it comes to: a wake fills the allotment.
//!
//! NOT the scheduler. The proved library has no such behaviour, and a proof of
//! its contracts would fail. The calls are made on the test model, whose state
//! can be written; after each accepted wake the woken thread's allotment is
//! made full.

use journal::codec::{answer, kind, Record};
use journal::engine::{Class, Engine, Reply, Settings};
use model::rule::{self, Scheduler};
use model::{blocks, calls};

/// The test model with a fault: refill on wake.
#[derive(Clone, Debug, Default)]
pub struct RefillOnWake {
    state: Scheduler,
}

impl Engine for RefillOnWake {
    const SAYS: &'static str = "NOT the scheduler: answers by a test model with a fault, \
        a wake that fills the allotment. The proved library does not do this.";

    fn run(&mut self, r: &Record) -> Reply {
        let record = blocks::Record {
            kind: r.kind,
            subject: r.subject,
            group: r.group,
            reason: r.reason,
            amount: r.amount,
            overrun: r.overrun,
            ticks: r.ticks,
        };
        let reply = calls::run(&mut self.state, &record);
        if r.kind == kind::WAKE && reply.answer == answer::ACCEPTED {
            // The fault.
            let m = self.state.settings.thousandth;
            let t = &mut self.state.threads[r.subject as usize];
            t.allotment = i32::from(t.reservation) * i32::from(m);
        }
        Reply {
            answer: reply.answer,
            thread: reply.thread,
            slice: reply.slice,
            before: reply.before,
        }
    }

    fn lag(&self, thread: u8) -> i64 {
        self.state.lag(thread.into()).unwrap_or(0)
    }

    fn share(&self, thread: u8) -> Option<u64> {
        self.state.share(thread.into()).ok()
    }

    fn class(&self, thread: u8) -> Option<Class> {
        let entry = self.state.threads.get(thread as usize)?;
        if entry.is_best_effort() {
            let weight = entry.weight();
            return Some(Class::BestEffort { weight });
        }
        entry.is_reserved().then(|| Class::Reserved {
            reservation: entry.reservation.into(),
            group: entry.group() as u8,
        })
    }

    fn settings(&self) -> Settings {
        let s = &self.state.settings;
        Settings {
            thousandth: s.thousandth,
            interval: s.interval,
            overrun: s.overrun,
        }
    }

    fn running(&self) -> Option<u8> {
        (self.state.running < rule::NONE).then_some(self.state.running as u8)
    }

    fn list(&self) -> &[u8] {
        self.state.list()
    }

    fn meter(&self) -> u64 {
        self.state.meter
    }
}
