//! The calls on a state handed over by value and handed back with the answer.

use crate::rule::{Reply, Scheduler};

#[inline(never)]
pub fn start(m: u64, p: u64, o: u64) -> Result<Scheduler, u32> {
    Scheduler::start(m, p, o)
}

#[inline(never)]
pub fn open(mut s: Scheduler, number: u64, parent: u64, ceiling: u64) -> (u32, Scheduler) {
    let answer = s.open(number, parent, ceiling);
    (answer, s)
}

#[inline(never)]
pub fn close(mut s: Scheduler, number: u64) -> (u32, Scheduler) {
    let answer = s.close(number);
    (answer, s)
}

#[inline(never)]
pub fn admit(mut s: Scheduler, number: u64, group: u64, reservation: u64) -> (u32, Scheduler) {
    let answer = s.admit(number, group, reservation);
    (answer, s)
}

#[inline(never)]
pub fn admit_best_effort(mut s: Scheduler, number: u64, weight: u64) -> (u32, Scheduler) {
    let answer = s.admit_best_effort(number, weight);
    (answer, s)
}

#[inline(never)]
pub fn remove(mut s: Scheduler, number: u64) -> (u32, Scheduler) {
    let answer = s.remove(number);
    (answer, s)
}

#[inline(never)]
pub fn wake(mut s: Scheduler, number: u64) -> (u32, Scheduler) {
    let answer = s.wake(number);
    (answer, s)
}

#[inline(never)]
pub fn change(mut s: Scheduler, number: u64, reservation: u64) -> (u32, Scheduler) {
    let answer = s.change(number, reservation);
    (answer, s)
}

#[inline(never)]
pub fn dispatch(mut s: Scheduler) -> (Reply, Scheduler) {
    let reply = s.dispatch();
    (reply, s)
}

#[inline(never)]
pub fn report(mut s: Scheduler, reason: u64, used: u64) -> (u32, Scheduler) {
    let answer = s.report(reason, used);
    (answer, s)
}
