//! Calls with arbitrary bytes and arguments, compared with the model.
//!
//! A round takes a state and makes some calls on it, each on the state that the call before it handed
//! back. Everything in a round follows from the seed and the round's number.

mod classes;
mod inputs;
mod lent;
mod states;

pub use classes::{ALLOTMENTS, LIMITS, ORIGINS, PROPERTIES};

use crate::best_effort::BestEffort;
use crate::bytes;
use crate::changes::Changes;
use crate::compare::{made, to_library, to_model, ZEROS};
use crate::faults;
use crate::guard::Guarded;
use crate::late::Late;
use crate::share::Shares;
use crate::tables::Tables;
use crate::ties::Ties;
use classes::{allotment, limit, View, BROKEN, BROKEN_EACH};
use inputs::{any_call, argument, settings};
use model::calls::apply;
use model::rule::{priority, Scheduler};
use mtr::raw::{self, LagLine, Mapped, Reply, ShareLine, Total};
use samples::random::Rng;
use states::{any_state, near_half, tied, Broken};
use std::collections::BTreeMap;
use std::fmt::{Debug, Display};

/// Calls of a round.
pub const CALLS: u64 = 8;

/// Seed and rounds of the gate.
pub const SEED: u64 = 2026;
pub const ROUNDS: u64 = 1_000_000 / CALLS;

/// The exported functions that take something, and the answers that each one can give.
pub const FUNCTIONS: [(&str, &[u32]); 19] = [
    ("mtr_by_value_start", &[0, 1]),
    ("mtr_by_value_open", &[0, 2, 3, 4, 5, 16]),
    ("mtr_by_value_close", &[0, 2, 6, 16]),
    ("mtr_by_value_admit", &[0, 2, 4, 5, 7, 8, 16]),
    ("mtr_by_value_remove", &[0, 7, 9, 16]),
    ("mtr_by_value_wake", &[0, 7, 10, 16]),
    ("mtr_by_value_dispatch", &[0, 12, 15, 16]),
    ("mtr_by_value_report", &[0, 11, 13, 14, 16]),
    ("mtr_by_value_change", &[0, 4, 5, 7, 9, 16]),
    ("mtr_by_value_admit_best_effort", &[0, 4, 7, 8, 16]),
    ("mtr_by_value_sound", &[0, 1]),
    ("mtr_by_value_priority", &[0, 4]),
    ("mtr_by_value_subtree", &[0, 2, 16]),
    ("mtr_by_value_lag", &[0, 7, 16]),
    ("mtr_by_value_share", &[0, 7, 16]),
    ("mtr_by_value_roster", &[0, 16, 17]),
    ("mtr_by_value_write_block", &[0, 17, 19]),
    ("mtr_by_value_read_block", &[0, 17, 18, 19]),
    ("mtr_by_value_priority_under", &[0, 4, 22, 23]),
];

/// No answer is as great.
pub const ANSWERS: usize = 24;

/// What was called and answered.
pub struct Attack {
    page: Guarded,
    conditions: Broken,
    seed: u64,
    round: u64,
    call: u64,
    /// By function and answer.
    pub answers: [[u64; ANSWERS]; FUNCTIONS.len()],
    /// By origin of the first state: not sound, sound.
    pub states: [[u64; 2]; ORIGINS.len()],
    /// Answers 16 by the one condition that does not hold.
    pub broken: BTreeMap<&'static str, u64>,
    /// By what the first state has: not sound, sound.
    pub properties: [[u64; 2]; PROPERTIES.len()],
    /// By the first state's overrun limit and by the allotments of its listed threads.
    pub limits: [[u64; 2]; 6],
    pub allotments: [[u64; 2]; 9],
    /// What occurred of overruns.
    pub late: Late,
    /// What occurred of changes.
    pub changes: Changes,
    /// What occurred of best-effort threads.
    pub best_effort: BestEffort,
    /// Shares that were asked for one by one.
    pub shares: Shares,
    /// Equal lags in rosters.
    pub ties: Ties,
    /// Accepted dispatches that were idle.
    pub idle: u64,
    /// By priority, from 0 to the first above the table.
    pub priorities: [u64; 12],
    /// What occurred of tables of priorities.
    pub tables: Tables,
    /// Standard tables among them.
    pub standard: u64,
    /// Lent areas by side and length.
    pub areas: [[u64; 2]; 2],
}

impl Attack {
    pub fn new(seed: u64) -> Attack {
        let conditions = Broken::new(seed);
        Attack {
            page: Guarded::mapped(),
            broken: conditions.names().map(|name| (name, 0)).collect(),
            conditions,
            seed,
            round: 0,
            call: 0,
            answers: [[0; ANSWERS]; FUNCTIONS.len()],
            states: [[0; 2]; ORIGINS.len()],
            properties: [[0; 2]; PROPERTIES.len()],
            limits: [[0; 2]; 6],
            allotments: [[0; 2]; 9],
            late: Late::default(),
            changes: Changes::default(),
            best_effort: BestEffort::default(),
            shares: Shares::default(),
            ties: Ties::default(),
            idle: 0,
            priorities: [0; 12],
            tables: Tables::default(),
            standard: 0,
            areas: [[0; 2]; 2],
        }
    }

    pub fn calls(&self) -> u64 {
        self.answers.iter().flatten().sum()
    }

    /// Makes the calls of one round.
    pub fn round(&mut self, round: u64) {
        let mut r = Rng::new(Rng::new(self.seed.rotate_left(32) ^ round).bits());
        self.round = round;
        let (mut origin, mut state) = any_state(&mut r);
        let mut broken = None;
        if round.is_multiple_of(BROKEN_EACH) {
            let (name, changed) = self.conditions.state(round / BROKEN_EACH);
            (origin, state, broken) = (BROKEN, changed, Some(name));
        }
        self.note(origin, &state);
        for call in 0..CALLS {
            self.call = call;
            faults::note(self.seed, round, call);
            let function = r.below(FUNCTIONS.len() as u64) as usize;
            let answer = self.make(&mut r, function, &mut state);
            let count = self.answers[function].get_mut(answer as usize);
            match count {
                Some(count) => *count += 1,
                None => panic!("{} answers {answer}", self.place(function)),
            }
            if let (16, Some(name)) = (answer, broken) {
                *self.broken.entry(name).or_default() += 1;
            }
        }
    }

    fn note(&mut self, origin: usize, state: &raw::Scheduler) {
        let s = to_model(state);
        let sound = s.sound() as usize;
        self.states[origin][sound] += 1;
        self.limits[limit(&state.settings)][sound] += 1;
        for &n in s.list() {
            if let Some(t) = state.threads.get(n as usize) {
                self.allotments[allotment(t, &state.settings)][sound] += 1;
            }
        }
        let view = View::new(&s);
        for (count, (_, _, is)) in self.properties.iter_mut().zip(PROPERTIES) {
            count[sound] += is(&view) as u64;
        }
    }

    fn place(&self, function: usize) -> String {
        let (seed, round, call) = (self.seed, self.round, self.call);
        let name = FUNCTIONS[function].0;
        format!("seed {seed} round {round} call {call}: {name}")
    }

    /// Ends the run if the library's result is not the model's.
    fn same<T: PartialEq + Debug>(&self, function: usize, of: impl Display, found: T, wanted: T) {
        if found != wanted {
            let place = self.place(function);
            panic!("{place} {of}\nthe library's {found:?}\nthe model's   {wanted:?}");
        }
    }

    /// Makes one call on both sides and hands on the state that the library handed back.
    fn make(&mut self, r: &mut Rng, function: usize, state: &mut raw::Scheduler) -> u32 {
        match function {
            0 => self.start(r, state),
            1..=9 => self.step(r, function, state),
            10 => {
                let found = raw::mtr_by_value_sound(*state);
                self.same(function, "", found, to_model(state).sound() as u32);
                found
            }
            11 => {
                let number = argument(r, 10);
                let found = raw::mtr_by_value_priority(number);
                let (answer, reservation) = split(priority(number));
                let wanted = Mapped {
                    answer,
                    reservation,
                };
                self.same(function, format_args!("{number}"), found, wanted);
                if let Some(count) = self.priorities.get_mut(number as usize) {
                    *count += 1;
                }
                answer
            }
            12 => {
                let group = argument(r, 15);
                let found = raw::mtr_by_value_subtree(*state, group);
                let (answer, thousandths) = split(subtree(&to_model(state), group));
                let wanted = Total {
                    answer,
                    thousandths,
                };
                self.same(function, format_args!("{group} {state:?}"), found, wanted);
                answer
            }
            13 => {
                let number = argument(r, 63);
                let found = raw::mtr_by_value_lag(*state, number);
                let (answer, lag) = split(to_model(state).lag(number));
                let wanted = LagLine {
                    answer: answer.into(),
                    lag,
                };
                self.same(function, format_args!("{number} {state:?}"), found, wanted);
                answer
            }
            14 => {
                let number = argument(r, 63);
                if r.chance(1, 4) {
                    near_half(r, state, number);
                }
                let s = to_model(state);
                let found = raw::mtr_by_value_share(*state, number);
                let (answer, share) = split(s.share(number));
                let wanted = ShareLine {
                    answer,
                    share: share as u32,
                };
                self.same(function, format_args!("{number} {state:?}"), found, wanted);
                if answer == 0 {
                    self.shares.share(&s, number as usize, share);
                }
                answer
            }
            15 => {
                if r.chance(1, 4) {
                    tied(r, state);
                }
                self.roster(r, state)
            }
            16 => self.write(r),
            17 => self.read(r),
            _ => self.under(r),
        }
    }

    /// Ends the run if a reply's bytes are not those of the model's numbers and state.
    fn replied(
        &self,
        function: usize,
        of: impl Display,
        found: &Reply,
        wanted: model::rule::Reply,
        after: &Scheduler,
    ) {
        self.same(function, of, *found, reply(wanted, after));
        let bytes = bytes::of(found) == bytes::reply(&wanted, after);
        self.same(function, "bytes", bytes, true);
    }

    fn start(&mut self, r: &mut Rng, state: &mut raw::Scheduler) -> u32 {
        let (m, p, o) = settings(r);
        let found = raw::mtr_by_value_start(m, p, o);
        let (answer, after) = match Scheduler::start(m, p, o) {
            Ok(after) => (0, after),
            Err(refusal) => (refusal, ZEROS),
        };
        let wanted = model::rule::Reply::plain(answer);
        self.replied(0, format_args!("{m} {p} {o}"), &found, wanted, &after);
        self.late.start(m, p, o, answer);
        // Now and then the new state is the one to go on with.
        if answer == 0 && r.chance(1, 4) {
            *state = found.state;
        }
        answer
    }

    fn step(&mut self, r: &mut Rng, function: usize, state: &mut raw::Scheduler) -> u32 {
        let call = any_call(r, function, state);
        let found = made(*state, call);
        let before = to_model(state);
        let mut after = before;
        let numbers = apply(&mut after, call);
        let of = format_args!("{call:?} {state:?}");
        self.replied(function, of, &found, numbers, &after);
        if numbers.answer != 0 {
            self.same(function, "refused", found.state, *state);
        }
        if numbers.answer != 16 {
            self.late.call(&before, call, numbers.answer);
            self.changes.call(&before, call, numbers.answer);
            self.best_effort.call(&before, call, numbers, &after);
        }
        self.idle += (numbers.answer == 0 && numbers.thread == 64) as u64;
        *state = found.state;
        numbers.answer
    }
}

fn reply(numbers: model::rule::Reply, state: &Scheduler) -> Reply {
    Reply {
        answer: numbers.answer,
        thread: numbers.thread,
        slice: numbers.slice,
        before: numbers.before,
        state: to_library(state),
    }
}

/// The answer's number and the value, 0 with a refusal.
fn split<T: Default>(result: Result<T, u32>) -> (u32, T) {
    match result {
        Ok(value) => (0, value),
        Err(refusal) => (refusal, T::default()),
    }
}

/// Reservations of the threads whose group, or a group above it, is `group`.
fn subtree(s: &Scheduler, group: u64) -> Result<u32, u32> {
    if !s.sound() {
        return Err(16);
    }
    if !s.is_open(group) {
        return Err(2);
    }
    let mut sum = 0;
    for t in s.threads.iter().filter(|t| t.is_reserved()) {
        let mut g = t.group() as u64;
        while g != group && g != 0 {
            g = s.groups[g as usize].parent as u64;
        }
        if g == group {
            sum += t.reservation as u32;
        }
    }
    Ok(sum)
}
