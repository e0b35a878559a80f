//! A virtual controller that makes the calls of a case.
//!
//! Its clock goes on with the meter, and where nothing is runnable to the next
//! wake. It interrupts the running thread at every wake, and by its timer at the
//! end of the slice or some ticks later.

use journal::codec::{self, answer, kind, reason, Record, NONE, RECORDS};
use journal::engine::{Engine, Settings};
use samples::random::Rng;

/// Ticks that a shipped case lasts.
pub const LENGTH: u64 = 1_000_000;

pub const THREADS: usize = 4;
pub const NAMES: [&str; THREADS] = ["readout", "pumps", "viewer", "exporter"];
pub const RESERVATIONS: [u64; THREADS] = [500, 100, 100, 100];
pub const EXPORTER: usize = 3;

/// Ticks of work between two waits; readout never waits.
const BURSTS: [u64; THREADS] = [u64::MAX, 3_000, 8_000, 4_000];
/// Ticks that pumps and viewer wait.
const PAUSES: [u64; THREADS] = [0, 47_000, 32_000, 0];
/// Least and most ticks until a reply that the exporter has to wait for.
const REPLY: (u64, u64) = (300, 1_500);

#[derive(Clone, Copy, Debug, PartialEq, Eq)]
pub enum Server {
    /// The reply is there before the exporter asks for it.
    Steady,
    /// The exporter blocks for every reply.
    Jittery,
}

/// The settings and what the threads, numbered from 0, have and do: those with
/// reservations first, then the best-effort ones.
pub struct Load<'a> {
    pub settings: Settings,
    pub reservations: &'a [u64],
    pub weights: &'a [u64],
    /// Ticks of work between two waits.
    pub bursts: &'a [u64],
    /// From when on, in order, which thread reserves how much.
    pub changes: &'a [(u64, u8, u64)],
}

/// What a case came to, thread by thread.
#[derive(Clone, Debug, PartialEq, Eq)]
pub struct Outcome {
    pub records: Vec<Record>,
    /// Achieved shares at the end.
    pub shares: Vec<u64>,
    /// Largest lag after any report.
    pub largest: Vec<i64>,
    pub wakes: Vec<u64>,
}

impl Outcome {
    /// The journal, every block but the last full.
    pub fn journal(&self) -> Vec<u8> {
        let mut blocks = Vec::new();
        for (number, records) in (0u32..).zip(self.records.chunks(RECORDS)) {
            // Every record is made below and well formed.
            if let Ok(block) = codec::write(number, records) {
                blocks.extend_from_slice(&block);
            }
        }
        blocks
    }
}

struct Controller<E> {
    engine: E,
    clock: u64,
    outcome: Outcome,
}

impl<E: Engine> Controller<E> {
    fn new(threads: usize) -> Controller<E> {
        Controller {
            engine: E::default(),
            clock: 0,
            outcome: Outcome {
                records: Vec::new(),
                shares: vec![0; threads],
                largest: vec![0; threads],
                wakes: vec![0; threads],
            },
        }
    }

    /// Makes a call that is accepted, and answers thread and slice.
    fn call(&mut self, record: Record) -> (u32, u64) {
        self.outcome.records.push(record);
        let reply = self.engine.run(&record);
        assert_eq!(reply.answer, answer::ACCEPTED);
        (reply.thread, reply.slice.into())
    }

    fn plain(&mut self, kind: u8, subject: u8) -> (u32, u64) {
        self.call(Record {
            kind,
            subject,
            ..Record::default()
        })
    }

    fn report(&mut self, reason: u8, used: u64) {
        self.call(Record {
            kind: kind::REPORT,
            reason,
            ticks: used as u32,
            ..Record::default()
        });
        self.clock += used;
        for (n, largest) in (0u8..).zip(&mut self.outcome.largest) {
            *largest = (*largest).max(self.engine.lag(n));
        }
    }

    /// Nothing runs.
    fn change(&mut self, thread: u8, reservation: u64) {
        self.call(Record {
            kind: kind::CHANGE,
            subject: thread,
            amount: reservation as u16,
            ..Record::default()
        });
    }

    fn begin(&mut self, load: &Load) {
        self.call(Record {
            kind: kind::START,
            amount: load.settings.thousandth,
            ticks: load.settings.interval,
            overrun: load.settings.overrun,
            ..Record::default()
        });
        let reserved = load.reservations.iter().map(|&f| (kind::ADMIT, f));
        let efforts = load.weights.iter().map(|&w| (kind::BEST_EFFORT, w));
        for (n, (kind, amount)) in (0u8..).zip(reserved.chain(efforts)) {
            self.call(Record {
                kind,
                subject: n,
                amount: amount as u16,
                ..Record::default()
            });
        }
    }
}

/// Runs a case with the default settings until the meter reaches a length.
pub fn play<E: Engine>(server: Server, length: u64) -> Outcome {
    let mut jitter = Rng::new(1997);
    let load = Load {
        settings: Settings::default(),
        reservations: &RESERVATIONS,
        weights: &[],
        bursts: &BURSTS,
        changes: &[],
    };
    let pause = |n| match (n, server) {
        (EXPORTER, Server::Steady) => 0,
        (EXPORTER, Server::Jittery) => jitter.range(REPLY.0, REPLY.1),
        _ => PAUSES[n],
    };
    control::<E>(&load, length, pause, || 0)
}

/// Runs a load until the clock reaches a length. After its burst a thread waits
/// for the ticks told; the timer is late by the ticks told.
pub fn control<E: Engine>(
    load: &Load,
    length: u64,
    mut pause: impl FnMut(usize) -> u64,
    mut late: impl FnMut() -> u64,
) -> Outcome {
    let mut c = Controller::<E>::new(load.bursts.len());
    c.begin(load);
    let mut left = load.bursts.to_vec();
    // When a blocked thread is to be woken.
    let mut due: Vec<Option<u64>> = vec![None; left.len()];
    let mut changes = load.changes.iter().peekable();
    while c.clock < length {
        while let Some(&(_, n, f)) = changes.next_if(|(at, ..)| *at <= c.clock) {
            c.change(n, f);
        }
        let (thread, slice) = c.plain(kind::DISPATCH, 0);
        let next = due.iter().flatten().min().copied();
        if thread == NONE {
            // All threads are blocked, each for a time.
            c.clock = next.unwrap_or(length);
        } else {
            let n = thread as usize;
            let until = next.map_or(u64::MAX, |at| at - c.clock);
            let used = left[n].min(slice + late()).min(until);
            if left[n] != u64::MAX {
                left[n] -= used;
            }
            let mut waits = 0;
            if left[n] == 0 {
                left[n] = load.bursts[n];
                waits = pause(n);
            }
            if waits > 0 {
                c.report(reason::BLOCK, used);
                due[n] = Some(c.clock + waits);
            } else {
                c.report(reason::TICK, used);
            }
        }
        for (n, at) in due.iter_mut().enumerate() {
            if at.is_some_and(|at| at <= c.clock) {
                *at = None;
                c.plain(kind::WAKE, n as u8);
                c.outcome.wakes[n] += 1;
            }
        }
    }
    for (n, share) in (0u8..).zip(&mut c.outcome.shares) {
        *share = c.engine.share(n).unwrap_or(0);
    }
    c.outcome
}
