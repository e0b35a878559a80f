//! Journals in which many threads are blocked at a dispatch.

use super::calls::weight;
use super::journals::{damage, damage_block, start_record};
use super::states::{admitted, with_status};
use super::{call, Rng};
use crate::records;
use model::blocks::{write_block, Record, BLOCK, RECORDS};
use model::calls::{record, run, Call};
use model::rule::{Scheduler, BLOCKED, FREE, NONE};

/// What a journal is made of.
struct Taste {
    /// Threads admitted at most, of numbers below twice as many.
    threads: u64,
    /// Of a hundred calls so many are wakes, as long as a thread is blocked.
    wakes: u64,
    /// The same of removals and of calls of any kind.
    removals: u64,
    others: u64,
    /// Of a hundred admissions so many are of best-effort threads.
    best_effort: u64,
}

impl Taste {
    fn any(r: &mut Rng) -> Taste {
        Taste {
            threads: r.pick(&[1, 2, 3, 4, 6, 8, 12, 20, 40, 64]),
            wakes: r.pick(&[0, 2, 5, 10, 20, 30]),
            removals: r.pick(&[0, 1, 2, 5, 10]),
            others: r.pick(&[0, 1, 5]),
            best_effort: r.pick(&[0, 0, 10, 30, 60, 100]),
        }
    }

    fn call(&self, r: &mut Rng, s: &Scheduler) -> Call {
        let mut free = with_status(s, FREE);
        free.retain(|&n| (n as u64) < 2 * self.threads);
        let used = admitted(s);
        if (used.len() as u64) < self.threads && r.chance(1, 2) && !free.is_empty() {
            if r.chance(self.best_effort, 100) {
                return Call::AdmitBestEffort {
                    number: r.pick(&free) as u64,
                    weight: weight(r),
                };
            }
            return Call::Admit {
                number: r.pick(&free) as u64,
                group: 0,
                reservation: r.range(1, 1000 / self.threads),
            };
        }
        if r.chance(self.others, 100) {
            return call(r, s);
        }
        let blocked = with_status(s, BLOCKED);
        if !blocked.is_empty() && r.chance(self.wakes, 100) {
            return Call::Wake {
                number: r.pick(&blocked) as u64,
            };
        }
        if !used.is_empty() && r.chance(self.removals, 100) {
            let of = if blocked.is_empty() { used } else { blocked };
            return Call::Remove {
                number: r.pick(&of) as u64,
            };
        }
        run_or_report(r, s)
    }
}

/// The dispatch or report that is next, and now and then the other of the two.
/// Most reports block and leave the thread its place; a best-effort thread more
/// often goes on, for about its slice.
fn run_or_report(r: &mut Rng, s: &Scheduler) -> Call {
    if (s.running == NONE) != r.chance(1, 25) {
        return Call::Dispatch;
    }
    let slice = match s.threads.get(s.running as usize) {
        Some(t) => t.slice(&s.settings) as u64,
        None => 1000,
    };
    let running = s.threads.get(s.running as usize);
    if running.is_some_and(|t| t.is_best_effort()) && r.chance(1, 2) {
        return Call::Report {
            reason: r.pick(&[0, 0, 0, 0, 1, 1, 2]),
            used: slice + r.edgy(0, s.settings.overrun as u64),
        };
    }
    Call::Report {
        reason: r.pick(&[1, 1, 1, 1, 1, 1, 1, 1, 0, 0, 2, 3]),
        used: match r.below(12) {
            0 => slice + 1 + s.settings.overrun as u64,
            1 => slice + r.edgy(0, s.settings.overrun as u64),
            2..=4 => slice,
            _ => r.range(0, slice / 2),
        },
    }
}

/// A journal in which many threads are blocked at a dispatch, before the chosen
/// one or all: threads are admitted, run and block; some are woken, some removed
/// and admitted again. There are starts on the way, and in half of the journals
/// damaged blocks, with a start soon after most.
pub fn blocking(r: &mut Rng) -> Vec<u8> {
    let taste = Taste::any(r);
    let damaged = r.chance(1, 2);
    // Not full blocks in the middle as well.
    let ragged = r.chance(1, 3);
    let mut s = Scheduler::default();
    let mut blocks: Vec<[u8; BLOCK]> = Vec::new();
    let count = r.range(1, 12);
    // Records up to the next start.
    let mut due = r.chance(1, 2).then_some(0);
    for number in 0..count {
        let len = if ragged || number + 1 == count {
            r.edgy(0, 31)
        } else {
            31
        };
        let mut records: Vec<Record> = Vec::new();
        for _ in 0..len {
            let rec = if due == Some(0) || r.chance(1, 200) {
                start_record(r, false)
            } else {
                record(taste.call(r, &s))
            };
            due = due.and_then(|n: u64| n.checked_sub(1));
            run(&mut s, &rec);
            records.push(rec);
        }
        let mut block = [0; BLOCK];
        write_block(&mut block, number as u32, &records);
        if damaged && r.chance(1, 5) {
            let (way, place) = (r.pick(&[0, 1, 2, 9, 10, 12, 14]), r.below(512) as usize);
            damage_block(r, &mut block, way, place);
            due = r.chance(3, 4).then(|| r.below(12));
        }
        blocks.push(block);
    }
    let mut tail = Vec::new();
    if damaged && r.chance(1, 4) {
        damage(r, &mut blocks, &mut tail);
    }
    let mut input = blocks.concat();
    input.append(&mut tail);
    input
}

/// The threads of [`long`], of both halves of a summary.
const LONG: [u64; 8] = [0, 63, 31, 32, 7, 40, 1, 62];

/// The blocks of a journal, so many and all full, without a refusal: eight
/// threads, of which several are blocked at most dispatches.
pub fn long(r: &mut Rng, blocks: usize) -> Vec<[u8; BLOCK]> {
    let mut s = Scheduler::default();
    let mut list: Vec<Record> = Vec::new();
    while list.len() < RECORDS * blocks {
        let blocked = with_status(&s, BLOCKED);
        let slice = match s.threads.get(s.running as usize) {
            Some(t) => t.slice(&s.settings) as u64,
            None => 0,
        };
        let made = if let Some(&next) = LONG.get(s.count as usize) {
            records::admit(next, 0, 100)
        } else if s.running != NONE {
            records::report(r.pick(&[0, 1, 1]), r.below(slice + 1))
        } else if blocked.len() > 2 && r.chance(1, 2) {
            records::wake(r.pick(&blocked) as u64)
        } else {
            records::dispatch()
        };
        assert_eq!(run(&mut s, &made).answer, 0);
        list.push(made);
    }
    let areas = (0..).zip(list.chunks(RECORDS));
    areas.map(|(n, part)| records::block(n, part)).collect()
}
