//! Records and journals, whole or damaged.

use super::calls::{change_call, weight};
use super::states::with_status;
use super::{call, edge_value, Rng};
use model::blocks::{fields, kind, seal, write_block, Record, BLOCK, RECORD, RECORDS};
use model::calls::{apply, record, run, Call};
use model::rule::{Scheduler, BLOCKED, FREE, NONE};

/// A well-formed record of any kind with any values in the used fields.
pub fn any_record(r: &mut Rng) -> Record {
    let kind = r.range(kind::OPEN as u64, kind::ADMIT_BEST_EFFORT as u64) as u8;
    let (subject, group) = (edge_value(r) as u8, edge_value(r) as u8);
    let (amount, ticks) = (edge_value(r) as u16, edge_value(r) as u32);
    let overrun = edge_value(r) as u16;
    let uses = fields(kind).unwrap_or_default();
    Record {
        kind,
        subject: if uses.subject { subject } else { 0 },
        group: if uses.group { group } else { 0 },
        reason: if uses.reason { edge_value(r) as u8 } else { 0 },
        amount: if uses.amount { amount } else { 0 },
        overrun: if uses.overrun { overrun } else { 0 },
        ticks: if uses.ticks { ticks } else { 0 },
    }
}

pub(super) fn start_record(r: &mut Rng, extreme: bool) -> Record {
    let (m, p) = if extreme {
        (
            r.pick(&[1, 1, 2, 999, 1000, 1000]),
            r.pick(&[1, 2, 999_999, 1_000_000, 1_000_000]),
        )
    } else {
        match r.below(4) {
            0 => (100, 20_000),
            1 => (r.edgy(0, 1001), r.edgy(0, 1_000_001)),
            _ => (r.range(1, 1000), r.range(1, 50_000)),
        }
    };
    Record {
        kind: kind::START,
        amount: m as u16,
        overrun: overrun(r, m) as u16,
        ticks: p as u32,
        ..Record::default()
    }
}

/// O of a start with m: mostly 1 to m − 1, at times 0, and rarely a bad one.
fn overrun(r: &mut Rng, m: u64) -> u64 {
    match r.below(16) {
        0 => m,
        1 => edge_value(r),
        2..=5 => 0,
        _ if m < 2 => 0,
        _ => r.edgy(1, m - 1),
    }
}

/// A call that a sound state mostly accepts.
fn valid_call(r: &mut Rng, s: &Scheduler) -> Call {
    for _ in 0..8 {
        let call = call(r, s);
        if apply(&mut s.clone(), call).answer == 0 {
            return call;
        }
    }
    if s.running < NONE {
        Call::Report { reason: 0, used: 0 }
    } else {
        Call::Dispatch
    }
}

/// Mostly dispatch, report with block, and bursts of wakes; at times a change, and
/// some best-effort threads.
fn storm_call(r: &mut Rng, s: &Scheduler) -> Call {
    if s.count > 0 && r.chance(1, 16) {
        return change_call(r, s);
    }
    let blocked = with_status(s, BLOCKED);
    let free = with_status(s, FREE);
    if free.len() > 12 && r.chance(1, 20) {
        return Call::AdmitBestEffort {
            number: r.pick(&free) as u64,
            weight: weight(r),
        };
    }
    if s.count < 40 && !free.is_empty() && r.chance(1, 3) {
        return Call::Admit {
            number: r.pick(&free) as u64,
            group: 0,
            reservation: r.range(1, 25),
        };
    }
    if !blocked.is_empty() && r.chance(blocked.len() as u64, (68 - free.len()) as u64) {
        return Call::Wake {
            number: r.pick(&blocked) as u64,
        };
    }
    let Some(t) = s.threads.get(s.running as usize) else {
        return Call::Dispatch;
    };
    let slice = t.slice(&s.settings) as u64;
    Call::Report {
        reason: r.pick(&[1, 1, 1, 1, 1, 0, 2]),
        used: if r.chance(1, 3) {
            slice + r.edgy(0, s.settings.overrun as u64)
        } else {
            r.edgy(0, slice)
        },
    }
}

/// A generated journal: mostly accepted or mostly refused records, extreme
/// settings, wake storms or any values; whole or with every kind of damage.
pub fn journal(r: &mut Rng) -> Vec<u8> {
    let style = r.below(6);
    let damaged = r.chance(1, 2);
    let mut s = Scheduler::default();
    let mut next: Vec<Record> = Vec::new();
    if r.chance(3, 4) {
        next.push(start_record(r, style == 2));
    }
    let count = r.below(12);
    // Not full blocks in the middle as well.
    let ragged = r.chance(1, 4);
    let mut blocks: Vec<[u8; BLOCK]> = Vec::new();
    for number in 0..count {
        let len = if ragged || number + 1 == count {
            r.edgy(0, 31)
        } else {
            31
        };
        let mut records = Vec::new();
        for _ in 0..len {
            let rec = match next.pop() {
                Some(rec) => rec,
                None if r.chance(1, if damaged { 20 } else { 150 }) => start_record(r, style == 2),
                None => match style {
                    0..=2 => record(valid_call(r, &s)),
                    3 => record(storm_call(r, &s)),
                    4 => record(call(r, &s)),
                    _ if r.chance(1, 3) => any_record(r),
                    _ => record(call(r, &s)),
                },
            };
            run(&mut s, &rec);
            records.push(rec);
        }
        let mut block = [0; BLOCK];
        write_block(&mut block, number as u32, &records);
        blocks.push(block);
    }
    let mut tail = Vec::new();
    if damaged {
        for _ in 0..r.range(1, 3) {
            damage(r, &mut blocks, &mut tail);
        }
    }
    let mut input = blocks.concat();
    input.append(&mut tail);
    input
}

/// One damage to a row of blocks; `tail` is what follows the last whole one.
pub(super) fn damage(r: &mut Rng, blocks: &mut Vec<[u8; BLOCK]>, tail: &mut Vec<u8>) {
    if blocks.is_empty() {
        *tail = (0..r.range(1, 511)).map(|_| r.bits() as u8).collect();
        return;
    }
    let i = r.below(blocks.len() as u64) as usize;
    let j = r.below(blocks.len() as u64) as usize;
    let place = r.below(512) as usize;
    match r.below(18) {
        // Doubled, missing, exchanged.
        3 => {
            let copy = blocks[i];
            blocks.insert(i, copy);
        }
        4 => {
            blocks.remove(i);
        }
        5 => blocks.swap(i, j),
        // Short last block: cut off or added.
        6 => {
            if let Some(last) = blocks.pop() {
                *tail = last[..r.edgy(1, 511) as usize].to_vec();
            }
        }
        7 => *tail = (0..r.edgy(1, 511)).map(|_| r.bits() as u8).collect(),
        way => damage_block(r, &mut blocks[i], way, place),
    }
}

/// One damage within a block.
pub(super) fn damage_block(r: &mut Rng, block: &mut [u8; BLOCK], way: u64, place: usize) {
    let used = block[4].min(RECORDS as u8) as usize;
    match way {
        0 => block[place] ^= 1 << r.below(8),
        1 => block.fill(0),
        // Wrong number under a right check.
        2 => {
            block[r.below(4) as usize] ^= 1 << r.below(8);
            seal(block);
        }
        // 0 and 255 exchanged, which the check does not see.
        8 => {
            let of: Vec<usize> = (0..510)
                .filter(|&k| block[k] == 0 || block[k] == 255)
                .collect();
            if !of.is_empty() {
                let k = r.pick(&of);
                block[k] ^= 255;
            }
        }
        // A check byte of 255 for 0, or another one.
        9 => {
            let k = 510 + r.below(2) as usize;
            block[k] = if block[k] == 0 { 255 } else { r.bits() as u8 };
        }
        // Wrong count under a right check.
        10 => {
            block[4] = match r.below(3) {
                0 => block[4].wrapping_add(1),
                1 => block[4].wrapping_sub(1),
                _ => r.edgy(0, 255) as u8,
            };
            seal(block);
        }
        // A byte set under a right check: any, header, record, past the records.
        11 => {
            block[place] = r.bits() as u8;
            seal(block);
        }
        12 => {
            block[r.range(5, 13) as usize] = r.edgy(0, 255) as u8;
            seal(block);
        }
        13 if used > 0 => {
            let at = 14 + RECORD * r.below(used as u64) as usize;
            block[at + r.below(16) as usize] = r.edgy(0, 255) as u8;
            seal(block);
        }
        14 if used < RECORDS => {
            block[r.range(14 + (RECORD * used) as u64, 509) as usize] = r.edgy(1, 255) as u8;
            seal(block);
        }
        // Bytes 10 and 11 of a record, a start's or another's, under a right check.
        15 if used > 0 => {
            let at = 14 + RECORD * r.below(used as u64) as usize;
            block[at + r.range(10, 11) as usize] = r.edgy(1, 255) as u8;
            seal(block);
        }
        // A record, of a change or of a best-effort admission if there is one,
        // without a form under a right check.
        16 if used > 0 => {
            misform(r, &mut block[14..14 + RECORD * used]);
            seal(block);
        }
        _ => {
            for byte in block.iter_mut() {
                *byte = r.bits() as u8;
            }
            if r.chance(1, 2) {
                seal(block);
            }
        }
    }
}

/// Gives one record, a change or an admission of a best-effort thread if there is
/// one, a byte other than 0 that these leave 0, or another kind.
fn misform(r: &mut Rng, records: &mut [u8]) {
    let mut parts: Vec<&mut [u8]> = records.chunks_exact_mut(RECORD).collect();
    let one = |part: &&mut [u8]| [kind::CHANGE, kind::ADMIT_BEST_EFFORT].contains(&part[0]);
    if parts.iter().any(one) {
        parts.retain(one);
    }
    let i = r.below(parts.len() as u64) as usize;
    let part = &mut parts[i];
    if r.chance(1, 4) {
        let last = kind::ADMIT_BEST_EFFORT;
        part[0] = r.pick(&[0, kind::ADMIT, kind::START, kind::CHANGE, last, last + 1]);
    } else {
        let unused = [2, 3, 6, 7, 8, 9, 10, 11, 12, 13, 14, 15];
        part[r.pick(&unused)] = r.edgy(1, 255) as u8;
    }
}
