//! What is passed beside a state: arguments, records and blocks, arbitrary or nearly right.

use crate::bytes::{self, TABLE};
use crate::compare::{to_library_record, to_model};
use crate::guard::Side;
use model::blocks::{check, write_block, BLOCK, RECORD};
use model::calls::Call;
use mtr::raw::{self, Record, Records};
use samples::random::{
    any_record, any_table, asked_priority, damaged_tables, edge_value, usable_table, Rng,
};
use std::mem::size_of;

const LIST: usize = size_of::<Records>();

pub(super) fn any_bytes(r: &mut Rng, to: &mut [u8]) {
    for part in to.chunks_mut(8) {
        let bytes = r.bits().to_le_bytes();
        part.copy_from_slice(&bytes[..part.len()]);
    }
}

/// 0, next to a power of two, any, an edge of some rule, about `top`, or up to `top`.
pub(super) fn argument(r: &mut Rng, top: u64) -> u64 {
    match r.below(10) {
        0 => 0,
        1 => (1u64 << r.below(64))
            .wrapping_add(r.below(3))
            .wrapping_sub(1),
        2 => r.bits(),
        3 => edge_value(r),
        4 | 5 => r.edgy(0, top + 2),
        _ => r.range(0, top),
    }
}

/// m, P and O for a start. O is mostly one that m allows, or next to m.
pub(super) fn settings(r: &mut Rng) -> (u64, u64, u64) {
    let (m, p) = (argument(r, 1_000), argument(r, 1_000_000));
    let o = match r.below(6) {
        0 => argument(r, 1_000),
        1 => m,
        2 => m.wrapping_sub(1),
        _ => r.edgy(0, m.saturating_sub(1)),
    };
    (m, p, o)
}

/// Mostly small, so that some fit a group.
fn amount(r: &mut Rng) -> u64 {
    if r.chance(1, 3) {
        argument(r, 1_000)
    } else {
        r.range(1, 20)
    }
}

pub(super) fn any_call(r: &mut Rng, function: usize, state: &raw::Scheduler) -> Call {
    match function {
        1 => Call::Open {
            number: argument(r, 15),
            parent: if r.chance(1, 2) { 0 } else { argument(r, 15) },
            ceiling: amount(r),
        },
        2 => Call::Close {
            number: argument(r, 15),
        },
        3 => Call::Admit {
            number: argument(r, 63),
            group: if r.chance(1, 2) { 0 } else { argument(r, 15) },
            reservation: amount(r),
        },
        4 => Call::Remove {
            number: if r.chance(1, 8) {
                state.running as u64
            } else {
                argument(r, 63)
            },
        },
        5 => Call::Wake {
            number: argument(r, 63),
        },
        6 => Call::Dispatch,
        7 => report(r, state),
        8 => change(r, state),
        _ => Call::AdmitBestEffort {
            number: match (0..64).find(|&n| state.threads[n].status == 0) {
                Some(free) if r.chance(1, 3) => free as u64,
                _ => argument(r, 63),
            },
            weight: match r.below(6) {
                0 => argument(r, 16),
                1 => r.pick(&[0, 1, 16, 17, 255, 256 + 1]),
                _ => r.range(1, 16),
            },
        },
    }
}

fn report(r: &mut Rng, state: &raw::Scheduler) -> Call {
    let allotment = match state.threads.get(state.running as usize) {
        // A best-effort thread may always run for P.
        Some(t) if t.reservation == 0 => state.settings.interval as u64,
        Some(t) => t.allotment.max(0) as u64,
        None => 1_000,
    };
    let slice = allotment.min(state.settings.interval as u64);
    let most = slice + state.settings.overrun as u64;
    Call::Report {
        reason: if r.chance(1, 2) {
            r.range(0, 3)
        } else {
            argument(r, 3)
        },
        used: match r.below(10) {
            0 => argument(r, 1_000_000),
            1 => slice + r.below(2),
            2 => most + r.below(2),
            3 | 4 => r.edgy(slice, most),
            5..=7 => allotment.min(most),
            _ => r.edgy(0, slice),
        },
    }
}

/// A change of any thread, mostly of a listed one, or of the running one. The amount is any, next to the old one, to all that the group has
/// free, or to what the allotment fills.
fn change(r: &mut Rng, state: &raw::Scheduler) -> Call {
    let listed = state.order.get(..state.count as usize);
    let number = match (r.below(8), listed) {
        (0, _) => state.running as u64,
        (1..=4, Some(list)) if !list.is_empty() => r.pick(list) as u64,
        _ => argument(r, 63),
    };
    // Of a number that is no thread's some thread's numbers.
    let t = &state.threads[number as usize % 64];
    let s = to_model(state);
    let group = t.group_or_weight as usize % 16;
    let free = (s.groups[group].ceiling as u64).saturating_sub(s.taken(group) as u64);
    let old = t.reservation as u64;
    let filled = (t.allotment.max(0) as u64).div_ceil(state.settings.thousandth.max(1) as u64);
    let reservation = match r.below(12) {
        0 | 1 => argument(r, 1_000),
        2 => r.edgy(0, 1_001),
        3 => old,
        4 => (old + r.below(3)).saturating_sub(1),
        5 | 6 => free + old + r.below(2),
        7 => free + r.below(2),
        8 => filled,
        9 => (filled + r.below(3)).saturating_sub(1),
        10 => r.range(1, old),
        _ => r.range(1, free + old),
    };
    Call::Change {
        number,
        reservation,
    }
}

pub(super) fn any_side(r: &mut Rng) -> Side {
    if r.chance(1, 2) {
        Side::Front
    } else {
        Side::Back
    }
}

/// Mostly that of a block.
pub(super) fn any_length(r: &mut Rng) -> usize {
    match r.below(8) {
        0 => r.range(0, 1_100) as usize,
        1 => r.pick(&[0, 1, 14, 30, 510, 511, 513, 514, 1_024]),
        _ => BLOCK,
    }
}

/// The bytes of a table of priorities: any, one of the model's of any sort, damaged or usable, of which some bytes may
/// be changed, or the library's standard one.
pub(super) fn any_priorities(r: &mut Rng) -> [u8; TABLE] {
    let mut any = [0; TABLE];
    match r.below(16) {
        0 => any_bytes(r, &mut any),
        1 => any.copy_from_slice(bytes::of(&raw::mtr_standard_table())),
        2 | 3 => {
            let damaged = damaged_tables(r);
            any = bytes::table(&damaged[r.below(damaged.len() as u64) as usize].1);
        }
        4..=6 => any = bytes::table(&usable_table(r)),
        _ => any = bytes::table(&any_table(r)),
    }
    if r.chance(1, 8) {
        for _ in 0..r.edgy(1, 4) {
            let byte = &mut any[r.below(TABLE as u64) as usize];
            *byte = match r.below(3) {
                0 => r.bits() as u8,
                1 => *byte ^ 1 << r.below(8),
                _ => r.edgy(0, 11) as u8,
            };
        }
    }
    any
}

/// A priority to ask for under a table.
pub(super) fn any_priority(r: &mut Rng) -> u64 {
    if r.chance(1, 4) {
        argument(r, 10)
    } else {
        asked_priority(r)
    }
}

/// Any bytes, or records with a form, of which one may have a byte changed.
pub(super) fn any_records(r: &mut Rng) -> Records {
    let mut any = [0; LIST];
    any_bytes(r, &mut any);
    let mut list: Records = bytes::to(&any);
    if r.chance(1, 8) {
        return list;
    }
    for record in &mut list.records {
        *record = to_library_record(&any_record(r));
    }
    if r.chance(1, 4) {
        let record: &mut Record = &mut list.records[r.below(31) as usize];
        match r.below(7) {
            0 => record.kind = r.edgy(0, 255) as u8,
            1 => record.subject = r.edgy(0, 255) as u8,
            2 => record.group = r.edgy(0, 255) as u8,
            3 => record.reason = r.edgy(0, 255) as u8,
            4 => record.amount = r.edgy(0, 65_535) as u16,
            5 => record.overrun = r.edgy(0, 65_535) as u16,
            _ => record.ticks = r.edgy(0, u32::MAX as u64) as u32,
        }
    }
    list
}

/// A block, whole or damaged, or any bytes, with bytes after it; and the number expected.
pub(super) fn any_block(r: &mut Rng) -> (u32, [u8; 1_100]) {
    let mut bytes = [0; 1_100];
    any_bytes(r, &mut bytes);
    let number = argument(r, 40) as u32;
    if r.chance(1, 8) {
        return (number, bytes);
    }
    let records: Vec<_> = (0..r.edgy(0, 31)).map(|_| any_record(r)).collect();
    write_block(&mut bytes[..BLOCK], number, &records);
    let damages = if r.chance(1, 3) { 0 } else { r.edgy(1, 3) };
    for _ in 0..damages {
        let row = 14 + RECORD as u64 * r.below(records.len() as u64);
        let at = match r.below(4) {
            0 => r.below(14),
            1 => r.below(512),
            // Where the overrun limit of a start is, also past the records.
            2 => row + r.range(10, 11),
            _ => r.range(14, 14 + (RECORD * records.len()) as u64),
        } as usize;
        bytes[at] = match r.below(3) {
            0 => r.bits() as u8,
            1 => bytes[at] ^ 1 << r.below(8),
            _ => bytes[at] ^ 255,
        };
    }
    // Under a right check, mostly.
    if r.chance(2, 3) {
        let mut body = [0; 510];
        body.copy_from_slice(&bytes[..510]);
        bytes[510..512].copy_from_slice(&check(&body));
    }
    (number, bytes)
}
