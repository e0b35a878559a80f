//! Calls, steered by the state.

use super::states::{admitted, free_in, open_groups, with_status};
use super::{edge_value, Rng};
use model::calls::Call;
use model::rule::{Scheduler, BLOCKED, FREE, GROUPS, NONE};

/// One of `of` mostly, else any value.
fn mostly(r: &mut Rng, of: &[usize], high: u64) -> u64 {
    if of.is_empty() || r.chance(1, 12) {
        if r.chance(1, 2) {
            edge_value(r)
        } else {
            r.edgy(0, high)
        }
    } else {
        r.pick(of) as u64
    }
}

/// An amount for a group: fitting, one too many, in range or any value.
fn amount(r: &mut Rng, s: &Scheduler, group: u64) -> u64 {
    let room = if group < GROUPS as u64 {
        free_in(s, group as usize)
    } else {
        0
    };
    match r.below(12) {
        0 => edge_value(r),
        1 => r.edgy(0, 1001),
        2 => room,
        3 => room + 1,
        4 => 1,
        _ => r.range(1, (room / 3).max(1)),
    }
}

/// A new reservation for a thread: all that its group has free, the old one
/// counted or not, or one more; the old one or about it; about what the allotment
/// fills; in range or any value.
fn new_amount(r: &mut Rng, s: &Scheduler, number: u64) -> u64 {
    let Some(t) = s.threads.get(number as usize) else {
        return r.edgy(0, 1001);
    };
    let old = t.reservation as u64;
    let free = match t.group() {
        g if t.is_reserved() && g < GROUPS => free_in(s, g),
        _ => 0,
    };
    // The least reservation whose quantum the allotment fits.
    let held = t.allotment.max(1) as u64;
    let fitting = held.div_ceil(s.settings.thousandth.max(1) as u64);
    match r.below(20) {
        0 => edge_value(r),
        1 => r.pick(&[0, 1, 1000, 1001]),
        2 | 3 => free + old,
        4 | 5 => free + old + 1,
        6 => free + r.below(2),
        7 | 8 => old,
        9 => old + r.below(3) - (old > 0) as u64,
        10 => 1,
        11 | 12 => fitting,
        13 => (fitting + r.below(3)).saturating_sub(1),
        14 => r.edgy(0, 1001),
        15 | 16 => r.range(1, old),
        _ => r.range(1, free + old),
    }
}

/// A change of an admitted thread mostly, now and then of the running one.
pub(super) fn change_call(r: &mut Rng, s: &Scheduler) -> Call {
    let number = if s.running < NONE && r.chance(1, 8) {
        s.running as u64
    } else {
        mostly(r, &admitted(s), 66)
    };
    Call::Change {
        number,
        reservation: new_amount(r, s, number),
    }
}

/// A weight: mostly in range, else beside it or any value.
pub(super) fn weight(r: &mut Rng) -> u64 {
    match r.below(12) {
        0 => edge_value(r),
        1 => r.pick(&[0, 17, 256 + 1, 65_536 + 3]),
        2..=4 => r.pick(&[1, 16]),
        _ => r.range(1, 16),
    }
}

/// A random call with plausible and bad arguments, steered by the state (of
/// any bits) so that every answer occurs.
pub fn call(r: &mut Rng, s: &Scheduler) -> Call {
    let runs = s.running < NONE;
    match r.below(25) {
        0 | 1 => {
            let parent = mostly(r, &open_groups(s), 16);
            let shut: Vec<usize> = (0..GROUPS)
                .filter(|&g| s.groups[g].opened != 1 && g as u64 > parent)
                .collect();
            Call::Open {
                number: mostly(r, &shut, 17),
                parent,
                ceiling: amount(r, s, parent),
            }
        }
        2 => Call::Close {
            number: mostly(r, &open_groups(s), 17),
        },
        3..=5 => {
            let group = mostly(r, &open_groups(s), 17);
            Call::Admit {
                number: mostly(r, &with_status(s, FREE), 66),
                group,
                reservation: amount(r, s, group),
            }
        }
        6 => Call::Remove {
            number: if runs && r.chance(1, 6) {
                s.running as u64
            } else {
                mostly(r, &admitted(s), 66)
            },
        },
        7..=9 => Call::Wake {
            number: if r.chance(1, 6) {
                mostly(r, &admitted(s), 66)
            } else {
                mostly(r, &with_status(s, BLOCKED), 66)
            },
        },
        10 | 11 => change_call(r, s),
        12 | 13 => Call::AdmitBestEffort {
            number: if r.chance(1, 8) {
                mostly(r, &admitted(s), 66)
            } else {
                mostly(r, &with_status(s, FREE), 66)
            },
            weight: weight(r),
        },
        _ if runs == r.chance(1, 12) => Call::Dispatch,
        _ => report_call(r, s),
    }
}

fn report_call(r: &mut Rng, s: &Scheduler) -> Call {
    let (slice, allotment) = match s.threads.get(s.running as usize) {
        Some(t) => (t.slice(&s.settings) as u64, t.allotment.max(0) as u64),
        None => (1000, 1000),
    };
    let most = slice + s.settings.overrun as u64;
    Call::Report {
        reason: match r.below(16) {
            0 => edge_value(r),
            1 => 4,
            2 => 3,
            3 | 4 => 2,
            5..=7 => 1,
            _ => 0,
        },
        used: match r.below(20) {
            0 => edge_value(r),
            1 => slice + 1,
            2 => 0,
            3 | 4 => most,
            5 => most + 1,
            6..=8 => r.edgy(slice, most),
            9..=11 => r.edgy(0, slice),
            // To the tick all that is left, beyond the slice where that is P.
            12 | 13 => allotment.min(most),
            _ => slice,
        },
    }
}
