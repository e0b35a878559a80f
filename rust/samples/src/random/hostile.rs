//! States of any bits.

use super::states::{admitted, any_group, any_thread, reach, sound_state};
use super::{edge_value, Rng};
use model::rule::{Group, Scheduler, Settings, TAG_UNIT};

/// Overwrites one random field by an arbitrary or edge value.
fn overwrite(r: &mut Rng, s: &mut Scheduler) {
    let value = edge_value(r);
    // Mostly a thread that is admitted and a place within the list.
    let used = admitted(s);
    let n = if !used.is_empty() && r.chance(3, 4) {
        r.pick(&used)
    } else {
        r.below(64) as usize
    };
    let i = if s.count > 0 && r.chance(3, 4) {
        r.below(s.count.min(64) as u64) as usize
    } else {
        r.below(64) as usize
    };
    let g = r.below(16) as usize;
    // Beside what bounds a tag.
    let bounds = [
        s.time,
        s.time.wrapping_add(reach(s, &s.threads[n])),
        TAG_UNIT.wrapping_mul(s.meter),
    ];
    let beside = r.pick(&bounds).wrapping_add(r.below(3)).wrapping_sub(1);
    let t = &mut s.threads[n];
    match r.below(26) {
        0 => t.admission = value,
        1 => t.anchor = value,
        2 => t.ticks = value,
        3 => t.since = value,
        4 => t.allotment = value as i32,
        5 => t.reservation = value as u16,
        6 => t.group_or_weight = value as u8,
        7 => t.status = value as u8,
        8 => t.status = r.below(4) as u8,
        9 => s.order[i] = value as u8,
        10 => s.order[i] = r.below(64) as u8,
        11 => s.groups[g].ceiling = value as u16,
        12 => s.groups[g].parent = value as u8,
        13 => s.groups[g].opened = if r.chance(1, 2) { 1 } else { value as u8 },
        14 => s.meter = value,
        15 => {
            if r.chance(1, 2) {
                s.settings.thousandth = value as u16;
            } else {
                s.settings.interval = value as u32;
            }
        }
        16 => s.count = value as u32,
        17 => {
            let m = s.settings.thousandth;
            let beside = [m.wrapping_sub(1), m, m.saturating_add(1), value as u16];
            s.settings.overrun = r.pick(&beside);
        }
        // A debt that was not settled.
        18 => t.allotment = -(r.edgy(0, 1001) as i32),
        // One of the other kind.
        19 => t.reservation = if t.reservation == 0 { 1 } else { 0 },
        20 => t.group_or_weight = r.edgy(0, 17) as u8,
        21 => t.tag = value,
        22 => t.tag = beside,
        23 => s.time = value,
        24 => s.time = beside,
        _ => s.running = value as u32,
    }
}

/// Arbitrary bits in every field, or a sound state with one or a few fields
/// overwritten. It may by chance be sound.
pub fn hostile_state(r: &mut Rng) -> Scheduler {
    let mut s = sound_state(r);
    if r.chance(2, 3) {
        let few = if r.chance(1, 2) { 1 } else { r.range(2, 4) };
        for _ in 0..few {
            overwrite(r, &mut s);
        }
        return s;
    }
    let tame = r.chance(1, 2);
    for t in &mut s.threads {
        *t = any_thread(r);
        if tame {
            t.status %= 4;
            t.group_or_weight %= 18;
            t.reservation %= 1002;
            if r.chance(1, 4) {
                t.reservation = 0;
            }
        }
    }
    for g in &mut s.groups {
        *g = any_group(r);
        if tame {
            g.opened %= 3;
            g.parent %= 17;
            g.ceiling %= 1002;
        }
    }
    for n in &mut s.order {
        *n = r.bits() as u8 % if tame { 65 } else { 255 };
    }
    s.meter = edge_value(r);
    s.time = edge_value(r);
    s.settings.interval = edge_value(r) as u32;
    s.settings.thousandth = edge_value(r) as u16;
    s.settings.overrun = edge_value(r) as u16;
    s.count = edge_value(r) as u32;
    s.running = edge_value(r) as u32;
    if tame {
        s.settings = Settings {
            overrun: r.edgy(0, 100) as u16,
            ..Settings::default()
        };
        s.groups[0] = Group::ROOT;
        s.count %= 66;
        s.running %= 66;
    }
    s
}
