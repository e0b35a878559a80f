//! Generators of states, calls, journals, summaries and tables for tests.

mod blocking;
mod broken;
mod broken_tags;
mod calls;
mod hostile;
mod journals;
mod states;
mod summaries;
mod tables;

use model::rule::{METER_LIMIT, METER_MAX, TAG_UNIT};

pub use blocking::{blocking, long};
pub use broken::broken_states;
pub use calls::call;
pub use hostile::hostile_state;
pub use journals::{any_record, journal};
pub use states::sound_state;
pub use summaries::{any_question, damage_summary, SummaryDamage};
pub use tables::{any_table, asked_priority, damaged_tables, usable_table};

/// SplitMix64.
#[derive(Clone, Debug)]
pub struct Rng(u64);

impl Rng {
    pub fn new(seed: u64) -> Rng {
        Rng(seed)
    }

    pub fn bits(&mut self) -> u64 {
        self.0 = self.0.wrapping_add(0x9e37_79b9_7f4a_7c15);
        let mut z = self.0;
        z = (z ^ (z >> 30)).wrapping_mul(0xbf58_476d_1ce4_e5b9);
        z = (z ^ (z >> 27)).wrapping_mul(0x94d0_49bb_1331_11eb);
        z ^ (z >> 31)
    }

    /// Below n, and 0 for n = 0.
    pub fn below(&mut self, n: u64) -> u64 {
        ((self.bits() as u128 * n as u128) >> 64) as u64
    }

    /// From low to high, both included.
    pub fn range(&mut self, low: u64, high: u64) -> u64 {
        if low >= high {
            return low;
        }
        match (high - low).checked_add(1) {
            Some(n) => low + self.below(n),
            None => self.bits(),
        }
    }

    /// From low to high with weight on and near both ends.
    pub fn edgy(&mut self, low: u64, high: u64) -> u64 {
        if low >= high {
            return low;
        }
        let near = (high - low).min(8);
        match self.below(8) {
            0 | 1 => low,
            2 | 3 => high,
            4 => low + self.below(near),
            5 => high - self.below(near),
            _ => self.range(low, high),
        }
    }

    /// True in `part` of `whole` cases.
    pub fn chance(&mut self, part: u64, whole: u64) -> bool {
        self.below(whole) < part
    }

    /// One of the values. The slice must not be empty.
    pub fn pick<T: Copy>(&mut self, of: &[T]) -> T {
        of[self.below(of.len() as u64) as usize]
    }

    fn shuffle<T>(&mut self, values: &mut [T]) {
        for i in (1..values.len()).rev() {
            values.swap(i, self.below(i as u64 + 1) as usize);
        }
    }
}

/// A value of any size with weight on values that matter somewhere.
pub fn edge_value(r: &mut Rng) -> u64 {
    const EDGES: [u64; 50] = [
        0,
        1,
        2,
        3,
        4,
        10,
        11,
        14,
        15,
        16,
        17,
        31,
        32,
        62,
        63,
        64,
        65,
        99,
        100,
        127,
        128,
        255,
        256,
        257,
        999,
        1000,
        1001,
        65_535,
        65_536,
        65_537,
        20_000,
        999_999,
        1_000_000,
        1_000_001,
        1_000_999,
        1_001_000,
        i32::MAX as u64,
        1 << 31,
        u32::MAX as u64,
        1 << 32,
        METER_LIMIT - 1,
        METER_LIMIT,
        METER_MAX,
        METER_MAX + 1,
        TAG_UNIT,
        TAG_UNIT * METER_LIMIT,
        TAG_UNIT * METER_MAX,
        TAG_UNIT * METER_MAX + 1,
        1 << 63,
        u64::MAX,
    ];
    match r.below(6) {
        0 => r.bits(),
        // Small once cut to 8, 16 or 32 bits.
        1 => (1 << r.pick(&[8, 16, 32, 40, 63])) + r.below(64),
        2 => r.below(70),
        3 => r.bits() >> r.below(64),
        _ => r.pick(&EDGES),
    }
}
