//! Damage to summaries of processor use, and questions about them.

use super::{edge_value, Rng};
use model::blocks::{seal, BLOCK};
use model::rule::THREADS;
use model::usage::{Question, COUNTS};

/// What was done to a summary.
#[derive(Clone, Copy, Debug, PartialEq, Eq, PartialOrd, Ord, Hash)]
pub enum SummaryDamage {
    /// A bit changed.
    Bit,
    /// Cut at a byte, at times between two blocks.
    Cut,
    /// Bytes of less than a block added at the end.
    Tail,
    /// A block twice in a row.
    Doubled,
    /// The whole summary twice in a row.
    Repeated,
    /// A block left out.
    Missing,
    /// Two blocks exchanged.
    Swapped,
    /// Another number under a right check.
    Number,
    /// Another count, or all 32, under a right check.
    Count,
    /// A byte between the last count and the check other than 0, under a right one.
    Padding,
    /// 0 and 255 exchanged in a byte, which the check does not see.
    Unseen,
    /// Another check, at times 255 for 0.
    Check,
}

impl SummaryDamage {
    /// All sorts; their order is that of the numbers `sort as usize`.
    pub const ALL: [SummaryDamage; 12] = [
        SummaryDamage::Bit,
        SummaryDamage::Cut,
        SummaryDamage::Tail,
        SummaryDamage::Doubled,
        SummaryDamage::Repeated,
        SummaryDamage::Missing,
        SummaryDamage::Swapped,
        SummaryDamage::Number,
        SummaryDamage::Count,
        SummaryDamage::Padding,
        SummaryDamage::Unseen,
        SummaryDamage::Check,
    ];
}

/// The byte after the last count, and that of the check.
const END: usize = 8 + 8 * COUNTS;
const CHECK: usize = 510;

/// Damages a summary and says how. One without a whole block gets a tail, and one
/// of a single block has no two to exchange: it gets a bit changed.
pub fn damage_summary(r: &mut Rng, summary: &mut Vec<u8>) -> SummaryDamage {
    let blocks = summary.len() / BLOCK;
    let sort = match r.pick(&SummaryDamage::ALL) {
        _ if blocks == 0 => SummaryDamage::Tail,
        SummaryDamage::Swapped if blocks == 1 => SummaryDamage::Bit,
        sort => sort,
    };
    let at = BLOCK * r.below(blocks as u64) as usize;
    match sort {
        SummaryDamage::Cut => {
            let left = match r.below(4) {
                0 => at,
                1 => at + r.edgy(1, 511) as usize,
                _ => r.below(summary.len() as u64) as usize,
            };
            summary.truncate(left);
        }
        SummaryDamage::Tail => {
            let length = r.edgy(1, 511);
            summary.extend((0..length).map(|_| r.bits() as u8));
        }
        SummaryDamage::Doubled => {
            let copy = summary[at..at + BLOCK].to_vec();
            summary.splice(at..at, copy);
        }
        SummaryDamage::Repeated => summary.extend_from_within(..),
        SummaryDamage::Missing => {
            summary.drain(at..at + BLOCK);
        }
        SummaryDamage::Swapped => {
            // Two that differ in place.
            let step = 1 + r.below(blocks as u64 - 1) as usize;
            let other = (at + step * BLOCK) % (blocks * BLOCK);
            let (low, high) = summary.split_at_mut(at.max(other));
            let low = &mut low[at.min(other)..][..BLOCK];
            low.swap_with_slice(&mut high[..BLOCK]);
        }
        _ => {
            let mut block = [0; BLOCK];
            block.copy_from_slice(&summary[at..at + BLOCK]);
            damage_block(r, &mut block, sort);
            summary[at..at + BLOCK].copy_from_slice(&block);
        }
    }
    sort
}

/// Damage within a block.
fn damage_block(r: &mut Rng, block: &mut [u8; BLOCK], sort: SummaryDamage) {
    match sort {
        SummaryDamage::Number => {
            let was = number(block, 0);
            let near = [
                was.wrapping_sub(2),
                was ^ 1,
                was.wrapping_add(2),
                was ^ (1 << 32),
            ];
            let other = match r.below(3) {
                0 => r.pick(&near),
                1 => was ^ (1 << r.below(64)),
                _ => edge_value(r),
            };
            // Never the same again.
            let with = if other == was { was ^ 1 } else { other };
            block[..8].copy_from_slice(&with.to_le_bytes());
            seal(block);
        }
        SummaryDamage::Count => {
            let one = r.below(COUNTS as u64) as usize;
            let all = r.chance(1, 2);
            for n in (0..COUNTS).filter(|&n| all || n == one) {
                let part = 8 + 8 * n..16 + 8 * n;
                let with = other_count(r, number(block, part.start));
                block[part].copy_from_slice(&with.to_le_bytes());
            }
            seal(block);
        }
        SummaryDamage::Padding => {
            block[r.edgy(END as u64, CHECK as u64 - 1) as usize] = r.edgy(1, 255) as u8;
            seal(block);
        }
        SummaryDamage::Unseen => {
            let plain = |&k: &usize| block[k] == 0 || block[k] == 255;
            // Half of them in the number and the counts, which are mostly 0.
            let end = if r.chance(1, 2) { END } else { CHECK };
            let of: Vec<usize> = (0..end).filter(plain).collect();
            // A block without such a byte has one in its padding, which may be damaged.
            let k = if of.is_empty() { END } else { r.pick(&of) };
            block[k] ^= 255;
        }
        SummaryDamage::Check => {
            let k = CHECK + r.below(2) as usize;
            block[k] = match block[k] {
                0 => 255,
                was => was ^ r.range(1, 255) as u8,
            };
        }
        _ => block[r.below(BLOCK as u64) as usize] ^= 1 << r.below(8),
    }
}

/// Another count, smaller or larger.
fn other_count(r: &mut Rng, was: u64) -> u64 {
    let other = match r.below(4) {
        0 => 0,
        1 => was.saturating_sub(1 + r.below(1000)),
        2 => was.saturating_add(1 + r.below(1_000_000)),
        _ => edge_value(r),
    };
    if other == was {
        was ^ 1
    } else {
        other
    }
}

/// The number in the 8 bytes from one on.
fn number(block: &[u8; BLOCK], at: usize) -> u64 {
    let mut bytes = [0; 8];
    bytes.copy_from_slice(&block[at..at + 8]);
    u64::from_le_bytes(bytes)
}

/// A question about a journal with these counts at the starts of its blocks: mostly
/// one that has an answer, of a thread that was charged something; at times of a
/// thread above 63, reversed, or with blocks at and past the end, up to the largest
/// number of 19 digits.
pub fn any_question(r: &mut Rng, counts: &[[u64; THREADS]]) -> Question {
    const DIGITS: u64 = 9_999_999_999_999_999_999;
    let blocks = counts.len() as u64;
    let last = blocks.saturating_sub(1);
    let (a, mut b) = (r.edgy(0, last), r.edgy(0, last));
    if a == b && r.chance(3, 4) {
        b = r.range(0, last);
    }
    let mut q = Question {
        thread: thread(r, counts),
        first: a.min(b),
        second: a.max(b),
    };
    // Doubled these are small once cut to 64 bits, or just fit, or just don't.
    let large = [1 << 32, 1 << 63, (1 << 63) - 1, (1 << 63) + last, DIGITS];
    match r.below(40) {
        0 => q.thread = THREADS as u64,
        1 => q.thread = THREADS as u64 + r.below(200),
        2 => q.thread = edge_value(r).clamp(THREADS as u64, DIGITS),
        3 | 4 => std::mem::swap(&mut q.first, &mut q.second),
        5 | 6 => q.second = blocks,
        7 => (q.first, q.second) = (blocks, blocks),
        8 => q.second = blocks + r.below(3),
        9 => q.second = r.pick(&large),
        10 => (q.first, q.second) = (r.pick(&large), r.pick(&large)),
        11 => q.first = edge_value(r).min(DIGITS),
        _ => {}
    }
    q
}

/// A thread, mostly one that was charged something.
fn thread(r: &mut Rng, counts: &[[u64; THREADS]]) -> u64 {
    let charged = |&n: &u64| counts.last().is_some_and(|row| row[n as usize] > 0);
    let busy: Vec<u64> = (0..THREADS as u64).filter(charged).collect();
    match r.below(8) {
        0 => r.pick(&[0, 31, 32, 63]),
        1 => r.below(THREADS as u64),
        _ if busy.is_empty() => r.below(THREADS as u64),
        _ => r.pick(&busy),
    }
}
