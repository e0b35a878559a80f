//! Journals as text, one record a line, and back.
//!
//! A line holds a record in words, or says where a block begins, or keeps the
//! bytes of a damaged block. Blanks part the words, `#` begins a comment,
//! empty lines count for nothing. Blocks to text and text to blocks give the
//! same bytes back, whatever the bytes.

mod decode;
mod encode;
mod form;
pub(crate) mod line;

pub use decode::{decode, run, Notes};
pub use encode::encode;
pub use form::put_record;

const BLOCK_LINE: &str = "block";
const DAMAGED_LINE: &str = "damaged";
const HEX_LINE: &str = "hex";

/// Blocks of a journal that were read.
#[derive(Clone, Copy, Debug, Default, PartialEq, Eq)]
pub struct Tally {
    pub blocks: u64,
    pub damaged: u64,
    /// Place and refusal of the first damaged block.
    pub first: Option<(u64, u32)>,
}

impl Tally {
    /// Counts a block that was refused.
    pub fn damage(&mut self, place: u64, refusal: u32) {
        self.blocks += 1;
        self.damaged += 1;
        self.first.get_or_insert((place, refusal));
    }
}

/// What is wrong with a line.
#[derive(Clone, Debug, PartialEq, Eq)]
pub struct Problem {
    /// From 1.
    pub line: u64,
    pub message: String,
}

/// No more problems than this are looked for.
pub const PROBLEMS: usize = 20;
