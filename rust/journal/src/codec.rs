//! Event blocks to records and back, by the proved library. With
//! [`crate::engine`] and [`crate::priorities`] the only module that names it.

use mtr::{numbers, raw};

pub use mtr::raw::{Record, GROUPS, RECORDS, THREADS};

/// Bytes of a block.
pub const BLOCK: usize = raw::BLOCK_BYTES;
/// Bytes of a record.
pub const RECORD: usize = 16;
/// The thread of an idle dispatch.
pub const NONE: u32 = raw::NO_THREAD;

/// Kinds of records.
pub mod kind {
    use mtr::raw;

    pub const OPEN: u8 = raw::KIND_OPEN;
    pub const CLOSE: u8 = raw::KIND_CLOSE;
    pub const ADMIT: u8 = raw::KIND_ADMIT;
    pub const REMOVE: u8 = raw::KIND_REMOVE;
    pub const WAKE: u8 = raw::KIND_WAKE;
    pub const DISPATCH: u8 = raw::KIND_DISPATCH;
    pub const REPORT: u8 = raw::KIND_REPORT;
    pub const START: u8 = raw::KIND_START;
    pub const CHANGE: u8 = raw::KIND_CHANGE;
    pub const BEST_EFFORT: u8 = raw::KIND_BEST_EFFORT;
}

/// Reasons of a report, as a record has them.
pub mod reason {
    use mtr::raw;

    pub const TICK: u8 = raw::REASON_TICK as u8;
    pub const BLOCK: u8 = raw::REASON_BLOCK as u8;
    pub const YIELD: u8 = raw::REASON_YIELD as u8;
    pub const EXIT: u8 = raw::REASON_EXIT as u8;
}

/// Answers.
pub mod answer {
    use mtr::Refusal;

    pub const ACCEPTED: u32 = 0;
    pub const SETTINGS: u32 = Refusal::Settings.number();
    pub const GROUP: u32 = Refusal::NoGroup.number();
    pub const GROUP_NUMBER: u32 = Refusal::GroupNumber.number();
    pub const AMOUNT: u32 = Refusal::Amount.number();
    pub const ROOM: u32 = Refusal::NoRoom.number();
    pub const GROUP_IN_USE: u32 = Refusal::GroupInUse.number();
    pub const THREAD: u32 = Refusal::NoThread.number();
    pub const ADMITTED: u32 = Refusal::AlreadyAdmitted.number();
    pub const RUNS: u32 = Refusal::ThreadRunning.number();
    pub const NOT_BLOCKED: u32 = Refusal::NotBlocked.number();
    pub const NOTHING_RUNS: u32 = Refusal::NothingRunning.number();
    pub const A_THREAD_RUNS: u32 = Refusal::Busy.number();
    pub const USED: u32 = Refusal::OverSlice.number();
    pub const REASON: u32 = Refusal::Reason.number();
    pub const METER: u32 = Refusal::MeterFull.number();
    pub const UNSOUND: u32 = Refusal::Unsound.number();
    pub const LENGTH: u32 = Refusal::Length.number();
    pub const CHECK: u32 = Refusal::Check.number();
    pub const FORM: u32 = Refusal::Form.number();
    pub const NOT_STARTED: u32 = Refusal::NotStarted.number();
}

/// The block of a number with these records, or the refusal.
pub fn write(number: u32, records: &[Record]) -> Result<[u8; BLOCK], u32> {
    let mut area = [0; BLOCK];
    match numbers::write_block(&mut area, number, records) {
        answer::ACCEPTED => Ok(area),
        refusal => Err(refusal),
    }
}

/// The records of the block at a place of a journal, or the refusal 17, 18 or
/// 19. The number in a block has 4 bytes, so from place 2^32 on none matches.
pub fn read(area: &[u8], place: u64) -> Result<Vec<Record>, u32> {
    let number = u32::try_from(place);
    let found = numbers::read_block(area, number.unwrap_or(0));
    let records = found.result()?.to_vec();
    match number {
        Ok(_) => Ok(records),
        Err(_) => Err(answer::FORM),
    }
}

/// The number that a block carries, if it is one but for its place.
pub fn number_of(area: &[u8]) -> Option<u32> {
    let bytes = area.first_chunk::<4>()?;
    let number = u32::from_le_bytes(*bytes);
    read(area, number.into()).is_ok().then_some(number)
}
