//! The library's functions on numbers, all of them safe.
//!
//! The state is handed over by value and comes back with the answer, after a
//! refusal unchanged. Answers are numbers, 0 accepted. What each function
//! refuses stands with its declaration in [`raw`]. This is the one
//! module that calls an unsafe function.

use crate::raw;

pub use crate::raw::{
    Entry, Found, Group, LagLine, Mapped, PriorityLine, PriorityRow, PriorityTable, Record,
    Records, Reply, Scheduler, Settings, ShareLine, Thread, Total,
};

/// A fresh state with m, P and O. Refused, the state is all zeros.
#[inline]
pub fn start(thousandth: u64, interval: u64, overrun: u64) -> Reply {
    raw::mtr_by_value_start(thousandth, interval, overrun)
}

/// Opens a group below a parent.
#[inline]
pub fn open(state: Scheduler, number: u64, parent: u64, ceiling: u64) -> Reply {
    raw::mtr_by_value_open(state, number, parent, ceiling)
}

/// Closes a group.
#[inline]
pub fn close(state: Scheduler, number: u64) -> Reply {
    raw::mtr_by_value_close(state, number)
}

/// Admits a thread to a group.
#[inline]
pub fn admit(state: Scheduler, number: u64, group: u64, reservation: u64) -> Reply {
    raw::mtr_by_value_admit(state, number, group, reservation)
}

/// Admits a best-effort thread with a weight of 1 to 16.
#[inline]
pub fn admit_best_effort(state: Scheduler, number: u64, weight: u64) -> Reply {
    raw::mtr_by_value_admit_best_effort(state, number, weight)
}

/// Removes a thread that does not run.
#[inline]
pub fn remove(state: Scheduler, number: u64) -> Reply {
    raw::mtr_by_value_remove(state, number)
}

/// Makes a blocked thread runnable.
#[inline]
pub fn wake(state: Scheduler, number: u64) -> Reply {
    raw::mtr_by_value_wake(state, number)
}

/// Takes the first runnable thread of the list, or else the best-effort thread
/// whose turn it is, or is idle with thread 64.
#[inline]
pub fn dispatch(state: Scheduler) -> Reply {
    raw::mtr_by_value_dispatch(state)
}

/// Charges the running thread the ticks used, up to its slice and O, and ends
/// its run.
#[inline]
pub fn report(state: Scheduler, reason: u64, used: u64) -> Reply {
    raw::mtr_by_value_report(state, reason, used)
}

/// Changes the reservation of a reserved thread that does not run.
#[inline]
pub fn change(state: Scheduler, number: u64, reservation: u64) -> Reply {
    raw::mtr_by_value_change(state, number, reservation)
}

/// The state is sound.
#[inline]
pub fn sound(state: Scheduler) -> bool {
    raw::mtr_by_value_sound(state) == 1
}

/// Reservation of a priority of 1 to 10.
#[inline]
pub fn priority(priority: u64) -> Mapped {
    raw::mtr_by_value_priority(priority)
}

/// Reservation of a priority under a customer's own table, or the refusal and
/// its place.
#[inline]
pub fn priority_under(table: PriorityTable, priority: u64) -> PriorityLine {
    raw::mtr_by_value_priority_under(table, priority)
}

/// The table that gives each priority what it has where none is given.
#[inline]
pub fn standard_table() -> PriorityTable {
    raw::mtr_standard_table()
}

/// Reservations in a group and in the groups below it.
#[inline]
pub fn subtree(state: Scheduler, group: u64) -> Total {
    raw::mtr_by_value_subtree(state, group)
}

/// A thread's lag.
#[inline]
pub fn lag(state: Scheduler, number: u64) -> LagLine {
    raw::mtr_by_value_lag(state, number)
}

/// A thread's achieved share in thousandths, to the nearest, half to even.
#[inline]
pub fn share(state: Scheduler, number: u64) -> ShareLine {
    raw::mtr_by_value_share(state, number)
}

/// Fills the table with the admitted threads, largest lag first, and answers 0,
/// 16 or 17. Entries past the last keep their contents.
#[inline]
pub fn roster(state: Scheduler, table: &mut [Entry]) -> u32 {
    // SAFETY: pointer and length are those of the slice, lent to the call alone.
    unsafe { raw::mtr_by_value_roster(state, table.as_mut_ptr(), table.len()) }
}

/// Writes a block and answers 0, 17 or 19. Refused, the area keeps its
/// contents.
#[inline]
pub fn write_block(area: &mut [u8], block: u32, records: &[Record]) -> u32 {
    // Of more than 31 the first 31 go along; the count alone is refused.
    let mut list = Records::default();
    let kept = records.len().min(raw::RECORDS);
    list.records[..kept].copy_from_slice(&records[..kept]);
    write_first(area, block, list, records.len())
}

/// [`write_block`] with the first `count` of the records.
#[inline]
pub fn write_first(area: &mut [u8], block: u32, list: Records, count: usize) -> u32 {
    // SAFETY: pointer and length are those of the slice, lent to the call alone.
    unsafe { raw::mtr_by_value_write_block(area.as_mut_ptr(), area.len(), block, list, count) }
}

/// The records of the block of the expected number, or 17, 18, 19.
#[inline]
pub fn read_block(area: &[u8], block: u32) -> Found {
    // SAFETY: pointer and length are those of the slice, lent to the call.
    unsafe { raw::mtr_by_value_read_block(area.as_ptr(), area.len(), block) }
}

impl Reply {
    /// The state after an accepted call, or the refusal.
    pub fn result(self) -> Result<Scheduler, u32> {
        match self.answer {
            0 => Ok(self.state),
            refusal => Err(refusal),
        }
    }
}

impl Mapped {
    /// The reservation, or the refusal.
    pub fn result(self) -> Result<u32, u32> {
        match self.answer {
            0 => Ok(self.reservation),
            refusal => Err(refusal),
        }
    }
}

impl PriorityLine {
    /// The reservation, or the refusal and its place.
    pub fn result(self) -> Result<u32, (u32, u32)> {
        match self.answer {
            0 => Ok(self.reservation),
            refusal => Err((refusal, self.place)),
        }
    }
}

impl Total {
    /// The thousandths, or the refusal.
    pub fn result(self) -> Result<u32, u32> {
        match self.answer {
            0 => Ok(self.thousandths),
            refusal => Err(refusal),
        }
    }
}

impl LagLine {
    /// The lag, or the refusal. The answer is 64 bits wide, as the lag is, so
    /// that the struct has no padding.
    pub fn result(self) -> Result<i64, u32> {
        match self.answer {
            0 => Ok(self.lag),
            refusal => Err(refusal.try_into().unwrap_or(u32::MAX)),
        }
    }
}

impl ShareLine {
    /// The share in thousandths, or the refusal.
    pub fn result(self) -> Result<u32, u32> {
        match self.answer {
            0 => Ok(self.share),
            refusal => Err(refusal),
        }
    }
}

impl Found {
    /// The records of an accepted block, or the refusal.
    pub fn result(&self) -> Result<&[Record], u32> {
        match self.answer {
            0 => Ok(&self.records[..self.count as usize]),
            refusal => Err(refusal),
        }
    }
}
