//! The boundary as it is exported: structs of numbers and functions of the C
//! calling convention.
//!
//! Written from the Rattle sources; do not edit. To renew it:
//!
//! ```text
//! cargo run --release -p boundary
//! ```

use core::mem::{align_of, offset_of, size_of};

const _: () = assert!(size_of::<usize>() == 8);

const fn size_of_field<T, F>(_: fn(&T) -> &F) -> usize {
    size_of::<F>()
}

// Asserts a struct's size and alignment, and each field's offset and size.
macro_rules! layout {
    ($name:ident = $size:literal, $align:literal; $($field:ident = $offset:literal, $bytes:literal;)+) => {
        const _: () = {
            assert!(size_of::<$name>() == $size);
            assert!(align_of::<$name>() == $align);
            $(
                assert!(offset_of!($name, $field) == $offset);
                assert!(size_of_field(|s: &$name| &s.$field) == $bytes);
            )+
        };
    };
}

// The version; mtr_version answers that of the library.

/// Major.
pub const VERSION_MAJOR: u32 = 3;
/// Minor.
pub const VERSION_MINOR: u32 = 2;
/// Patch.
pub const VERSION_PATCH: u32 = 0;
/// One number: 10000 times the major, 100 times the minor, and the patch.
pub const VERSION: u32 = 30200;

// Numbers of threads, groups and rows, and the parts of a block.

/// Most threads; their numbers begin at 0.
pub const THREADS: usize = 64;
/// Most groups; their numbers begin at 0.
pub const GROUPS: usize = 16;
/// Most rows of a table of priorities.
pub const PRIORITY_ROWS: usize = 10;
/// Bytes of an event block.
pub const BLOCK_BYTES: usize = 512;
/// Most records of an event block.
pub const RECORDS: usize = 31;

// Limits and defaults.

/// The thread of an idle dispatch, and the running one if none runs.
pub const NO_THREAD: u32 = 64;
/// The whole core in thousandths: the greatest ceiling and reservation.
pub const WHOLE: u32 = 1000;
/// m by default.
pub const DEFAULT_THOUSANDTH: u32 = 100;
/// P by default.
pub const DEFAULT_INTERVAL: u32 = 20000;
/// O by default.
pub const DEFAULT_OVERRUN: u32 = 0;
/// The least m.
pub const LEAST_THOUSANDTH: u32 = 1;
/// The least P.
pub const LEAST_INTERVAL: u32 = 1;
/// The least O.
pub const LEAST_OVERRUN: u32 = 0;
/// The greatest m.
pub const MOST_THOUSANDTH: u32 = 1000;
/// The greatest P.
pub const MOST_INTERVAL: u32 = 1000000;
/// The greatest O, which the greatest m allows; with any m it is m - 1.
pub const MOST_OVERRUN: u32 = 999;
/// The least weight of a best-effort thread.
pub const LEAST_WEIGHT: u32 = 1;
/// The greatest weight of a best-effort thread.
pub const MOST_WEIGHT: u32 = 16;
/// What a tick adds to the tag of a best-effort thread of weight 1.
pub const TAG_UNIT: u32 = 720720;

// Limits of the meter and of priorities.

/// From this meter on a dispatch is refused.
pub const METER_LIMIT: u64 = 10000000000000;
/// The greatest meter of a sound state.
pub const METER_MOST: u64 = 10000001000999;
/// The lowest priority.
pub const LOWEST_PRIORITY: u64 = 1;
/// The highest priority.
pub const HIGHEST_PRIORITY: u64 = 10;

// Answers: 0, or why a call is refused.

/// The call is accepted.
pub const ACCEPTED: u32 = 0;
/// m, P or O is outside its range.
pub const REFUSED_SETTINGS: u32 = 1;
/// The group or parent is above 15 or not open, or group 0 is to be closed.
pub const REFUSED_NO_GROUP: u32 = 2;
/// The group's number is above 15, already open or not above the parent's.
pub const REFUSED_GROUP_NUMBER: u32 = 3;
/// The ceiling, reservation, weight or priority, or a table's number of rows,
/// is outside its range.
pub const REFUSED_AMOUNT: u32 = 4;
/// The ceiling or reservation exceeds what the group has free.
pub const REFUSED_NO_ROOM: u32 = 5;
/// The group has a thread or a child.
pub const REFUSED_GROUP_IN_USE: u32 = 6;
/// The thread's number is above 63 or not admitted, or the thread whose
/// reservation is to be changed is a best-effort one.
pub const REFUSED_NO_THREAD: u32 = 7;
/// The thread is already admitted.
pub const REFUSED_ALREADY_ADMITTED: u32 = 8;
/// The thread to remove or to change is running.
pub const REFUSED_THREAD_RUNNING: u32 = 9;
/// The thread to wake is not blocked.
pub const REFUSED_NOT_BLOCKED: u32 = 10;
/// Nothing is running.
pub const REFUSED_NOTHING_RUNNING: u32 = 11;
/// A thread is running.
pub const REFUSED_BUSY: u32 = 12;
/// More is used than the slice and the overrun limit.
pub const REFUSED_OVER_SLICE: u32 = 13;
/// The reason is above 3.
pub const REFUSED_REASON: u32 = 14;
/// The meter is at its limit.
pub const REFUSED_METER_FULL: u32 = 15;
/// The state is not sound.
pub const REFUSED_UNSOUND: u32 = 16;
/// The area is not 512 bytes, or the roster's table is too short.
pub const REFUSED_LENGTH: u32 = 17;
/// The check of the block is wrong.
pub const REFUSED_CHECK: u32 = 18;
/// The block or a record has not the form that is asked for.
pub const REFUSED_FORM: u32 = 19;
/// In what mtrrun prints alone: no start is accepted since a refused block.
pub const REFUSED_NOT_STARTED: u32 = 20;
/// A row of the table is upside down, or has a priority outside 1 to 10 or a
/// reservation outside 1 to 1000.
pub const REFUSED_TABLE_ROW: u32 = 22;
/// A priority stands in no row of the table or in several.
pub const REFUSED_TABLE_COVER: u32 = 23;

// Reasons of a report.

/// The thread stays runnable.
pub const REASON_TICK: u64 = 0;
/// It blocks until it is woken.
pub const REASON_BLOCK: u64 = 1;
/// It moves to the rear with a full allotment, less its debt; a best-effort
/// thread stays runnable, as after a tick.
pub const REASON_YIELD: u64 = 2;
/// It leaves the list and frees its number.
pub const REASON_EXIT: u64 = 3;

// Status of a thread's entry in the state.

/// The number is not admitted.
pub const STATUS_FREE: u8 = 0;
/// Runnable or running.
pub const STATUS_RUNNABLE: u8 = 1;
/// Blocked.
pub const STATUS_BLOCKED: u8 = 2;

// State of a thread in the roster.

/// Runnable.
pub const ROSTER_RUNNABLE: u32 = 0;
/// Blocked.
pub const ROSTER_BLOCKED: u32 = 1;
/// Running.
pub const ROSTER_RUNNING: u32 = 2;

// Whether a group's entry in the state is open.

/// Closed.
pub const GROUP_CLOSED: u8 = 0;
/// Open.
pub const GROUP_OPEN: u8 = 1;

// Kinds of records, and the fields that each uses; the others are 0.

/// Opens a group: subject, group (the parent), amount (the ceiling).
pub const KIND_OPEN: u8 = 1;
/// Closes a group: subject.
pub const KIND_CLOSE: u8 = 2;
/// Admits a thread: subject, group, amount (the reservation).
pub const KIND_ADMIT: u8 = 3;
/// Removes a thread: subject.
pub const KIND_REMOVE: u8 = 4;
/// Wakes a thread: subject.
pub const KIND_WAKE: u8 = 5;
/// Dispatches.
pub const KIND_DISPATCH: u8 = 6;
/// Reports the running thread: reason, ticks (used).
pub const KIND_REPORT: u8 = 7;
/// Starts anew: amount (m), ticks (P), overrun (O).
pub const KIND_START: u8 = 8;
/// Changes a thread's reservation: subject, amount (the reservation).
pub const KIND_CHANGE: u8 = 9;
/// Admits a best-effort thread: subject, amount (the weight).
pub const KIND_BEST_EFFORT: u8 = 10;

/// What an answer says, in words.
pub const fn answer_text(answer: u32) -> &'static str {
    match answer {
        ACCEPTED => "the call is accepted",
        REFUSED_SETTINGS => "m, P or O is outside its range",
        REFUSED_NO_GROUP => {
            "the group or parent is above 15 or not open, or group 0 is to be closed"
        }
        REFUSED_GROUP_NUMBER => {
            "the group's number is above 15, already open or not above the parent's"
        }
        REFUSED_AMOUNT => {
            "the ceiling, reservation, weight or priority, or a table's number of rows, is outside its range"
        }
        REFUSED_NO_ROOM => "the ceiling or reservation exceeds what the group has free",
        REFUSED_GROUP_IN_USE => "the group has a thread or a child",
        REFUSED_NO_THREAD => {
            "the thread's number is above 63 or not admitted, or the thread whose reservation is to be changed is a best-effort one"
        }
        REFUSED_ALREADY_ADMITTED => "the thread is already admitted",
        REFUSED_THREAD_RUNNING => "the thread to remove or to change is running",
        REFUSED_NOT_BLOCKED => "the thread to wake is not blocked",
        REFUSED_NOTHING_RUNNING => "nothing is running",
        REFUSED_BUSY => "a thread is running",
        REFUSED_OVER_SLICE => "more is used than the slice and the overrun limit",
        REFUSED_REASON => "the reason is above 3",
        REFUSED_METER_FULL => "the meter is at its limit",
        REFUSED_UNSOUND => "the state is not sound",
        REFUSED_LENGTH => "the area is not 512 bytes, or the roster's table is too short",
        REFUSED_CHECK => "the check of the block is wrong",
        REFUSED_FORM => "the block or a record has not the form that is asked for",
        REFUSED_NOT_STARTED => {
            "in what mtrrun prints alone: no start is accepted since a refused block"
        }
        REFUSED_TABLE_ROW => {
            "a row of the table is upside down, or has a priority outside 1 to 10 or a reservation outside 1 to 1000"
        }
        REFUSED_TABLE_COVER => "a priority stands in no row of the table or in several",
        _ => "no listed answer",
    }
}

/// A thread. status: 0 free, 1 runnable, 2 blocked. admission and anchor are
/// the meter at admission and at the anchor; ticks and since are the thread's
/// ticks since each. An admitted thread with a reservation is a reserved one:
/// group_or_weight is its group, and in a sound state its allotment is 1 to its
/// quantum. One whose reservation is 0 is a best-effort thread: group_or_weight
/// is its weight, 1 to 16, its allotment is not looked at, and tag is its start
/// tag while it is runnable, its last finish tag while it is blocked.
#[repr(C)]
#[derive(Clone, Copy, Debug, PartialEq, Eq, Default)]
pub struct Thread {
    pub admission: u64,
    pub anchor: u64,
    pub ticks: u64,
    pub since: u64,
    pub allotment: i32,
    pub reservation: u16,
    pub group_or_weight: u8,
    pub status: u8,
    pub tag: u64,
}

layout! {
    Thread = 48, 8;
    admission = 0, 8;
    anchor = 8, 8;
    ticks = 16, 8;
    since = 24, 8;
    allotment = 32, 4;
    reservation = 36, 2;
    group_or_weight = 38, 1;
    status = 39, 1;
    tag = 40, 8;
}

/// A group. opened: 0 closed, 1 open.
#[repr(C)]
#[derive(Clone, Copy, Debug, PartialEq, Eq, Default)]
pub struct Group {
    pub ceiling: u16,
    pub parent: u8,
    pub opened: u8,
}

layout! {
    Group = 4, 2;
    ceiling = 0, 2;
    parent = 2, 1;
    opened = 3, 1;
}

/// The settings: P, the preemption interval in ticks; m, the ticks per
/// thousandth of the virtual time quantum; O, the ticks that a report may use
/// beyond its slice.
#[repr(C)]
#[derive(Clone, Copy, Debug, PartialEq, Eq)]
pub struct Settings {
    pub interval: u32,
    pub thousandth: u16,
    pub overrun: u16,
}

layout! {
    Settings = 8, 4;
    interval = 0, 4;
    thousandth = 4, 2;
    overrun = 6, 2;
}

/// The list is the first `count` entries of `order`, front first. running: the
/// running thread's number, or 64. time: the virtual time, the start tag of the
/// last best-effort thread that was dispatched.
#[repr(C)]
#[derive(Clone, Copy, Debug, PartialEq, Eq)]
pub struct Scheduler {
    pub threads: [Thread; 64],
    pub order: [u8; 64],
    pub groups: [Group; 16],
    pub meter: u64,
    pub time: u64,
    pub settings: Settings,
    pub count: u32,
    pub running: u32,
}

layout! {
    Scheduler = 3232, 8;
    threads = 0, 3072;
    order = 3072, 64;
    groups = 3136, 64;
    meter = 3200, 8;
    time = 3208, 8;
    settings = 3216, 8;
    count = 3224, 4;
    running = 3228, 4;
}

/// What a call answers, with the state after it. answer: 0 accepted, or the
/// refusal. thread (64: idle), slice and before are 0 except for an accepted
/// dispatch.
#[repr(C)]
#[derive(Clone, Copy, Debug, PartialEq, Eq)]
pub struct Reply {
    pub answer: u32,
    pub thread: u32,
    pub slice: u32,
    pub before: u32,
    pub state: Scheduler,
}

layout! {
    Reply = 3248, 8;
    answer = 0, 4;
    thread = 4, 4;
    slice = 8, 4;
    before = 12, 4;
    state = 16, 3232;
}

/// The reservation of a priority. answer: 0, or the refusal; the reservation is
/// then 0.
#[repr(C)]
#[derive(Clone, Copy, Debug, PartialEq, Eq, Default)]
pub struct Mapped {
    pub answer: u32,
    pub reservation: u32,
}

layout! {
    Mapped = 8, 4;
    answer = 0, 4;
    reservation = 4, 4;
}

/// The reservations of a group's subtree. answer: 0, or the refusal; the sum is
/// then 0.
#[repr(C)]
#[derive(Clone, Copy, Debug, PartialEq, Eq, Default)]
pub struct Total {
    pub answer: u32,
    pub thousandths: u32,
}

layout! {
    Total = 8, 4;
    answer = 0, 4;
    thousandths = 4, 4;
}

/// A row of a table of priorities: those from first to last have its
/// reservation.
#[repr(C)]
#[derive(Clone, Copy, Debug, PartialEq, Eq, Default)]
pub struct PriorityRow {
    pub first: u64,
    pub last: u64,
    pub reservation: u64,
}

layout! {
    PriorityRow = 24, 8;
    first = 0, 8;
    last = 8, 8;
    reservation = 16, 8;
}

/// A table of priorities: the first `count` rows. What stands past them is not
/// looked at.
#[repr(C)]
#[derive(Clone, Copy, Debug, PartialEq, Eq, Default)]
pub struct PriorityTable {
    pub rows: [PriorityRow; 10],
    pub count: u64,
}

layout! {
    PriorityTable = 248, 8;
    rows = 0, 240;
    count = 240, 8;
}

/// The reservation of a priority under a table. answer: 0, or the refusal;
/// place: the row or the priority of a refusal with 22 or 23, else 0. The
/// reservation of a refusal is 0.
#[repr(C)]
#[derive(Clone, Copy, Debug, PartialEq, Eq, Default)]
pub struct PriorityLine {
    pub answer: u32,
    pub place: u32,
    pub reservation: u32,
}

layout! {
    PriorityLine = 12, 4;
    answer = 0, 4;
    place = 4, 4;
    reservation = 8, 4;
}

/// A thread's lag. answer: 0, or the refusal, with a lag of 0.
#[repr(C)]
#[derive(Clone, Copy, Debug, PartialEq, Eq, Default)]
pub struct LagLine {
    pub answer: u64,
    pub lag: i64,
}

layout! {
    LagLine = 16, 8;
    answer = 0, 8;
    lag = 8, 8;
}

/// A thread's achieved share. answer: 0, or the refusal, with a share of 0.
#[repr(C)]
#[derive(Clone, Copy, Debug, PartialEq, Eq, Default)]
pub struct ShareLine {
    pub answer: u32,
    pub share: u32,
}

layout! {
    ShareLine = 8, 4;
    answer = 0, 4;
    share = 4, 4;
}

/// A record of the roster. state: 0 runnable, 1 blocked, 2 running. The
/// allotment of a reserved thread is at least 1; that of a best-effort thread
/// is shown as 0, and so is its lag.
#[repr(C)]
#[derive(Clone, Copy, Debug, PartialEq, Eq, Default)]
pub struct Entry {
    pub number: u32,
    pub state: u32,
    pub allotment: i32,
    pub share: u32,
    pub lag: i64,
}

layout! {
    Entry = 24, 8;
    number = 0, 4;
    state = 4, 4;
    allotment = 8, 4;
    share = 12, 4;
    lag = 16, 8;
}

/// A record as numbers. It has a form in a block if its kind is known and the
/// fields that its kind does not use are zero.
#[repr(C)]
#[derive(Clone, Copy, Debug, PartialEq, Eq, Default)]
pub struct Record {
    pub kind: u8,
    pub subject: u8,
    pub group: u8,
    pub reason: u8,
    pub amount: u16,
    pub overrun: u16,
    pub ticks: u32,
}

layout! {
    Record = 12, 4;
    kind = 0, 1;
    subject = 1, 1;
    group = 2, 1;
    reason = 3, 1;
    amount = 4, 2;
    overrun = 6, 2;
    ticks = 8, 4;
}

/// The records for a block. How many of them are written is told beside it.
#[repr(C)]
#[derive(Clone, Copy, Debug, PartialEq, Eq, Default)]
pub struct Records {
    pub records: [Record; 31],
}

layout! {
    Records = 372, 4;
    records = 0, 372;
}

/// What reading finds. answer: 0, or the refusal. records: the block's, and
/// blank ones past the last of `count`.
#[repr(C)]
#[derive(Clone, Copy, Debug, PartialEq, Eq, Default)]
pub struct Found {
    pub answer: u32,
    pub count: u32,
    pub records: [Record; 31],
}

layout! {
    Found = 380, 4;
    answer = 0, 4;
    count = 4, 4;
    records = 8, 372;
}

// SAFETY: these are the library's exported functions. Those that take numbers
// and structs of numbers alone accept every bit pattern and touch no memory of
// the caller's, so they are safe to call.
unsafe extern "C" {
    /// A fresh scheduler: no threads, group 0 open with ceiling 1000, the meter
    /// 0. `thousandth` is m, the ticks per thousandth of the virtual time
    /// quantum, `interval` is P, the preemption interval in ticks, and
    /// `overrun` is O, the ticks that a report may use beyond its slice.
    ///
    /// Refuses, the first that applies:
    /// - 1 [`REFUSED_SETTINGS`]: m is outside 1 to 1000, P outside 1 to 1000000
    ///   or O not below m
    ///
    /// The state is then all zeros, on which every call answers 16. It takes no
    /// state, so that any other is unchanged.
    pub safe fn mtr_by_value_start(thousandth: u64, interval: u64, overrun: u64) -> Reply;

    /// Opens a group below an open parent of a lower number, with a ceiling in
    /// thousandths.
    ///
    /// Refuses, the first that applies:
    /// - 16 [`REFUSED_UNSOUND`]: the state is not sound
    /// - 2 [`REFUSED_NO_GROUP`]: the parent is above 15 or not open
    /// - 3 [`REFUSED_GROUP_NUMBER`]: the number is above 15, already open or
    ///   not above the parent's
    /// - 4 [`REFUSED_AMOUNT`]: the ceiling is outside 1 to 1000
    /// - 5 [`REFUSED_NO_ROOM`]: the ceiling exceeds what the parent has free
    ///
    /// The state is then unchanged. Accepted, only the group's entry changes.
    pub safe fn mtr_by_value_open(
        state: Scheduler,
        number: u64,
        parent: u64,
        ceiling: u64,
    ) -> Reply;

    /// Closes a group that has no thread and no child.
    ///
    /// Refuses, the first that applies:
    /// - 16 [`REFUSED_UNSOUND`]: the state is not sound
    /// - 2 [`REFUSED_NO_GROUP`]: the number is 0, above 15 or not open
    /// - 6 [`REFUSED_GROUP_IN_USE`]: the group has a thread or a child
    ///
    /// The state is then unchanged. Accepted, only the group's entry changes.
    pub safe fn mtr_by_value_close(state: Scheduler, number: u64) -> Reply;

    /// Admits a thread to a group with a reservation in thousandths: runnable,
    /// with a full allotment, at the rear of the list.
    ///
    /// Refuses, the first that applies:
    /// - 16 [`REFUSED_UNSOUND`]: the state is not sound
    /// - 7 [`REFUSED_NO_THREAD`]: the number is above 63
    /// - 8 [`REFUSED_ALREADY_ADMITTED`]: the thread is already admitted
    /// - 2 [`REFUSED_NO_GROUP`]: the group is above 15 or not open
    /// - 4 [`REFUSED_AMOUNT`]: the reservation is outside 1 to 1000
    /// - 5 [`REFUSED_NO_ROOM`]: the reservation exceeds what the group has free
    ///
    /// The state is then unchanged. Accepted, every other thread is unchanged,
    /// and so are the groups.
    pub safe fn mtr_by_value_admit(
        state: Scheduler,
        number: u64,
        group: u64,
        reservation: u64,
    ) -> Reply;

    /// Admits a best-effort thread with a weight: runnable, in no group and
    /// outside the list. It is dispatched only if no reserved thread is
    /// runnable, and shares that time with the other best-effort threads by
    /// weight.
    ///
    /// Refuses, the first that applies:
    /// - 16 [`REFUSED_UNSOUND`]: the state is not sound
    /// - 7 [`REFUSED_NO_THREAD`]: the number is above 63
    /// - 8 [`REFUSED_ALREADY_ADMITTED`]: the thread is already admitted
    /// - 4 [`REFUSED_AMOUNT`]: the weight is outside 1 to 16
    ///
    /// The state is then unchanged. Accepted, only the thread's entry changes.
    pub safe fn mtr_by_value_admit_best_effort(state: Scheduler, number: u64, weight: u64)
        -> Reply;

    /// Removes a thread that does not run: frees its number and reservation,
    /// and takes a reserved thread off the list.
    ///
    /// Refuses, the first that applies:
    /// - 16 [`REFUSED_UNSOUND`]: the state is not sound
    /// - 7 [`REFUSED_NO_THREAD`]: the number is above 63 or not admitted
    /// - 9 [`REFUSED_THREAD_RUNNING`]: the thread is running
    ///
    /// The state is then unchanged. Accepted, every other thread and the
    /// others' mutual order are unchanged, and so are the groups.
    pub safe fn mtr_by_value_remove(state: Scheduler, number: u64) -> Reply;

    /// Makes a blocked thread runnable. A best-effort thread has saved up
    /// nothing while it was blocked.
    ///
    /// Refuses, the first that applies:
    /// - 16 [`REFUSED_UNSOUND`]: the state is not sound
    /// - 7 [`REFUSED_NO_THREAD`]: the number is above 63 or not admitted
    /// - 10 [`REFUSED_NOT_BLOCKED`]: the thread is not blocked
    ///
    /// The state is then unchanged. Accepted, the list, the thread's allotment
    /// and every other thread are unchanged.
    pub safe fn mtr_by_value_wake(state: Scheduler, number: u64) -> Reply;

    /// Takes the first runnable thread of the list to run for its slice, the
    /// smaller of its allotment and P; where none of the list is runnable, the
    /// runnable best-effort thread with the smallest tag, of equal ones the one
    /// with the lowest number, for P. Answers the thread, the slice and how
    /// many reserved threads, all blocked, stood before it; or idle, thread 64
    /// with slice 0 and the number of all threads, if no thread is runnable.
    ///
    /// Refuses, the first that applies:
    /// - 16 [`REFUSED_UNSOUND`]: the state is not sound
    /// - 12 [`REFUSED_BUSY`]: a thread is running
    /// - 15 [`REFUSED_METER_FULL`]: the meter is at least 10000000000000
    ///
    /// The state is then unchanged. Accepted, only the number of the running
    /// thread and, of a best-effort one, the virtual time change, and nothing
    /// if idle.
    pub safe fn mtr_by_value_dispatch(state: Scheduler) -> Reply;

    /// Charges the running thread the ticks used and ends its run. Up to O
    /// ticks may be used beyond the slice: an overrun, as of a timer that fires
    /// late. If 0 or less is left of the allotment, the thread's quantum is
    /// added to it once, so that a debt is kept, and the thread moves to the
    /// rear. Reasons: 0 tick, the thread stays runnable; 1 block; 2 yield,
    /// which moves to the rear and, where something is left, fills the
    /// allotment; 3 exit, which frees the thread's number and reservation. A
    /// best-effort thread has no allotment and no place: its tag grows by
    /// 720720 / weight for each tick.
    ///
    /// Refuses, the first that applies:
    /// - 16 [`REFUSED_UNSOUND`]: the state is not sound
    /// - 11 [`REFUSED_NOTHING_RUNNING`]: nothing is running
    /// - 14 [`REFUSED_REASON`]: the reason is above 3
    /// - 13 [`REFUSED_OVER_SLICE`]: more is used than the slice and O
    ///
    /// The state is then unchanged. Accepted, every other thread and the
    /// others' mutual order are unchanged, and so are the groups.
    pub safe fn mtr_by_value_report(state: Scheduler, reason: u64, used: u64) -> Reply;

    /// Changes the reservation of a thread that does not run, in thousandths.
    /// The thread keeps its place in the list, and stays blocked if it is; its
    /// allotment is cut to the new quantum if it is larger and never raised;
    /// its lag is counted afresh from here, and its share goes on.
    ///
    /// Refuses, the first that applies:
    /// - 16 [`REFUSED_UNSOUND`]: the state is not sound
    /// - 7 [`REFUSED_NO_THREAD`]: the number is above 63, or its thread is not
    ///   admitted or a best-effort one
    /// - 9 [`REFUSED_THREAD_RUNNING`]: the thread is running
    /// - 4 [`REFUSED_AMOUNT`]: the reservation is outside 1 to 1000
    /// - 5 [`REFUSED_NO_ROOM`]: the reservation exceeds what the thread's group
    ///   has free, its old reservation counted as free
    ///
    /// The state is then unchanged. Accepted, only the thread's entry changes.
    pub safe fn mtr_by_value_change(state: Scheduler, number: u64, reservation: u64) -> Reply;

    /// Answers 1 if the state is sound, else 0.
    ///
    /// Refuses nothing.
    ///
    /// The state is unchanged.
    pub safe fn mtr_by_value_sound(state: Scheduler) -> u32;

    /// The reservation of a priority: the highest, 10, has 20, each one below
    /// it one less; the normal one, 5, has 15; the lowest, 1, has 11.
    ///
    /// Refuses, the first that applies:
    /// - 4 [`REFUSED_AMOUNT`]: the priority is outside 1 to 10
    ///
    /// It takes no state, so that any is unchanged.
    pub safe fn mtr_by_value_priority(priority: u64) -> Mapped;

    /// The reservations in a group and in every group below it, in thousandths.
    ///
    /// Refuses, the first that applies:
    /// - 16 [`REFUSED_UNSOUND`]: the state is not sound
    /// - 2 [`REFUSED_NO_GROUP`]: the group is above 15 or not open
    ///
    /// The state is unchanged.
    pub safe fn mtr_by_value_subtree(state: Scheduler, group: u64) -> Total;

    /// The reservation of a priority under a customer's own table: that of the
    /// one row in which the priority stands. In a table that can be used every
    /// row is well formed and each priority from 1 to 10 stands in exactly one.
    /// Rows past the count are not looked at.
    ///
    /// Refuses, the first that applies:
    /// - 4 [`REFUSED_AMOUNT`]: the number of rows is outside 1 to 10
    /// - 22 [`REFUSED_TABLE_ROW`]: a row is upside down, or has a priority
    ///   outside 1 to 10 or a reservation outside 1 to 1000, and place is the
    ///   first such row, from 0
    /// - 23 [`REFUSED_TABLE_COVER`]: a priority stands in no row or in several,
    ///   and place is the lowest such priority
    /// - 4 [`REFUSED_AMOUNT`]: the priority that is asked for is outside 1 to
    ///   10
    ///
    /// The table is unchanged.
    pub safe fn mtr_by_value_priority_under(table: PriorityTable, priority: u64) -> PriorityLine;

    /// The table that gives every priority what it has where no table is given:
    /// a row for each, from the highest, 10 with 20, down to the lowest, 1 with
    /// 11.
    ///
    /// Refuses nothing.
    ///
    /// It takes no state, so that any is unchanged.
    pub safe fn mtr_standard_table() -> PriorityTable;

    /// A thread's lag: its reservation times the meter's growth since its
    /// anchor, less 1000 times its own ticks since; 0 while it is blocked, and
    /// 0 of a best-effort thread. The anchor is its admission, its last wake,
    /// its last yield or the last change of its reservation, whichever came
    /// last.
    ///
    /// Refuses, the first that applies:
    /// - 16 [`REFUSED_UNSOUND`]: the state is not sound
    /// - 7 [`REFUSED_NO_THREAD`]: the number is above 63 or not admitted
    ///
    /// The state is unchanged.
    pub safe fn mtr_by_value_lag(state: Scheduler, number: u64) -> LagLine;

    /// A thread's achieved share: its ticks since admission in thousandths of
    /// the meter's growth since then, rounded to the nearest, half to even; 0
    /// if it has not grown.
    ///
    /// Refuses, the first that applies:
    /// - 16 [`REFUSED_UNSOUND`]: the state is not sound
    /// - 7 [`REFUSED_NO_THREAD`]: the number is above 63 or not admitted
    ///
    /// The state is unchanged.
    pub safe fn mtr_by_value_share(state: Scheduler, number: u64) -> ShareLine;

    /// Fills a lent table with the record of every admitted thread, largest lag
    /// first, equal lags by smaller reservation, then by lower number. A
    /// best-effort thread counts as a reservation of 0, and its lag and
    /// allotment are 0.
    ///
    /// Refuses, the first that applies:
    /// - 16 [`REFUSED_UNSOUND`]: the state is not sound
    /// - 17 [`REFUSED_LENGTH`]: the table is shorter than the number of threads
    ///
    /// The table is then unchanged. Accepted, the records past the last are
    /// unchanged. The state is unchanged.
    ///
    /// # Safety
    ///
    /// `table` is valid for reads and writes of `table_len` elements, is
    /// aligned and not null, and nothing else uses them during the call.
    pub unsafe fn mtr_by_value_roster(state: Scheduler, table: *mut Entry, table_len: usize)
        -> u32;

    /// Writes the block of this number with the first `count` records to a lent
    /// area.
    ///
    /// Refuses, the first that applies:
    /// - 17 [`REFUSED_LENGTH`]: the area is not 512 bytes
    /// - 19 [`REFUSED_FORM`]: more than 31 records, or one with no form: an
    ///   unknown kind, or a field not zero that its kind does not use
    ///
    /// The area is then unchanged.
    ///
    /// # Safety
    ///
    /// `area` is valid for reads and writes of `area_len` elements, is aligned
    /// and not null, and nothing else uses them during the call.
    pub unsafe fn mtr_by_value_write_block(
        area: *mut u8,
        area_len: usize,
        block: u32,
        list: Records,
        count: usize,
    ) -> u32;

    /// Reads the records of the block that is expected to have this number.
    ///
    /// Refuses, the first that applies:
    /// - 17 [`REFUSED_LENGTH`]: the area is not 512 bytes
    /// - 18 [`REFUSED_CHECK`]: the check is wrong
    /// - 19 [`REFUSED_FORM`]: the bytes are not those of this block number and
    ///   0 to 31 well-formed records
    ///
    /// The count is then 0 and every record blank. The area is unchanged.
    ///
    /// # Safety
    ///
    /// `area` is valid for reads of `area_len` elements, is aligned and not
    /// null, and nothing else uses them during the call.
    pub unsafe fn mtr_by_value_read_block(area: *const u8, area_len: usize, block: u32) -> Found;

    /// The library's version as one number: 10000 times the major, 100 times
    /// the minor, and the patch.
    ///
    /// Refuses nothing.
    ///
    /// It takes no state, so that any is unchanged.
    pub safe fn mtr_version() -> u32;
}
