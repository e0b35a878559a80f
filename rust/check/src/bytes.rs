//! The bytes that cross the boundary: each number little-endian, right after the one before it, with no byte between.
//!
//! What the library hands back is compared with the model's numbers byte by byte; the layout here is written from the header's structs, field by
//! field, and not from the compiler's.

use model::blocks::Record;
use model::rule::{Reply, Scheduler, Settings, Thread};
use model::table::{Line, Table};
use mtr::raw;
use std::mem::size_of;

pub const STATE: usize = size_of::<raw::Scheduler>();
pub const REPLY: usize = size_of::<raw::Reply>();
pub const FOUND: usize = size_of::<raw::Found>();
pub const TABLE: usize = size_of::<raw::PriorityTable>();
pub const LINE: usize = size_of::<raw::PriorityLine>();

/// A struct of numbers whose bytes all belong to a field.
///
/// # Safety
///
/// It has no padding.
pub unsafe trait Whole: Copy {}

const fn size_of_field<T, F>(_: fn(&T) -> &F) -> usize {
    size_of::<F>()
}

// The fields named are all there are, and together as long as the struct.
macro_rules! whole {
    ($($name:ident { $($field:ident),+ })+) => {
        $(
            const _: () = {
                const SUM: usize = 0 $(+ size_of_field(|s: &raw::$name| &s.$field))+;
                assert!(size_of::<raw::$name>() == SUM);
                const fn _all(s: raw::$name) {
                    let raw::$name { $($field: _),+ } = s;
                }
            };
            // SAFETY: its fields together are as long as it is, and each is numbers or such structs.
            unsafe impl Whole for raw::$name {}
        )+
    };
}

whole! {
    Thread { admission, anchor, ticks, since, allotment, reservation, group_or_weight, status, tag }
    Group { ceiling, parent, opened }
    Settings { interval, thousandth, overrun }
    Scheduler { threads, order, groups, meter, time, settings, count, running }
    Reply { answer, thread, slice, before, state }
    Mapped { answer, reservation }
    Total { answer, thousandths }
    PriorityRow { first, last, reservation }
    PriorityTable { rows, count }
    PriorityLine { answer, place, reservation }
    LagLine { answer, lag }
    ShareLine { answer, share }
    Entry { number, state, allotment, share, lag }
    Record { kind, subject, group, reason, amount, overrun, ticks }
    Records { records }
    Found { answer, count, records }
}

/// The bytes of a struct.
pub fn of<T: Whole>(value: &T) -> &[u8] {
    // SAFETY: every byte of it is one of a number's.
    unsafe { std::slice::from_raw_parts((value as *const T).cast(), size_of::<T>()) }
}

/// The struct of these bytes.
///
/// # Panics
///
/// If they are not as many as it has.
pub fn to<T: Whole>(bytes: &[u8]) -> T {
    assert_eq!(bytes.len(), size_of::<T>());
    // SAFETY: as many bytes as it has, and any bytes are numbers.
    unsafe { bytes.as_ptr().cast::<T>().read_unaligned() }
}

/// An area that is filled from its front.
struct Area<const N: usize> {
    bytes: [u8; N],
    filled: usize,
}

impl<const N: usize> Area<N> {
    fn new() -> Self {
        Area {
            bytes: [0; N],
            filled: 0,
        }
    }

    fn put(&mut self, number: &[u8]) {
        self.bytes[self.filled..self.filled + number.len()].copy_from_slice(number);
        self.filled += number.len();
    }

    fn whole(self) -> [u8; N] {
        assert_eq!(self.filled, N);
        self.bytes
    }

    fn thread(&mut self, t: &Thread) {
        for number in [t.admission, t.anchor, t.ticks, t.since] {
            self.put(&number.to_le_bytes());
        }
        self.put(&t.allotment.to_le_bytes());
        self.put(&t.reservation.to_le_bytes());
        self.put(&[t.group_or_weight, t.status]);
        self.put(&t.tag.to_le_bytes());
    }

    fn settings(&mut self, settings: &Settings) {
        self.put(&settings.interval.to_le_bytes());
        self.put(&settings.thousandth.to_le_bytes());
        self.put(&settings.overrun.to_le_bytes());
    }

    fn state(&mut self, s: &Scheduler) {
        for t in &s.threads {
            self.thread(t);
        }
        self.put(&s.order);
        for g in &s.groups {
            self.put(&g.ceiling.to_le_bytes());
            self.put(&[g.parent, g.opened]);
        }
        self.put(&s.meter.to_le_bytes());
        self.put(&s.time.to_le_bytes());
        self.settings(&s.settings);
        self.put(&s.count.to_le_bytes());
        self.put(&s.running.to_le_bytes());
    }

    fn record(&mut self, r: &Record) {
        self.put(&[r.kind, r.subject, r.group, r.reason]);
        self.put(&r.amount.to_le_bytes());
        self.put(&r.overrun.to_le_bytes());
        self.put(&r.ticks.to_le_bytes());
    }
}

/// A state's bytes.
pub fn state(s: &Scheduler) -> [u8; STATE] {
    let mut area = Area::new();
    area.state(s);
    area.whole()
}

/// The bytes of a reply with the state after the call.
pub fn reply(reply: &Reply, s: &Scheduler) -> [u8; REPLY] {
    let mut area = Area::new();
    for number in [reply.answer, reply.thread, reply.slice, reply.before] {
        area.put(&number.to_le_bytes());
    }
    area.state(s);
    area.whole()
}

/// The bytes of a table of priorities.
pub fn table(table: &Table) -> [u8; TABLE] {
    let mut area = Area::new();
    for row in &table.rows {
        for number in [row.first, row.last, row.reservation] {
            area.put(&number.to_le_bytes());
        }
    }
    area.put(&table.count.to_le_bytes());
    area.whole()
}

/// The bytes of what a priority has under a table.
pub fn line(line: &Line) -> [u8; LINE] {
    let mut area = Area::new();
    for number in [line.answer, line.place, line.reservation] {
        area.put(&number.to_le_bytes());
    }
    area.whole()
}

/// The bytes of what reading finds: the records, and blank ones past the last.
///
/// # Panics
///
/// If there are more than 31 records.
pub fn found(answer: u32, records: &[Record]) -> [u8; FOUND] {
    assert!(records.len() <= raw::RECORDS);
    let mut area = Area::new();
    area.put(&answer.to_le_bytes());
    area.put(&(records.len() as u32).to_le_bytes());
    for i in 0..raw::RECORDS {
        area.record(records.get(i).unwrap_or(&Record::default()));
    }
    area.whole()
}
