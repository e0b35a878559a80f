//! Event blocks: up to 31 events in 512 bytes.
//!
//! A journal is a row of blocks numbered from 0, every block but the last full.
//! The program `mtrrun` replays it.
//!
//! ```
//! use mtr::{blocks, Event, Refusal, Settings};
//!
//! let events = [
//!     Event::Start(Settings::default()),
//!     Event::Admit { thread: 5, group: 0, reservation: 500 },
//!     Event::Dispatch,
//! ];
//! let mut area = [0; blocks::BYTES];
//! blocks::write(&mut area, 0, &events)?;
//! assert_eq!(*blocks::read(&area, 0)?, events);
//! assert_eq!(blocks::read(&area, 1), Err(Refusal::Form));
//! # Ok::<(), Refusal>(())
//! ```

use core::fmt;
use core::ops::Deref;

use crate::raw::{self, Record, Records};
use crate::refusal::accepted;
use crate::{numbers, Refusal, Settings};

/// Bytes of a block.
pub const BYTES: usize = raw::BLOCK_BYTES;

/// Most events of a block.
pub const RECORDS: usize = raw::RECORDS;

/// A call with its arguments, as a block holds it. An argument may have any
/// value; the call refuses it.
#[derive(Clone, Copy, Debug, PartialEq, Eq, Hash)]
pub enum Event {
    Open {
        group: u8,
        parent: u8,
        ceiling: u16,
    },
    Close {
        group: u8,
    },
    Admit {
        thread: u8,
        group: u8,
        reservation: u16,
    },
    Remove {
        thread: u8,
    },
    Wake {
        thread: u8,
    },
    Dispatch,
    /// The reason is the number of a [`Reason`](crate::Reason) where the call
    /// is to be accepted.
    Report {
        reason: u8,
        used: u32,
    },
    /// The overrun limit stands in bytes that were zero before version 2.0.0,
    /// so that the start of an older journal has the limit 0.
    Start(Settings),
    /// Another reservation for a thread. Since version 2.1.0; an older reader
    /// refuses the whole block.
    Change {
        thread: u8,
        reservation: u16,
    },
    /// A best-effort thread. Since version 3.0.0; an older reader refuses the
    /// whole block.
    AdmitBestEffort {
        thread: u8,
        weight: u16,
    },
}

impl From<Event> for Record {
    fn from(event: Event) -> Record {
        let zero = Record::default();
        match event {
            Event::Open {
                group,
                parent,
                ceiling,
            } => Record {
                kind: raw::KIND_OPEN,
                subject: group,
                group: parent,
                amount: ceiling,
                ..zero
            },
            Event::Close { group } => Record {
                kind: raw::KIND_CLOSE,
                subject: group,
                ..zero
            },
            Event::Admit {
                thread,
                group,
                reservation,
            } => Record {
                kind: raw::KIND_ADMIT,
                subject: thread,
                group,
                amount: reservation,
                ..zero
            },
            Event::Remove { thread } => Record {
                kind: raw::KIND_REMOVE,
                subject: thread,
                ..zero
            },
            Event::Wake { thread } => Record {
                kind: raw::KIND_WAKE,
                subject: thread,
                ..zero
            },
            Event::Dispatch => Record {
                kind: raw::KIND_DISPATCH,
                ..zero
            },
            Event::Report { reason, used } => Record {
                kind: raw::KIND_REPORT,
                reason,
                ticks: used,
                ..zero
            },
            Event::Start(settings) => Record {
                kind: raw::KIND_START,
                amount: settings.thousandth,
                overrun: settings.overrun,
                ticks: settings.interval,
                ..zero
            },
            Event::Change {
                thread,
                reservation,
            } => Record {
                kind: raw::KIND_CHANGE,
                subject: thread,
                amount: reservation,
                ..zero
            },
            Event::AdmitBestEffort { thread, weight } => Record {
                kind: raw::KIND_BEST_EFFORT,
                subject: thread,
                amount: weight,
                ..zero
            },
        }
    }
}

impl TryFrom<Record> for Event {
    type Error = Refusal;

    /// The event of a record; [`Refusal::Form`] for an unknown kind, or a field
    /// not zero that the kind does not use.
    fn try_from(record: Record) -> Result<Event, Refusal> {
        let event = match record.kind {
            raw::KIND_OPEN => Event::Open {
                group: record.subject,
                parent: record.group,
                ceiling: record.amount,
            },
            raw::KIND_CLOSE => Event::Close {
                group: record.subject,
            },
            raw::KIND_ADMIT => Event::Admit {
                thread: record.subject,
                group: record.group,
                reservation: record.amount,
            },
            raw::KIND_REMOVE => Event::Remove {
                thread: record.subject,
            },
            raw::KIND_WAKE => Event::Wake {
                thread: record.subject,
            },
            raw::KIND_DISPATCH => Event::Dispatch,
            raw::KIND_REPORT => Event::Report {
                reason: record.reason,
                used: record.ticks,
            },
            raw::KIND_START => Event::Start(Settings {
                thousandth: record.amount,
                interval: record.ticks,
                overrun: record.overrun,
            }),
            raw::KIND_CHANGE => Event::Change {
                thread: record.subject,
                reservation: record.amount,
            },
            raw::KIND_BEST_EFFORT => Event::AdmitBestEffort {
                thread: record.subject,
                weight: record.amount,
            },
            _ => return Err(Refusal::Form),
        };
        // A field that the kind does not use is lost in the event.
        match Record::from(event) == record {
            true => Ok(event),
            false => Err(Refusal::Form),
        }
    }
}

/// The events of a block, a slice of them.
#[derive(Clone, Copy)]
pub struct Events {
    events: [Event; RECORDS],
    count: usize,
}

impl Deref for Events {
    type Target = [Event];

    fn deref(&self) -> &[Event] {
        &self.events[..self.count]
    }
}

impl<'a> IntoIterator for &'a Events {
    type Item = &'a Event;
    type IntoIter = core::slice::Iter<'a, Event>;

    fn into_iter(self) -> Self::IntoIter {
        self.iter()
    }
}

impl PartialEq for Events {
    fn eq(&self, other: &Events) -> bool {
        **self == **other
    }
}

impl Eq for Events {}

impl fmt::Debug for Events {
    fn fmt(&self, f: &mut fmt::Formatter<'_>) -> fmt::Result {
        f.debug_list().entries(self.iter()).finish()
    }
}

/// Writes the block of a number with these events. Refused with
/// [`Length`](Refusal::Length) if the area is not 512 bytes, and with
/// [`Form`](Refusal::Form) if there are more than 31 events; the area then
/// keeps its contents.
pub fn write(area: &mut [u8], number: u32, events: &[Event]) -> Result<(), Refusal> {
    let mut list = Records::default();
    for (to, from) in list.records.iter_mut().zip(events) {
        *to = Record::from(*from);
    }
    accepted(numbers::write_first(area, number, list, events.len()))
}

/// The events of the block that is expected to have this number. Refused with
/// [`Length`](Refusal::Length), [`Check`](Refusal::Check) or
/// [`Form`](Refusal::Form).
pub fn read(area: &[u8], number: u32) -> Result<Events, Refusal> {
    let found = numbers::read_block(area, number);
    accepted(found.answer)?;
    let mut events = Events {
        events: [Event::Dispatch; RECORDS],
        count: (found.count as usize).min(RECORDS),
    };
    let records = &found.records[..events.count];
    for (to, from) in events.events.iter_mut().zip(records) {
        *to = Event::try_from(*from)?;
    }
    Ok(events)
}
