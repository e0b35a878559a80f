//! Records by hand, and journals of them.

use std::io::{self, Read};

use model::blocks::{kind, write_block, Record, BLOCK as BYTES, RECORDS};
use model::calls::{record, Call};
use model::rule::Scheduler;

use crate::random::Rng;

/// The reasons of a report.
pub const TICK: u64 = 0;
pub const BLOCK: u64 = 1;
pub const YIELD: u64 = 2;
pub const EXIT: u64 = 3;

/// A number that is 0 once cut to 32 bits.
pub const BEYOND: u64 = 1 << 32;

pub fn start(m: u16, p: u32, o: u16) -> Record {
    Record {
        kind: kind::START,
        amount: m,
        ticks: p,
        overrun: o,
        ..Record::default()
    }
}

pub fn open(number: u64, parent: u64, ceiling: u64) -> Record {
    record(Call::Open {
        number,
        parent,
        ceiling,
    })
}

pub fn close(number: u64) -> Record {
    record(Call::Close { number })
}

pub fn admit(number: u64, group: u64, reservation: u64) -> Record {
    record(Call::Admit {
        number,
        group,
        reservation,
    })
}

/// Admits a best-effort thread.
pub fn admit_weight(number: u64, weight: u64) -> Record {
    record(Call::AdmitBestEffort { number, weight })
}

pub fn remove(number: u64) -> Record {
    record(Call::Remove { number })
}

pub fn wake(number: u64) -> Record {
    record(Call::Wake { number })
}

pub fn change(number: u64, reservation: u64) -> Record {
    record(Call::Change {
        number,
        reservation,
    })
}

pub fn dispatch() -> Record {
    record(Call::Dispatch)
}

pub fn report(reason: u64, used: u64) -> Record {
    record(Call::Report { reason, used })
}

/// Threads 1, 2 and on of these reservations in group 0.
pub fn with(m: u64, p: u64, o: u64, reservations: &[u64]) -> Scheduler {
    let mut s = Scheduler::start(m, p, o).unwrap();
    for (n, &reservation) in (1..).zip(reservations) {
        assert_eq!(s.admit(n, 0, reservation), 0);
    }
    s
}

/// The block of a number with these records.
pub fn block(number: u32, records: &[Record]) -> [u8; BYTES] {
    let mut area = [0xaa; BYTES];
    assert_eq!(write_block(&mut area, number, records), 0);
    area
}

/// The records in blocks numbered from 0, each but the last full.
pub fn journal(records: &[Record]) -> Vec<u8> {
    let row = (0..).zip(records.chunks(RECORDS));
    row.flat_map(|(n, records)| block(n, records)).collect()
}

/// Gives a few bytes at a time.
pub struct Drip<'a>(pub &'a [u8], pub Rng);

impl Read for Drip<'_> {
    fn read(&mut self, buffer: &mut [u8]) -> io::Result<usize> {
        let some = 1 + self.1.below(700) as usize;
        let n = some.min(buffer.len()).min(self.0.len());
        buffer[..n].copy_from_slice(&self.0[..n]);
        self.0 = &self.0[n..];
        Ok(n)
    }
}
