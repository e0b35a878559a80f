//! A journal made of any bytes, and its replay by the library's functions beside the model.
//!
//! A fuzzer changes bytes. So that most changes lead to another journal and not to a wrong check, the
//! bytes are read as a recipe: what stands in the journal, with right checks unless the recipe damages
//! a block. Any bytes are a recipe.

use crate::best_effort::BestEffort;
use crate::bytes;
use crate::changes::Changes;
use crate::compare::{both, sound, start, to_library, to_library_record, to_model_entry};
use crate::guard::{Guarded, Side};
use crate::late::Late;
use crate::share::Shares;
use crate::ties::Ties;
use model::accounts::Entry;
use model::blocks::{fields, kind, read_block, seal, write_block, Record, BLOCK, RECORDS};
use model::calls::{self, record, recorded, Call};
use model::rule::{Reply, Scheduler};
use mtr::{numbers, raw};
use std::fmt::Write;

/// A journal and the lengths in which a pipe delivers it, again and again.
#[derive(Clone, Debug, PartialEq, Eq)]
pub struct Case {
    pub journal: Vec<u8>,
    pub pieces: [usize; 2],
}

/// The recipe's bytes from the front, and 0 past its end.
struct Bytes<'a>(&'a [u8]);

impl Bytes<'_> {
    fn byte(&mut self) -> u8 {
        match self.0.split_first() {
            Some((&first, rest)) => {
                self.0 = rest;
                first
            }
            None => 0,
        }
    }

    fn short(&mut self) -> u16 {
        u16::from_le_bytes([self.byte(), self.byte()])
    }

    fn long(&mut self) -> u32 {
        self.short() as u32 | (self.short() as u32) << 16
    }

    /// A record of a kind, its fields in order.
    fn record(&mut self, kind: u8) -> Record {
        let uses = fields(kind).unwrap_or_default();
        Record {
            kind,
            subject: if uses.subject { self.byte() } else { 0 },
            group: if uses.group { self.byte() } else { 0 },
            reason: if uses.reason { self.byte() } else { 0 },
            amount: if uses.amount { self.short() } else { 0 },
            ticks: if uses.ticks { self.long() } else { 0 },
            overrun: if uses.overrun { self.short() } else { 0 },
        }
    }

    /// The record of a report on a state: a reason, and how many ticks are used beyond the slice and, if it is `late`,
    /// the overrun limit, −128 to 127.
    fn report(&mut self, s: &Scheduler, late: bool) -> Record {
        let slice = match s.threads.get(s.running as usize) {
            Some(t) => t.slice(&s.settings),
            None => 0,
        };
        let from = slice + if late { s.settings.overrun as u32 } else { 0 };
        record(Call::Report {
            reason: self.byte().into(),
            used: from.saturating_add_signed(self.byte() as i8 as i32).into(),
        })
    }

    /// The record of a change on a state. The low six bits of a byte are the thread's place in the list, and the others
    /// say from where the amount's distance is counted, −128 to 127: from the old reservation, from all that the thread
    /// may have, from what its group has free without it, or from the least amount that leaves the allotment whole.
    fn change(&mut self, s: &Scheduler) -> Record {
        let first = self.byte();
        let place = first as usize % 64;
        let number = match s.list().len() {
            0 => place,
            listed => s.list()[place % listed] as usize,
        };
        let t = &s.threads[number];
        // Of an empty list the number may be free or that of a best-effort thread.
        let group = if t.is_reserved() { t.group() } else { 0 };
        let free = s.groups[group].ceiling as u32 - s.taken(group);
        let from = match first >> 6 {
            0 => t.reservation as u32,
            1 => free + t.reservation as u32,
            2 => free,
            _ => (t.allotment as u32).div_ceil(s.settings.thousandth as u32),
        };
        record(Call::Change {
            number: number as u64,
            reservation: from.saturating_add_signed(self.byte() as i8 as i32).into(),
        })
    }

    /// The record of an admission of a best-effort thread on a state, in one byte: the low half is the weight less one, the
    /// other one says how many of the free numbers are passed over. Of no free number it is the highest.
    fn admit_best_effort(&mut self, s: &Scheduler) -> Record {
        let byte = self.byte();
        let (weight, passed) = (byte % 16 + 1, byte as usize / 16);
        let free: Vec<usize> = (0..64).filter(|&n| s.threads[n].status == 0).collect();
        let last = free.last().copied().unwrap_or(63);
        record(Call::AdmitBestEffort {
            number: free.get(passed).copied().unwrap_or(last) as u64,
            weight: weight.into(),
        })
    }
}

/// The case of a recipe. Its first byte says how the rest is read: 0 as the journal itself, 1 as blocks
/// whose numbers and checks are then made right, else as a list of records and damages. The next two
/// bytes are the pieces.
pub fn case(recipe: &[u8]) -> Case {
    let mut bytes = Bytes(recipe);
    let form = bytes.byte() % 4;
    let pieces = [bytes.byte(), bytes.byte()].map(|b| 1 + 8 * b as usize);
    let journal = match form {
        0 => bytes.0.to_vec(),
        1 => sealed(bytes.0),
        _ => listed(bytes),
    };
    Case { journal, pieces }
}

fn sealed(bytes: &[u8]) -> Vec<u8> {
    let mut journal = bytes.to_vec();
    let (blocks, _) = journal.as_chunks_mut::<BLOCK>();
    for (place, block) in blocks.iter_mut().enumerate() {
        block[..4].copy_from_slice(&(place as u32).to_le_bytes());
        seal(block);
    }
    journal
}

/// Most blocks of a list, so that a run stays short.
const BLOCKS: usize = 24;

/// Items that are a change, with its fields and by the amount's distance.
const CHANGE: [u8; 2] = [0x6e, 0x8e];
const CHANGE_BY: [u8; 2] = [0xbe, 0xee];

/// Items that are an admission of a best-effort thread, with its fields and in one byte.
const BEST_EFFORT: u8 = 0x4f;
const BEST_EFFORT_BY: u8 = 0x6f;

/// Item by item: the low half of a byte is a record's kind, followed by the fields that it uses; 0 ends the
/// block; 9 sets a byte of the block under its check and 10 one after it; 11 cuts the end of the journal
/// off; 12 and 13 are reports by their distance from the slice and from the most that is accepted, in the state
/// that the records so far make. Of the bytes whose low half is 14 two are a change with its fields, and two one by the
/// amount's distance; of those whose low half is 15 one is an admission of a best-effort thread with its fields, and one
/// such an admission in a byte: those that no recipe had before. Others are passed over.
fn listed(mut bytes: Bytes) -> Vec<u8> {
    let mut journal = Vec::new();
    let mut records = Vec::new();
    let (mut under, mut after) = (Vec::new(), Vec::new());
    let mut cut = 0;
    let mut s = Scheduler::default();
    while !bytes.0.is_empty() && journal.len() < BLOCKS * BLOCK {
        let item = bytes.byte();
        let kind = item % 16;
        let record = match kind {
            kind::OPEN..=kind::START => Some(bytes.record(kind)),
            12 | 13 => Some(bytes.report(&s, kind == 13)),
            _ if CHANGE.contains(&item) => Some(bytes.record(kind::CHANGE)),
            _ if CHANGE_BY.contains(&item) => Some(bytes.change(&s)),
            _ if item == BEST_EFFORT => Some(bytes.record(kind::ADMIT_BEST_EFFORT)),
            _ if item == BEST_EFFORT_BY => Some(bytes.admit_best_effort(&s)),
            _ => None,
        };
        if let Some(record) = record {
            calls::run(&mut s, &record);
            records.push(record);
        }
        match kind {
            9 => under.push((bytes.short() as usize % BLOCK, bytes.byte())),
            10 => after.push((bytes.short() as usize % BLOCK, bytes.byte())),
            11 => cut = bytes.short() as usize % BLOCK,
            _ => {}
        }
        if kind == 0 || records.len() == RECORDS || bytes.0.is_empty() {
            let mut block = [0; BLOCK];
            write_block(&mut block, (journal.len() / BLOCK) as u32, &records);
            for (at, byte) in under.drain(..) {
                block[at] = byte;
            }
            // As it was, if nothing is damaged.
            seal(&mut block);
            for (at, byte) in after.drain(..) {
                block[at] = byte;
            }
            journal.extend(block);
            records.clear();
        }
    }
    journal.truncate(journal.len().saturating_sub(cut));
    journal
}

/// What a replay printed, what occurred of overruns, changes and best-effort threads
/// in it, and the shares and the equal lags at its end.
#[derive(Clone, Debug, Default, PartialEq, Eq)]
pub struct Replayed {
    pub printed: String,
    pub late: Late,
    pub changes: Changes,
    pub best_effort: BestEffort,
    pub shares: Shares,
    pub ties: Ties,
}

/// Replays a journal by the library's functions and by the model. Each block's reading, each call's answer and state and
/// the accounts at the end are the same on both sides, and so is all that is printed.
///
/// # Panics
///
/// Where something differs.
pub fn replay(journal: &[u8]) -> Replayed {
    let mut page = Guarded::mapped();
    let mut all = Replayed::default();
    let mut state = Some(Scheduler::default());
    for (place, area) in journal.chunks(BLOCK).enumerate() {
        match read(&mut page, area, place as u32) {
            Err(refusal) => {
                state = None;
                let _ = writeln!(all.printed, "block {place} {refusal}");
            }
            Ok(records) => {
                for (i, record) in records.iter().enumerate() {
                    let reply = run(&mut state, record, &mut all);
                    let (number, answer) = (RECORDS * place + i, reply.answer);
                    let (thread, slice, before) = (reply.thread, reply.slice, reply.before);
                    let _ = writeln!(all.printed, "{number} {answer} {thread} {slice} {before}");
                }
            }
        }
    }
    if let Some(state) = &state {
        roster(&mut page, state, &mut all.ties);
        accounts(state, &mut all.shares);
    }
    assert_eq!(all.printed.as_bytes(), model::replay::replay(journal));
    all
}

/// Reads a block on both sides, from either end of a page that can't be written, and writes what was read.
fn read(page: &mut Guarded, area: &[u8], place: u32) -> Result<Vec<Record>, u32> {
    let wanted = read_block(area, place);
    for side in [Side::Front, Side::Back] {
        let at = page.lend(side, area, 0xa5);
        // SAFETY: the page holds the area.
        let found =
            page.read_only(|| unsafe { raw::mtr_by_value_read_block(at, area.len(), place) });
        let answer = wanted.as_ref().err().copied().unwrap_or(0);
        assert_eq!(found.answer, answer);
        let records = wanted.as_deref().unwrap_or_default();
        assert!(bytes::of(&found) == bytes::found(answer, records));
        assert!(page.contents(side, area.len()) == area && page.intact(side, area.len()));
    }
    if let Ok(records) = &wanted {
        let mut list = raw::Records::default();
        for (to, from) in list.records.iter_mut().zip(records) {
            *to = to_library_record(from);
        }
        for side in [Side::Front, Side::Back] {
            let at = page.lend(side, &[0x5a; BLOCK], 0xa5);
            // SAFETY: the page holds the area.
            let answer =
                unsafe { raw::mtr_by_value_write_block(at, BLOCK, place, list, records.len()) };
            assert_eq!(answer, 0);
            assert!(page.contents(side, BLOCK) == area && page.intact(side, BLOCK));
        }
    }
    wanted
}

/// Runs a record on both sides; without a state every record but a start answers 20.
fn run(state: &mut Option<Scheduler>, r: &Record, all: &mut Replayed) -> Reply {
    if r.kind == kind::START {
        let (m, p, o) = (r.amount as u64, r.ticks as u64, r.overrun as u64);
        let started = start(m, p, o);
        let answer = started.err().unwrap_or(0);
        all.late.start(m, p, o, answer);
        if let Ok(fresh) = started {
            *state = Some(fresh);
        }
        return Reply::plain(answer);
    }
    let Some(call) = recorded(r) else {
        panic!("a record of kind {} was read", r.kind);
    };
    match state {
        Some(s) => {
            let before = *s;
            let reply = both(s, call);
            all.late.call(&before, call, reply.answer);
            all.changes.call(&before, call, reply.answer);
            all.best_effort.call(&before, call, reply, s);
            reply
        }
        None => Reply::plain(20),
    }
}

/// The roster on both sides, into tables that are just long enough and one too short.
fn roster(page: &mut Guarded, s: &Scheduler, ties: &mut Ties) {
    const ENTRY: usize = size_of::<raw::Entry>();
    let threads = s.threads.iter().filter(|t| t.status != 0).count();
    for length in [threads, threads.saturating_sub(1)] {
        let mut wanted = vec![Entry::default(); length];
        let answer = s.roster(&mut wanted);
        if length == threads {
            ties.roster(s, &wanted);
        }
        for side in [Side::Front, Side::Back] {
            let table = page.lend(side, &vec![0; ENTRY * length], 0xa5);
            // SAFETY: the page holds the table, which is aligned at both ends, and an entry is numbers.
            let found = unsafe {
                let found = raw::mtr_by_value_roster(to_library(s), table.cast(), length);
                assert_eq!(found, answer);
                std::slice::from_raw_parts(table.cast::<raw::Entry>(), length).to_vec()
            };
            assert!(found.iter().map(to_model_entry).eq(wanted.iter().copied()));
            assert!(page.intact(side, ENTRY * length));
        }
    }
}

/// Soundness, and the lag and the share of every number.
fn accounts(s: &Scheduler, shares: &mut Shares) {
    assert!(sound(s));
    let state = to_library(s);
    for number in 0..=64 {
        let (lag, share) = (s.lag(number), s.share(number));
        assert_eq!(numbers::lag(state, number).result(), lag);
        let found = numbers::share(state, number).result();
        assert_eq!(found.map(u64::from), share);
        if let Ok(share) = share {
            shares.share(s, number as usize, share);
        }
    }
}
