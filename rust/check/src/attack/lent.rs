//! Calls that are lent memory, which lies between two pages that nobody may touch.

use super::inputs::{
    any_block, any_bytes, any_length, any_priorities, any_priority, any_records, any_side, argument,
};
use super::Attack;
use crate::bytes;
use crate::compare::{to_library_line, to_model, to_model_entry, to_model_record, to_model_table};
use crate::guard::Side;
use model::blocks::{read_block, write_block};
use model::table::{asked, standard};
use mtr::raw::{self, Entry, PriorityTable};
use samples::random::Rng;
use std::mem::size_of;

const ENTRY: usize = size_of::<Entry>();

impl Attack {
    fn lent(&mut self, side: Side, length: usize) {
        self.areas[(side == Side::Back) as usize][(length == 0) as usize] += 1;
    }

    pub(super) fn roster(&mut self, r: &mut Rng, state: &raw::Scheduler) -> u32 {
        let s = to_model(state);
        let threads = s.threads.iter().filter(|t| t.status != 0).count() as u64;
        let length = match r.below(4) {
            0 => r.edgy(0, 80),
            1 => threads,
            2 => threads.saturating_sub(1),
            _ => threads + r.below(8),
        } as usize;
        let side = any_side(r);
        let mut contents = [0; ENTRY * 80];
        any_bytes(r, &mut contents);
        let contents = &contents[..ENTRY * length];
        let table = self.page.lend(side, contents, r.bits() as u8);
        self.lent(side, length);
        // SAFETY: the page holds the table, whose start is aligned on both sides: 24 bytes each.
        let found = unsafe { raw::mtr_by_value_roster(*state, table.cast(), length) };

        let mut wanted: Vec<_> = contents.chunks_exact(ENTRY).map(entry).collect();
        let answer = s.roster(&mut wanted);
        let of = format_args!("of {length} {side:?}");
        self.same(15, of, found, answer);
        let after = self.page.contents(side, contents.len());
        let rows: Vec<_> = after.chunks_exact(ENTRY).map(entry).collect();
        self.same(15, of, &rows, &wanted);
        if answer != 0 {
            self.same(15, of, after, contents);
        } else {
            self.ties.roster(&s, &rows[..threads as usize]);
        }
        self.same(
            15,
            "memory around the table",
            self.page.intact(side, contents.len()),
            true,
        );
        answer
    }

    pub(super) fn write(&mut self, r: &mut Rng) -> u32 {
        let (side, length) = (any_side(r), any_length(r));
        let number = argument(r, 40) as u32;
        let count = match r.below(4) {
            0 => argument(r, 31),
            1 => r.edgy(0, 33),
            _ => r.range(0, 31),
        } as usize;
        let list = any_records(r);
        let mut contents = [0; 1100];
        any_bytes(r, &mut contents);
        let contents = &contents[..length];
        let area = self.page.lend(side, contents, r.bits() as u8);
        self.lent(side, length);
        // SAFETY: the page holds the area.
        let found = unsafe { raw::mtr_by_value_write_block(area, length, number, list, count) };

        // Of a count above 31 nothing but the count matters.
        let mut records: Vec<_> = list.records.iter().map(to_model_record).collect();
        records.resize(count.min(32), model::blocks::Record::default());
        let mut wanted = contents.to_vec();
        let answer = write_block(&mut wanted, number, &records);
        let of = format_args!("of {length} {side:?}, block {number}, {count} of {list:?}");
        self.same(16, of, found, answer);
        self.same(16, of, self.page.contents(side, length), &wanted);
        if answer != 0 {
            self.same(16, of, self.page.contents(side, length), contents);
        }
        self.same(
            16,
            "memory around the area",
            self.page.intact(side, length),
            true,
        );
        answer
    }

    pub(super) fn read(&mut self, r: &mut Rng) -> u32 {
        let (side, length) = (any_side(r), any_length(r));
        let (mut number, contents) = any_block(r);
        if r.chance(1, 8) {
            number = argument(r, 40) as u32;
        }
        let contents = &contents[..length];
        let area = self.page.lend(side, contents, r.bits() as u8);
        self.lent(side, length);
        let found = self.page.read_only(|| {
            // SAFETY: the page holds the area.
            unsafe { raw::mtr_by_value_read_block(area, length, number) }
        });

        let (answer, records) = match read_block(contents, number) {
            Err(refusal) => (refusal, Vec::new()),
            Ok(records) => (0, records),
        };
        let wanted = bytes::found(answer, &records);
        let of = format_args!("of {length} {side:?}, block {number}, {contents:?}");
        self.same(17, of, found, bytes::to(&wanted));
        self.same(17, "bytes", bytes::of(&found) == wanted, true);
        self.same(17, of, self.page.contents(side, length), contents);
        self.same(
            17,
            "memory around the area",
            self.page.intact(side, length),
            true,
        );
        answer
    }

    /// A table goes by value, from a page that can't be written meanwhile.
    pub(super) fn under(&mut self, r: &mut Rng) -> u32 {
        let (side, priority) = (any_side(r), any_priority(r));
        let contents = any_priorities(r);
        let at = self.page.lend(side, &contents, r.bits() as u8);
        let at = at.cast::<PriorityTable>();
        let found = self.page.read_only(|| {
            // SAFETY: the page holds the table, whose start is aligned on both sides: 248 bytes.
            unsafe { raw::mtr_by_value_priority_under(*at, priority) }
        });

        let table = to_model_table(&bytes::to(&contents));
        let wanted = asked(&table, priority);
        let of = format_args!("{priority} {table:?}");
        self.same(18, of, found, to_library_line(wanted));
        self.same(18, "bytes", bytes::of(&found) == bytes::line(&wanted), true);
        let after = self.page.contents(side, contents.len());
        self.same(18, "the table afterwards", after, &contents);
        let intact = self.page.intact(side, contents.len());
        self.same(18, "memory around the table", intact, true);
        self.tables.line(&table, priority, wanted);
        self.standard += (table == standard()) as u64;
        wanted.answer
    }
}

fn entry(bytes: &[u8]) -> model::accounts::Entry {
    to_model_entry(&bytes::to(bytes))
}
