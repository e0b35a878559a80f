//! The scheduler with its journal.

use std::fs::File;
use std::io::{self, stdout, BufWriter, Stdout, Write};

use mtr::{blocks, Dispatch, Entry, Event, Refusal, Scheduler, ThreadState};

/// What a thread used beyond its allotment, and the allotment that it then had:
/// its quantum less the debt.
#[derive(Clone, Copy, Default)]
pub struct Debt {
    pub owed: i32,
    pub left: i32,
}

/// A stretch in which readout is runnable and has the same reservation: the
/// ticks of all threads in it, and readout's own.
#[derive(Clone, Copy, Default)]
pub struct Stretch {
    pub reservation: u16,
    pub all: u64,
    pub own: u64,
}

/// What a best-effort thread had of the time that the reserved ones left.
pub struct Spare {
    pub thread: u8,
    pub weight: u16,
    pub ticks: u64,
}

/// A part in thousandths of the whole, to the nearest, half to even, as the
/// roster has its shares; 0 of nothing.
fn thousandths(part: u64, whole: u64) -> u64 {
    if whole == 0 {
        return 0;
    }
    let (quotient, rest) = (1000 * part / whole, 1000 * part % whole);
    let stays = 2 * rest < whole || (2 * rest == whole && quotient % 2 == 0);
    quotient + u64::from(!stays)
}

/// Makes calls, journals each one and prints its answer.
pub struct Host {
    scheduler: Scheduler,
    journal: BufWriter<File>,
    out: BufWriter<Stdout>,
    /// Events of the block that is being filled, and its number.
    events: Vec<Event>,
    block: u32,
    /// Number of the next record.
    record: u64,
}

impl Host {
    pub fn new(journal: File) -> Host {
        Host {
            scheduler: Scheduler::default(),
            journal: BufWriter::new(journal),
            out: BufWriter::new(stdout()),
            events: Vec::with_capacity(blocks::RECORDS),
            block: 0,
            record: 0,
        }
    }

    /// Makes the event's call. The error is the journal's or the output's; what
    /// the scheduler answers is the value.
    pub fn call(&mut self, event: Event) -> io::Result<Result<Option<Dispatch>, Refusal>> {
        let answer = self.scheduler.call(event);
        self.events.push(event);
        if self.events.len() == blocks::RECORDS {
            self.flush_block()?;
        }
        let (number, thread, slice, before) = match answer {
            Err(refusal) => (refusal.number(), 0, 0, 0),
            Ok(None) => (0, 0, 0, 0),
            Ok(Some(Dispatch::Idle { before })) => (0, 64, 0, before),
            Ok(Some(Dispatch::Run {
                thread,
                slice,
                before,
            })) => (0, thread, slice, before),
        };
        let record = self.record;
        writeln!(self.out, "{record} {number} {thread} {slice} {before}")?;
        self.record += 1;
        Ok(answer)
    }

    /// Makes a call that the host relies on: a refusal is an error.
    pub fn accepted(&mut self, event: Event) -> io::Result<Option<Dispatch>> {
        self.call(event)?.map_err(io::Error::other)
    }

    /// Ticks left of a thread's quantum.
    pub fn allotment(&self, thread: usize) -> i32 {
        self.scheduler.as_raw().threads[thread].allotment
    }

    /// Writes the events held as the next block.
    fn flush_block(&mut self) -> io::Result<()> {
        let mut area = [0; blocks::BYTES];
        blocks::write(&mut area, self.block, &self.events).map_err(io::Error::other)?;
        self.journal.write_all(&area)?;
        self.block += 1;
        self.events.clear();
        Ok(())
    }

    /// Writes the last block and prints the roster.
    pub fn finish(&mut self) -> io::Result<()> {
        if !self.events.is_empty() {
            self.flush_block()?;
        }
        self.journal.flush()?;
        let mut table = [Entry::default(); 64];
        let roster = self.scheduler.roster(&mut table);
        for entry in roster.map_err(io::Error::other)? {
            let state = match entry.state {
                ThreadState::Runnable => "runnable",
                ThreadState::Blocked => "blocked",
                ThreadState::Running => "running",
            };
            let (thread, allotment) = (entry.thread, entry.allotment);
            let (lag, share) = (entry.lag, entry.share);
            writeln!(
                self.out,
                "roster {thread} {state} {allotment} {lag} {share}"
            )?;
        }
        Ok(())
    }

    /// Prints the debts by thread, for each stretch readout's reservation, the
    /// ticks of all threads and readout's thousandths of them, and for each
    /// best-effort thread its weight, its ticks, its thousandths of such ticks and
    /// its weight's of the weights.
    pub fn print_figures(
        &mut self,
        debts: &[Debt],
        stretches: &[Stretch],
        spares: &[Spare],
    ) -> io::Result<()> {
        for (thread, debt) in debts.iter().enumerate() {
            if debt.owed > 0 {
                writeln!(self.out, "debt {thread} {} {}", debt.owed, debt.left)?;
            }
        }
        for stretch in stretches {
            let (reservation, all) = (stretch.reservation, stretch.all);
            let share = thousandths(stretch.own, all);
            writeln!(self.out, "readout {reservation} {all} {share}")?;
        }
        let all = spares.iter().map(|spare| spare.ticks).sum();
        let weights = spares.iter().map(|spare| u64::from(spare.weight)).sum();
        for spare in spares {
            let (thread, weight, ticks) = (spare.thread, spare.weight, spare.ticks);
            let share = thousandths(ticks, all);
            let due = thousandths(weight.into(), weights);
            writeln!(
                self.out,
                "best-effort {thread} {weight} {ticks} {share} {due}"
            )?;
        }
        self.out.flush()
    }
}

#[cfg(test)]
mod tests {
    use super::thousandths;

    /// Twice the distance is at most the whole, and where it is the whole the
    /// number is even.
    #[test]
    fn rounds_to_the_nearest() {
        assert_eq!(thousandths(0, 0), 0);
        assert_eq!((thousandths(1, 2000), thousandths(3, 2000)), (0, 2));
        for whole in 1..=300 {
            for part in 0..=whole {
                let shown = thousandths(part, whole);
                let twice = 2 * (shown * whole).abs_diff(1000 * part);
                let even = shown.is_multiple_of(2);
                assert!(twice < whole || twice == whole && even, "{part} of {whole}");
            }
        }
    }
}
