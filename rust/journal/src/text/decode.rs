//! Blocks to text, bare and with the answers.

use std::collections::BTreeMap;
use std::io::{self, Write};
use std::ops::ControlFlow;

use crate::codec::{self, answer, kind, Record, BLOCK, RECORD, RECORDS};
use crate::engine::{Class, Engine, Proved, Reply};
use crate::playback::{play, Journal, Step};
use crate::progress::Progress;
use crate::words;

use super::form::put_record;
use super::line::without_control;
use super::{Tally, BLOCK_LINE, DAMAGED_LINE, HEX_LINE};

/// Appends the lines of a damaged block: the 14 bytes before the records, 16
/// bytes for each record and the 2 of the check, as far as there are any.
fn put_damaged(out: &mut Vec<u8>, place: u64, refusal: u32, bytes: &[u8], note: &str) {
    let _ = writeln!(
        out,
        "{DAMAGED_LINE} {place} {refusal} # {note}{}",
        words::damage(refusal)
    );
    let (head, rest) = bytes.split_at(bytes.len().min(BLOCK - 2 - RECORDS * RECORD));
    for part in std::iter::once(head).chain(rest.chunks(RECORD)) {
        out.extend_from_slice(HEX_LINE.as_bytes());
        out.push(b' ');
        for byte in part {
            let _ = write!(out, "{byte:02x}");
        }
        out.push(b'\n');
    }
}

/// Text is handed on once it is as long as this.
const CHUNK: usize = 64 * 1024;

/// Text on its way out.
struct Text<'w, W: Write> {
    held: Vec<u8>,
    out: &'w mut W,
    tally: Tally,
}

impl<'w, W: Write> Text<'w, W> {
    /// Begins with a line that says which blocks are missing, if some are.
    fn new(out: &'w mut W, journal: Journal) -> Text<'w, W> {
        let mut held = Vec::with_capacity(CHUNK + 4096);
        if journal.first > 0 {
            let (first, last) = (journal.first, journal.first - 1);
            // Writing to a vector does not fail.
            let _ = writeln!(
                held,
                "# blocks 0 to {last} are missing; encode with --first-block {first}"
            );
        }
        Text {
            held,
            out,
            tally: Tally::default(),
        }
    }

    fn block(&mut self, place: u64) {
        self.tally.blocks += 1;
        let _ = writeln!(self.held, "{BLOCK_LINE} {place}");
    }

    fn damaged(&mut self, place: u64, refusal: u32, bytes: &[u8], note: &str) {
        self.tally.damage(place, refusal);
        put_damaged(&mut self.held, place, refusal, bytes, note);
    }

    /// Hands on what is held once there is enough of it.
    fn hand_on(&mut self) -> io::Result<()> {
        if self.held.len() >= CHUNK {
            self.out.write_all(&self.held)?;
            self.held.clear();
        }
        Ok(())
    }

    fn finish(self) -> io::Result<Tally> {
        self.out.write_all(&self.held)?;
        Ok(self.tally)
    }
}

/// Writes a journal as text.
pub fn decode(
    journal: Journal,
    out: &mut impl Write,
    progress: &mut Progress,
) -> io::Result<Tally> {
    let mut text = Text::new(out, journal);
    for (place, bytes) in journal.blocks() {
        journal.tell(place, progress);
        match codec::read(bytes, place) {
            Ok(records) => {
                text.block(place);
                for record in &records {
                    put_record(&mut text.held, record);
                    text.held.push(b'\n');
                }
            }
            Err(refusal) => text.damaged(place, refusal, bytes, ""),
        }
        text.hand_on()?;
    }
    text.finish()
}

/// Column of the answers in [`run`].
const ANSWERS: usize = 42;

/// Lines of comment below records, by the records' numbers.
pub type Notes = BTreeMap<u64, Vec<String>>;

/// Writes a journal as text with a comment at each record: the five numbers
/// that `mtrrun` prints for it, and in words why it was refused, how far a report
/// overran its slice, or that a dispatch was idle or took a best-effort thread;
/// below it its notes. Work ends with the first piece that can't be written.
pub fn run(
    journal: Journal,
    notes: &Notes,
    out: &mut impl Write,
    progress: &mut Progress,
) -> io::Result<Tally> {
    let mut text = Text::new(out, journal);
    let _ = writeln!(text.held, "# {}", Proved::SAYS);
    let mut written = Ok(());
    play::<Proved>(journal, progress, |step, engine| {
        match step {
            Step::Block { place } => text.block(place),
            Step::Record {
                number,
                record,
                reply,
                overrun,
            } => {
                let why = match (reply.answer, overrun) {
                    (answer::ACCEPTED, 0) if record.kind == kind::DISPATCH => chosen(engine).into(),
                    (answer::ACCEPTED, 0) => String::new(),
                    (answer::ACCEPTED, ticks) => format!("{ticks} beyond the slice"),
                    (refusal, _) => words::refusal(&record, refusal, engine).into(),
                };
                put_answered(&mut text.held, number, &record, &reply, &why);
                for note in notes.get(&number).into_iter().flatten() {
                    put_note(&mut text.held, note);
                }
            }
            Step::Damaged {
                place,
                refusal,
                bytes,
            } => {
                let note = format!("block {place} {refusal} ");
                text.damaged(place, refusal, bytes, &note);
            }
        }
        written = text.hand_on();
        match written {
            Ok(()) => ControlFlow::Continue(()),
            Err(_) => ControlFlow::Break(()),
        }
    });
    written?;
    text.finish()
}

/// What a dispatch chose, in a word, where it was no reserved thread.
fn chosen(engine: &impl Engine) -> &'static str {
    match engine.running().map(|thread| engine.class(thread)) {
        None => "idle",
        Some(Some(Class::BestEffort { .. })) => "best-effort",
        Some(_) => "",
    }
}

/// Appends a record's line with what it was answered, and more in words.
fn put_answered(text: &mut Vec<u8>, number: u64, record: &Record, reply: &Reply, why: &str) {
    let line = text.len();
    put_record(text, record);
    let pad = ANSWERS.saturating_sub(text.len() - line);
    text.resize(text.len() + pad, b' ');
    let _ = write!(
        text,
        " # {number} {} {} {} {}",
        reply.answer, reply.thread, reply.slice, reply.before
    );
    if !why.is_empty() {
        let _ = write!(text, " {why}");
    }
    text.push(b'\n');
}

/// Appends a line that is a comment alone, below the answers.
fn put_note(text: &mut Vec<u8>, note: &str) {
    text.resize(text.len() + ANSWERS, b' ');
    let _ = writeln!(text, " # {}", without_control(note));
}
