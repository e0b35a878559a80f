//! Text to blocks.

use crate::codec::{self, answer, kind, Record, BLOCK, RECORDS};
use crate::progress::Progress;
use crate::words;

use super::form::get_record;
use super::line::{end, number, shown, without_mark, words_of, Words};
use super::{Problem, BLOCK_LINE, DAMAGED_LINE, HEX_LINE, PROBLEMS};

const NOT_TEXT: &str = "this is not text (journal decode makes text of blocks)";

/// What the lines since the last end of a block belong to.
enum Open {
    Nothing,
    /// Records; begun by a line or by its first record.
    Block {
        records: Vec<Record>,
        by_line: bool,
    },
    /// Bytes of a damaged block, with the line, place and refusal that head
    /// them.
    Damaged {
        line: u64,
        refusal: u32,
        bytes: Vec<u8>,
    },
}

/// Text on its way to blocks.
struct Encoder {
    pack: bool,
    blocks: Vec<u8>,
    /// Place of the next block to be written.
    place: u64,
    open: Open,
    /// Line of a short block, after which nothing may stand.
    short: Option<u64>,
    problems: Vec<Problem>,
    line: u64,
}

impl Encoder {
    fn problem(&mut self, line: u64, message: String) {
        self.problems.push(Problem { line, message });
    }

    /// Writes what is open.
    fn close(&mut self) {
        match std::mem::replace(&mut self.open, Open::Nothing) {
            Open::Nothing => return,
            Open::Block { records, .. } => self.close_block(&records),
            Open::Damaged {
                line,
                refusal,
                bytes,
            } => self.close_damaged(line, refusal, &bytes),
        }
        self.place += 1;
    }

    fn close_block(&mut self, records: &[Record]) {
        let written = u32::try_from(self.place)
            .map_err(|_| answer::FORM)
            .and_then(|number| codec::write(number, records));
        match written {
            Ok(block) => self.blocks.extend_from_slice(&block),
            Err(refusal) => {
                let message = format!("block {} has no form ({refusal})", self.place);
                self.problem(self.line, message);
            }
        }
    }

    /// The bytes must be refused as the line says.
    fn close_damaged(&mut self, line: u64, refusal: u32, bytes: &[u8]) {
        let place = self.place;
        let wrong = if bytes.is_empty() || bytes.len() > BLOCK {
            Some(format!(
                "damaged block {place} has {} bytes; 1 to 512 are expected",
                bytes.len()
            ))
        } else {
            match codec::read(bytes, place) {
                Ok(_) => Some(format!("the bytes of block {place} are not damaged")),
                Err(found) if found != refusal => Some(format!(
                    "block {place} is refused with {found} ({}), not {refusal}",
                    words::damage(found)
                )),
                Err(_) => None,
            }
        };
        if let Some(message) = wrong {
            self.problem(line, message);
        }
        if bytes.len() < BLOCK {
            self.short = Some(line);
        }
        self.blocks.extend_from_slice(bytes);
    }

    /// Nothing follows a short block.
    fn may_begin(&self) -> Result<(), String> {
        match self.short {
            Some(line) => Err(format!(
                "the block of line {line} has fewer than 512 bytes and must be the last"
            )),
            None => Ok(()),
        }
    }

    fn record(&mut self, record: Record) -> Result<(), String> {
        if let Open::Block { records, by_line } = &mut self.open {
            if records.len() < RECORDS {
                records.push(record);
                return Ok(());
            }
            if *by_line {
                return Err(format!(
                    "block {} is full, it has {RECORDS} records (encode --pack packs them anew)",
                    self.place
                ));
            }
        }
        self.close();
        self.may_begin()?;
        self.open = Open::Block {
            records: vec![record],
            by_line: false,
        };
        Ok(())
    }

    fn block_line(&mut self, words: &mut Words) -> Result<(), String> {
        let stated = match words.next() {
            None => None,
            word => Some(number(word, "the block", u32::MAX as u64)?),
        };
        end(words)?;
        if self.pack {
            return Ok(());
        }
        self.close();
        self.may_begin()?;
        self.open = Open::Block {
            records: Vec::new(),
            by_line: true,
        };
        match stated {
            Some(stated) if stated != self.place => Err(format!(
                "block {stated} stands in the place of block {}",
                self.place
            )),
            _ => Ok(()),
        }
    }

    fn damaged_line(&mut self, words: &mut Words) -> Result<(), String> {
        let stated = number(words.next(), "the block", u64::MAX)?;
        let refusal = number(words.next(), "the refusal", 19)? as u32;
        end(words)?;
        self.close();
        self.may_begin()?;
        self.open = Open::Damaged {
            line: self.line,
            refusal,
            bytes: Vec::new(),
        };
        if self.pack {
            return Err("a damaged block has no records to pack anew".into());
        }
        if stated != self.place {
            return Err(format!(
                "damaged block {stated} stands in the place of block {}",
                self.place
            ));
        }
        Ok(())
    }

    fn hex_line(&mut self, words: &mut Words) -> Result<(), String> {
        let Open::Damaged { bytes, .. } = &mut self.open else {
            return Err("'hex' belongs under a line 'damaged'".into());
        };
        let digit = |c: u8| (c as char).to_digit(16).map(|d| d as u8);
        for word in words {
            if !word.iter().all(u8::is_ascii_hexdigit) {
                return Err(format!("{} are not hexadecimal digits", shown(word)));
            }
            if word.len() % 2 != 0 {
                return Err(format!("{} has half a byte at its end", shown(word)));
            }
            for pair in word.chunks_exact(2) {
                if let (Some(high), Some(low)) = (digit(pair[0]), digit(pair[1])) {
                    bytes.push(high << 4 | low);
                }
            }
        }
        Ok(())
    }

    fn line(&mut self, line: &[u8]) -> Result<(), String> {
        let mut words = words_of(line);
        let Some(word) = words.next() else {
            return Ok(());
        };
        match get_record(word, &mut words) {
            Some(Ok(record)) => self.record(record),
            Some(Err(message)) => {
                // Counts as a record, for the sake of the lines after it.
                let stand_in = Record {
                    kind: kind::DISPATCH,
                    ..Record::default()
                };
                let _ = self.record(stand_in);
                Err(format!("{}: {message}", String::from_utf8_lossy(word)))
            }
            None if word == BLOCK_LINE.as_bytes() => self.block_line(&mut words),
            None if word == DAMAGED_LINE.as_bytes() => self.damaged_line(&mut words),
            None if word == HEX_LINE.as_bytes() => self.hex_line(&mut words),
            None if !word.iter().all(|b| b.is_ascii_graphic() || *b >= 0x80) => {
                Err(NOT_TEXT.into())
            }
            None => Err(format!(
                "{} begins no line: start, open, close, admit, remove, wake, change, dispatch, \
                 report, block, damaged or hex does",
                shown(word)
            )),
        }
    }
}

/// The blocks of a text, or what is wrong with it, first line first. Records
/// outside any `block` line are packed, 31 to a block; with `pack` all of them
/// are, whatever the `block` lines say. The first block has the number given.
pub fn encode(
    text: &[u8],
    first: u64,
    pack: bool,
    progress: &mut Progress,
) -> Result<Vec<u8>, Vec<Problem>> {
    let text = without_mark(text);
    let mut encoder = Encoder {
        pack,
        blocks: Vec::new(),
        place: first,
        open: Open::Nothing,
        short: None,
        problems: Vec::new(),
        line: 0,
    };
    let mut done = 0;
    for line in text.split(|&b| b == b'\n') {
        progress.at(done, Some(text.len() as u64));
        done += line.len() as u64 + 1;
        encoder.line += 1;
        if let Err(message) = encoder.line(line) {
            let hopeless = message == NOT_TEXT;
            encoder.problem(encoder.line, message);
            if hopeless || encoder.problems.len() >= PROBLEMS {
                break;
            }
        }
    }
    encoder.close();
    if encoder.problems.is_empty() {
        return Ok(encoder.blocks);
    }
    encoder.problems.sort_by_key(|problem| problem.line);
    encoder.problems.truncate(PROBLEMS);
    Err(encoder.problems)
}
