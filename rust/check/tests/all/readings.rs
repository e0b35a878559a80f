//! The two readings of `mtrsum`: reads that give less than was asked for or fail, a journal that is changed between the readings or while
//! one goes on, and writes that fail. What was written by then is a front of the summary, from which an answer is the right one, 24 or 17.

use check::program::{asked, mtrsum, Folder};
use check::traced::{traced, Call, Stop, Then, EIO, ENOSPC};
use check::usage;
use model::blocks::BLOCK;
use model::usage::{ask, counts, lines, summary, Question};
use samples::random::{any_question, long, Rng};
use samples::records::block;
use std::collections::BTreeMap;
use std::fs::{self, File};
use std::os::unix::fs::FileExt;
use std::path::Path;

/// What is said of a journal that became another, of a read or a seek that failed, and of a full disk.
const CHANGED: &str = "mtrsum: journal: changed while it was read\n";
const UNREAD: &str = "mtrsum: journal: Input/output error\n";
const FULL: &str = "mtrsum: standard output: No space left on device\n";

/// Bytes of a piece: `mtrsum` reads 32 blocks at a time.
const PIECE: usize = 32 * BLOCK;

/// A journal of 100 blocks, so of four pieces, and its summary.
struct Case {
    folder: Folder,
    journal: Vec<u8>,
    summary: Vec<u8>,
}

impl Case {
    fn new(name: &str) -> Case {
        let journal = long(&mut Rng::new(98), 100).concat();
        let summary = summary(&journal).unwrap();
        Case {
            folder: Folder::new(name),
            journal,
            summary,
        }
    }

    /// What is written and said of a journal while `at` is asked at each stop.
    fn run(&self, journal: &[u8], mut at: impl FnMut(Stop, &Path) -> Then) -> (Vec<u8>, String) {
        let path = self.folder.file("journal", journal);
        let mut command = mtrsum();
        command.arg(&path);
        let out = self.folder.join("out");
        traced(command, &path, &out, |stop| at(stop, &path))
    }

    /// The same, where the file is changed once, at this stop.
    fn changed(&self, call: Call, before: usize, change: impl Fn(&Path)) -> (Vec<u8>, String) {
        let mut made = 0;
        let found = self.run(&self.journal, |stop, path| {
            if (stop.call, stop.before) == (call, before) {
                change(path);
                made += 1;
            }
            Then::Goes
        });
        assert_eq!(made, 1);
        found
    }

    /// The summary of the pieces before this byte of the journal.
    fn front(&self, byte: usize) -> Vec<u8> {
        self.summary[..2 * (byte / PIECE * PIECE)].to_vec()
    }

    /// From a front of the summary each answer is the one from all of it, 24 or 17; how often each of the three is.
    fn answers(&self, front: &[u8], seen: &mut BTreeMap<&'static str, usize>) {
        assert!(self.summary.starts_with(front));
        let (mut r, counts) = (Rng::new(99), counts(&self.journal).unwrap());
        let mut questions: Vec<Question> = Vec::new();
        // Half of them at the end of the front.
        let last = front.len() as u64 / 1024;
        for _ in 0..32 {
            questions.push(any_question(&mut r, &counts));
            questions.push(Question {
                thread: r.below(64),
                first: 0,
                second: last - r.below(2).min(last),
            });
        }
        let path = self.folder.file("front", front);
        let wanted: Vec<_> = questions.iter().map(|q| ask(front, q)).collect();
        assert_eq!(asked(&path, &questions), lines(&wanted));
        for (q, answer) in questions.iter().zip(wanted) {
            let sort = match answer {
                Err(17) => "17",
                Err(24) => "24",
                _ => "right",
            };
            assert!(sort != "right" || answer == ask(&self.summary, q), "{q:?}");
            *seen.entry(sort).or_default() += 1;
        }
    }
}

/// Takes the bytes of a reading in pieces of these lengths, again and again, and fails after so many.
struct Drip {
    lengths: Vec<usize>,
    left: usize,
}

impl Drip {
    fn at(&mut self, stop: Stop) -> Then {
        if self.left == 0 {
            return Then::Fails(EIO);
        }
        let some = self.lengths[stop.before % self.lengths.len()];
        let takes = some.min(self.left);
        self.left -= takes.min(stop.length);
        Then::Takes(takes)
    }
}

/// Reads and writes that give and take less than they were asked for.
#[test]
fn odd_lengths() {
    let case = Case::new("odd-lengths");
    let mut r = Rng::new(100);
    for _ in 0..6 {
        let lengths: Vec<usize> = (0..9).map(|_| r.edgy(1, 3000) as usize).collect();
        let found = case.run(&case.journal, |stop, _| match stop.call {
            Call::Seek => Then::Goes,
            _ => Then::Takes(lengths[stop.before % 9]),
        });
        let wanted = (case.summary.clone(), String::new());
        assert!(found == wanted, "{lengths:?}: {}", found.1);
    }
}

/// In the first reading nothing is written: a refused block before the failure is told, and else the failure is said. Where nothing was
/// read it is 4.
#[test]
fn read_that_fails_in_the_first_reading() {
    let case = Case::new("first-reading");
    let mut told = BTreeMap::<String, usize>::new();
    for bad in [None, Some(0), Some(31), Some(33)] {
        let mut journal = case.journal.clone();
        if let Some(place) = bad {
            journal[BLOCK * place + 100] ^= 1;
        }
        for bytes in [
            0, 1, 511, 512, 513, 16383, 16384, 17407, 17408, 17409, 51199, 51200,
        ] {
            let mut drip = Drip {
                lengths: vec![1 << 20, 700],
                left: bytes,
            };
            let found = case.run(&journal, |stop, _| match stop.call {
                Call::Read => drip.at(stop),
                _ => Then::Goes,
            });
            let wanted = match usage::cut(&journal, bytes) {
                Some(line) => (line, ""),
                None => (Vec::new(), UNREAD),
            };
            assert_eq!((found.0.clone(), &found.1[..]), wanted, "{bad:?}, {bytes}");
            let printed = String::from_utf8(found.0).unwrap();
            *told.entry(printed).or_default() += 1;
        }
    }
    println!("{told:?}");
    assert_eq!(told.len(), 3);
}

/// In the second reading what was read whole has been written.
#[test]
fn read_that_fails_in_the_second_reading() {
    let case = Case::new("second-reading");
    let mut seen = BTreeMap::new();
    for bytes in [0, 1, 512, 16383, 16384, 16385, 40_000, 49152, 51199] {
        let mut drip = Drip {
            lengths: vec![1 << 20, 700],
            left: bytes,
        };
        let mut second = false;
        let found = case.run(&case.journal, |stop, _| match stop.call {
            Call::Read if second => drip.at(stop),
            Call::Seek => {
                second = stop.before == 1;
                Then::Goes
            }
            _ => Then::Goes,
        });
        assert!(
            found == (case.front(bytes), UNREAD.into()),
            "{bytes}: {}",
            found.1
        );
        case.answers(&found.0, &mut seen);
    }
    println!("{seen:?}");
    assert!(seen.len() == 2 && seen["right"] > 20, "{seen:?}");
}

/// A journal without a start to go back to is a bad argument; where that is known after the first reading it is said.
#[test]
fn seek_that_fails() {
    let case = Case::new("seek");
    for (fails, wanted) in [(0, ("4\n", "")), (1, ("", UNREAD))] {
        let found = case.run(&case.journal, |stop, _| match stop.call {
            Call::Seek if stop.before == fails => Then::Fails(EIO),
            _ => Then::Goes,
        });
        let printed = String::from_utf8(found.0).unwrap();
        assert_eq!((&printed[..], &found.1[..]), wanted);
    }
}

fn cut(path: &Path, length: usize) {
    let file = File::options().write(true).open(path).unwrap();
    file.set_len(length as u64).unwrap();
}

fn overwrite(path: &Path, at: usize, bytes: &[u8]) {
    let file = File::options().write(true).open(path).unwrap();
    file.write_all_at(bytes, at as u64).unwrap();
}

/// The first reads of the pieces in the second reading. The first reading has one more, at its end.
const SECOND: [usize; 4] = [5, 6, 7, 8];

/// A journal that is shorter at the second reading, or has a block that is refused.
#[test]
fn journal_that_shrinks_or_is_damaged() {
    let case = Case::new("shrinks");
    let mut seen = BTreeMap::new();
    let mut stops = vec![(Call::Seek, 1, 0)];
    stops.extend(SECOND.map(|n| (Call::Read, n, (n - SECOND[0]) * PIECE)));
    for (call, before, done) in stops {
        for at in [0, 1, 512, 16383, 16384, 16385, 33_000, 49152, 51199] {
            // What was read before stays read.
            let front = case.front(at.max(done));
            let found = case.changed(call, before, |path| cut(path, at));
            assert!(
                found == (front.clone(), CHANGED.into()),
                "{call:?} {before}, {at}"
            );
            case.answers(&found.0, &mut seen);
            if at >= done {
                let other = case.journal[at] ^ 1;
                let found = case.changed(call, before, |path| overwrite(path, at, &[other]));
                assert!(found == (front, CHANGED.into()), "{call:?} {before}, {at}");
            }
        }
    }
    println!("{seen:?}");
    assert!(seen.len() == 2 && seen["right"] > 100, "{seen:?}");
    // Behind it nothing matters.
    let found = case.changed(Call::Read, SECOND[2], |path| {
        overwrite(path, 0, &[1; PIECE])
    });
    assert!(
        found == (case.summary.clone(), String::new()),
        "{}",
        found.1
    );
}

/// A journal that has grown at the second reading gives the summary of what was judged; one that was taken away or replaced is read on.
#[test]
fn journal_that_grows() {
    let case = Case::new("grows");
    let whole = (case.summary.clone(), String::new());
    let more = block(100, &[]);
    for tail in [&more[..], &more[..100], &[7; 1], &[7; 3 * PIECE]] {
        for (call, before) in [
            (Call::Seek, 1),
            (Call::Read, SECOND[0]),
            (Call::Read, SECOND[3]),
        ] {
            let found = case.changed(call, before, |path| overwrite(path, 51200, tail));
            assert!(found == whole, "{call:?} {before}: {}", found.1);
        }
    }
    for (call, before) in [(Call::Seek, 1), (Call::Read, SECOND[1])] {
        let gone = case.changed(call, before, |path| fs::remove_file(path).unwrap());
        assert!(gone == whole, "{}", gone.1);
    }
    let replaced = case.changed(Call::Seek, 1, |path| {
        fs::rename(case.folder.file("other", b"other"), path).unwrap();
    });
    assert!(replaced == whole, "{}", replaced.1);
    // What comes while it is judged is judged.
    let longer = [&case.journal[..], &more].concat();
    let found = case.changed(Call::Read, 2, |path| overwrite(path, 51200, &more));
    assert!(found == (summary(&longer).unwrap(), String::new()));
    let found = case.changed(Call::Read, 2, |path| overwrite(path, 51200, &[7; 600]));
    assert_eq!(found, (b"18\n".to_vec(), String::new()));
    let found = case.changed(Call::Read, 2, |path| cut(path, 70 * BLOCK));
    let shorter = &case.journal[..70 * BLOCK];
    assert!(found == (summary(shorter).unwrap(), String::new()));
    // Of what was judged by then four blocks are missing.
    let found = case.changed(Call::Read, 2, |path| cut(path, 60 * BLOCK));
    assert!(found == (case.front(60 * BLOCK), CHANGED.into()));
}

/// A disk that becomes full, at times in the middle of a block.
#[test]
fn write_that_fails() {
    let case = Case::new("full");
    let mut seen = BTreeMap::new();
    for bytes in [
        1, 511, 512, 513, 1024, 1536, 32768, 33_000, 65536, 70_000, 102_399,
    ] {
        let mut left = bytes;
        let found = case.run(&case.journal, |stop, _| match stop.call {
            Call::Write if left == 0 => Then::Fails(ENOSPC),
            Call::Write => {
                let takes = left.min(stop.length);
                left -= takes;
                Then::Takes(takes)
            }
            _ => Then::Goes,
        });
        assert!(
            found == (case.summary[..bytes].to_vec(), FULL.into()),
            "{bytes}: {}",
            found.1
        );
        case.answers(&found.0, &mut seen);
    }
    println!("{seen:?}");
    assert!(
        seen.len() == 3 && seen.values().all(|&n| n > 20),
        "{seen:?}"
    );
}
