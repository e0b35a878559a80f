//! A journal that fills the meter: 20 million records, 330 MB, made as they are read. Its last dispatches answer 15. Its one thread is a
//! best-effort one of weight 1, whose tag is then 720,720 times the meter, as great as a tag can be.

use check::program::{mtrwhy, root, silent};
use model::blocks::{write_block, Record, BLOCK, RECORDS};
use samples::records::{admit_weight, dispatch, report, start, TICK, YIELD};
use std::io::{Read, Write};
use std::process::{ChildStdin, Command, Stdio};

/// Reports, all accepted: the first of 999,999 ticks, the last of 1,000,999 and the others of 1,000,000. Before the last the meter is at
/// 10^13 − 1.
const REPORTS: u64 = 10_000_001;

/// Records in all: start, admit, a dispatch before each report, and two dispatches more.
const ALL: u64 = 2 + 2 * REPORTS + 2;

/// The record of a number.
fn nth(n: u64) -> Record {
    match n {
        0 => start(1000, 1_000_000, 999),
        1 => admit_weight(0, 1),
        _ if n.is_multiple_of(2) || n >= ALL - 2 => dispatch(),
        3 => report(YIELD, 999_999),
        _ if n / 2 == REPORTS => report(TICK, 1_000_999),
        _ => report(TICK, 1_000_000),
    }
}

/// Writes the journal, or as much as is read.
fn feed(mut to: ChildStdin) {
    let mut blocks = Vec::new();
    for place in 0..ALL.div_ceil(RECORDS as u64) {
        let first = RECORDS as u64 * place;
        let numbers = first..ALL.min(first + RECORDS as u64);
        let records: Vec<Record> = numbers.map(nth).collect();
        let mut block = [0; BLOCK];
        assert_eq!(write_block(&mut block, place as u32, &records), 0);
        blocks.extend(block);
        if blocks.len() >= 1 << 16 {
            if to.write_all(&blocks).is_err() {
                return;
            }
            blocks.clear();
        }
    }
    let _ = to.write_all(&blocks);
}

/// The first dispatch that is not accepted.
#[test]
fn cause() {
    let mut child = mtrwhy()
        .args(["/dev/stdin", &(ALL - 2).to_string()])
        .stdin(Stdio::piped())
        .stdout(Stdio::piped())
        .stderr(Stdio::piped())
        .spawn()
        .unwrap();
    feed(child.stdin.take().unwrap());
    let found = silent(child.wait_with_output().unwrap());
    assert_eq!(found, b"15 10000001000998\n");
}

/// The last lines of the replay.
#[test]
fn lines() {
    let mut child = Command::new(root().join("target/bin/mtrrun"))
        .stdin(Stdio::piped())
        .stdout(Stdio::piped())
        .spawn()
        .unwrap();
    let (to, mut from) = (child.stdin.take().unwrap(), child.stdout.take().unwrap());
    let mut last = Vec::new();
    std::thread::scope(|scope| {
        scope.spawn(|| feed(to));
        let mut buffer = vec![0; 1 << 16];
        loop {
            let count = from.read(&mut buffer).unwrap();
            if count == 0 {
                break;
            }
            last.extend(&buffer[..count]);
            last.drain(..last.len().saturating_sub(200));
        }
    });
    assert!(child.wait().unwrap().success());
    let wanted =
        "\n20000002 0 0 1000000 0\n20000003 0 0 0 0\n20000004 15 0 0 0\n20000005 15 0 0 0\n";
    let last = String::from_utf8(last).unwrap();
    assert!(last.ends_with(wanted), "{last}");
}
