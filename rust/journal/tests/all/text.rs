//! Text to blocks and back, and what `run` says beside each record.

use journal::codec::BLOCK;
use journal::playback::Journal;
use journal::progress::Progress;
use journal::text::{self, Notes, Problem, PROBLEMS};
use samples::examples;
use samples::random::{any_record, Rng};
use samples::records::{self, *};

use crate::common::{comments, decode, encode, encoded, listing, printed, ran};

fn pack(text: &str) -> Result<Vec<u8>, Vec<Problem>> {
    text::encode(text.as_bytes(), 0, true, &mut Progress::silent())
}

/// The problem of a text that is wrong in one line only.
fn problem(text: &str) -> (u64, String) {
    let mut problems = encoded(text).unwrap_err();
    assert_eq!(problems.len(), 1, "{problems:?}");
    let Problem { line, message } = problems.remove(0);
    (line, message)
}

/// How many records each block has.
fn counts(journal: &[u8]) -> Vec<u8> {
    journal.chunks(BLOCK).map(|block| block[4]).collect()
}

/// Each text gives its journal, `run` has its numbers, and `decode` its records.
#[test]
fn the_worked_examples() {
    for example in examples::all() {
        let name = example.name;
        let journal = encode(example.text);
        assert!(journal == example.journal(), "{name}");
        let text = ran(Journal::whole(&journal), &Notes::new());
        assert_eq!(printed(&text), example.printed(), "{name}");
        let lines = example.text.lines().map(|line| line.split('#').next());
        let lines = lines.filter_map(|line| Some(line?.trim_end()));
        let lines: Vec<&str> = lines.filter(|line| !line.is_empty()).collect();
        let blocks = (0..).zip(lines.chunks(31));
        let blocks = blocks.map(|(n, lines)| format!("block {n}\n{}\n", lines.join("\n")));
        assert_eq!(decode(&journal), blocks.collect::<String>(), "{name}");
    }
}

#[test]
fn every_kind_has_its_line() {
    for (line, record) in [
        ("start thousandth 100 interval 20000", start(100, 20_000, 0)),
        (
            "start thousandth 65535 interval 4294967295 overrun 65535",
            start(65_535, u32::MAX, 65_535),
        ),
        ("open 2 parent 0 ceiling 300", open(2, 0, 300)),
        ("open 255 parent 254 ceiling 65535", open(255, 254, 65_535)),
        ("close 255", close(255)),
        ("admit 5 group 1 reservation 500", admit(5, 1, 500)),
        ("admit 255 weight 65535", admit_weight(255, 65_535)),
        ("remove 5", remove(5)),
        ("wake 5", wake(5)),
        ("change 255 reservation 65535", change(255, 65_535)),
        ("dispatch", dispatch()),
        ("report tick 20000", report(TICK, 20_000)),
        ("report block 12000", report(records::BLOCK, 12_000)),
        ("report yield 0", report(YIELD, 0)),
        ("report exit 4294967295", report(EXIT, u32::MAX.into())),
        ("report reason 200 5", report(200, 5)),
    ] {
        let journal = journal(&[record]);
        assert_eq!(encode(line), journal, "{line}");
        assert_eq!(decode(&journal), format!("block 0\n{line}\n"));
    }
    // A limit of 0 may be written, and is not.
    let text = "start thousandth 100 interval 20000 overrun 0 # none";
    assert_eq!(encode(text), journal(&[start(100, 20_000, 0)]));
}

#[test]
fn a_damaged_block_is_shown_with_place_refusal_and_bytes() {
    let mut journal: Vec<u8> = (0..4).flat_map(|n| block(n, &[dispatch()])).collect();
    journal[BLOCK + 14] ^= 1;
    // In the third place the first block again, and of the fourth 12 bytes.
    journal.copy_within(0..BLOCK, 2 * BLOCK);
    journal.truncate(4 * BLOCK - 500);
    let text = decode(&journal);
    let lines: Vec<&str> = text.lines().collect();
    assert_eq!(lines[0], "block 0");
    assert_eq!(lines[2], "damaged 1 18 # check wrong");
    // 14 bytes, 31 records, 2 bytes of check.
    assert_eq!(lines[3].len(), "hex ".len() + 2 * 14);
    let check = format!("hex {:02x}{:02x}", journal[1022], journal[1023]);
    assert_eq!(lines[35], check);
    assert!(lines[36].starts_with("damaged 2 19 # not the bytes of this block number"));
    assert_eq!(lines[70], "damaged 3 17 # not 512 bytes");
    assert_eq!(lines[71], "hex 030000000100000000000000");
    assert_eq!(lines.len(), 72);
}

#[test]
fn records_are_packed_unless_a_line_begins_a_block() {
    let text = "\n# a comment\n  dispatch  # another\r\n\n".repeat(70);
    assert_eq!(counts(&encode(&text)), [31, 31, 8]);
    for nothing in ["", "# nothing\n", "\u{feff}"] {
        assert_eq!(encode(nothing), []);
    }
    assert_eq!(encode("\u{feff}dispatch"), encode("dispatch\n"));
    let text = "dispatch\nblock 1\ndispatch\nblock\nblock 3\nwake 1\n";
    assert_eq!(counts(&encode(text)), [1, 1, 0, 1]);
    let packed = "block 0\ndispatch\ndispatch\nwake 1\n";
    assert_eq!(decode(&pack(text).unwrap()), packed);
    // A block that a line begins takes no more than fit; one that is packed may
    // be followed by a line.
    let full = "dispatch\n".repeat(31);
    let (line, message) = problem(&format!("block 0\n{full}dispatch\n"));
    assert_eq!(line, 33);
    assert!(message.starts_with("block 0 is full"), "{message}");
    assert_eq!(
        counts(&encode(&format!("{full}block 1\nwake 1\n"))),
        [31, 1]
    );
}

/// A wrong line, `/` for the end of a first one, and how its message begins.
const WRONG: &str = "\
dispach => 'dispach' begins no line: start, open, close, admit, remove, wake, change, dispatch,
Dispatch => 'Dispatch' begins no line
dispatch 5 => dispatch: '5' after the end of the line
wake => wake: the line ends before the number of the thread
wake -5 => wake: the thread: '-5' is not a decimal number
wake 256 => wake: the thread: '256' is above 255
wake 99999999999999999999999 => wake: the thread: '99999999999999999999999' is above 255
close x => close: the group: 'x' is not a decimal number
admit 5 => admit: the line ends where 'group' or 'weight' is expected
admit 5 grp 0 => admit: 'group' or 'weight' expected, 'grp' found
admit 5 weight => admit: the line ends before the number of weight
admit 5 weight 65536 => admit: weight: '65536' is above 65535
admit 5 weight 3 group 0 => admit: 'group' after the end of the line
admit 5 group 0 weight 3 => admit: 'reservation' expected, 'weight' found
change 5 => change: the line ends where 'reservation' is expected
change 5 reservation -1 => change: reservation: '-1' is not a decimal number
report => report: the line ends before the reason
report 0 5 => report: '0' is no reason: tick, block, yield, exit, or reason
report tick => report: the line ends before the number of the ticks
report tick 4294967296 => report: the ticks: '4294967296' is above 4294967295
report reason 256 1 => report: the reason: '256' is above 255
report tick 5 6 => report: '6' after the end of the line
start thousandth 1 interval 2 overun 5 => start: 'overrun' or the end of the line expected, 'overun' found
start thousandth 1 interval 2 overrun => start: the line ends before the number of overrun
block 7 => block 7 stands in the place of block 1
block x => the block: 'x' is not a decimal number
block 1 2 => '2' after the end of the line
hex 00 => 'hex' belongs under a line 'damaged'
damaged 1 => the line ends before the number of the refusal
damaged 1 20 => the refusal: '20' is above 19
damaged 1 18 => damaged block 1 has 0 bytes; 1 to 512 are expected
damaged 1 18 / hex 00 => block 1 is refused with 17 (not 512 bytes), not 18
a\u{7f}b => this is not text (journal decode makes text of blocks)
";

#[test]
fn problems_name_the_line_and_what_is_wrong_with_it() {
    for row in WRONG.lines() {
        let (text, message) = row.split_once(" => ").unwrap();
        // On line 3, in block 0 or at the beginning of block 1.
        let text = text.replace(" / ", "\n");
        let (line, found) = problem(&format!("# comment\ndispatch\n{text}\n"));
        assert_eq!(line, 3, "{text}");
        assert!(found.starts_with(message), "{text}: {found}");
    }
}

#[test]
fn problems_of_damaged_blocks() {
    let hex: String = block(0, &[]).map(|b| format!("{b:02x}")).concat();
    for (text, line, message) in [
        (
            &*format!("damaged 0 18\nhex {hex}\n"),
            1,
            "the bytes of block 0 are not damaged",
        ),
        (
            &format!("damaged 3 18\nhex {hex}ff\n"),
            1,
            "damaged block 3 stands in the place of block 0",
        ),
        ("damaged 0 17\nhex 0\n", 2, "'0' has half a byte at its end"),
        (
            "damaged 0 17\nhex 0g\n",
            2,
            "'0g' are not hexadecimal digits",
        ),
        (
            "damaged 0 17\nhex 00\ndispatch\n",
            3,
            "the block of line 1 has fewer than 512 bytes and must be the last",
        ),
    ] {
        let problems = encoded(text).unwrap_err();
        let expected = |p: &Problem| p.line == line && p.message == message;
        assert!(problems.iter().any(expected), "{text}: {problems:?}");
    }
    let hexed = format!("damaged 0 18\nhex {}\n", hex.replace("01", "02"));
    assert!(encoded(&hexed).is_ok());
    let message = "a damaged block has no records to pack anew";
    assert_eq!(pack(&hexed).unwrap_err()[0].message, message);
}

#[test]
fn all_problems_are_named_up_to_a_number() {
    let problems = encoded("wake\ndispatch\nwake x\n\nadmit\n").unwrap_err();
    let lines: Vec<u64> = problems.iter().map(|p| p.line).collect();
    assert_eq!(lines, [1, 3, 5]);
    assert_eq!(encoded(&"wake\n".repeat(1000)).unwrap_err().len(), PROBLEMS);
    // A bad record still counts as one, so the block after it is block 1.
    assert_eq!(encoded("wake\nblock 1\nwake 1\n").unwrap_err().len(), 1);
    // Blocks are no text, and that is said once.
    let mut r = Rng::new(5);
    let records: Vec<_> = (0..31).map(|_| any_record(&mut r)).collect();
    let blocks = journal(&records);
    let problems = text::encode(&blocks, 0, false, &mut Progress::silent()).unwrap_err();
    assert_eq!(problems.len(), 1);
    assert!(problems[0].message.starts_with("this is not text"));
}

/// Records, and all that may stand behind the five numbers but for those of damage.
const SAID: &str = "\
dispatch => idle
start thousandth 0 interval 1 => m or P outside its range
start thousandth 1 interval 1 overrun 1 => m, P or O outside its range
start thousandth 100 interval 20000 =>
open 1 parent 16 ceiling 1 => the parent is above 15 or not open
open 16 parent 0 ceiling 1 => the number is above 15, already open or not above the parent's
open 1 parent 0 ceiling 0 => ceiling outside 1 to 1000
open 1 parent 0 ceiling 300 =>
open 2 parent 0 ceiling 701 => more than the parent has free
close 0 => the group is 0, above 15 or not open
admit 64 group 0 reservation 1 => number above 63
admit 64 weight 1 => number above 63
admit 1 group 2 reservation 1 => the group is above 15 or not open
admit 1 group 0 reservation 0 => reservation outside 1 to 1000
admit 1 group 0 reservation 701 => more than the group has free
admit 1 group 1 reservation 10 =>
admit 1 weight 3 => already admitted
close 1 => the group has a thread or a child
admit 9 weight 17 => weight outside 1 to 16
admit 9 weight 3 =>
wake 3 => number above 63 or not admitted
wake 1 => it is not blocked
change 8 reservation 5 => number above 63 or not admitted
change 9 reservation 5 => a best-effort thread has no reservation
change 1 reservation 1001 => reservation outside 1 to 1000
change 1 reservation 301 => more than the group has free, its own included
report tick 0 => nothing is running
dispatch =>
dispatch => a thread is running
remove 1 => it is running
report tick 1001 => more used than the slice
report reason 4 0 => reason above 3
report block 0 =>
dispatch => best-effort
start thousandth 10 interval 1000 overrun 9 =>
admit 1 group 0 reservation 10 =>
dispatch =>
report tick 110 => more used than the slice and O
report tick 109 => 9 beyond the slice
dispatch =>
report exit 91 =>
dispatch => idle
";

#[test]
fn what_run_says_beside_the_numbers() {
    let rows = SAID.lines().map(|row| row.split_once(" =>").unwrap());
    let (lines, said): (Vec<&str>, Vec<&str>) = rows.unzip();
    let text = ran(Journal::whole(&encode(&lines.join("\n"))), &Notes::new());
    let words = comments(&text).map(|comment| comment.splitn(6, ' ').nth(5));
    let words: Vec<&str> = words.map(Option::unwrap_or_default).collect();
    assert!(
        words
            .iter()
            .copied()
            .eq(said.iter().map(|words| words.trim())),
        "{text}"
    );
    // The answers stand in a column.
    let text = ran(Journal::whole(&listing()), &Notes::new());
    let dispatch = "\ndispatch                                   # 3 0 5 20000 0\n";
    assert!(text.contains(dispatch), "{text}");
}
