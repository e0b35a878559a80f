//! `journal run --why`: its answers, their words, and what is said where there is none.

use std::collections::BTreeSet;
use std::fs;

use journal::codec::{Record, BLOCK, RECORDS};
use journal::engine::{Class, Engine, Proved, Reply, Settings, METER_LIMIT};
use journal::names::Names;
use journal::playback::Journal;
use journal::progress::Progress;
use journal::text;
use journal::why::{why, Why};
use samples::examples;

use crate::common::{encode, good, listing, run, Folder};

/// As `mtrwhy` prints it.
pub fn spelt(found: &Result<Why, String>) -> Vec<u8> {
    let Ok(why) = found else {
        return b"21\n".to_vec();
    };
    let first = match why {
        Why::Reserved { thread, .. } | Why::BestEffort { thread, .. } => format!("0 {thread}\n"),
        Why::Idle { .. } => "0 64\n".into(),
        Why::Running(thread) => format!("12 {thread}\n"),
        Why::Full(meter) => format!("15 {meter}\n"),
    };
    let before = why.before().iter();
    let before: String = before
        .map(|at| format!("{} {}\n", at.thread, at.record))
        .collect();
    (first + &before).into_bytes()
}

/// The numbers of a journal's records, of absent ones in it and of some behind it.
pub fn numbers(blocks: &[u8]) -> std::ops::Range<u64> {
    0..(RECORDS * (blocks.len().div_ceil(BLOCK) + 2)) as u64
}

#[test]
fn the_worked_examples() {
    for example in examples::all() {
        let blocks = example.journal();
        for (number, answer) in example.questions() {
            let asked = BTreeSet::from([number as u64]);
            let found = why::<Proved>(Journal::whole(&blocks), &asked, &mut Progress::silent());
            let found = spelt(&found[&(number as u64)]);
            assert_eq!(found, answer.as_bytes(), "{} {number}", example.name);
        }
    }
}

/// The proved library, from a state whose meter is a tick below its limit.
#[derive(Default)]
struct Late(Option<mtr::Scheduler>);

impl Late {
    fn state(&self) -> &mtr::Scheduler {
        self.0.as_ref().unwrap()
    }
}

impl Engine for Late {
    const SAYS: &'static str = "";

    fn run(&mut self, record: &Record) -> Reply {
        let state = self.0.get_or_insert_with(|| {
            let mut state = *mtr::Scheduler::default().as_raw();
            state.meter = METER_LIMIT - 1;
            mtr::Scheduler::from_raw(state)
        });
        let called = mtr::Event::try_from(*record).and_then(|event| state.call(event));
        Reply::plain(called.err().map_or(0, mtr::Refusal::number))
    }

    fn lag(&self, _: u8) -> i64 {
        0
    }

    fn share(&self, _: u8) -> Option<u64> {
        None
    }

    fn class(&self, _: u8) -> Option<Class> {
        None
    }

    fn settings(&self) -> Settings {
        self.state().settings()
    }

    fn running(&self) -> Option<u8> {
        self.0.as_ref()?.running()
    }

    fn list(&self) -> &[u8] {
        self.state().list()
    }

    fn meter(&self) -> u64 {
        self.state().meter()
    }
}

#[test]
fn the_meter_at_its_limit() {
    let blocks = encode("admit 5 group 0 reservation 500\ndispatch\nreport tick 18\ndispatch\n");
    let numbers = BTreeSet::from([1, 3]);
    let found = why::<Late>(Journal::whole(&blocks), &numbers, &mut Progress::silent());
    assert_eq!(spelt(&found[&3]), b"15 10000000000017\n");
    assert_eq!(
        found[&3].as_ref().unwrap().told(&Names::default()),
        ["refused: the meter is 10000000000017, its limit 10000000000000"]
    );
    assert!(matches!(found[&1], Ok(Why::Reserved { .. })));
}

/// Of every sort of answer, threads of both kinds.
#[test]
fn the_words() {
    let text = "dispatch\nadmit 8 weight 1\ndispatch\nreport tick 10\n\
        admit 5 group 0 reservation 500\nadmit 7 group 0 reservation 100\n\
        dispatch\ndispatch\nreport block 10\ndispatch\nreport block 20\n\
        dispatch\nreport block 30\ndispatch\n";
    let blocks = encode(text);
    let mut names = Names::default();
    names.give(5, "readout");
    let asked = (0..20).collect();
    let found = why::<Proved>(Journal::whole(&blocks), &asked, &mut Progress::silent());
    let told: Vec<String> = found
        .into_iter()
        .filter_map(|(number, found)| Some((number, found.ok()?.told(&names))))
        .map(|(number, lines)| format!("{number}: {}", lines.join("|")))
        .collect();
    let smallest = "thread 8 has the smallest tag of the runnable best-effort threads";
    assert_eq!(
        told,
        [
            "0: nothing is runnable: no thread is admitted",
            &format!("2: {smallest}; no reserved one is admitted"),
            "6: thread 5 (readout) is the first of the list",
            "7: refused: thread 5 (readout) is running",
            "9: thread 7 is the first runnable one; before it\
             |  thread 5 (readout), blocked since record 8",
            &format!(
                "11: {smallest}; every reserved one is blocked\
                 |  thread 5 (readout), blocked since record 8|  thread 7, blocked since record 10"
            ),
            "13: nothing is runnable: every thread is blocked\
             |  thread 5 (readout), blocked since record 8|  thread 7, blocked since record 10\
             |  thread 8, blocked since record 12",
        ]
    );
}

#[test]
fn the_command_tells_below_the_record() {
    let folder = Folder::new("why");
    let names = folder.file("names.txt", "5 readout\n");
    let blocks = listing();
    let text = good(
        &["run", "--why=7", "--names", &names, "--name=7=x"],
        &blocks,
    );
    let below = "\
dispatch                                   # 7 0 7 10000 1
                                           # thread 7 (x) is the first runnable one; before it
                                           #   thread 5 (readout), blocked since record 6
wake 5                                     # 8 0 0 0 0
";
    assert!(text.contains(below), "{text}");
    // Several, in any order and twice.
    let words = ["run", "--why", "11", "--why", "3", "--why", "3"];
    let text = good(&words, &blocks);
    let count = |line: &str| text.matches(line).count();
    assert_eq!(count(" # thread 5 is the first of the list\n"), 1);
    assert_eq!(count(" # refused: thread 5 is running\n"), 1);
}

/// A journal with a full block, an empty one, a damaged one, one that is not
/// run, and one with a start.
fn ragged() -> Vec<u8> {
    let start = "start thousandth 100 interval 20000\n";
    let mut blocks = encode(&format!(
        "block\n{start}{}block\nblock\ndispatch\nblock\ndispatch\nwake 5\nblock\n{start}dispatch\n",
        "dispatch\n".repeat(30)
    ));
    blocks[2 * BLOCK + 100] ^= 1;
    blocks
}

#[test]
fn what_has_no_answer_is_said_and_nothing_is_written() {
    let folder = Folder::new("why-none");
    let journal = folder.file("journal", ragged());
    let piece = folder.file("piece", &ragged()[3 * BLOCK..]);
    let old = folder.file("old.txt", "as it was");
    let said = |words: &[&str], name: &str, lines: &[&str]| {
        let lines = lines.iter();
        let lines: String = lines
            .map(|line| format!("journal: {name}: {line}\n"))
            .collect();
        let words = [&["run", "-o", &old], words].concat();
        assert_eq!(run(&words, b"").bad(1), lines, "{words:?}");
    };
    let silent = "not run: a block is damaged or missing and no start accepted since";
    for (record, line) in [
        (
            0,
            "it is no dispatch but 'start thousandth 100 interval 20000'",
        ),
        (31, "block 1 is empty"),
        (62, "block 2 is damaged (18, check wrong)"),
        (93, silent),
        (95, "block 3 ends with record 94"),
        (155, "the journal ends with block 4"),
        (u64::MAX, "the journal ends with block 4"),
    ] {
        let line = format!("record {record}: {line}");
        said(
            &["--why", &record.to_string(), &journal],
            &journal,
            &[&line],
        );
    }
    // Each one that is wrong, by number; a right one beside them is not told.
    let lines = [
        "record 62: block 2 is damaged (18, check wrong)",
        "record 200: the journal ends with block 4",
    ];
    said(
        &["--why=200", "--why=125", "--why=62", &journal],
        &journal,
        &lines,
    );
    said(
        &["--why=0"],
        "standard input",
        &["record 0: the journal is empty"],
    );
    // A part of a journal.
    let missing = ["record 92: block 2 is missing"];
    said(&["--first-block=3", "--why=92", &piece], &piece, &missing);
    assert_eq!(fs::read(&old).unwrap(), b"as it was");
    assert_eq!(folder.names(), ["journal", "old.txt", "piece"]);
    let text = good(&["run", "--first-block=3", "--why=125", &piece], b"");
    assert!(text.ends_with(" # nothing is runnable: no thread is admitted\n"));
    // No more lines than of a wrong text.
    let many: Vec<String> = (200..230).map(|n| format!("--why={n}")).collect();
    let mut words = vec!["run", &journal];
    words.extend(many.iter().map(String::as_str));
    assert_eq!(run(&words, b"").bad(1).lines().count(), text::PROBLEMS);
}
