//! Journals of earlier versions: `mtrrun` and the model's replay print for each, to the byte, what the `mtrrun` of its version printed, and
//! `mtrwhy` and the model answer as the `mtrwhy` of the version did where it had one.
//! Those of 1.1.0 are from before there was an overrun limit, those of 2.0.0 from before there was a change of a reservation, those of
//! 2.4.0 from before there were best-effort threads, and those of 3.0.0 from before the roster went by reservations. The README.md in each
//! folder says where they are from.

use std::collections::{BTreeMap, BTreeSet};
use std::fs;
use std::path::PathBuf;

use check::journal;
use check::program::{answered, printed, root, summed};
use check::usage::written;
use check::why::{rarer, sort_of, sorts, Sorts};
use model::blocks::{read_block, Record, BLOCK};
use model::replay::{replay, replay_with};
use model::usage::summary;
use model::why::why;

/// The folders, with how many journals are in each.
const FOLDERS: [(&str, usize); 4] = [
    (BEFORE_OVERRUNS, 40),
    (BEFORE_CHANGES, 20),
    (BEFORE_BEST_EFFORT, 31),
    (BEFORE_THIN_ONES, 21),
];
const BEFORE_OVERRUNS: &str = "journals-1.1";
const BEFORE_CHANGES: &str = "journals-2.0";
const BEFORE_BEST_EFFORT: &str = "journals-2.4";
const BEFORE_THIN_ONES: &str = "journals-3.0";

/// The files of a folder with this ending, by name.
fn stored(folder: &str, ending: &str) -> BTreeMap<String, Vec<u8>> {
    let folder = root().join("rust/check").join(folder);
    let paths = fs::read_dir(folder).unwrap().map(|e| e.unwrap().path());
    paths
        .filter(|path| path.extension().is_some_and(|e| e == ending))
        .map(|path: PathBuf| {
            let name = path.file_stem().unwrap().to_str().unwrap().to_string();
            (name, fs::read(path).unwrap())
        })
        .collect()
}

/// How often each number occurs.
type Counts = BTreeMap<u32, u32>;

/// The answers of records, and the refusals of blocks.
fn counted(texts: &BTreeMap<String, Vec<u8>>) -> (Counts, Counts) {
    let (mut answers, mut refusals) = (Counts::new(), Counts::new());
    for text in texts.values() {
        for line in std::str::from_utf8(text).unwrap().lines() {
            let words: Vec<&str> = line.split(' ').collect();
            let (counts, word) = match words[..] {
                ["block", _, refusal] => (&mut refusals, refusal),
                [_, answer, _, _, _] => (&mut answers, answer),
                _ => panic!("{line}"),
            };
            *counts.entry(word.parse().unwrap()).or_default() += 1;
        }
    }
    (answers, refusals)
}

/// The records of the blocks that are not refused.
fn records(journal: &[u8]) -> Vec<Record> {
    let blocks = journal.chunks(BLOCK).enumerate();
    let read = blocks.filter_map(|(number, area)| read_block(area, number as u32).ok());
    read.flatten().collect()
}

#[test]
fn print_as_before() {
    for (folder, count) in FOLDERS {
        let (journals, texts) = (stored(folder, "blocks"), stored(folder, "txt"));
        assert!(journals.keys().eq(texts.keys()));
        assert_eq!(journals.len(), count);
        for (name, journal) in &journals {
            let text = &texts[name];
            assert!(printed(journal, &[1 << 20]) == *text, "mtrrun, {name}");
            assert!(replay(journal) == *text, "the model, {name}");
            assert!(replay_with::<false>(journal) == *text, "{name}");
        }
        // Every answer that a record of a short journal can have, and every refusal of a block.
        let (answers, refusals) = counted(&texts);
        println!("{folder}: {answers:?}, blocks {refusals:?}");
        let wanted: Vec<u32> = (0..=14).chain([20]).collect();
        assert!(answers.keys().eq(&wanted), "{answers:?}");
        assert!(refusals.keys().eq(&[17, 18, 19]), "{refusals:?}");
        let least = match folder {
            BEFORE_OVERRUNS => (10, 5),
            BEFORE_CHANGES => (5, 2),
            _ => (2, 2),
        };
        assert!(answers.values().all(|&n| n >= least.0), "{answers:?}");
        assert!(refusals.values().all(|&n| n >= least.1), "{refusals:?}");
    }
}

/// What the `mtrwhy` of 2.4.0 and that of 3.0.0 printed for a number of each sort that a journal has: `mtrwhy` and the model print the same.
#[test]
fn the_same_causes_as_before() {
    let before = as_before(BEFORE_BEST_EFFORT);
    let mut rare = rarer(&before, 2);
    rare.retain(|sort| !sort.of_best_effort());
    assert!(rare.is_empty(), "{before:?}");
    let since = as_before(BEFORE_THIN_ONES);
    assert!(rarer(&since, 1).is_empty(), "{since:?}");
}

/// Holds what `mtrwhy` and the model print to what is stored, and counts the sorts.
fn as_before(folder: &str) -> Sorts {
    let mut seen = Sorts::new();
    let journals = stored(folder, "blocks");
    let causes = stored(folder, "why");
    assert!(journals.keys().eq(causes.keys()));
    for (name, journal) in &journals {
        let path = root().join(format!("rust/check/{folder}/{name}.blocks"));
        let text = std::str::from_utf8(&causes[name]).unwrap();
        let sorts = sorts(journal);
        for part in text.split("record ").skip(1) {
            let (number, answer) = part.split_once('\n').unwrap();
            let n = number.parse().unwrap();
            let found = answered(&path, number);
            assert!(found == answer.as_bytes(), "mtrwhy, {name}, {n}");
            assert!(why(journal, n) == answer.as_bytes(), "{name}, {n}");
            *seen.entry(sort_of(&sorts, n)).or_default() += 1;
        }
    }
    println!("{folder}: {seen:?}");
    seen
}

/// What `mtrsum` writes for them, which no earlier version did: the model's summary, or the refusal of the first refused block.
#[test]
fn are_summed() {
    let mut outcomes = BTreeMap::<Option<u32>, u32>::new();
    for (folder, _) in FOLDERS {
        for (name, journal) in stored(folder, "blocks") {
            let path = root().join(format!("rust/check/{folder}/{name}.blocks"));
            assert!(summed(&path) == written(&journal), "{name}");
            *outcomes.entry(summary(&journal).err()).or_default() += 1;
        }
    }
    println!("{outcomes:?}");
    assert!(outcomes.keys().eq(&[None, Some(17), Some(18), Some(19)]));
}

/// They are old: each folder has the kinds of records that its version had, and the first no overrun limit.
#[test]
fn are_as_old_as_they_say() {
    for ((folder, _), last) in FOLDERS.into_iter().zip([8, 8, 9, 10]) {
        let journals = stored(folder, "blocks");
        let records: Vec<Record> = journals.values().flat_map(|j| records(j)).collect();
        let kinds: BTreeSet<u8> = records.iter().map(|r| r.kind).collect();
        assert!(kinds.into_iter().eq(1..=last), "{folder}");
        let late = records.iter().any(|r| r.overrun > 0);
        assert_eq!(late, folder != BEFORE_OVERRUNS, "{folder}");
    }
}

/// What is printed now for the block that has changes, and after it.
const READ: &str = "\
31 0 0 0 0
32 7 0 0 0
33 4 0 0 0
34 5 0 0 0
35 0 7 10000 1
36 9 0 0 0
37 0 0 0 0
38 0 0 0 0
39 0 0 0 0
40 0 5 15000 0
41 0 0 0 0
62 0 7 9997 0
63 0 0 0 0
64 0 5 20000 0
65 0 0 0 0
66 0 5 20000 0
";

/// What it was before: a block with a record of kind 9 was refused.
const REFUSED: &str = "\
block 1 19
62 20 0 0 0
63 20 0 0 0
64 20 0 0 0
65 20 0 0 0
66 20 0 0 0
";

/// The one thing that changed for a reader of journals: a block with changes is read. Before it and from the next start on all is as
/// before.
#[test]
fn a_block_with_changes_is_read_now() {
    let folder = format!("{BEFORE_CHANGES}/apart");
    let (journals, texts) = (stored(&folder, "blocks"), stored(&folder, "txt"));
    assert!(journals.keys().eq(["change"]) && texts.keys().eq(["change"]));
    let journal = &journals["change"];
    let changes = records(journal).iter().filter(|r| r.kind == 9).count();
    assert_eq!(changes, 6);
    let before = String::from_utf8(texts["change"].clone()).unwrap();
    let (first, last) = before.split_once(REFUSED).unwrap();
    assert!(first.lines().count() == 7 && last.starts_with("93 0 0 0 0\n"));
    let now = journal::replay(journal).printed;
    assert_eq!(now, [first, READ, last].concat());
    assert_eq!(printed(journal, &[1 << 20]), now.as_bytes());
}

/// The same of best-effort threads.
const READ_BEST_EFFORT: &str = "\
31 0 0 0 0
32 8 0 0 0
33 7 0 0 0
34 4 0 0 0
35 0 0 0 0
36 0 2 20000 2
37 0 0 0 0
38 0 9 20000 2
39 0 0 0 0
40 0 2 20000 2
41 0 0 0 0
42 0 64 0 4
62 0 0 0 0
63 0 5 20000 0
64 0 0 0 0
65 0 0 0 0
66 0 9 20000 2
67 0 0 0 0
68 0 64 0 3
";

/// What `mtrwhy` answers there now: of numbers for which it gave 21.
const CAUSES: [(u64, &str); 5] = [
    (36, "0 2\n5 4\n7 6\n"),
    (38, "0 9\n5 4\n7 6\n"),
    (42, "0 64\n5 4\n7 6\n2 41\n9 39\n"),
    (63, "0 5\n"),
    (68, "0 64\n5 64\n7 6\n2 41\n"),
];

/// The one thing that changed for a reader of journals since: a block with best-effort threads is read.
#[test]
fn a_block_with_best_effort_threads_is_read_now() {
    let folder = format!("{BEFORE_BEST_EFFORT}/apart");
    let (journals, texts) = (stored(&folder, "blocks"), stored(&folder, "txt"));
    assert!(journals.keys().eq(["best_effort"]) && texts.keys().eq(["best_effort"]));
    let journal = &journals["best_effort"];
    let records = records(journal);
    assert_eq!(records.iter().filter(|r| r.kind == 10).count(), 5);
    let before = String::from_utf8(texts["best_effort"].clone()).unwrap();
    let (first, rest) = before.split_once("block 1 19\n").unwrap();
    let (refused, last) = rest.split_once("93 0 0 0 0\n").unwrap();
    assert_eq!((first.lines().count(), refused.lines().count()), (8, 7));
    assert!(refused.lines().all(|line| line.ends_with(" 20 0 0 0")));
    let now = journal::replay(journal).printed;
    assert_eq!(
        now,
        [first, READ_BEST_EFFORT, "93 0 0 0 0\n", last].concat()
    );
    assert_eq!(printed(journal, &[1 << 20]), now.as_bytes());
    let path = root().join(format!("rust/check/{folder}/best_effort.blocks"));
    let causes = String::from_utf8(stored(&folder, "why")["best_effort"].clone()).unwrap();
    for (n, wanted) in CAUSES {
        assert!(causes.contains(&format!("\nrecord {n}\n21\nrecord ")));
        assert_eq!(
            String::from_utf8(answered(&path, n.to_string())).unwrap(),
            wanted
        );
        assert_eq!(why(journal, n), wanted.as_bytes());
    }
}
