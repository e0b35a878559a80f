//! What the fuzzer began with and what it has learnt, run again: the library's functions, the programs and the model agree
//! on each case.

use check::best_effort::BestEffort;
use check::changes::Changes;
use check::journal::{self, case};
use check::late::Late;
use check::program::{answered, asked, printed, root, summed, Folder};
use check::share::Shares;
use check::table_recipe::compared;
use check::tables::Tables;
use check::ties::Ties;
use check::usage::{self, Journals};
use check::why::{questions, rarer, sort_of, sorts, Sorts};
use model::usage::Question;
use model::why::why;
use samples::random::{any_question, Rng};
use std::collections::BTreeSet;
use std::path::Path;
use std::process::Command;

/// A line of the corpus: a recipe's bytes as hexadecimal digits.
fn unpacked(line: &str) -> Vec<u8> {
    assert!(line.is_ascii() && line.len().is_multiple_of(2), "{line}");
    (0..line.len())
        .step_by(2)
        .map(|i| u8::from_str_radix(&line[i..i + 2], 16).unwrap())
        .collect()
}

/// The seeds and the lines of the corpus, each with its place.
fn recipes() -> Vec<(String, Vec<u8>)> {
    let own = Path::new(env!("CARGO_MANIFEST_DIR")).join("fuzz");
    let mut recipes = Vec::new();
    for entry in std::fs::read_dir(own.join("seeds")).unwrap() {
        let path = entry.unwrap().path();
        recipes.push((path.display().to_string(), std::fs::read(&path).unwrap()));
    }
    let corpus = std::fs::read_to_string(own.join("corpus.hex")).unwrap();
    for (i, line) in corpus.lines().enumerate() {
        recipes.push((format!("corpus.hex:{}", i + 1), unpacked(line)));
    }
    recipes
}

#[test]
fn the_corpus() {
    let recipes = recipes();
    let mut answers = [0u32; 21];
    let mut refused = [0u32; 21];
    let (mut late, mut changes) = (Late::default(), Changes::default());
    let mut shares = Shares::default();
    let mut best_effort = BestEffort::default();
    let mut ties = Ties::default();
    for (place, recipe) in &recipes {
        let case = case(recipe);
        let wanted = journal::replay(&case.journal);
        let found = printed(&case.journal, &case.pieces);
        assert!(found == wanted.printed.as_bytes(), "{place}");
        late.join(&wanted.late);
        changes.join(&wanted.changes);
        best_effort.join(&wanted.best_effort);
        shares.join(wanted.shares);
        ties.join(&wanted.ties);
        for line in wanted.printed.lines() {
            let words: Vec<&str> = line.split(' ').collect();
            match words[..] {
                ["block", _, refusal] => refused[refusal.parse::<usize>().unwrap()] += 1,
                _ => answers[words[1].parse::<usize>().unwrap()] += 1,
            }
        }
    }
    println!("{} recipes: {answers:?}, blocks {refused:?}", recipes.len());
    // 15 needs a meter that no short journal reaches, and 16 to 19 are no answers of a record.
    let seen = |counts: [u32; 21]| -> Vec<usize> { (0..21).filter(|&a| counts[a] > 0).collect() };
    assert_eq!(seen(answers), (0..=14).chain([20]).collect::<Vec<_>>());
    assert_eq!(seen(refused), [17, 18, 19]);
    // Overruns with something left, nothing left and a debt, each by tick, block, yield and exit; 13 at one tick too many; O = m.
    println!("{late:?}");
    assert!(late.all_reports(1) && late.all_starts(1), "{late:?}");
    // Changes of every sort: that cut, that leave the allotment, with 4, with 5 for one thousandth, with 7 and with 9.
    println!("{changes:?}");
    assert!(changes.rarer(1).is_empty(), "{changes:?}");
    // Best-effort threads of every sort, but for what a journal can't reach: the meter's limit, and an allotment in their entries.
    println!("{best_effort:?}");
    let never = [
        "15 where one is runnable",
        "reported with another allotment than 0 in its entry",
    ];
    assert_eq!(best_effort.rarer(1), never, "{best_effort:?}");
    // Shares rounded either way, halves too.
    println!("{shares:?}");
    assert!(shares.all(1), "{shares:?}");
    // Equal lags of every sort, but for an allotment in a best-effort entry, which no journal makes.
    println!("{ties:?}");
    assert_eq!(
        ties.rarer(1),
        ["best-effort with an allotment in its entry"]
    );
}

/// The tables of priorities that the recipes are as well: usable ones, and every cause of a refusal.
#[test]
fn the_tables() {
    let mut seen = Tables::default();
    for (_, recipe) in recipes() {
        let (table, priority, line) = compared(&recipe);
        seen.line(&table, priority, line);
    }
    println!("{seen:?}");
    let causes: BTreeSet<(u32, &str)> = seen.seen().iter().map(|s| (s.0, s.2)).collect();
    let wanted = [
        (0, "rows"),
        (4, "asked outside"),
        (4, "no row"),
        (4, "too many rows"),
        (22, "priority"),
        (22, "reservation"),
        (22, "upside down"),
        (23, "in none"),
        (23, "in several"),
    ];
    assert_eq!(causes, BTreeSet::from(wanted));
}

/// The questions that the fuzzer asks about each case.
#[test]
fn the_questions() {
    let folder = Folder::new("corpus");
    let mut seen = Sorts::new();
    for (place, recipe) in recipes() {
        let case = case(&recipe);
        let path = folder.file("journal", &case.journal);
        let sorts = sorts(&case.journal);
        for asked in questions(&case, &sorts) {
            let (found, wanted) = (
                answered(&path, asked.to_string()),
                why(&case.journal, asked),
            );
            assert!(found == wanted, "{place}, {asked}");
            assert!(sort_of(&sorts, asked).fits(&wanted), "{place}, {asked}");
            *seen.entry(sort_of(&sorts, asked)).or_default() += 1;
        }
    }
    println!("{seen:?}");
    assert!(rarer(&seen, 1).is_empty(), "{seen:?}");
}

/// The summary of each case, or its refusal, and some questions.
#[test]
fn the_summaries() {
    let folder = Folder::new("corpus-summaries");
    let mut r = Rng::new(101);
    let (mut journals, mut seen) = (Journals::default(), usage::Sorts::new());
    for (place, recipe) in recipes() {
        let journal = case(&recipe).journal;
        journals.journal(&journal);
        let found = summed(&folder.file("journal", &journal));
        assert!(found == usage::written(&journal), "{place}");
        let (Ok(counts), summary) = (model::usage::counts(&journal), found) else {
            continue;
        };
        let questions: Vec<Question> = (0..16).map(|_| any_question(&mut r, &counts)).collect();
        let answers: Vec<_> = questions
            .iter()
            .map(|q| model::usage::ask(&summary, q))
            .collect();
        let found = asked(&folder.file("summary", &summary), &questions);
        assert!(found == model::usage::lines(&answers), "{place}");
        for q in &questions {
            *seen.entry(usage::sort_of(&summary, q)).or_default() += 1;
        }
    }
    println!("{journals:?}, {seen:?}");
    assert!(journals.rarer(1).is_empty(), "{journals:?}");
    assert!(seen[&usage::Sort::Ticks] > 100, "{seen:?}");
}

/// The part that only the fuzzer's build has compiles, without a warning.
#[test]
fn the_fuzzer_compiles() {
    let done = Command::new(env!("CARGO"))
        .args(["check", "--quiet", "--offline", "--lib", "-p", "check"])
        .current_dir(root())
        .env("RUSTFLAGS", "--cfg fuzzing -D warnings")
        .env(
            "CARGO_TARGET_DIR",
            Path::new(env!("CARGO_TARGET_TMPDIR")).join("fuzzing"),
        )
        .output()
        .unwrap();
    let said = String::from_utf8_lossy(&done.stderr);
    assert!(done.status.success(), "{said}");
}
