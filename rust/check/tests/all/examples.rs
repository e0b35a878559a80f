//! The worked examples (`rust/samples/examples`, RULE 10.7) on the library and through the programs.

use check::compare::{self, to_library, to_library_line, to_library_table};
use check::journal;
use check::program::{answered, asked, printed, summed, Folder};
use model::rule::Scheduler;
use model::usage::{write, Question, COUNTS};
use mtr::numbers;
use samples::examples::{self, Fact};

/// Whether it is so of the library's accounts; what a state holds is the model's.
fn holds(fact: &Fact, s: &Scheduler) -> bool {
    let state = to_library(s);
    match fact {
        Fact::Lag(n, lag) => numbers::lag(state, *n as u64).result() == Ok(*lag),
        Fact::Share(n, share) => {
            let found = numbers::share(state, *n as u64).result();
            found.map(u64::from) == Ok(*share)
        }
        Fact::Roster(wanted) => {
            let mut table = vec![numbers::Entry::default(); wanted.len()];
            let answer = numbers::roster(state, &mut table);
            answer == 0
                && table
                    .iter()
                    .map(|e| e.number as u8)
                    .eq(wanted.iter().copied())
        }
        _ => fact.holds(s),
    }
}

#[test]
fn by_calls() {
    for example in examples::all() {
        let mut s = Scheduler::default();
        for (step, n) in example.steps.iter().zip(0..) {
            let (name, reply) = (example.name, compare::step(&mut s, &step.record));
            let numbers = [reply.answer, reply.thread, reply.slice, reply.before];
            let [answer, thread, slice, before] = numbers;
            let line = format!("{n} {answer} {thread} {slice} {before}");
            assert_eq!(line, step.printed, "{name}");
            for fact in &step.facts {
                assert!(holds(fact, &s), "{name} {n}: {fact:?}");
            }
        }
    }
}

#[test]
fn through_the_programs() {
    let folder = Folder::new("examples");
    for example in examples::all() {
        let input = example.journal();
        assert_eq!(journal::replay(&input).printed, example.printed());
        assert_eq!(printed(&input, &[1 << 20]), example.printed().as_bytes());
        let path = folder.file(example.name, &input);
        for (n, answer) in example.questions() {
            let found = answered(&path, n.to_string());
            assert_eq!(found, answer.as_bytes(), "{} {n}", example.name);
        }
    }
}

/// The example of processor use: what is run, what is summed and what is asked.
#[test]
fn of_processor_use() {
    let folder = Folder::new("use");
    let example = examples::usage();
    let input = example.journal();
    assert_eq!(printed(&input, &[1 << 20]), example.printed().as_bytes());
    let rows = example.blocks.iter().map(|block| block.charged);
    let halves: Vec<u64> = rows.flatten().collect();
    let areas = halves.chunks(COUNTS).zip(0..);
    let wanted: Vec<u8> = areas
        .flat_map(|(counts, n)| write(n, counts.try_into().unwrap()))
        .collect();
    let summary = summed(&folder.file("journal", &input));
    assert_eq!(summary, wanted);
    let questions: Vec<Question> = example.questions.iter().map(|(q, _)| *q).collect();
    let found = asked(&folder.file("summary", &summary), &questions);
    assert_eq!(found, example.answers().as_bytes());
}

#[test]
fn of_tables() {
    for (table, priority, line) in examples::priorities() {
        let found = numbers::priority_under(to_library_table(&table), priority);
        assert_eq!(found, to_library_line(line), "{priority} {table:?}");
    }
}
