//! The program `mtrrun` against the model's replay: the same bytes on standard output for the same bytes on standard input.

use check::best_effort::BestEffort;
use check::changes::Changes;
use check::program::{printed, shipped};
use model::replay::replay;
use samples::random::{journal, Rng};

fn whole(input: &[u8]) -> Vec<u8> {
    printed(input, &[1 << 20])
}

#[test]
fn empty_input() {
    assert_eq!(whole(&[]), b"");
}

#[test]
fn shipped_journals() {
    for path in shipped() {
        let input = std::fs::read(&path).unwrap();
        let out = whole(&input);
        assert!(!out.is_empty());
        assert_eq!(out, replay(&input), "{}", path.display());
    }
}

#[test]
fn generated_journals() {
    let mut rng = Rng::new(6);
    let mut refused_blocks = 0;
    let mut answers = [0u32; 21];
    let (mut changes, mut best_effort) = (Changes::default(), BestEffort::default());
    for round in 0..1000 {
        let input = journal(&mut rng);
        let expected = replay(&input);
        assert_eq!(whole(&input), expected, "journal {round}");
        if round < 300 {
            let replayed = check::journal::replay(&input);
            changes.join(&replayed.changes);
            best_effort.join(&replayed.best_effort);
        }
        for line in expected.split(|&b| b == b'\n') {
            let text = std::str::from_utf8(line).unwrap();
            let mut fields = text.split(' ');
            match (fields.next(), fields.next()) {
                (Some("block"), _) => refused_blocks += 1,
                (_, Some(answer)) => answers[answer.parse::<usize>().unwrap()] += 1,
                _ => {}
            }
        }
    }
    // 15 needs a meter that no short journal reaches, and 16 and 19 are no answers of a record.
    for answer in (0..=14).chain([20]) {
        assert!(answers[answer] > 0, "answer {answer} never occurred");
    }
    assert_eq!(answers[15] + answers[16..20].iter().sum::<u32>(), 0);
    assert!(refused_blocks > 100);
    assert!(changes.rarer(5).is_empty(), "{changes:?}");
    // What a short journal does not reach.
    let never = [
        "admitted under the last free number",
        "15 where one is runnable",
        "reported with another allotment than 0 in its entry",
    ];
    let mut rare = best_effort.rarer(1);
    rare.retain(|sort| !never.contains(sort));
    assert!(rare.is_empty(), "{best_effort:?}");
}

#[test]
fn odd_pieces() {
    let mut rng = Rng::new(7);
    for _ in 0..60 {
        let mut input = journal(&mut rng);
        while input.len() < 40_000 {
            let more = journal(&mut rng);
            input.extend(more);
        }
        let pieces: Vec<usize> = (0..7).map(|_| rng.range(1, 1500) as usize).collect();
        assert_eq!(printed(&input, &pieces), replay(&input), "{pieces:?}");
    }
}
