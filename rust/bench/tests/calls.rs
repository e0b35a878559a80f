//! What `bench one` measures for the header's table: every call of it, in cases that the library accepts.

use std::collections::BTreeSet;
use std::path::Path;
use std::process::{Command, Output};

fn bench(words: &[&str]) -> Output {
    let program = env!("CARGO_BIN_EXE_bench");
    Command::new(program).args(words).output().unwrap()
}

fn printed(words: &[&str]) -> String {
    let output = bench(words);
    let said = String::from_utf8_lossy(&output.stderr);
    assert!(output.status.success(), "{words:?}: {said}");
    String::from_utf8(output.stdout).unwrap()
}

/// A case that is refused, and so would measure the refusal, ends `bench one` with a panic.
#[test]
fn every_call_in_accepted_cases() {
    let costs = Path::new(env!("CARGO_MANIFEST_DIR")).join("../boundary/costs.txt");
    let costs = std::fs::read_to_string(costs).unwrap();
    let rows = costs.lines().filter(|line| !line.starts_with('#'));
    let calls: Vec<&str> = rows.map(|row| row.split(' ').next().unwrap()).collect();
    assert_eq!(printed(&["calls"]).lines().collect::<Vec<_>>(), calls);
    for call in calls {
        let cases = printed(&["one", call, "1"]);
        let different: BTreeSet<&str> = cases.lines().collect();
        assert!(!different.is_empty(), "{call}");
        assert_eq!(different.len(), cases.lines().count(), "{call}: {cases}");
        // What takes a state is measured with few threads and with all 64.
        let threads = |n: &str| {
            different
                .iter()
                .any(|case| case.split(' ').next() == Some(n))
        };
        assert!(
            threads("-") || threads("1") && threads("64"),
            "{call}: {cases}"
        );
    }
}

#[test]
fn other_words() {
    for words in [
        &["one"][..],
        &["one", "start", "x"],
        &["one", "none", "1"],
        &["other"],
    ] {
        let output = bench(words);
        assert_eq!(output.status.code(), Some(1), "{words:?}");
        assert!(
            output.stdout.is_empty() && !output.stderr.is_empty(),
            "{words:?}"
        );
    }
}
