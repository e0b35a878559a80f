//! The stack that a call takes, measured on a painted stack: below its limit, and as it is stated.

/// No call takes more than this, and a roster not more than that.
const MOST: usize = 14_000;
const MOST_OF_ROSTER: usize = 17_000;

/// What the header's table and docs/PERFORMANCE.md may state above what is measured.
const SPARE: usize = 600;

fn stated() -> Vec<(String, usize)> {
    let text = include_str!("../../../boundary/costs.txt");
    let lines = text.lines().filter(|line| !line.starts_with('#'));
    lines
        .map(|line| {
            let words: Vec<&str> = line.split(' ').collect();
            (words[0].to_string(), words[1].parse().unwrap())
        })
        .collect()
}

#[test]
fn within_its_limit() {
    let measured = check::stack::measured(300);
    assert_eq!(measured.len(), 19);
    for (name, taken) in &measured {
        let most = match *name {
            "roster" => MOST_OF_ROSTER,
            _ => MOST,
        };
        assert!(
            *taken <= most,
            "{name} takes {taken} bytes of stack, of {most}"
        );
    }
    // By calls that take a state the state itself is taken, and the test of it.
    assert!(measured.iter().filter(|m| m.1 > 5_000).count() == 14);
}

#[test]
fn as_stated() {
    let measured = check::stack::measured(300);
    let stated = stated();
    assert_eq!(stated.len(), measured.len());
    for ((name, taken), (known, stated)) in measured.iter().zip(&stated) {
        assert_eq!(name, known);
        assert!(
            taken <= stated && *stated <= taken + SPARE,
            "{name} takes {taken} bytes of stack, and {stated} are stated: run rust/bench/costs.sh"
        );
    }
}
