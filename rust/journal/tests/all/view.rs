//! Parts of a journal: by records, by times, by threads.

use journal::codec::{kind, reason, Record};
use journal::draw::{draw, Options};
use journal::engine::{Proved, Settings};
use journal::playback::Journal;
use journal::progress::Progress;
use journal::track::Mark;

use crate::common::*;
use crate::controller::{control, Load};

#[test]
fn marks_are_records_or_times() {
    for (text, mark) in [
        ("310", Mark::Record(310)),
        ("120ms", Mark::Time(120_000)),
        ("120 ms", Mark::Time(120_000)),
        ("1.5s", Mark::Time(1_500_000)),
        ("2min", Mark::Time(120_000_000)),
        ("0.25h", Mark::Time(900_000_000)),
        ("7us", Mark::Time(7)),
        ("7µs", Mark::Time(7)),
    ] {
        assert_eq!(Mark::parse(text), Some(mark), "{text}");
    }
    for text in [
        "",
        "ms",
        "-3",
        "1.5",
        "1,5s",
        ".5s",
        "5.s",
        "1e3s",
        "12 apples",
        "+3",
        "1.2.3s",
        "99999999999999999999999",
    ] {
        assert_eq!(Mark::parse(text), None, "{text}");
    }
}

#[test]
fn a_part_of_the_listing() {
    let journal = listing();
    // From the wake on: 5 has waited since it and runs from 42 ms.
    let svg = part(&journal, "8", "13", &[]);
    assert!(svg.contains("part from 32 ms to 60 ms · records 8 to 13"));
    assert!(svg.contains("thread 5 has the core from 42 ms to 60 ms, from record 10"));
    assert!(svg.contains("thread 7 has the core from 32 ms to 42 ms, from record 7"));
    assert_eq!(svg.matches("thread 5 has the core").count(), 1);
    assert!(svg.contains(">share here<") && svg.contains(">643 ‰<"));
    assert!(svg.contains("record 11 refused: 12"));
    assert_eq!(crate::draw::paths(&svg, "wake").len(), 2);
    // Without the wake, and without the report at its end.
    let svg = part(&journal, "9", "12", &[]);
    assert!(svg.contains("part from 32 ms to 42 ms · records 9 to 12"));
    assert!(!svg.contains("class=\"wake\"") && svg.contains("record 12 refused: 13"));

    // By times; cut spans keep their lag.
    let svg = part(&journal, "10ms", "36ms", &[]);
    assert!(svg.contains("thread 5 has the core from 10 ms to 32 ms, from record 3"));
    assert!(svg.contains("thread 7 has the core from 32 ms to 36 ms, from record 7"));
    assert!(svg.contains(">3.2 ms<") && !svg.contains("refused"));

    // One thread alone.
    let svg = part(&journal, "", "", &[7]);
    assert!(!svg.contains("thread 5 has the core") && svg.contains(">thread 7<"));
}

#[test]
fn records_among_which_no_time_passes_are_shown_up_to_the_next_report() {
    let journal = listing();
    let refused = part(&journal, "11", "12", &[]);
    assert!(refused.contains("part from 42 ms to 60 ms · records 11 to 12"));
    // At the end it is the last report that is shown.
    assert!(part(&journal, "14", "", &[]).contains("part from 42 ms to 60 ms"));
    let wakes = encode("wake 3\nwake 4\n");
    assert!(part(&wakes, "1", "1", &[]).contains("records 1 to 1"));
    // Beyond the end is the end.
    assert!(part(&journal, "", "2h", &[]).contains("part from 0 to 60 ms"));
    assert!(part(&journal, "", "99", &[]).contains("records 0 to 14"));
}

/// From, to and a thread, and what is said of a journal without them.
const ABSENT: &str = "\
15 | | => --from 15: the last record is 14
60ms | | => --from 60 ms: the journal ends at 60 ms
50ms | 40ms | => nothing lies between --from 50 ms and --to 40 ms
9 | 3 | => nothing lies between --from 9 and --to 3
| | 6 => --thread 6: it is never admitted
";

#[test]
fn what_is_not_there_is_told() {
    let said = |journal: &[u8], from: &str, to: &str, threads: &[u8]| {
        let options = Options {
            view: view(from, to, threads),
            ..Options::default()
        };
        let journal = Journal::whole(journal);
        draw::<Proved>(journal, &options, &mut Progress::silent()).unwrap_err()
    };
    for row in ABSENT.lines() {
        let (asked, told) = row.split_once(" => ").unwrap();
        let asked: Vec<&str> = asked.split('|').map(str::trim).collect();
        let threads: Vec<u8> = asked[2].parse().into_iter().collect();
        assert_eq!(said(&listing(), asked[0], asked[1], &threads), told);
    }
    let later =
        encode("admit 1 group 0 reservation 9\ndispatch\nreport tick 500\nadmit 2 weight 1\n");
    let told = "--thread 2: it is not admitted between --from and --to";
    assert_eq!(said(&later, "", "300us", &[2]), told);
    assert_eq!(said(&[], "3", "", &[]), "--from 3: there is no record");
    let told = "--to 3: no record stands before it";
    assert_eq!(said(&[], "", "3", &[]), told);
}

#[test]
fn gaps_are_in_the_part_or_not() {
    let piece = "start thousandth 100 interval 20000\nadmit 1 group 0 reservation 400\n\
                 dispatch\nreport tick 15000\n";
    let mut journal = encode(&format!(
        "block\n{piece}block\n{piece}block\nwake 1\nblock\n{piece}"
    ));
    journal[512 + 20] ^= 1;
    let damage = "block 1 refused: 18, check wrong, 1 record not run";
    // Record 62, the wake, lies in the gap.
    for (from, to, shown) in [
        ("62", "62", true),
        ("0", "3", false),
        ("93", "", false),
        ("1ms", "14ms", false),
        ("1ms", "15ms", true),
        ("14ms", "16ms", true),
        ("15ms", "30ms", true),
        ("16ms", "30ms", false),
    ] {
        let svg = part(&journal, from, to, &[]);
        assert_eq!(svg.contains(damage), shown, "{from} to {to}");
    }
}

/// Four minutes in which two threads share the core, but for one place where the
/// second is blocked for a third of a second.
#[test]
fn the_one_outlier_of_four_minutes_is_found_and_looked_into() {
    let load = Load {
        settings: Settings::default(),
        reservations: &[500, 300],
        weights: &[],
        bursts: &[u64::MAX, 60_000_000],
        changes: &[],
    };
    let outcome = control::<Proved>(&load, 240_000_000, |_| 333_000, || 0);
    let blocks = |r: &Record| r.kind == kind::REPORT && r.reason == reason::BLOCK;
    let outlier = outcome.records.iter().position(blocks).unwrap() as u64;
    let journal = outcome.journal();
    let whole = svg(&journal);
    assert!(whole.contains("(heights: parts of the time"));
    assert!(!whole.contains("has the core from"));
    assert!(whole.len() < 200_000, "{}", whole.len());

    // The figures name the record that thread 0's longest run begins with.
    let csv = told(&journal).csv;
    let number = |name: &str| value(&csv, "0", name).parse::<u64>().unwrap();
    let (ticks, record) = (number("longest_run"), number("longest_run_record"));
    assert!((333_000..400_000).contains(&ticks), "{ticks}");
    assert!(record.abs_diff(outlier) < 8, "{record} {outlier}");

    // Drawn from there it is a span of its own, among others of 50 ms.
    let [from, to] = [record - 20, record + 60].map(|record| record.to_string());
    let svg = part(&journal, &from, &to, &[]);
    assert!(!svg.contains("(heights: parts of the time") && svg.len() < 60_000);
    let titles = svg.split("<title>");
    let runs: Vec<&str> = titles.filter(|t| t.starts_with("thread 0 has")).collect();
    assert!(runs.len() > 4);
    let looked_for = format!(", from record {record}</title>");
    let span = runs.iter().find(|run| run.contains(&looked_for)).unwrap();
    let from = number("longest_run_at") as f64 / 1e6;
    assert!(
        span.contains(&format!("the core from {from} s to ")),
        "{span}"
    );
}
