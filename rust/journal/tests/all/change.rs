//! Changes of reservations in pictures and figures.

use journal::names::Names;
use journal::track::View;

use crate::common::*;
use crate::draw::{axis, numbers, paths};

/// Thread 1 waits while 2 runs for 20 ms, is raised from 100 to 300, waits on, has
/// the core and blocks; blocked it is lowered to 50. Two changes are refused.
const CHANGED: &str = "start thousandth 100 interval 20000\n\
    admit 2 group 0 reservation 300\nadmit 1 group 0 reservation 100\n\
    dispatch\nreport tick 20000\nchange 1 reservation 300\n\
    dispatch\nreport tick 10000\ndispatch\nreport block 10000\n\
    dispatch\nchange 2 reservation 1\nreport tick 1000\nchange 1 reservation 50\n\
    change 1 reservation 701\ndispatch\nreport tick 3000\nwake 1\n";

#[test]
fn a_change_is_marked_with_what_was_reserved_before_and_after() {
    let svg = svg(&encode(CHANGED));
    for text in [
        "\u{b7} 2 changes of reservation \u{b7} 2 refusals<",
        ">change of reservation<",
        ".change{",
        ">100 → 300 ‰<",
        ">300 → 50 ‰<",
        "<title>thread 1: record 5 changes its reservation from 100 to 300 ‰ at 20 ms; \
         its lag begins anew and is at most 48 ms</title>",
        // The lane says all that was reserved, and when pointed at too.
        ">100 → 300 → 50 ‰<",
        "thread 1: reservation 100 → 300 → 50 ‰ in group 0, 1 dispatch, 1 wake, 2 changes<",
        "last wake, yield or change; below 0",
        "/ 1000, f as reserved at the time<",
        // Refused ones are refusals, of the thread that they name.
        "record 11 refused: 9, it is running (thread 2)",
        "record 14 refused: 5, more than the group has free, its own included (thread 1)",
    ] {
        assert!(svg.contains(text), "{text}");
    }
    // After the legend's the marks of thread 1, at their times.
    let (left, tick) = axis(&svg, 44_000.0);
    let marks = paths(&svg, "change");
    assert_eq!(marks.len(), 3);
    for (mark, time) in marks[1..].iter().zip([20_000.0, 41_000.0]) {
        let x = numbers(mark)[0];
        assert!((x - left - tick * time).abs() < 0.02, "{x}");
    }
}

#[test]
fn bound_and_lag_begin_anew_at_a_change() {
    let svg = svg(&encode(CHANGED));
    // Thread 1 stands above. Its bound, up at 20 ms and down at 41 ms.
    let bound = paths(&svg, "bound")[0];
    assert_eq!(bound.matches('V').count(), 2, "{bound}");
    assert_eq!(bound.matches('M').count(), 1, "{bound}");
    let n = numbers(bound);
    let (left, tick) = axis(&svg, 44_000.0);
    let (x1, x2) = (left + 20_000.0 * tick, left + 41_000.0 * tick);
    // M left y0 H x1 V y1 H x2 V y2 H right.
    assert!((n[2] - x1).abs() < 0.02 && (n[4] - x2).abs() < 0.02);
    let zero = numbers(paths(&svg, "zero")[0])[1];
    let heights = [n[1], n[3], n[5]].map(|y| zero - y);
    for (height, bound) in heights.into_iter().zip([20.0, 48.0, 10.5]) {
        assert!((height / heights[1] - bound / 48.0).abs() < 0.002, "{n:?}");
    }
    assert!(svg.contains(">20 ms → 48 ms<") && svg.contains(">48 ms → 10.5 ms<"));
    // A line down at each.
    assert_eq!(paths(&svg, "changed").len(), 1);
    // The lag: up to 2 ms, down to 0 at 20 ms and with three times the slope on.
    let lag = paths(&svg, "lag")[0];
    let n = numbers(lag);
    let scale = heights[1] / 48.0;
    assert_eq!(lag.matches('V').count(), 2, "{lag}");
    assert_eq!((n[0], n[1]), (left, zero));
    assert!((zero - n[3] - 2.0 * scale).abs() < 0.02, "{lag}");
    assert_eq!(n[4], zero);
    assert!((zero - n[6] - 3.0 * scale).abs() < 0.02, "{lag}");
}

#[test]
fn without_changes_there_is_no_word_of_them() {
    let refused = "admit 1 group 0 reservation 100\nchange 1 reservation 1001\n\
                   change 9 reservation 5\ndispatch\nreport tick 9\n";
    for journal in [listing(), encode(refused)] {
        let svg = svg(&journal);
        assert!(!svg.contains("change") && !svg.contains('→'));
        assert!(!svg.contains("f as reserved"));
        let figures = told(&journal);
        assert!(!figures.text.contains("change") && figures.csv.contains(",changes,"));
    }
}

/// Of thread 1 with 100 after 20 ms, and 10 ms behind them.
fn changed(changes: &str) -> String {
    svg(&encode(&format!(
        "admit 2 group 0 reservation 300\nadmit 1 group 0 reservation 100\n\
         dispatch\nreport tick 20000\n{changes}dispatch\nreport tick 10000\n"
    )))
}

#[test]
fn changes_to_the_same_and_at_one_moment() {
    let same = changed("change 1 reservation 100\n");
    assert!(same.contains(">100 → 100 ‰<") && same.contains("1 change of reservation"));
    assert!(!same.contains(" ms → "));
    assert!(paths(&same, "bound").iter().all(|path| !path.contains('V')));
    assert_eq!(paths(&same, "lag")[0].matches('V').count(), 1);
    // Several are one mark; each is told on a line of its title.
    let three = "change 1 reservation 500\nchange 1 reservation 20\nchange 1 reservation 40\n";
    let svg = changed(three);
    assert_eq!(paths(&svg, "change").len(), 2);
    assert!(svg.contains(">100 → 40 ‰<") && svg.contains(">100 → … → 40 ‰<"));
    let title = svg.split("<title>thread 1: record 4 ").nth(1).unwrap();
    let lines: Vec<&str> = title.split("</title>").next().unwrap().lines().collect();
    assert_eq!(lines.len(), 3);
    for (line, told) in lines
        .iter()
        .zip(["from 100 to 500 ‰", "500 to 20 ‰", "20 to 40 ‰"])
    {
        assert!(line.contains(told), "{line}");
    }
    assert!(svg.contains(">20 ms → 8.48 ms<") && svg.contains("3 changes of reservation"));
    // The largest bound is that of 100: those between had no time.
    assert_eq!(svg.matches(">20 ms<").count(), 1);
    // In another life of the thread they are another mark.
    let lives = "change 1 reservation 40\nremove 1\n\
                 admit 1 group 0 reservation 50\nchange 1 reservation 60\n";
    let svg = changed(lives);
    assert_eq!(paths(&svg, "change").len(), 3);
    assert!(!svg.contains("100 → 60"));
}

#[test]
fn parts_show_the_changes_in_them_and_the_reservations_of_their_time() {
    let journal = encode(CHANGED);
    // After the raise and before the other.
    let svg = part(&journal, "25ms", "40.5ms", &[1]);
    assert!(svg.contains(">300 ‰<") && !svg.contains("change"));
    assert!(svg.contains(">48 ms<") && !svg.contains(">20 ms<"));
    assert!(svg.contains("thread 1: reservation 300 ‰ in group 0"));
    // Before both.
    let svg = part(&journal, "", "15ms", &[]);
    assert!(svg.contains(">100 ‰<") && svg.contains(">20 ms<") && !svg.contains("change"));
    // From the change on by its record: what was before is no bound of the part.
    let svg = part(&journal, "5", "12", &[1]);
    assert!(svg.contains(">100 → 300 ‰<") && svg.contains(">48 ms<"));
    assert!(!svg.contains(">20 ms<") && svg.contains("1 change of reservation"));
    assert!(!paths(&svg, "bound")[0].contains('V'));
    // Up to the change and with it.
    let svg = part(&journal, "", "4", &[1]);
    assert!(svg.contains(">100 ‰<") && !svg.contains("change"));
    let svg = part(&journal, "", "5", &[1]);
    assert!(svg.contains(">100 → 300 ‰<") && svg.contains(">20 ms<"));
    // Another thread alone has none.
    assert!(!part(&journal, "", "", &[2]).contains("change"));
}

#[test]
fn narrow_pictures_show_the_last_reservation() {
    let mut names = Names::default();
    names.give(1, "readout");
    let narrow = picture(&encode(CHANGED), View::default(), names, 360);
    assert!(!narrow.contains(">100 → 300 → 50 ‰<") && narrow.contains(">→ 50 ‰<"));
    assert!(narrow.contains("reservation 100 → 300 → 50 ‰ in group 0"));
}

#[test]
fn changes_are_thinned_out() {
    // Two threads take turns; the first is changed every so many turns.
    let long = |turns: u32, every: u32| {
        let mut text =
            String::from("admit 1 group 0 reservation 200\nadmit 2 group 0 reservation 200\n");
        for turn in 1..=turns {
            text.push_str("dispatch\nreport tick 10000\n");
            if turn % every == 0 {
                let f = if turn / every % 2 == 1 { 700 } else { 200 };
                text.push_str(&format!("change 1 reservation {f}\n"));
            }
        }
        svg(&encode(&text))
    };
    // A few in a long journal keep their marks, and the bound its steps.
    let few = long(3000, 1000);
    assert!(few.contains("(heights: parts of the time"));
    assert!(few.contains(">changes of reservation<"));
    assert!(few.contains(">200 → 700 ‰<") && few.contains(">700 → 200 ‰<"));
    assert!(few.contains("record 2002 changes its reservation from 200 to 700 ‰ at 10 s;"));
    // The last change stands at the very end.
    let bound = paths(&few, "bound")[0];
    assert_eq!(bound.matches('V').count(), 2, "{bound}");
    assert_eq!(bound.matches('M').count(), 1, "{bound}");
    assert!(few.contains(">36 ms → 56 ms<"));
    // Many are ticks without titles, labelled where there is room.
    let many = long(4000, 2);
    assert!(many.contains("2,000 changes of reservation"));
    assert!(!many.contains("changes its reservation"));
    assert_eq!(paths(&many, "change").len(), 2);
    assert!(many.len() < 200_000, "{}", many.len());
}

#[test]
fn figures_tell_of_changes() {
    let journal = encode(CHANGED);
    let Told { text, csv, .. } = told(&journal);
    // The last reservation; largest lag 300 × 10,000 with its bound; the changes.
    assert_eq!(
        rows(&text, "thread 1"),
        [
            "thread 1 0 50 227 1 1 1 1 runnable",
            "thread 1 10.000 8 30.000 2 3.000 30.000 48.000 6 %",
            "thread 1 2 13 41.000 100 → 300 → 50",
        ]
    );
    assert_eq!(rows(&text, "thread 2").len(), 2);
    assert!(text.contains("\nA change gives a thread another reservation;"));
    assert!(text.lines().all(|line| line.chars().count() <= 100));
    let columns = ",changes,reserved_at_first,last_change_at,last_change_record";
    assert!(csv.lines().next().unwrap().ends_with(columns));
    let ends: Vec<&str> = csv.lines().skip(1).collect();
    assert!(ends[0].ends_with(",0,2,100,41000,13") && ends[1].ends_with(",0,0,300,0,0"));
    for (thread, column, told) in [
        ("1", "reserved", "50"),
        ("1", "longest_block", "4000"),
        ("1", "longest_block_record", "9"),
        ("1", "wakes", "1"),
        ("2", "refused", "1"),
    ] {
        assert_eq!(value(&csv, thread, column), told, "{column}");
    }
    // A part before the second change.
    let part = view("10ms", "35ms", &[1]);
    let Told { text, csv, .. } = figures(&journal, &part, &Names::default());
    assert!(text.contains("100 → 300\n"), "{text}");
    for (column, told) in [
        ("reserved", "300"),
        ("reserved_at_first", "100"),
        ("longest_wait", "20000"),
        ("bound", "48000000"),
    ] {
        assert_eq!(value(&csv, "1", column), told, "{column}");
    }
}
