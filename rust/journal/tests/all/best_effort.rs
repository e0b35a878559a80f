//! Best-effort threads in figures and pictures.

use journal::draw::WIDTH;
use journal::engine::Proved;
use journal::names::Names;
use journal::track::View;

use crate::common::*;
use crate::draw::{paths, place};
use crate::spare;

/// Threads 8 and 9 of weights 1 and 3 beside a reserved one: a turn of 8, three
/// of 9, then each blocks. Five records are refused, and the last is idle.
const SHARED: &str = "start thousandth 100 interval 20000\n\
    admit 1 group 0 reservation 100\nadmit 8 weight 1\nadmit 9 weight 3\n\
    dispatch\nreport block 500\ndispatch\nreport tick 20000\n\
    dispatch\nreport tick 20000\ndispatch\nreport tick 20000\ndispatch\nreport tick 20000\n\
    dispatch\nreport block 10000\nwake 1\ndispatch\nreport block 300\n\
    change 8 reservation 5\nadmit 7 weight 17\nadmit 64 weight 1\nadmit 9 weight 0\n\
    dispatch\nchange 9 reservation 5\nreport block 2000\ndispatch\n";

fn names() -> Names {
    Names::read(b"1 readout\n8 printer\n9 packer\n").unwrap()
}

fn whole(text: &str) -> Told {
    figures(&encode(text), &View::default(), &names())
}

/// The picture of a text, of some threads and up to a mark.
fn shown(text: &str, threads: &[u8], to: &str) -> String {
    picture(&encode(text), view("", to, threads), names(), WIDTH)
}

#[test]
fn figures_tell_shares_against_weights() {
    let Told {
        text, csv, efforts, ..
    } = whole(SHARED);
    assert!(text.contains(", 1 start, idle 1 time, best effort 92.000 ms\n"));
    // Weight, by weight, of the rest, share, runs, wakes, refused, lives, state;
    // the longest; the pair: 3 × 20,000 of at most 4 × 20,000.
    assert_eq!(
        rows(&text, "8 printer"),
        [
            "8 printer 1 250 326 323 2 0 1 1 blocked",
            "8 printer 20.000 6 60.000 7",
            "8 printer 9 packer 20.000 20.500 26.667 75 %",
        ]
    );
    let packer = rows(&text, "9 packer");
    assert_eq!(packer[0], "9 packer 3 750 674 668 4 0 2 1 blocked");
    assert_eq!(packer[2], "9 packer 8 printer 20.000 20.500 26.667 75 %");
    // The reserved one has the tables that it had.
    let readout = rows(&text, "1 readout");
    assert_eq!(readout.len(), 2);
    assert_eq!(readout[0], "1 readout 0 100 9 2 1 0 1 blocked");
    assert!(text.contains("\nBest-effort threads run while no reserved one is runnable."));
    let mut tables = text.lines().skip(4);
    assert!(tables.all(|line| line.chars().count() <= 100));
    assert!(text.contains("weight outside 1 to 16: 1 time, first at record 20, "));

    // All threads stand in the values of every thread, with no group and 0 for
    // what only reserved ones have.
    let lines: Vec<&str> = csv.lines().collect();
    assert!(lines[2].starts_with("8,printer,,0,323,1,30000,2,0,1,20000,500,6,60000,20500,7,"));
    assert!(lines[2].ends_with(",0,0,0,0,blocked,0,0,0,0,0,0,0,0,0"));
    let fields: Vec<usize> = lines.iter().map(|row| row.split(',').count()).collect();
    assert_eq!(fields, [33; 4]);
    assert_eq!(
        efforts,
        "thread,name,weight,by_weight,of_the_rest,ticks,ticks_of_all,\
         farthest_from,apart,limit,apart_at\n\
         8,printer,1,250,326,30000,92000,9,60000,80000,20500\n\
         9,packer,3,750,674,62000,92000,8,60000,80000,20500\n"
    );
}

#[test]
fn figures_of_one_thread_and_of_a_part() {
    let journal = encode(SHARED);
    let told = |view: &View| figures(&journal, view, &names());
    let efforts = |told: &Told| -> Vec<String> {
        let rows = told.efforts.lines().skip(1);
        rows.map(str::to_string).collect()
    };
    // The others count where one thread is shown.
    let one = told(&view("", "", &[9]));
    assert!(one.text.contains(", best effort 92.000 ms\n"));
    assert_eq!(rows(&one.text, "8 printer").len(), 0);
    let nine = "9,packer,3,750,674,62000,92000,8,60000,80000,20500";
    assert_eq!(efforts(&one), [nine]);
    // 10 ms of the first turn and 10 of the second; both are runnable.
    assert_eq!(
        efforts(&told(&view("10.5ms", "30.5ms", &[]))),
        [
            "8,printer,1,250,500,10000,20000,9,30000,80000,20500",
            "9,packer,3,750,500,10000,20000,8,30000,80000,20500"
        ]
    );
    // Alone there is nobody to come apart from, also where another is gone before
    // the part.
    let alone = "9,packer,16,1000,1000,20000,20000,,0,0,0";
    let gone = "admit 8 weight 1\ndispatch\nreport exit 5\nadmit 9 weight 16\n\
                dispatch\nreport exit 20000\n";
    let told = figures(&encode(gone), &view("6us", "", &[]), &names());
    assert_eq!(efforts(&told), ["9,packer,16,1000,1000,19999,19999,,0,0,0"]);
    let told = whole("admit 9 weight 16\ndispatch\nreport exit 20000\n");
    assert_eq!(efforts(&told), [alone]);
    assert_eq!(rows(&told.text, "9 packer").len(), 2);
    assert!(!told.text.contains("farthest from") && !told.text.contains("largest lag"));
}

/// Numbers that were both: in the tables of both, a lane by the last life, and
/// lags of the lives with a reservation.
#[test]
fn a_number_may_be_reserved_in_one_life_and_best_effort_in_another() {
    let text = "admit 8 group 0 reservation 200\nadmit 9 weight 2\n\
        dispatch\nreport exit 4000\nadmit 8 weight 6\ndispatch\nreport tick 3000\n\
        dispatch\nreport exit 1000\nadmit 9 group 0 reservation 50\n\
        dispatch\nreport tick 5000\n";
    let told = whole(text);
    for label in ["8 printer", "9 packer"] {
        assert_eq!(rows(&told.text, label).len(), 5, "{}", told.text);
    }
    assert!(rows(&told.text, "8 printer")[0].starts_with("8 printer 0 200 "));
    assert!(rows(&told.text, "9 packer")[0].starts_with("9 packer 0 50 "));
    let efforts: Vec<&str> = told.efforts.lines().skip(1).collect();
    assert!(efforts[0].starts_with("8,printer,6,750,"));
    assert!(efforts[1].starts_with("9,packer,2,250,"));
    let svg = shown(text, &[], "");
    assert!(svg.contains(">6 of 8<") && svg.contains(">50 ‰<"));
    assert!(!svg.contains(">200 ‰<") && !svg.contains(">2 of 8<"));
    assert_eq!(svg.matches("class=\"panel\"").count(), 2);
    assert!(place(&svg, "9 packer").1 < place(&svg, "8 printer").1);
}

#[test]
fn lanes_stand_apart_with_weights_and_shares() {
    let svg = shown(SHARED, &[], "");
    assert!(svg.contains("\u{b7} 1 idle dispatch \u{b7} best effort 92 ms \u{b7}"));
    // Below the reserved thread a heading, and the lanes under it.
    let down = ["1 readout", "best effort", "8 printer", "9 packer"];
    assert!(down.map(|text| place(&svg, text).1).is_sorted());
    let heading = place(&svg, "best effort").1;
    let rest = "what reserved threads leave, shared by weight: 92 ms";
    for text in ["weight", "of the rest", rest] {
        assert_eq!(place(&svg, text).1, heading);
    }
    // Weights on the left, parts on the right.
    for [name, weight, part] in [
        ["8 printer", "1 of 4", "326 ‰"],
        ["9 packer", "3 of 4", "674 ‰"],
    ] {
        let lane = place(&svg, name).1;
        assert_eq!([weight, part].map(|text| place(&svg, text).1), [lane; 2]);
    }
    for title in [
        "thread 8 (printer): best effort, weight 1 of 4, 2 dispatches, 0 wakes",
        "thread 9 (packer), at the end: 62 ms of the 92 ms that best-effort threads had in its \
         time; runnable together, it and thread 8 (printer) came apart by up to 20 ms a weight, \
         of at most 26.7 ms",
        "thread 9 (packer) has the core from 20.5 ms to 80.5 ms, from record 8",
        "record 19 refused: 7, a best-effort thread has no reservation (thread 8 (printer))",
        "record 20 refused: 4, weight outside 1 to 16 (thread 7)",
    ] {
        assert!(svg.contains(title), "{title}");
    }
    // Lags of the reserved thread alone.
    assert_eq!(svg.matches("class=\"panel\"").count(), 1);
    assert_eq!(svg.matches(">1 readout<").count(), 2);
    assert_eq!(svg.matches(">9 packer<").count(), 1);
    assert!(svg.contains("Lag: processor time owed to a reserved thread since"));
}

#[test]
fn without_best_effort_threads_there_is_no_word_of_them() {
    let refused = encode("admit 1 group 0 reservation 9\nadmit 9 weight 0\nadmit 9 weight 17\n");
    for journal in [listing(), refused] {
        let figures = told(&journal);
        for words in [&svg(&journal), &figures.text] {
            assert!(!words.contains("best") && !words.contains("of the rest"));
            assert!(!words.contains("a reserved thread"));
        }
        assert_eq!(figures.efforts.lines().count(), 1);
    }
}

#[test]
fn best_effort_threads_alone_and_beside_groups() {
    let alone = "admit 8 weight 1\nadmit 9 weight 3\ndispatch\nreport tick 9\n";
    let svg = shown(alone, &[], "");
    assert!(!svg.contains(">reserved<") && !svg.contains("Lag:"));
    assert!(!svg.contains("class=\"panel\"") && svg.contains(">1000 ‰<"));
    let text = format!("open 2 parent 0 ceiling 300\nadmit 3 group 2 reservation 10\n{alone}");
    let svg = shown(&text, &[], "");
    let down = ["group 2 in 0 · ceiling 300 ‰", "thread 3", "best effort"];
    assert!(down.map(|text| place(&svg, text).1).is_sorted());
    // In no group: the names begin at the margin.
    let (margin, heading) = place(&svg, "best effort");
    assert_eq!(place(&svg, "8 printer").0, margin);
    assert!(place(&svg, "thread 3").0 > margin);
    // The lines beside the groups end above the heading.
    for path in paths(&svg, "group") {
        let end: f64 = path.split_once('V').unwrap().1.parse().unwrap();
        assert!(end < heading, "{path}");
    }
}

#[test]
fn parts_narrow_pictures_and_long_journals() {
    let svg = shown(SHARED, &[8], "30.5ms");
    assert!(!svg.contains("packer") || svg.contains("it and thread 9 (packer) came apart"));
    assert!(svg.contains(">667 ‰<") && svg.contains(">1 of 4<"));
    assert!(svg.contains("shared by weight: 30 ms<"));
    assert!(!svg.contains("class=\"panel\""));
    let narrow = picture(&encode(SHARED), View::default(), names(), 400);
    assert!(narrow.contains(">what is left: 92 ms<"));
    let long = crate::common::svg(&spare::play::<Proved>(12_000_000).journal());
    assert!(long.contains("(heights: parts of the time"));
    assert!(long.contains(">1 of 4<") && long.contains(">3 of 4<"));
    assert_eq!(long.matches("class=\"panel\"").count(), 4);
    assert_eq!(paths(&long, "lags").len(), 4);
    assert!(long.len() < 200_000, "{}", long.len());
}
