//! Figures of a journal.

use journal::engine::{Engine, Proved};
use journal::names::Names;
use journal::track::thousandths;

use crate::common::*;

#[test]
fn figures_of_the_listing() {
    let mut names = Names::default();
    names.give(5, "read, \"out\"");
    let told = figures(&listing(), &view("", "", &[]), &names);
    let text = told.text;
    assert!(text.starts_with(&format!("x\n{}\n\n", Proved::SAYS)));
    let facts =
        "15 records in 1 block, 60.000 ms of processor time, m 100, P 20000, 1 start, idle 0 times";
    assert!(text.contains(&format!("\n{facts}\n")));
    // Group, reserved, share, runs, wakes, refused, lives, state; longest run
    // and wait with their records, largest lag and its time, bound, part of it.
    let five = [
        "5 read, \"out\" 0 500 833 3 1 1 1 runnable",
        "5 read, \"out\" 32.000 3 10.000 8 5.000 42.000 60.000 8 %",
    ];
    let seven = [
        "thread 7 0 100 167 2 0 0 1 running",
        "thread 7 10.000 7 32.000 2 3.200 32.000 20.000 16 %",
    ];
    assert_eq!(rows(&text, "5 "), five);
    assert_eq!(rows(&text, "thread 7"), seven);
    assert!(text.contains("2 records were refused:\n"));
    assert!(text.contains("  12  a thread is running: 1 time, first at record 11, 42 ms\n"));
    // The same, by commas.
    let lines: Vec<&str> = told.csv.lines().collect();
    assert_eq!(lines.len(), 3);
    assert!(lines[0].starts_with("thread,name,group,reserved,share,lives,ticks,runs,wakes,"));
    assert_eq!(
        lines[1],
        "5,\"read, \"\"out\"\"\",0,500,833,1,50000,3,1,1,32000,0,3,10000,32000,8,0,0,0,\
         5000000,42000,8,60000000,runnable,0,0,0,0,0,0,500,0,0"
    );
    assert_eq!(value(&told.csv, "7", "wakes"), "0");
    assert_eq!(lines[0].split(',').count(), lines[2].split(',').count());
    let refusals = "number,words,count,first_record,first_at\n\
         12,a thread is running,1,11,42000\n13,more used than the slice,1,12,42000\n";
    assert_eq!(told.refusals, refusals);
}

/// Thread 1 of 10 and thread 2 of 20, each beyond its slice.
pub const LATE: &str = "start thousandth 10 interval 1000 overrun 9\n\
    admit 1 group 0 reservation 10\nadmit 2 group 0 reservation 20\n\
    dispatch\nreport tick 109\ndispatch\nreport yield 205\n\
    dispatch\nreport block 91\ndispatch\nreport tick 200\nwake 1\n";

#[test]
fn figures_of_runs_beyond_their_slices() {
    let journal = encode(LATE);
    let Told { text, csv, .. } = told(&journal);
    assert!(text.contains("0.605 ms of processor time, m 10, P 1000, O 9, 1 start"));
    // How many, together, the longest and its report.
    assert_eq!(rows(&text, "thread 1")[2], "thread 1 1 0.009 0.009 4");
    let two = rows(&text, "thread 2");
    assert_eq!(two[2], "thread 2 2 0.010 0.005 6");
    // The largest lag, 20 × 109, was at most 412,000 + 20 × 9.
    assert!(two[1].ends_with(" 0.002 0.109 0.412 0 %"), "{}", two[1]);
    assert!(text.contains("\nAn overrun is what a run used beyond its slice."));
    let ends = |csv: &str, ends: [&str; 2]| {
        for (row, end) in csv.lines().skip(1).zip(ends) {
            assert!(row.ends_with(end), "{row}");
        }
    };
    let one = ",208000,runnable,1,9,9,100,4,0,10,0,0";
    let two = ",2180,109,2,412180,runnable,2,10,5,309,6,0,20,0,0";
    ends(&csv, [one, two]);
    // In a part 5 of 9 ticks: of the overrun, and in the bound of the other's lag.
    let part = figures(&journal, &view("50us", "105us", &[]), &Names::default());
    let two = ",2100,105,2,412100,goes on,0,0,0,0,0,0,20,0,0";
    ends(&part.csv, [",goes on,1,5,5,100,4,0,10,0,0", two]);
    // Without an overrun there is no word of any, whatever the limit is.
    let on_time = LATE.replace("109", "100").replace("205", "200");
    let text = told(&encode(&on_time)).text;
    assert!(text.contains("m 10, P 1000, O 9, 1 start") && !text.contains("overrun"));
}

/// To the nearest thousandth, half to even.
#[test]
fn shares_are_rounded() {
    let of_2000 = [1, 3, 5, 1999].map(|ticks| thousandths(ticks, 2000));
    assert_eq!(of_2000, [0, 2, 2, 1000]);
    assert_eq!([1, 3].map(|ticks| thousandths(ticks, 16)), [62, 188]);
    assert_eq!(thousandths(0, 0), 0);
    // In a part, of a life that is over, and at the end.
    let text = "admit 1 group 0 reservation 500\nadmit 2 group 0 reservation 100\n\
                dispatch\nreport exit 3\ndispatch\nreport tick 1997\n";
    for (to, shares) in [("16us", ["1000", "812"]), ("", ["1000", "998"])] {
        let told = figures(&encode(text), &view("", to, &[]), &Names::default());
        assert_eq!(["1", "2"].map(|n| value(&told.csv, n, "share")), shares);
    }
}

#[test]
fn groups_ends_and_damage_are_told() {
    let mut journal = encode(
        "block\nopen 2 parent 0 ceiling 300\nadmit 1 group 2 reservation 200\n\
         admit 2 group 0 reservation 100\ndispatch\nreport exit 700\nblock\nwake 2\nblock\nwake 2\n",
    );
    journal[512 + 3] = 9;
    let text = told(&journal).text;
    assert!(text.contains("\ngroup 2 in 0: ceiling 300, closed\n"));
    assert!(rows(&text, "thread 1")[0].ends_with(" 1 left"));
    assert!(rows(&text, "thread 2")[0].ends_with(" 1 lost in damage"));
    assert!(text.contains("No record was refused."));
    assert!(text.contains("At 0.7 ms block 1 was refused: 18, check wrong; 1 record not run."));
    assert!(told(&[]).text.contains("No thread was admitted."));
    // A group that is closed before a part is not in it.
    let closed = "open 2 parent 0 ceiling 300\nclose 2\nadmit 1 group 0 reservation 9\n\
                  dispatch\nreport tick 5\n";
    let part = figures(&encode(closed), &view("1us", "", &[]), &Names::default());
    assert!(!part.text.contains("group 2") && told(&encode(closed)).text.contains("group 2"));
    let ended = "admit 1 group 0 reservation 1\nstart thousandth 1 interval 1\n\
                 admit 2 group 0 reservation 1\n";
    let text = told(&encode(ended)).text;
    assert!(rows(&text, "thread 1")[0].ends_with(" ended by a start"));
    assert!(text.contains(", settings change, 1 start"));
}

#[test]
fn the_command_takes_names_and_parts() {
    let folder = Folder::new("stats");
    let blocks = folder.file("l.blocks", listing());
    let names = folder.file("names.txt", "\u{feff}5 detector # the fast one\n7 pump\n");
    let part = ["--from=8", "--to=60ms"];
    let named = ["stats", "--names", &names, "--name", "7=valve", &blocks];
    let text = good(&[&named[..], &part].concat(), b"");
    assert!(text.starts_with(&format!("{blocks}\n")));
    assert!(text.contains("\npart from 32 ms to 60 ms, 7 records, 28.000 ms of processor time"));
    assert!(rows(&text, "5 detector")[0].starts_with("5 detector 0 500 643 "));
    assert!(rows(&text, "7 valve")[0].starts_with("7 valve 0 100 357 "));
    let errors = run(&["stats", "--thread", "9", &blocks], b"").bad(1);
    let told = format!("journal: {blocks}: --thread 9: it is never admitted\n");
    assert_eq!(errors, told);
    let wrong = folder.file("wrong.txt", "5 a\n5 b\n");
    let errors = run(&["draw", "--names", &wrong, &blocks], b"").bad(1);
    let told = format!("journal: {wrong}: line 2: thread 5 has the name 'a' already\n");
    assert_eq!(errors, told);
}
