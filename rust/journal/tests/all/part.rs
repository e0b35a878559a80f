//! Journals whose first blocks are missing.

use crate::common::{comments, encode, good, run};

/// Four blocks; an accepted start stands in the last.
fn blocks() -> Vec<u8> {
    encode(
        "block\nadmit 1 group 0 reservation 9\nblock\ndispatch\nblock\nreport tick 40\nwake 1\n\
         block\nwake 2\nstart thousandth 0 interval 1\nstart thousandth 100 interval 20000\n\
         admit 1 group 0 reservation 9\ndispatch\nreport tick 900\n",
    )
}

#[test]
fn nothing_is_run_before_an_accepted_start() {
    let part = &blocks()[1024..];
    let ran = good(&["run", "--first-block", "2"], part);
    let lines: Vec<&str> = ran.lines().collect();
    let missing = "# blocks 0 to 1 are missing; encode with --first-block 2";
    assert_eq!((lines[0], lines[2]), (missing, "block 2"));
    let not_run = "0 0 0 not run: a block is damaged or missing and no start accepted since";
    assert_eq!(
        comments(&ran).collect::<Vec<_>>(),
        [
            &format!("62 20 {not_run}"),
            &format!("63 20 {not_run}"),
            &format!("93 20 {not_run}"),
            "94 1 0 0 0 m or P outside its range",
            "95 0 0 0 0",
            "96 0 0 0 0",
            "97 0 1 900 0",
            "98 0 0 0 0",
        ]
    );
    // The whole journal begins with the default settings.
    let whole = good(&["run", "--first-block", "0"], &blocks());
    assert!(whole.contains("# 31 0 1 900 0\n"));
}

#[test]
fn the_way_to_text_and_back_keeps_the_bytes() {
    let part = &blocks()[512..];
    for command in ["decode", "run"] {
        let lines = good(&[command, "--first-block", "1"], part);
        assert!(lines.starts_with("# blocks 0 to 0 are missing; encode with --first-block 1\n"));
        let back = run(&["encode", "--first-block=1"], lines.as_bytes());
        assert_eq!(back.good(), part);
        let errors = run(&["encode"], lines.as_bytes()).bad(1);
        assert!(errors.contains("block 1 stands in the place of block 0"));
    }
}

#[test]
fn pictures_and_figures_say_what_is_missing() {
    let part = &blocks()[1024..];
    let svg = good(&["draw", "--first-block", "2"], part);
    crate::draw::check(&svg);
    assert!(svg.contains(">blocks 0 to 1 are missing, 3 records not run<"));
    assert!(svg.contains("thread 1 has the core from 0 to 0.9 ms, from record 97"));
    let figures = good(&["stats", "--first-block", "2"], part);
    assert!(figures.contains("At 0 blocks 0 to 1 are missing; 3 records not run.\n"));
    let words: Vec<&str> = figures.split_whitespace().collect();
    assert!(words.windows(2).any(|pair| pair == ["0.900", "97"]));
    // Damage after the missing blocks belongs to the same gap.
    let mut worse = part.to_vec();
    worse[3] = 1;
    let ran = run(&["draw", "--first-block", "2"], &worse);
    let damaged = "1 of 2 blocks damaged, the first at place 2 (18, check wrong)";
    assert!(ran.errors.contains(damaged));
    let gap = ">blocks 0 to 2 are missing or damaged, 1 record not run<";
    assert!(ran.text().contains(gap));
}

#[test]
fn a_part_given_as_a_whole_is_recognised() {
    let part = &blocks()[1024..];
    for command in ["decode", "stats"] {
        let ran = run(&[command], part);
        assert_eq!(ran.code, 0);
        let hint = "; the first block is number 2, '--first-block 2' reads it\n";
        assert!(ran.errors.ends_with(hint), "{}", ran.errors);
    }
}
