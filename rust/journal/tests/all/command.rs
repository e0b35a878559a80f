//! The command as a neighbour in a pipeline: streams, statuses, messages, options.

use std::fs;
use std::io::Write;
use std::process::{Command, Stdio};

use samples::examples;

use crate::common::*;

#[test]
fn a_pipeline_gives_the_same_bytes_back() {
    let blocks = run(&["encode"], examples::listing().text.as_bytes()).good();
    assert_eq!(blocks, listing());
    for command in ["decode", "run"] {
        let text = run(&[command], &blocks).good();
        assert_eq!(run(&["encode", "-"], &text).good(), blocks);
    }
    assert!(good(&["draw"], &blocks).starts_with("<svg "));
    // In odd pieces.
    let mut child = Command::new(JOURNAL)
        .arg("decode")
        .stdin(Stdio::piped())
        .stdout(Stdio::piped())
        .spawn()
        .unwrap();
    let mut stdin = child.stdin.take().unwrap();
    for piece in blocks.chunks(97) {
        stdin.write_all(piece).unwrap();
        stdin.flush().unwrap();
    }
    drop(stdin);
    let text = Ran::of(child.wait_with_output().unwrap()).good();
    assert_eq!(text, decode(&blocks).as_bytes());
}

#[test]
fn a_named_file_is_read_and_one_is_written_whole() {
    let folder = Folder::new("files");
    let text = folder.file("listing.txt", examples::listing().text);
    let blocks = folder.path("listing.blocks");
    assert_eq!(good(&["encode", "-o", &blocks, &text], b""), "");
    assert_eq!(fs::read(&blocks).unwrap(), listing());
    let output = format!("--output={}", folder.path("l.svg"));
    assert_eq!(good(&["draw", &output, "--", &blocks], b""), "");
    let svg = fs::read_to_string(folder.path("l.svg")).unwrap();
    assert!(svg.contains("<title>listing.blocks</title>"));
    // In place.
    assert_eq!(good(&["decode", &blocks, "-o", &blocks], b""), "");
    assert!(fs::read(&blocks).unwrap().starts_with(b"block 0\nstart"));
    assert_eq!(folder.names(), ["l.svg", "listing.blocks", "listing.txt"]);
}

#[test]
fn bad_text_writes_nothing_and_names_its_lines() {
    let folder = Folder::new("bad");
    let old = folder.file("old.blocks", "as it was");
    let text = folder.file("bad.txt", "dispatch\nwake 300\n\nadmitt 5\n");
    for out in [&old, &folder.path("new.blocks")] {
        let errors = run(&["encode", &text, "-o", out], b"").bad(1);
        let lines: Vec<&str> = errors.lines().collect();
        let wake = format!("journal: {text}: line 2: wake: the thread: '300' is above 255");
        assert_eq!((lines.len(), lines[0]), (2, &*wake));
        assert!(lines[1].starts_with(&format!("journal: {text}: line 4: 'admitt' begins no line")));
    }
    assert_eq!(fs::read(&old).unwrap(), b"as it was");
    assert_eq!(folder.names(), ["bad.txt", "old.blocks"]);
    let errors = run(&["encode"], b"wake\n").bad(1);
    assert!(errors.starts_with("journal: standard input: line 1: wake: "));
}

#[test]
fn damaged_blocks_are_told_of_and_kept() {
    let mut blocks = listing();
    blocks.extend_from_slice(&[0; 512]);
    blocks.extend_from_slice(&[1, 2, 3]);
    for command in ["decode", "run", "draw", "stats"] {
        let ran = run(&[command], &blocks);
        let damaged = "2 of 3 blocks damaged, the first at place 1 (18, check wrong)";
        assert_eq!(ran.errors, format!("journal: standard input: {damaged}\n"));
        assert_eq!(ran.code, 0);
        if ["decode", "run"].contains(&command) {
            assert_eq!(run(&["encode"], &ran.out).good(), blocks);
        }
    }
    let text = run(&["decode"], examples::listing().text.as_bytes());
    assert_eq!(text.code, 0);
    assert!(text.errors.contains("'journal encode' makes blocks"));
}

/// Arguments, and what is wrong with them.
const WRONG: &str = "\
=> a command is missing
paint => 'paint' is no command
decode -x => '-x' is no option of this command
decode a b => 'b': one FILE only
draw -o => -o needs a value
encode --pack=yes => --pack takes no value
draw --name readout => --name: 'readout' is not N=NAME, N from 0 to 63
draw --name 64=a => --name: '64=a' is not N=NAME, N from 0 to 63
draw --from 12a => --from: '12a' is neither a record's number nor a time as 120ms, 1.5s or 2min
stats --to 1.5 => --to: '1.5' is neither a record's number nor a time as 120ms, 1.5s or 2min
draw --thread 64 => --thread: '64' is not a number from 0 to 63
draw --width 359 => --width: the least is 360
draw --width 4001 => --width: '4001' is not a number from 0 to 4000
decode --first-block 4294967296 => --first-block: '4294967296' is not a number from 0 to 4294967295
run --why -1 => --why: '-1' is not a number from 0 to 18446744073709551615
run --why= => --why: '' is not a number from 0 to 18446744073709551615
run --name 5=readout => --names and --name go with --why
run --names x => --names and --name go with --why
stats --refusals => --refusals goes with --csv; the text has them anyway
stats --best-effort => --best-effort goes with --csv; the text has them anyway
stats --csv --refusals --best-effort => --refusals or --best-effort, not both
";

#[test]
fn the_wrong_command_line() {
    for row in WRONG.lines() {
        let (arguments, told) = row.split_once("=> ").unwrap();
        let arguments: Vec<&str> = arguments.split_whitespace().collect();
        let told = format!("journal: {told}\nTry 'journal --help'.\n");
        assert_eq!(run(&arguments, b"").bad(2), told, "{arguments:?}");
    }
}

/// Of each option the commands that take it.
#[test]
fn an_option_of_another_command_is_none() {
    for (option, commands) in [
        ("--pack", "encode"),
        ("--why=3", "run"),
        ("--first-block=1", "encode decode run draw stats"),
        ("--names=x", "run draw stats"),
        ("--name=1=x", "run draw stats"),
        ("--from=1", "draw stats"),
        ("--to=1", "draw stats"),
        ("--thread=1", "draw stats"),
        ("--title=x", "draw"),
        ("--width=400", "draw"),
        ("--csv", "stats"),
        ("--refusals", "stats"),
        ("--best-effort", "stats"),
    ] {
        for command in ["encode", "decode", "run", "draw", "stats", "priorities"] {
            let errors = run(&[command, option], b"").errors;
            let none = errors.contains("is no option of this command");
            let takes = commands.split(' ').any(|one| one == command);
            assert_eq!(none, !takes, "{command} {option}: {errors}");
        }
    }
}

/// What an option does, where no other test gives it to the command.
#[test]
fn options_are_heeded() {
    let text = b"dispatch\nblock 1\ndispatch\nblock\nwake 1\n";
    assert_eq!(run(&["encode"], text).good().len(), 3 * 512);
    assert_eq!(run(&["encode", "--pack"], text).good().len(), 512);
    let blocks = listing();
    let words = [
        "draw",
        "--title",
        "Ours",
        "--width",
        "400",
        "--name=5=a",
        "--thread=5",
    ];
    let svg = good(&words, &blocks);
    assert!(svg.contains(" width=\"400\" ") && svg.contains("<title>Ours</title>"));
    assert!(svg.contains(">5 a<") && !svg.contains(">thread 7<"));
    let svg = good(&["draw", "--from", "8", "--to=50ms"], &blocks);
    assert!(svg.contains("part from 32 ms to 50 ms"));
    let csv = good(&["stats", "--csv"], &blocks);
    assert_eq!(csv, told(&blocks).csv);
    let csv = good(&["stats", "--csv", "--refusals", "--thread=5"], &blocks);
    assert_eq!(csv, told(&blocks).refusals);
    let csv = good(
        &["stats", "--csv", "--best-effort"],
        &encode("admit 3 weight 1\n"),
    );
    assert_eq!(csv.lines().nth(1), Some("3,,1,1000,0,0,0,,0,0,0"));
}

#[test]
fn help_and_version() {
    let help = good(&["--help"], b"");
    assert!(help.starts_with("Usage: journal COMMAND") && help.contains("the proved library"));
    for (command, options) in [
        (
            "encode",
            &["admit 9 weight 3 ", "--pack", "--first-block N"][..],
        ),
        ("decode", &["--first-block N"]),
        ("run", &["--why RECORD", "--names FILE", "--name N=NAME"]),
        (
            "draw",
            &[
                "--title TEXT",
                "--width N",
                "--from X, --to Y",
                "--thread N",
            ],
        ),
        (
            "stats",
            &[
                "--csv ",
                "--csv --refusals",
                "--csv --best-effort",
                "--from X, --to Y",
            ],
        ),
        ("priorities", &["-o, --output FILE"]),
    ] {
        assert!(help.contains(&format!("\n  {command} ")), "{command}");
        let told = good(&[command, "--help"], b"");
        assert_eq!(good(&[command, "-h"], b""), told);
        assert!(told.starts_with(&format!("Usage: journal {command} ")));
        assert!(told.lines().all(|line| line.len() <= 82), "{command}");
        for option in options {
            assert!(
                told.contains(&format!("\n  {option}")),
                "{command} {option}"
            );
        }
    }
    let version = format!(
        "journal {}, on the proved library mtr {}\n",
        env!("CARGO_PKG_VERSION"),
        journal::engine::version()
    );
    assert_eq!(good(&["--version"], b""), version);
}
