//! How the program `mtrwhy` ends. A missing, extra or bad argument gives 4 on standard output, and so does a file of which nothing can be
//! read; a read that fails further on and an output that can't be written are said on standard error. Its exit status is always 0.

use crate::ends::{
    as_nobody, bad_files, cut_off, deserted, foreign_path, named_pipe, odd_paths, told, unreadable,
    unwritten, BAD,
};
use check::program::{mtrwhy, Folder};
use check::why::cut;
use model::why::program;
use samples::records::{self, admit, dispatch, report, BLOCK};
use std::ffi::{OsStr, OsString};
use std::fs;
use std::os::unix::ffi::OsStringExt;
use std::process::{Command, Stdio};

/// The program given these arguments: what it prints is what the model prints, and it says nothing.
fn given(args: &[&OsStr]) -> String {
    let (printed, said) = told(mtrwhy().args(args).stdin(Stdio::null()).output().unwrap());
    assert_eq!(said, "", "{args:?}");
    let args: Vec<OsString> = args.iter().map(|&arg| arg.into()).collect();
    assert_eq!(printed.as_bytes(), program(&args).unwrap(), "{args:?}");
    printed
}

/// Thread 4 blocks at record 2, and record 3 is idle.
fn journal() -> Vec<u8> {
    records::journal(&[admit(4, 0, 500), dispatch(), report(BLOCK, 0), dispatch()])
}

/// The answer about record 3.
const IDLE: &str = "0 64\n4 2\n";

#[test]
fn good_arguments() {
    let folder = Folder::new("good");
    let path = folder.file("journal", &journal());
    let ask = |number: &str| given(&[path.as_ref(), number.as_ref()]);
    for three in ["3", "03", "003", "0000000000000000003"] {
        assert_eq!(ask(three), IDLE);
    }
    assert_eq!(ask("1"), "0 4\n");
    for absent in ["0", "00", "2", "4", "30", "31", "9999999999999999999"] {
        assert_eq!(ask(absent), "21\n");
    }
    for (name, bytes) in [
        ("empty", &[][..]),
        ("byte", &[0]),
        ("short", &journal()[..511]),
    ] {
        let path = folder.file(name, bytes);
        assert_eq!(given(&[path.as_ref(), "3".as_ref()]), "21\n");
    }
    assert_eq!(given(&["/dev/null".as_ref(), "3".as_ref()]), "21\n");
}

#[test]
fn numbers_of_arguments() {
    let folder = Folder::new("count");
    let path = folder.file("journal", &journal());
    let (path, three, none): (&OsStr, &OsStr, &OsStr) = (path.as_ref(), "3".as_ref(), "".as_ref());
    for args in [
        &[][..],
        &[path],
        &[three],
        &[none],
        &[path, three, three],
        &[path, path, three],
        &[path, three, none],
        &[none, path, three],
        &[path, three, three, three],
        &[three, path],
        &[none, none],
    ] {
        assert_eq!(given(args), "4\n");
    }
}

#[test]
fn bad_numbers() {
    let folder = Folder::new("numbers");
    let path = folder.file("journal", &journal());
    for text in BAD {
        assert_eq!(given(&[path.as_ref(), text.as_ref()]), "4\n");
        assert_eq!(given(&["/missing".as_ref(), text.as_ref()]), "4\n");
    }
    let mut digits = 0;
    for byte in 1..=255u8 {
        let [alone, after] = [vec![byte], vec![b'0', byte]].map(OsString::from_vec);
        let wanted = match byte {
            b'1' => "0 4\n",
            b'3' => IDLE,
            b'0'..=b'9' => "21\n",
            _ => "4\n",
        };
        digits += (wanted != "4\n") as u32;
        assert_eq!(given(&[path.as_ref(), &alone]), wanted);
        assert_eq!(given(&[path.as_ref(), &after]), wanted);
    }
    assert_eq!(digits, 10);
    // Of any length.
    for length in [1, 18, 19, 20, 21, 100, 4095, 4096, 4097, 100_000] {
        let text = "3".repeat(length);
        let wanted = match length {
            1 => IDLE,
            2..=19 => "21\n",
            _ => "4\n",
        };
        assert_eq!(given(&[path.as_ref(), text.as_ref()]), wanted);
    }
}

#[test]
fn files() {
    let folder = Folder::new("files");
    for file in bad_files(&folder) {
        assert_eq!(given(&[file.as_ref(), "3".as_ref()]), "4\n");
        assert_eq!(given(&[file.as_ref(), "x".as_ref()]), "4\n");
    }
    let path = folder.file("journal", &journal());
    let (good, long) = odd_paths(&path);
    assert_eq!(given(&[good.as_ref(), "3".as_ref()]), IDLE);
    for file in long {
        assert_eq!(given(&[file.as_ref(), "3".as_ref()]), "4\n");
    }
    let foreign = foreign_path(&folder, &path);
    let output = mtrwhy().arg(foreign).arg("3").output().unwrap();
    assert_eq!(told(output), ("4\n".into(), String::new()));
}

/// A file that its reader may not open, by a user who is not root.
#[test]
fn unreadable_file() {
    let folder = Folder::new("unreadable");
    let path = folder.file("journal", &journal());
    let found = as_nobody("mtrwhy", &path, &["3"], [0o444, 0o000, 0o333]).map(told);
    let wanted = [IDLE, "4\n", "4\n"].map(|text| (text.into(), String::new()));
    assert_eq!(found, wanted);
}

/// It opens, but its first byte can't be read.
#[test]
fn file_whose_reads_fail() {
    for number in ["0", "3", "9999999999999999999"] {
        assert_eq!(given(&[unreadable().as_ref(), number.as_ref()]), "4\n");
    }
}

/// What a read that fails in the middle gives: the answer if the record's block was read before, 4 if nothing was, and else nothing but a
/// line on standard error.
#[test]
fn read_that_fails_in_the_middle() {
    let folder = Folder::new("middle");
    let unread = "mtrwhy: journal: Resource temporarily unavailable\n";
    let mut seen = [0; 3];
    let mut run = |bytes: &[u8], asked: u64| {
        let (wanted, said) = match cut(bytes, asked, bytes.len()) {
            Some(answer) => (String::from_utf8(answer).unwrap(), ""),
            None => (String::new(), unread),
        };
        let path = folder.join("pipe");
        let pipe = named_pipe(&path);
        let found = told(cut_off(asks(&path, &asked.to_string()), pipe, bytes));
        assert_eq!(found, (wanted, said.into()), "{}, {asked}", bytes.len());
        seen[if said == unread {
            2
        } else {
            (found.0 == "4\n") as usize
        }] += 1;
        found.0
    };
    // Nothing, and a part of a block.
    for (length, wanted) in [(0, "4\n"), (1, ""), (100, ""), (511, "")] {
        for asked in [3, 31, 9_999_999_999_999_999_999] {
            assert_eq!(run(&journal()[..length], asked), wanted);
        }
    }
    // Whole blocks alone, and with a part of the next. Blocks after the first are refused here. The program reads 32 at a time.
    for blocks in [1, 31, 32, 33, 64, 65] {
        for part in [0, 1, 511] {
            let bytes = [&journal().repeat(blocks)[..], &vec![7; part]].concat();
            assert_eq!(run(&bytes, 3), IDLE);
            let last = 31 * blocks as u64 - 1;
            assert_eq!(run(&bytes, last), "21\n");
            for after in [last + 1, last + 31 * 32] {
                assert_eq!(run(&bytes, after), "");
            }
        }
    }
    println!("{seen:?}");
}

/// The program asked about a record.
fn asks(path: impl AsRef<OsStr>, number: &str) -> Command {
    let mut command = mtrwhy();
    command.arg(path).arg(number);
    command
}

/// Each sort of answer to a full disk, and to an output that is not open.
#[test]
fn output_that_cannot_be_written() {
    let folder = Folder::new("output");
    let path = folder.file("journal", &journal());
    let missing = folder.join("missing");
    for (file, number) in [(&path, "3"), (&path, "0"), (&path, "x"), (&missing, "3")] {
        unwritten("mtrwhy", || asks(file, number));
    }
    assert_eq!(fs::read(&path).unwrap(), journal());
}

#[test]
fn reader_that_goes_away() {
    let folder = Folder::new("reader");
    let path = folder.file("journal", &journal());
    for number in ["3", "0", "x"] {
        deserted(asks(&path, number), 0);
    }
}
