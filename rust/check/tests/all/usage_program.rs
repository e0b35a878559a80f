//! How the programs `mtrsum` and `mtrask` end. A missing, extra or bad argument gives 4 on standard output, and so does a file of which
//! nothing can be read, and for `mtrsum` one that can't be read twice. Their exit status is always 0.

use crate::ends::{
    as_nobody, bad_files, cut_off, deserted, ended, foreign_path, named_pipe, odd_paths, started,
    told, unreadable, unwritten, BAD,
};
use check::program::{mtrask, mtrsum, spelt, Folder};
use model::blocks::BLOCK;
use model::usage::{ask, ask_program, lines, sum_program, summary, Question};
use samples::examples;
use samples::random::{any_question, long, Rng};
use samples::records::{admit, admit_weight, block, dispatch, report, TICK};
use std::ffi::{OsStr, OsString};
use std::fs::{self, File};
use std::io::{pipe, Read, Write};
use std::path::Path;
use std::process::{Command, Stdio};

/// `mtrsum` given these arguments: it writes what the model writes, and says nothing.
fn summed<A: AsRef<OsStr>>(args: &[A]) -> Vec<u8> {
    let (written, said) = ended(mtrsum().args(args).stdin(Stdio::null()).output().unwrap());
    let args: Vec<OsString> = args.iter().map(|arg| arg.as_ref().into()).collect();
    let mut wanted = Vec::new();
    sum_program(&args, &mut wanted).unwrap();
    assert!(said.is_empty() && written == wanted, "{args:?}: {said}");
    written
}

/// `mtrask` given these arguments: it prints what the model prints, and says nothing.
fn asked<A: AsRef<OsStr>>(file: impl AsRef<OsStr>, numbers: &[A]) -> String {
    let mut args: Vec<OsString> = vec![file.as_ref().into()];
    args.extend(numbers.iter().map(|arg| arg.as_ref().into()));
    let (printed, said) = told(mtrask().args(&args).stdin(Stdio::null()).output().unwrap());
    let wanted = ask_program(&args).unwrap();
    assert!(
        said.is_empty() && printed.as_bytes() == wanted,
        "{args:?}: {printed} {said}"
    );
    printed
}

/// The worked example, and its summary.
fn example() -> [Vec<u8>; 2] {
    let journal = examples::usage().journal();
    let summary = summary(&journal).unwrap();
    [journal, summary]
}

/// A question of the example, and its answer.
const QUESTION: [&str; 3] = ["5", "0", "1"];
const ANSWER: &str = "0 159\n";

#[test]
fn arguments_of_mtrsum() {
    let folder = Folder::new("sum-arguments");
    let [journal, summary] = example();
    let path = folder.file("journal", &journal);
    let (path, none): (&OsStr, &OsStr) = (path.as_ref(), "".as_ref());
    assert_eq!(summed(&[path]), summary);
    for args in [
        &[][..],
        &[none],
        &[path, path],
        &[path, none],
        &[none, path],
        &[path, path, path],
    ] {
        assert_eq!(summed(args), b"4\n");
    }
    // No block, a part of one, and files without an end.
    let empty = folder.file("empty", b"");
    assert_eq!(summed(&[&empty]), b"");
    assert_eq!(summed(&["/dev/null"]), b"");
    assert_eq!(summed(&[folder.file("byte", &[0])]), b"17\n");
    assert_eq!(summed(&["/dev/zero"]), b"18\n");
}

/// 1 to 64 whole questions.
#[test]
fn numbers_of_questions() {
    let folder = Folder::new("ask-arguments");
    let path = folder.file("summary", &example()[1]);
    let (printed, said) = told(mtrask().output().unwrap());
    assert_eq!((&printed[..], &said[..]), ("4\n", ""));
    assert_eq!(asked("", &QUESTION), "4\n");
    assert_eq!(asked("5", &["0", "1"]), "4\n");
    for count in (0..12).chain(186..=200).chain([255, 256, 257, 768, 3000]) {
        let numbers: Vec<&str> = QUESTION.into_iter().cycle().take(count).collect();
        let wanted = match count % 3 {
            0 if (3..=192).contains(&count) => ANSWER.repeat(count / 3),
            _ => "4\n".into(),
        };
        assert_eq!(asked(&path, &numbers), wanted);
    }
}

/// Numbers have 1 to 19 digits; one that has not spoils all answers, and one of no thread or block its own alone.
#[test]
fn numbers() {
    let folder = Folder::new("ask-numbers");
    let path = folder.file("summary", &example()[1]);
    for count in [1, 2, 64] {
        for at in [0, 1, 2, 3 * count - 3, 3 * count - 2, 3 * count - 1] {
            let with = |text: &str| {
                let mut numbers: Vec<&str> = QUESTION.into_iter().cycle().take(3 * count).collect();
                numbers[at] = text;
                asked(&path, &numbers)
            };
            for text in BAD {
                assert_eq!(with(text), "4\n");
            }
            let own = format!("0{}", QUESTION[at % 3]);
            assert_eq!(with(&own), ANSWER.repeat(count));
            let mut lines = vec![ANSWER; count];
            lines[at / 3] = "24\n";
            assert_eq!(with("9999999999999999999"), lines.concat());
        }
    }
    let digits = [
        "0000000000000000005",
        "0000000000000000000",
        "0000000000000000001",
    ];
    assert_eq!(asked(&path, &digits), ANSWER);
    // Small once doubled, or taken times 1024 or 512, and cut to 64 bits; and threads once cut to fewer.
    for bits in 2..=63 {
        for low in [0, 1, 3] {
            let large = ((1u64 << bits) + low).to_string();
            assert_eq!(asked(&path, &["5", "0", &large]), "24\n");
            assert_eq!(asked(&path, &["5", &large, &large]), "24\n");
            if bits > 5 {
                assert_eq!(asked(&path, &[&large[..], "0", "1"]), "24\n");
            }
        }
    }
}

#[test]
fn files() {
    let folder = Folder::new("usage-files");
    let [journal, summary] = example();
    for file in bad_files(&folder) {
        assert_eq!(summed(&[&file]), b"4\n");
        assert_eq!(asked(&file, &QUESTION), "4\n");
        assert_eq!(asked(&file, &["x", "0", "1"]), "4\n");
    }
    assert_eq!(summed(&[unreadable()]), b"4\n");
    assert_eq!(asked(unreadable(), &QUESTION), "4\n");
    assert_eq!(asked("/dev/null", &QUESTION), "24\n");
    let path = folder.file("journal", &journal);
    let (good, long) = odd_paths(&path);
    assert!(summed(&[good]) == summary);
    assert!(long.iter().all(|file| summed(&[file]) == b"4\n"));
    let foreign = foreign_path(&folder, &path);
    let four = (b"4\n".to_vec(), String::new());
    assert_eq!(ended(mtrsum().arg(&foreign).output().unwrap()), four);
    let question = mtrask().arg(&foreign).args(QUESTION).output().unwrap();
    assert_eq!(ended(question), four);
}

/// A file that its reader may not open, by a user who is not root.
#[test]
fn unreadable_files() {
    let folder = Folder::new("usage-unreadable");
    let [journal, summary] = example();
    let path = folder.file("journal", &journal);
    let found = as_nobody("mtrsum", &path, &[], [0o444, 0o000, 0o333]).map(ended);
    let wanted = [&summary, &b"4\n"[..], b"4\n"].map(|b| (b.to_vec(), String::new()));
    assert_eq!(found, wanted);
    let path = folder.file("summary", &summary);
    let found = as_nobody("mtrask", &path, &QUESTION, [0o444, 0o000, 0o333]).map(told);
    let wanted = [ANSWER, "4\n", "4\n"].map(|text| (text.into(), String::new()));
    assert_eq!(found, wanted);
}

/// What can't be read twice is no journal: 4 at once, while the pipe is open, and nothing is taken from it.
#[test]
fn journal_in_a_pipe() {
    let folder = Folder::new("sum-pipe");
    let [journal, _] = example();
    for bytes in [&[][..], &journal] {
        let (mut rest, mut to) = pipe().unwrap();
        to.write_all(bytes).unwrap();
        let stdin = Stdio::from(rest.try_clone().unwrap());
        let output = mtrsum().arg("/dev/stdin").stdin(stdin).output();
        assert_eq!(ended(output.unwrap()), (b"4\n".to_vec(), String::new()));
        drop(to);
        let mut left = Vec::new();
        rest.read_to_end(&mut left).unwrap();
        assert_eq!(left, bytes);

        let path = folder.join("pipe");
        let mut named = named_pipe(&path);
        named.write_all(bytes).unwrap();
        assert_eq!(summed(&[&path]), b"4\n");
        let mut left = vec![0; bytes.len()];
        named.read_exact(&mut left).unwrap();
        assert_eq!(left, bytes);
    }
    // A terminal.
    assert_eq!(summed(&["/dev/ptmx"]), b"4\n");
    // As its standard input a file is read from its start.
    let mut file = File::open(folder.file("journal", &journal)).unwrap();
    file.read_exact(&mut [0; 700]).unwrap();
    let output = mtrsum().arg("/dev/stdin").stdin(file).output();
    assert_eq!(
        ended(output.unwrap()),
        (example()[1].clone(), String::new())
    );
}

/// A summary in a pipe whose reads fail: 4 if nothing was read, and else nothing but a line on standard error.
#[test]
fn read_that_fails_in_the_middle() {
    let folder = Folder::new("ask-middle");
    let mut r = Rng::new(95);
    let summary = summary(long(&mut r, 40).as_flattened()).unwrap();
    let path = folder.join("pipe");
    for length in [0, 1, 511, 512, 513, 16383, 16384, 16385, 32768, 40 * 1024] {
        for numbers in [QUESTION, ["5", "0", "39"], ["64", "0", "1"]] {
            let mut command = mtrask();
            command.arg(&path).args(numbers);
            let found = told(cut_off(command, named_pipe(&path), &summary[..length]));
            let wanted = match length {
                0 => ("4\n", ""),
                _ => ("", "mtrask: summary: Resource temporarily unavailable\n"),
            };
            assert_eq!((&found.0[..], &found.1[..]), wanted, "{length}");
        }
    }
}

/// A program with its arguments.
fn with<A: AsRef<OsStr>>(mut command: Command, file: &Path, args: &[A]) -> Command {
    command.arg(file).args(args);
    command
}

/// Each sort of output to a full disk, and to an output that is not open. What the programs read stays as it is.
#[test]
fn output_that_cannot_be_written() {
    let folder = Folder::new("usage-output");
    let [journal, summary] = example();
    let missing = folder.join("missing");
    let none: [&str; 0] = [];
    let path = folder.file("journal", &journal);
    let short = folder.file("short", &journal[..100]);
    for file in [&path, &short, &missing] {
        unwritten("mtrsum", || with(mtrsum(), file, &none));
    }
    let asks = folder.file("summary", &summary);
    for (file, numbers) in [
        (&asks, QUESTION),
        (&asks, ["5", "1", "0"]),
        (&asks, ["x", "1", "0"]),
        (&missing, QUESTION),
    ] {
        unwritten("mtrask", || with(mtrask(), file, &numbers));
    }
    // Nothing is written, so nothing is said.
    let full = File::options().write(true).open("/dev/full").unwrap();
    let output = mtrsum().arg("/dev/null").stdout(full).output();
    assert_eq!(ended(output.unwrap()), (Vec::new(), String::new()));
    assert_eq!(fs::read(&path).unwrap(), journal);
    assert_eq!(fs::read(&asks).unwrap(), summary);
}

#[test]
fn reader_that_goes_away() {
    let folder = Folder::new("usage-reader");
    let mut r = Rng::new(96);
    let none: [&str; 0] = [];
    let path = folder.file("journal", long(&mut r, 200).as_flattened());
    for bytes in [0, 1, 1000, 65536, 70_000] {
        deserted(with(mtrsum(), &path, &none), bytes);
    }
    deserted(with(mtrsum(), &folder.join("missing"), &none), 0);
    for numbers in [QUESTION, ["x", "0", "1"]] {
        deserted(with(mtrask(), &path, &numbers), 0);
    }
}

/// Both programs hold a piece at a time: a journal of 16 MB and its summary of 32 MB are no matter in 4 MB of memory, all that the process
/// maps, the C library too.
#[test]
fn long_journals_in_little_memory() {
    const BLOCKS: u32 = 1 << 15;
    let folder = Folder::new("usage-memory");
    let first = [admit(5, 0, 500), admit_weight(40, 1)];
    let ticks = [dispatch(), report(TICK, 5)];
    let mut journal = block(0, &first).to_vec();
    journal.extend((1..BLOCKS).flat_map(|n| block(n, &ticks)));
    let path = folder.file("journal", &journal);
    let limited = |command| started(command, "ulimit -v 4000; exec \"$0\" \"$@\"");
    let none: [&str; 0] = [];
    let output = limited(with(mtrsum(), &path, &none)).output().unwrap();
    let (written, said) = ended(output);
    assert_eq!(
        (written.len(), &said[..]),
        (BLOCKS as usize * 2 * BLOCK, "")
    );
    let wanted = summary(&journal).unwrap();
    assert!(written == wanted);
    let path = folder.file("summary", &written);
    let mut r = Rng::new(97);
    let counts = model::usage::counts(&journal).unwrap();
    let questions: Vec<Question> = (0..64).map(|_| any_question(&mut r, &counts)).collect();
    let output = limited(with(mtrask(), &path, &spelt(&questions))).output();
    let answers: Vec<_> = questions.iter().map(|q| ask(&wanted, q)).collect();
    assert_eq!(ended(output.unwrap()), (lines(&answers), String::new()));
    assert!(answers.iter().any(|a| a.is_ok_and(|ticks| ticks > 100_000)));
}
