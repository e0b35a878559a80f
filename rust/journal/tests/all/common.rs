//! Journals of texts, and what the tool makes of them: text, figures, pictures; the
//! command run as a user runs it.

use std::fs;
use std::io::Write;
use std::path::{Path, PathBuf};
use std::process::{Command, Output, Stdio};

use journal::draw::{draw, Drawing, Options, WIDTH};
use journal::engine::Proved;
use journal::names::Names;
use journal::playback::Journal;
use journal::progress::Progress;
use journal::stats::stats;
use journal::text::{self, Notes, Problem};
use journal::track::{Mark, View};
use samples::examples;

pub const JOURNAL: &str = env!("CARGO_BIN_EXE_journal");

/// The repository's root.
pub fn root() -> PathBuf {
    Path::new(env!("CARGO_MANIFEST_DIR")).join("../..")
}

pub fn encoded(text: &str) -> Result<Vec<u8>, Vec<Problem>> {
    text::encode(text.as_bytes(), 0, false, &mut Progress::silent())
}

/// Blocks of a text without a wrong line.
pub fn encode(text: &str) -> Vec<u8> {
    encoded(text).unwrap()
}

/// The listing of RULE 10.1.
pub fn listing() -> Vec<u8> {
    examples::listing().journal()
}

pub fn decode(journal: &[u8]) -> String {
    let mut out = Vec::new();
    text::decode(Journal::whole(journal), &mut out, &mut Progress::silent()).unwrap();
    String::from_utf8(out).unwrap()
}

/// As `run` prints it.
pub fn ran(journal: Journal, notes: &Notes) -> String {
    let mut out = Vec::new();
    text::run(journal, notes, &mut out, &mut Progress::silent()).unwrap();
    String::from_utf8(out).unwrap()
}

/// What stands beside each record and damaged block in a text that `run` gives.
pub fn comments(text: &str) -> impl Iterator<Item = &str> {
    let lines = text.lines().filter(|line| !line.starts_with(['#', ' ']));
    lines.filter_map(|line| Some(line.split_once(" # ")?.1))
}

/// Of such a text what `mtrrun` prints.
pub fn printed(text: &str) -> String {
    let line = |comment: &str| {
        let numbers = if comment.starts_with("block") { 3 } else { 5 };
        let words: Vec<&str> = comment.split(' ').take(numbers).collect();
        words.join(" ") + "\n"
    };
    comments(text).map(line).collect()
}

/// From and to as they stand in the command line, empty for the ends.
pub fn view(from: &str, to: &str, threads: &[u8]) -> View {
    let mark = |text: &str| (!text.is_empty()).then(|| Mark::parse(text).expect(text));
    View {
        from: mark(from),
        to: mark(to),
        threads: threads.to_vec(),
    }
}

/// A picture that is well formed.
pub fn drawn(journal: &[u8], options: &Options) -> Drawing {
    let whole = Journal::whole(journal);
    let drawing = draw::<Proved>(whole, options, &mut Progress::silent()).unwrap();
    crate::draw::check(&drawing.svg);
    drawing
}

/// The picture of a part with names and of a width.
pub fn picture(journal: &[u8], view: View, names: Names, width: u32) -> String {
    let options = Options {
        title: None,
        names,
        view,
        width,
    };
    drawn(journal, &options).svg
}

pub fn svg(journal: &[u8]) -> String {
    drawn(journal, &Options::default()).svg
}

/// The picture of a part.
pub fn part(journal: &[u8], from: &str, to: &str, threads: &[u8]) -> String {
    picture(journal, view(from, to, threads), Names::default(), WIDTH)
}

/// The figures of a part, in each form.
pub struct Told {
    pub text: String,
    pub csv: String,
    pub refusals: String,
    pub efforts: String,
}

pub fn figures(journal: &[u8], view: &View, names: &Names) -> Told {
    let whole = Journal::whole(journal);
    let figures = stats::<Proved>(whole, view, &mut Progress::silent()).unwrap();
    Told {
        text: figures.text("x", names),
        csv: figures.csv(names),
        refusals: figures.refusals_csv(),
        efforts: figures.best_effort_csv(names),
    }
}

/// The figures of the whole without names.
pub fn told(journal: &[u8]) -> Told {
    figures(journal, &View::default(), &Names::default())
}

/// The lines that begin with some words, with a blank between any two.
pub fn rows(text: &str, label: &str) -> Vec<String> {
    let found = text.lines().filter(|line| line.starts_with(label));
    found
        .map(|line| line.split_whitespace().collect::<Vec<_>>().join(" "))
        .collect()
}

/// A column of comma-separated values, with the row's first field. Names and words
/// stand left of it, and may have commas.
pub fn column<'a>(csv: &'a str, name: &str) -> Vec<(&'a str, &'a str)> {
    let mut lines = csv.lines();
    let mut headings = lines.next().unwrap().rsplit(',');
    let at = headings.position(|heading| heading == name).expect(name);
    let first = |row: &'a str| row.split(',').next().unwrap();
    lines
        .map(|row| (first(row), row.rsplit(',').nth(at).unwrap()))
        .collect()
}

/// A thread's value in a column.
pub fn value<'a>(csv: &'a str, thread: &str, name: &str) -> &'a str {
    let found = column(csv, name).into_iter().find(|row| row.0 == thread);
    found.expect(thread).1
}

/// A folder that goes with the test.
pub struct Folder(pub PathBuf);

impl Folder {
    pub fn new(name: &str) -> Folder {
        let folder = std::env::temp_dir().join(format!("journal-{}-{name}", std::process::id()));
        fs::create_dir_all(&folder).unwrap();
        Folder(folder)
    }

    pub fn file(&self, name: &str, bytes: impl AsRef<[u8]>) -> String {
        fs::write(self.0.join(name), bytes).unwrap();
        self.path(name)
    }

    pub fn path(&self, name: &str) -> String {
        self.0.join(name).to_str().unwrap().to_string()
    }

    pub fn names(&self) -> Vec<String> {
        let entries = fs::read_dir(&self.0).unwrap();
        let mut names: Vec<String> = entries
            .map(|entry| entry.unwrap().file_name().into_string().unwrap())
            .collect();
        names.sort();
        names
    }
}

impl Drop for Folder {
    fn drop(&mut self) {
        let _ = fs::remove_dir_all(&self.0);
    }
}

/// What a run of the command came to.
#[derive(Debug, PartialEq, Eq)]
pub struct Ran {
    pub code: i32,
    pub out: Vec<u8>,
    pub errors: String,
}

impl Ran {
    pub fn of(output: Output) -> Ran {
        Ran {
            code: output.status.code().unwrap(),
            out: output.stdout,
            errors: String::from_utf8(output.stderr).unwrap(),
        }
    }

    pub fn text(self) -> String {
        String::from_utf8(self.out).unwrap()
    }

    /// What it wrote, without a complaint.
    #[track_caller]
    pub fn good(self) -> Vec<u8> {
        assert_eq!((self.code, self.errors.as_str()), (0, ""));
        self.out
    }

    /// What it said, with this status and without a result.
    #[track_caller]
    pub fn bad(self, code: i32) -> String {
        assert_eq!((self.code, self.out.len()), (code, 0), "{}", self.errors);
        self.errors
    }
}

pub fn run(arguments: &[&str], input: &[u8]) -> Ran {
    let mut child = Command::new(JOURNAL)
        .args(arguments)
        .stdin(Stdio::piped())
        .stdout(Stdio::piped())
        .stderr(Stdio::piped())
        .spawn()
        .unwrap();
    let mut stdin = child.stdin.take().unwrap();
    let input = input.to_vec();
    let writer = std::thread::spawn(move || {
        // It may stop before it has read all.
        let _ = stdin.write_all(&input);
    });
    let output = child.wait_with_output().unwrap();
    writer.join().unwrap();
    Ran::of(output)
}

/// Text that the command writes without a complaint.
#[track_caller]
pub fn good(arguments: &[&str], input: &[u8]) -> String {
    String::from_utf8(run(arguments, input).good()).unwrap()
}

/// Runs a script in which `$JOURNAL` is the command.
pub fn shell(script: &str) -> Ran {
    let mut shell = Command::new("sh");
    let output = shell.args(["-c", script]).env("JOURNAL", JOURNAL).output();
    Ran::of(output.unwrap())
}
