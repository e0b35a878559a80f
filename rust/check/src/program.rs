//! The programs `mtrrun`, `mtrwhy`, `mtrsum` and `mtrask`, run as they were built.

use model::usage::Question;
use std::ffi::OsStr;
use std::io::{Read, Write};
use std::path::{Path, PathBuf};
use std::process::{Command, Output, Stdio};

/// The folder of the whole project.
pub fn root() -> PathBuf {
    PathBuf::from(env!("CARGO_MANIFEST_DIR")).join("../..")
}

/// The journals in examples/journals, by name.
///
/// # Panics
///
/// If the folder can't be read, or holds fewer than five.
pub fn shipped() -> Vec<PathBuf> {
    let entries = std::fs::read_dir(root().join("examples/journals")).unwrap();
    let paths = entries.map(|entry| entry.unwrap().path());
    let mut journals: Vec<PathBuf> = paths
        .filter(|path| path.extension().is_some_and(|end| end == "blocks"))
        .collect();
    journals.sort();
    assert!(journals.len() >= 5, "{journals:?}");
    journals
}

/// What `target/bin/mtrrun` prints for an input that arrives through a pipe in
/// pieces of these lengths, again and again.
///
/// # Panics
///
/// If no piece has a length, or the program is missing, does not take all of
/// the input or fails.
pub fn printed(input: &[u8], pieces: &[usize]) -> Vec<u8> {
    assert!(pieces.iter().any(|&length| length > 0));
    let program = root().join("target/bin/mtrrun");
    let mut child = Command::new(&program)
        .stdin(Stdio::piped())
        .stdout(Stdio::piped())
        .spawn()
        .unwrap_or_else(|e| panic!("{}: {e}: run tools/build.sh mtrrun", program.display()));
    let mut to = child.stdin.take().unwrap();
    let mut out = Vec::new();
    std::thread::scope(|scope| {
        scope.spawn(move || {
            let mut rest = input;
            for &length in pieces.iter().cycle() {
                if rest.is_empty() {
                    break;
                }
                let (piece, more) = rest.split_at(length.min(rest.len()));
                to.write_all(piece).unwrap();
                rest = more;
            }
        });
        child.stdout.take().unwrap().read_to_end(&mut out).unwrap();
    });
    assert!(child.wait().unwrap().success());
    out
}

/// `target/bin/mtrwhy`.
pub fn mtrwhy() -> Command {
    Command::new(root().join("target/bin/mtrwhy"))
}

/// `target/bin/mtrsum`.
pub fn mtrsum() -> Command {
    Command::new(root().join("target/bin/mtrsum"))
}

/// `target/bin/mtrask`.
pub fn mtrask() -> Command {
    Command::new(root().join("target/bin/mtrask"))
}

/// What a run of a program printed.
///
/// # Panics
///
/// If its status is not 0 or it said something on standard error.
pub fn silent(output: Output) -> Vec<u8> {
    let said = String::from_utf8_lossy(&output.stderr);
    assert!(output.status.success() && said.is_empty(), "{said}");
    output.stdout
}

/// What a program prints for an input that comes through a pipe, its standard
/// input, in pieces of these lengths, again and again. It may stop before the end.
///
/// # Panics
///
/// If it fails, or says something.
pub fn fed(mut command: Command, input: &[u8], pieces: &[usize]) -> Vec<u8> {
    let mut child = command
        .stdin(Stdio::piped())
        .stdout(Stdio::piped())
        .stderr(Stdio::piped())
        .spawn()
        .unwrap();
    feed(child.stdin.take().unwrap(), input, pieces);
    silent(child.wait_with_output().unwrap())
}

/// Writes until all is written or nobody reads.
pub fn feed(mut to: impl Write, input: &[u8], pieces: &[usize]) {
    let mut rest = input;
    for &length in pieces.iter().cycle() {
        let (piece, more) = rest.split_at(length.min(rest.len()));
        if rest.is_empty() || to.write_all(piece).is_err() {
            break;
        }
        rest = more;
    }
}

/// What `mtrwhy` prints about a record of the journal in a file.
///
/// # Panics
///
/// If the program is missing or fails.
pub fn answered(journal: &Path, asked: impl AsRef<OsStr>) -> Vec<u8> {
    let output = mtrwhy().arg(journal).arg(asked).output();
    silent(output.unwrap_or_else(|e| panic!("mtrwhy: {e}: run tools/build.sh mtrwhy")))
}

/// What `mtrsum` writes for the journal in a file.
///
/// # Panics
///
/// If the program is missing or fails.
pub fn summed(journal: &Path) -> Vec<u8> {
    let output = mtrsum().arg(journal).output();
    silent(output.unwrap_or_else(|e| panic!("mtrsum: {e}: run tools/build.sh mtrsum")))
}

/// The numbers of questions, as `mtrask` takes them.
pub fn spelt(questions: &[Question]) -> Vec<String> {
    let numbers = questions.iter().flat_map(|q| [q.thread, q.first, q.second]);
    numbers.map(|n| n.to_string()).collect()
}

/// What `mtrask` prints for questions about the summary in a file.
///
/// # Panics
///
/// If the program is missing or fails.
pub fn asked(summary: &Path, questions: &[Question]) -> Vec<u8> {
    let output = mtrask().arg(summary).args(spelt(questions)).output();
    silent(output.unwrap_or_else(|e| panic!("mtrask: {e}: run tools/build.sh mtrask")))
}

/// A folder of its own for a test, which goes with it.
pub struct Folder(PathBuf);

impl Folder {
    /// # Panics
    ///
    /// If it can't be made.
    pub fn new(name: &str) -> Folder {
        let path = std::env::temp_dir().join(format!("check-{name}-{}", std::process::id()));
        std::fs::create_dir(&path).unwrap();
        Folder(path)
    }

    /// The path of a name in it.
    pub fn join(&self, name: impl AsRef<Path>) -> PathBuf {
        self.0.join(name)
    }

    /// A file in it with these bytes.
    ///
    /// # Panics
    ///
    /// If it can't be written.
    pub fn file(&self, name: &str, bytes: &[u8]) -> PathBuf {
        let path = self.join(name);
        std::fs::write(&path, bytes).unwrap();
        path
    }
}

impl Drop for Folder {
    fn drop(&mut self) {
        let _ = std::fs::remove_dir_all(&self.0);
    }
}
