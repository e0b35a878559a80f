//! Writes the C header and the Rust declarations of the exported functions
//! from the Rattle sources, so that no hand keeps the three in step.
//!
//! - [`tokens`]: a source as tokens and comments.
//! - [`parse`]: the structs, constants and exported functions of a source.
//! - [`comment`]: the parts that a function's comment must have.
//! - [`names`]: the names that the constants have outside.
//! - [`interface`]: all of it resolved, with sizes and offsets; what has no
//!   fixed form at the boundary is refused with file and line.
//! - [`costs`]: stack and instructions of each call, as measured.
//! - [`header`]: the C header; [`declarations`]: the Rust declarations.

#![forbid(unsafe_code)]

pub mod comment;
pub mod costs;
pub mod declarations;
pub mod header;
pub mod interface;
pub mod names;
pub mod parse;
pub mod tokens;

use std::fmt;
use std::fs;
use std::path::{Path, PathBuf};

/// The command that renews the files, from the repository's root.
pub const COMMAND: &str = "cargo run --release -p boundary";

/// The enum of answers in C.
const ANSWER: &str = "mtr_answer";

/// What is refused, and where.
#[derive(Clone, Debug, PartialEq, Eq)]
pub struct Error {
    pub file: String,
    pub line: usize,
    pub text: String,
}

impl Error {
    pub fn at(file: &str, line: usize, text: impl Into<String>) -> Error {
        Error {
            file: file.to_string(),
            line,
            text: text.into(),
        }
    }
}

impl fmt::Display for Error {
    fn fmt(&self, f: &mut fmt::Formatter) -> fmt::Result {
        write!(f, "{}:{}: {}", self.file, self.line, self.text)
    }
}

impl std::error::Error for Error {}

/// The repository's root.
pub fn root() -> PathBuf {
    Path::new(env!("CARGO_MANIFEST_DIR")).join("../..")
}

/// The files that are written, by their path from the root, and their text.
pub fn generate(root: &Path) -> Result<[(&'static str, String); 2], Error> {
    let sources = |path: &str| fs::read_to_string(root.join(path)).map_err(|e| e.to_string());
    let interface = interface::resolve(&sources)?;
    let measured = sources(costs::FILE).map_err(|e| Error::at(costs::FILE, 1, e))?;
    let costs = costs::costs(&measured, &costs::calls(&interface))?;
    Ok([
        ("include/mtr.h", header::print(&interface, &costs)),
        ("rust/mtr/src/raw.rs", declarations::print(&interface)),
    ])
}

/// The text in lines of at most `width` characters.
fn wrapped(text: &str, width: usize) -> Vec<String> {
    let mut lines: Vec<String> = Vec::new();
    for word in text.split_whitespace() {
        match lines.last_mut() {
            Some(line) if line.chars().count() + 1 + word.chars().count() <= width => {
                line.push(' ');
                line.push_str(word);
            }
            _ => lines.push(word.to_string()),
        }
    }
    lines
}

/// A comment as part of a sentence.
pub fn words(doc: &str) -> String {
    let mut letters = doc.trim_end_matches('.').chars();
    let first = letters.next().map(|c| c.to_ascii_lowercase());
    first.into_iter().chain(letters).collect()
}
