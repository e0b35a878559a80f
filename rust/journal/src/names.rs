//! Given names of threads.

use std::collections::BTreeMap;

use crate::codec::THREADS;
use crate::text::line::{number, shown, without_mark};
use crate::text::{Problem, PROBLEMS};

/// Names by thread number.
#[derive(Clone, Debug, Default, PartialEq, Eq)]
pub struct Names(BTreeMap<u8, String>);

impl Names {
    /// Names a thread, in the place of another name.
    pub fn give(&mut self, thread: u8, name: &str) {
        self.0.insert(thread, name.to_string());
    }

    /// Takes over names, in the place of others.
    pub fn extend(&mut self, names: Names) {
        self.0.extend(names.0);
    }

    /// The given name.
    pub fn given(&self, thread: u8) -> Option<&str> {
        self.0.get(&thread).map(String::as_str)
    }

    /// Number and name, for a lane or a line.
    pub fn label(&self, thread: u8) -> String {
        match self.given(thread) {
            Some(name) => format!("{thread} {name}"),
            None => format!("thread {thread}"),
        }
    }

    /// Number and name in a sentence.
    pub fn told(&self, thread: u8) -> String {
        match self.given(thread) {
            Some(name) => format!("thread {thread} ({name})"),
            None => format!("thread {thread}"),
        }
    }

    /// Reads a text with a thread's number and its name a line; `#` begins a
    /// comment, empty lines count for nothing.
    pub fn read(text: &[u8]) -> Result<Names, Vec<Problem>> {
        let mut names = Names::default();
        let mut problems = Vec::new();
        for (line, bytes) in (1u64..).zip(without_mark(text).split(|&b| b == b'\n')) {
            if let Err(message) = names.line(bytes) {
                problems.push(Problem { line, message });
            }
            if problems.len() == PROBLEMS {
                break;
            }
        }
        match problems.is_empty() {
            true => Ok(names),
            false => Err(problems),
        }
    }

    fn line(&mut self, bytes: &[u8]) -> Result<(), String> {
        let Ok(text) = std::str::from_utf8(bytes) else {
            return Err("this is not text in UTF-8".into());
        };
        let text = text.split('#').next().unwrap_or_default().trim();
        if text.is_empty() {
            return Ok(());
        }
        let (word, name) = text.split_once(char::is_whitespace).unwrap_or((text, ""));
        let most = THREADS as u64 - 1;
        let thread = number(Some(word.as_bytes()), "the thread", most)? as u8;
        let name = name.trim();
        if name.is_empty() {
            return Err(format!("the line ends before the name of thread {thread}"));
        }
        if let Some(other) = self.given(thread) {
            let other = shown(other.as_bytes());
            return Err(format!("thread {thread} has the name {other} already"));
        }
        self.give(thread, name);
        Ok(())
    }
}

#[cfg(test)]
mod tests {
    use super::*;

    #[test]
    fn a_line_has_a_number_and_a_name() {
        let text = "\u{feff}# the controller\n0 readout\n\n 12\tpump motor  # left\r\n";
        let names = Names::read(text.as_bytes()).unwrap();
        assert_eq!(names.label(0), "0 readout");
        assert_eq!(names.told(12), "thread 12 (pump motor)");
        assert_eq!(names.label(1), "thread 1");
    }

    #[test]
    fn wrong_lines_are_named() {
        let text = b"64 x\nreadout 5\n3\n3 a\n3 b\n\xff 3\n";
        let problems = Names::read(text).unwrap_err();
        let told: Vec<String> = problems
            .iter()
            .map(|p| format!("{} {}", p.line, p.message))
            .collect();
        assert_eq!(
            told,
            [
                "1 the thread: '64' is above 63",
                "2 the thread: 'readout' is not a decimal number",
                "3 the line ends before the name of thread 3",
                "5 thread 3 has the name 'a' already",
                "6 this is not text in UTF-8",
            ]
        );
    }
}
