//! The command line.

use std::collections::BTreeSet;
use std::ffi::OsString;
use std::path::PathBuf;

use journal::codec::THREADS;
use journal::draw::{Options, WIDTHS};
use journal::names::Names;
use journal::track::Mark;

use super::{help, Stop};

#[derive(Clone, Copy, PartialEq, Eq)]
pub enum Command {
    Encode,
    Decode,
    Run,
    Draw,
    Stats,
    Priorities,
}

impl Command {
    fn of(word: &str) -> Option<Command> {
        match word {
            "encode" => Some(Command::Encode),
            "decode" => Some(Command::Decode),
            "run" => Some(Command::Run),
            "draw" => Some(Command::Draw),
            "stats" => Some(Command::Stats),
            "priorities" => Some(Command::Priorities),
            _ => None,
        }
    }

    fn help(self) -> String {
        match self {
            Command::Encode => help::encode(),
            Command::Decode => help::decode(),
            Command::Run => help::run(),
            Command::Draw => help::draw(),
            Command::Stats => help::stats(),
            Command::Priorities => help::priorities(),
        }
    }

    /// Makes a journal or reads one.
    fn journals(self) -> bool {
        self != Command::Priorities
    }

    /// Looks at threads and times.
    fn looks(self) -> bool {
        matches!(self, Command::Draw | Command::Stats)
    }

    /// Tells of threads by name.
    fn names(self) -> bool {
        self.looks() || self == Command::Run
    }
}

/// A command with its options.
pub struct Job {
    pub command: Command,
    pub input: Option<PathBuf>,
    pub output: Option<PathBuf>,
    /// Number of the first block.
    pub first: u64,
    pub pack: bool,
    pub csv: bool,
    pub refusals: bool,
    pub best_effort: bool,
    /// Dispatches to tell more of, by record number.
    pub why: BTreeSet<u64>,
    pub names: Option<PathBuf>,
    pub options: Options,
}

pub enum Asked {
    Print(String),
    Do(Box<Job>),
}

fn usage<T>(message: String) -> Result<T, Stop> {
    Err(Stop::Usage(message))
}

/// Reads the words after the program's name.
pub fn parse(mut words: impl Iterator<Item = OsString>) -> Result<Asked, Stop> {
    let Some(word) = words.next() else {
        return usage("a command is missing".into());
    };
    let word = word.to_string_lossy().into_owned();
    let command = match word.as_str() {
        "-h" | "--help" | "help" => return Ok(Asked::Print(help::usage())),
        "-V" | "--version" => return Ok(Asked::Print(help::version())),
        word => match Command::of(word) {
            Some(command) => command,
            None => return usage(format!("'{word}' is no command")),
        },
    };
    let mut job = Job {
        command,
        input: None,
        output: None,
        first: 0,
        pack: false,
        csv: false,
        refusals: false,
        best_effort: false,
        why: BTreeSet::new(),
        names: None,
        options: Options::default(),
    };
    let mut files = Vec::new();
    let mut plain = false;
    while let Some(word) = words.next() {
        let text = word.to_string_lossy().into_owned();
        if plain || text == "-" || !text.starts_with('-') {
            files.push(word);
        } else if text == "--" {
            plain = true;
        } else {
            let mut option = Opt::of(&text, &mut words);
            match option.name.as_str() {
                "-h" | "--help" => return Ok(Asked::Print(command.help())),
                "-V" | "--version" => return Ok(Asked::Print(help::version())),
                _ => job.take(&mut option)?,
            }
            option.end()?;
        }
    }
    if let Some(second) = files.get(1) {
        return usage(format!("'{}': one FILE only", second.to_string_lossy()));
    }
    if job.refusals && !job.csv {
        return usage("--refusals goes with --csv; the text has them anyway".into());
    }
    if job.best_effort && !job.csv {
        return usage("--best-effort goes with --csv; the text has them anyway".into());
    }
    if job.best_effort && job.refusals {
        return usage("--refusals or --best-effort, not both".into());
    }
    let named = job.names.is_some() || job.options.names != Names::default();
    if command == Command::Run && named && job.why.is_empty() {
        return usage("--names and --name go with --why".into());
    }
    job.input = files.pop().filter(|file| file != "-").map(PathBuf::from);
    Ok(Asked::Do(Box::new(job)))
}

/// An option, with a value joined to it or after it.
struct Opt<'w, W: Iterator<Item = OsString>> {
    name: String,
    joined: Option<String>,
    words: &'w mut W,
}

impl<'w, W: Iterator<Item = OsString>> Opt<'w, W> {
    fn of(word: &str, words: &'w mut W) -> Opt<'w, W> {
        let (name, joined) = match word.split_once('=') {
            Some((name, value)) if name.starts_with("--") => {
                (name.to_string(), Some(value.to_string()))
            }
            _ => (word.to_string(), None),
        };
        Opt {
            name,
            joined,
            words,
        }
    }

    fn value(&mut self) -> Result<OsString, Stop> {
        match self.joined.take() {
            Some(value) => Ok(value.into()),
            None => match self.words.next() {
                Some(value) => Ok(value),
                None => usage(format!("{} needs a value", self.name)),
            },
        }
    }

    fn text(&mut self) -> Result<String, Stop> {
        Ok(self.value()?.to_string_lossy().into_owned())
    }

    fn number(&mut self, most: u64) -> Result<u64, Stop> {
        let text = self.text()?;
        let digits = !text.is_empty() && text.bytes().all(|b| b.is_ascii_digit());
        match text.parse().ok().filter(|&n: &u64| digits && n <= most) {
            Some(number) => Ok(number),
            None => usage(format!(
                "{}: '{text}' is not a number from 0 to {most}",
                self.name
            )),
        }
    }

    fn mark(&mut self) -> Result<Option<Mark>, Stop> {
        let text = self.text()?;
        match Mark::parse(&text) {
            Some(mark) => Ok(Some(mark)),
            None => usage(format!(
                "{}: '{text}' is neither a record's number nor a time as 120ms, 1.5s or 2min",
                self.name
            )),
        }
    }

    /// No value is left over.
    fn end(self) -> Result<(), Stop> {
        match self.joined {
            None => Ok(()),
            Some(_) => usage(format!("{} takes no value", self.name)),
        }
    }
}

impl Job {
    fn take<W: Iterator<Item = OsString>>(&mut self, option: &mut Opt<W>) -> Result<(), Stop> {
        let most = THREADS as u64 - 1;
        let view = &mut self.options.view;
        match (option.name.as_str(), self.command) {
            ("-o" | "--output", _) => self.output = Some(PathBuf::from(option.value()?)),
            ("--first-block", c) if c.journals() => self.first = option.number(u32::MAX.into())?,
            ("--pack", Command::Encode) => self.pack = true,
            ("--csv", Command::Stats) => self.csv = true,
            ("--refusals", Command::Stats) => self.refusals = true,
            ("--best-effort", Command::Stats) => self.best_effort = true,
            ("--width", Command::Draw) => {
                let width = option.number(WIDTHS.1.into())? as u32;
                if width < WIDTHS.0 {
                    return usage(format!("--width: the least is {}", WIDTHS.0));
                }
                self.options.width = width;
            }
            ("--title", Command::Draw) => self.options.title = Some(option.text()?),
            ("--why", Command::Run) => {
                self.why.insert(option.number(u64::MAX)?);
            }
            ("--names", c) if c.names() => self.names = Some(PathBuf::from(option.value()?)),
            ("--from", c) if c.looks() => view.from = option.mark()?,
            ("--to", c) if c.looks() => view.to = option.mark()?,
            ("--thread", c) if c.looks() => view.threads.push(option.number(most)? as u8),
            ("--name", c) if c.names() => {
                let text = option.text()?;
                let (number, name) = text.split_once('=').unwrap_or(("", ""));
                match number.parse::<u8>().ok().filter(|&n| u64::from(n) <= most) {
                    Some(thread) => self.options.names.give(thread, name),
                    None => {
                        return usage(format!(
                            "--name: '{text}' is not N=NAME, N from 0 to {most}"
                        ))
                    }
                }
            }
            (name, _) => return usage(format!("'{name}' is no option of this command")),
        }
        Ok(())
    }
}
