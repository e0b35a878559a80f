//! The worked examples, one text each (`examples/*.txt`), which every test of one reads.
//!
//! A text is a journal as `journal run` prints it: a record a line, and behind `#` the five numbers
//! that `mtrrun` prints for it. A line that begins with `#=` says what is so after the record above it.
//! `journal encode` takes the texts as they stand. The text of [`usage`] has blocks and facts of its own.

use std::str::FromStr;

use model::accounts::Entry;
use model::blocks::Record;
use model::rule::{Scheduler, FREE, THREADS};
use model::table::{standard, Line, Row, Table};
use model::usage::Question;

use crate::records;

/// An example, record by record.
pub struct Example {
    pub name: &'static str,
    pub text: &'static str,
    pub steps: Vec<Step>,
}

/// A record, the line that is printed for it, and what is so after it.
pub struct Step {
    pub record: Record,
    pub printed: &'static str,
    pub facts: Vec<Fact>,
}

#[derive(Debug)]
pub enum Fact {
    /// The lag of a thread.
    Lag(u8, i64),
    /// The share of a thread.
    Share(u8, u64),
    /// What is left of a thread's allotment.
    Allotment(u8, i32),
    /// The tag of a best-effort thread.
    Tag(u8, u64),
    /// The virtual time.
    Time(u64),
    Meter(u64),
    /// The threads in the order of the list.
    List(Vec<u8>),
    /// The threads in the order of the roster.
    Roster(Vec<u8>),
    /// What `mtrwhy` prints about this record.
    Why(String),
}

macro_rules! example {
    ($name:literal) => {
        Example::read($name, include_str!(concat!("../examples/", $name, ".txt")))
    };
}

/// All of them.
pub fn all() -> Vec<Example> {
    vec![
        example!("listing"),
        example!("edges"),
        example!("best-effort"),
        example!("why"),
    ]
}

/// The listing of RULE 10.1.
pub fn listing() -> Example {
    example!("listing")
}

impl Example {
    fn read(name: &'static str, text: &'static str) -> Example {
        let mut steps: Vec<Step> = Vec::new();
        for line in text.lines() {
            if let Some(fact) = line.strip_prefix("#=") {
                let step = steps.last_mut().expect("a fact stands after a record");
                step.facts.push(fact_of(fact.trim()));
            } else if !line.starts_with('#') && !line.is_empty() {
                steps.push(step_of(line));
            }
        }
        Example { name, text, steps }
    }

    pub fn records(&self) -> Vec<Record> {
        self.steps.iter().map(|step| step.record).collect()
    }

    /// The blocks of its records.
    pub fn journal(&self) -> Vec<u8> {
        records::journal(&self.records())
    }

    /// All that `mtrrun` prints.
    pub fn printed(&self) -> String {
        let lines = self.steps.iter().map(|step| format!("{}\n", step.printed));
        lines.collect()
    }

    /// The records that it tells an answer of `mtrwhy` for, and the answers.
    pub fn questions(&self) -> Vec<(usize, &str)> {
        let mut asked = Vec::new();
        for (n, step) in self.steps.iter().enumerate() {
            for fact in &step.facts {
                if let Fact::Why(answer) = fact {
                    asked.push((n, answer.as_str()));
                }
            }
        }
        asked
    }
}

impl Fact {
    /// Whether it is so in the model's state. An answer of `mtrwhy` is of no state.
    pub fn holds(&self, s: &Scheduler) -> bool {
        let thread = |n: u8| &s.threads[n as usize];
        match self {
            Fact::Lag(n, lag) => s.lag(*n as u64) == Ok(*lag),
            Fact::Share(n, share) => s.share(*n as u64) == Ok(*share),
            Fact::Allotment(n, left) => thread(*n).allotment == *left,
            Fact::Tag(n, tag) => thread(*n).tag == *tag,
            Fact::Time(time) => s.time == *time,
            Fact::Meter(meter) => s.meter == *meter,
            Fact::List(list) => s.list() == list,
            Fact::Roster(numbers) => roster(s) == *numbers,
            Fact::Why(_) => true,
        }
    }
}

/// The example of processor use. A line `block 1` begins a block, and its facts are:
/// - `charged 5 159`: at the start of this block, so many ticks to this thread; of threads not named, 0.
/// - `ticks 5 0 1 = 0 159`: the question of thread 5 and blocks 0 and 1, and its line.
pub struct Usage {
    pub text: &'static str,
    pub blocks: Vec<Part>,
    /// The questions, and the line that `mtrask` prints for each.
    pub questions: Vec<(Question, String)>,
}

/// A block of the example.
pub struct Part {
    pub steps: Vec<Step>,
    /// The ticks charged to each thread number up to its start.
    pub charged: [u64; THREADS],
}

/// The example of processor use: a journal with the ends of its blocks, and questions.
pub fn usage() -> Usage {
    let text = include_str!("../examples/usage.txt");
    let part = || Part {
        steps: Vec::new(),
        charged: [0; THREADS],
    };
    let (mut blocks, mut questions): (Vec<Part>, Vec<_>) = (Vec::new(), Vec::new());
    for line in text.lines() {
        if let Some(fact) = line.strip_prefix("#=") {
            let words: Vec<&str> = fact.split_whitespace().collect();
            match words[..] {
                ["charged", n, ticks] => {
                    let block = blocks.last_mut().expect("a count stands in a block");
                    block.charged[number::<usize>(n)] = number(ticks);
                }
                ["ticks", thread, first, second, "=", ..] => {
                    let asked = Question {
                        thread: number(thread),
                        first: number(first),
                        second: number(second),
                    };
                    questions.push((asked, words[5..].join(" ").replace(',', "")));
                }
                _ => panic!("no fact: {line}"),
            }
        } else if let Some(place) = line.strip_prefix("block ") {
            assert_eq!(number::<usize>(place), blocks.len());
            blocks.push(part());
        } else if !line.starts_with('#') && !line.is_empty() {
            let block = blocks.last_mut().expect("a record stands in a block");
            block.steps.push(step_of(line));
        }
    }
    Usage {
        text,
        blocks,
        questions,
    }
}

impl Usage {
    /// The journal, its blocks as the text ends them.
    pub fn journal(&self) -> Vec<u8> {
        let block = |(n, part): (u32, &Part)| {
            let records: Vec<Record> = part.steps.iter().map(|step| step.record).collect();
            records::block(n, &records)
        };
        (0..).zip(&self.blocks).flat_map(block).collect()
    }

    /// All that `mtrrun` prints.
    pub fn printed(&self) -> String {
        let steps = self.blocks.iter().flat_map(|part| &part.steps);
        steps.map(|step| format!("{}\n", step.printed)).collect()
    }

    /// All that `mtrask` prints for its questions.
    pub fn answers(&self) -> String {
        let lines = self.questions.iter().map(|(_, line)| format!("{line}\n"));
        lines.collect()
    }
}

/// The threads in the order of the model's roster.
pub fn roster(s: &Scheduler) -> Vec<u8> {
    let mut table = [Entry::default(); THREADS];
    assert_eq!(s.roster(&mut table), 0);
    let admitted = s.threads.iter().filter(|t| t.status != FREE).count();
    table[..admitted].iter().map(|e| e.number as u8).collect()
}

fn number<T: FromStr>(word: &str) -> T {
    let plain = word.replace(',', "");
    plain
        .parse()
        .unwrap_or_else(|_| panic!("no number: {word}"))
}

fn step_of(line: &'static str) -> Step {
    let (record, printed) = line.split_once('#').expect(line);
    Step {
        record: record_of(record),
        printed: printed.trim(),
        facts: Vec::new(),
    }
}

fn fact_of(text: &'static str) -> Fact {
    let (name, rest) = text.split_once(' ').expect(text);
    let words: Vec<&str> = rest.split_whitespace().collect();
    let threads = || words.iter().map(|word| number(word)).collect();
    match (name, &words[..]) {
        ("lag", [n, lag]) => Fact::Lag(number(n), number(lag)),
        ("share", [n, share]) => Fact::Share(number(n), number(share)),
        ("allotment", [n, left]) => Fact::Allotment(number(n), number(left)),
        ("tag", [n, tag]) => Fact::Tag(number(n), number(tag)),
        ("time", [time]) => Fact::Time(number(time)),
        ("meter", [meter]) => Fact::Meter(number(meter)),
        ("list", _) => Fact::List(threads()),
        ("roster", _) => Fact::Roster(threads()),
        ("why", _) => Fact::Why(rest.split(" / ").map(|line| format!("{line}\n")).collect()),
        _ => panic!("no fact: {text}"),
    }
}

fn record_of(line: &str) -> Record {
    let words: Vec<&str> = line.split_whitespace().collect();
    match words[..] {
        ["start", "thousandth", m, "interval", p] => records::start(number(m), number(p), 0),
        ["start", "thousandth", m, "interval", p, "overrun", o] => {
            records::start(number(m), number(p), number(o))
        }
        ["open", n, "parent", g, "ceiling", c] => records::open(number(n), number(g), number(c)),
        ["close", n] => records::close(number(n)),
        ["admit", n, "group", g, "reservation", f] => {
            records::admit(number(n), number(g), number(f))
        }
        ["admit", n, "weight", w] => records::admit_weight(number(n), number(w)),
        ["remove", n] => records::remove(number(n)),
        ["wake", n] => records::wake(number(n)),
        ["change", n, "reservation", f] => records::change(number(n), number(f)),
        ["dispatch"] => records::dispatch(),
        ["report", reason, used] => {
            let reasons = ["tick", "block", "yield", "exit"];
            let reason = reasons.iter().position(|word| *word == reason).expect(line);
            records::report(reason as u64, number(used))
        }
        _ => panic!("no record: {line}"),
    }
}

/// The numbers in one field of a table's line: "10, 5, 1", "0 or 11".
fn numbers(field: &str) -> Vec<u64> {
    let parts = field.split([',', ' ']).filter(|word| !word.is_empty());
    parts.filter(|word| *word != "or").map(number).collect()
}

/// The rows of a field: "8–10: 40, 1–7: 10".
fn rows(field: &str) -> Table {
    let mut table = Table::default();
    for (row, text) in table.rows.iter_mut().zip(field.split(", ")) {
        let (ends, reservation) = text.split_once(": ").expect(field);
        let (first, last) = ends.split_once('–').expect(field);
        *row = Row {
            first: number(first),
            last: number(last),
            reservation: number(reservation),
        };
    }
    table
}

/// The lookups of RULE 10.7: a table, the priority asked for, and the answer.
pub fn priorities() -> Vec<(Table, u64, Line)> {
    let rule = include_str!("../../../docs/RULE.md");
    let (_, section) = rule.split_once("**10.7 ").expect("RULE 10.7");
    let (section, _) = section.split_once("\n**10.8 ").expect("RULE 10.8");
    let mut table = Table::default();
    let mut lookups = Vec::new();
    let lines = section.lines().filter(|line| line.starts_with('|'));
    for line in lines.skip(2) {
        let fields: Vec<&str> = line.trim_matches('|').split('|').map(str::trim).collect();
        let [text, counts, asked, answer, place, reservation] = fields[..] else {
            panic!("six fields: {line}");
        };
        match text {
            "the same" => {}
            "the standard table" => table = standard(),
            _ => table = rows(text),
        }
        let (place, given) = (numbers(place), numbers(reservation));
        for count in numbers(counts) {
            for (i, &priority) in numbers(asked).iter().enumerate() {
                let line = Line {
                    answer: number(answer),
                    place: place.first().map_or(0, |&place| place as u32),
                    reservation: given.get(i).map_or(0, |&given| given as u32),
                };
                lookups.push((Table { count, ..table }, priority, line));
            }
        }
    }
    lookups
}
