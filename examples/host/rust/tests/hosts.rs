//! The host in C and the host in Rust: the same journal, byte by byte, and `mtrrun` prints for it what both were answered. What they print
//! at the end is counted again on the journal.

mod common;

use common::{c_source, compiled, root, run, scratch, thousandths};
use mtr::raw::{self, Record};
use mtr::{blocks, Dispatch, Entry, Event, Scheduler};
use std::collections::{BTreeMap, BTreeSet};
use std::fs;
use std::path::{Path, PathBuf};
use std::process::{Command, Stdio};
use std::sync::OnceLock;

/// The host in C.
fn c_host() -> &'static Path {
    static PROGRAM: OnceLock<PathBuf> = OnceLock::new();
    PROGRAM.get_or_init(|| compiled(&c_source(), "controller-c", "-O2"))
}

fn rust_host() -> &'static Path {
    Path::new(env!("CARGO_BIN_EXE_controller"))
}

/// What both hosts say of the lab's first table and of a method change that comes too early.
const SAID: &str = "\
controller: the lab's table is refused, 23 at 6: a priority stands in no row of the table or in several
controller: no room for 700, readout goes on with 500
";

/// What a host prints and journals.
fn hosted(host: &Path, name: &str, seed: &str, milliseconds: &str) -> (String, Vec<u8>) {
    let journal = scratch(name);
    let words = [seed, journal.to_str().unwrap(), milliseconds];
    let done = run(host, &words);
    assert_eq!(String::from_utf8_lossy(&done.stderr), SAID);
    assert!(done.status.success());
    let printed = String::from_utf8(done.stdout).unwrap();
    (printed, fs::read(journal).unwrap())
}

/// What `mtrrun` prints for the journal.
fn replayed(name: &str) -> String {
    let program = root().join("target/bin/mtrrun");
    let journal = fs::File::open(scratch(name)).unwrap();
    let done = Command::new(&program)
        .stdin(Stdio::from(journal))
        .output()
        .unwrap_or_else(|e| panic!("{}: {e}: run tools/build.sh mtrrun", program.display()));
    assert!(done.status.success());
    String::from_utf8(done.stdout).unwrap()
}

/// The events of a journal whose blocks are full but for the last.
fn events(journal: &[u8]) -> Vec<Event> {
    assert_eq!(journal.len() % blocks::BYTES, 0);
    let mut all = Vec::new();
    for (number, area) in journal.chunks(blocks::BYTES).enumerate() {
        assert_eq!(all.len(), blocks::RECORDS * number);
        all.extend_from_slice(&blocks::read(area, number as u32).unwrap());
    }
    all
}

const READOUT: u8 = 0;

/// m, P and O that both hosts start with.
const SETTINGS: [i64; 3] = [100, 20_000, 50];

/// Admissions and changes of a run while nothing runs, with their answers: a thread and its reservation, in group 0 or the lab's, or its
/// weight. The lab's have what their priorities have under its own table. Then come mistakes, a method change that comes too early and is
/// taken back, the lab's programs again within one that fits, and its end.
const ASKED: &str = "\
admit 0 500: 0, admit 1 100: 0, lab 2 50: 0, lab 3 100: 0, admit 4 50: 0, admit 5 200: 0, weight 6 1: 0, weight 7 3: 0, \
admit 0 1: 8, admit 64 1: 7, lab 8 150: 5, change 64 1: 7, change 0 1001: 4, \
weight 64 1: 7, weight 0 1: 8, weight 8 0: 4, weight 8 17: 4, change 6 1: 7, \
change 5 50: 0, change 0 700: 5, change 5 200: 0, \
change 5 50: 0, change 0 700: 0, lab 2 50: 0, lab 3 100: 0, change 0 500: 0, change 5 200: 0";

/// A stretch in which readout is runnable and has the same reservation: the ticks of all and its own.
#[derive(Debug, Default)]
struct Stretch {
    reservation: i64,
    all: i64,
    own: i64,
    /// Ticks beyond the slices, of the others and of readout.
    late: [i64; 2],
}

impl Stretch {
    fn share(&self) -> i64 {
        thousandths(self.own, self.all)
    }
}

/// What the calls of a journal come to, counted while it is replayed.
#[derive(Default)]
struct Count {
    s: Scheduler,
    slice: i64,
    /// The kinds that were accepted, and all answers.
    accepted: BTreeSet<u8>,
    answers: BTreeSet<u32>,
    asked: Vec<String>,
    /// What changes of the running thread were answered.
    while_running: BTreeSet<u32>,
    /// Each thread's largest debt and the allotment that it left.
    debts: BTreeMap<u8, [i64; 2]>,
    stretches: Vec<Stretch>,
    /// The weights and ticks of best-effort threads.
    spare: BTreeMap<u8, [i64; 2]>,
}

impl Count {
    fn thread(&self, thread: u8) -> raw::Thread {
        self.s.as_raw().threads[thread as usize]
    }

    fn call(&mut self, event: Event) {
        let running = self.s.running();
        let left = running.map_or(0, |n| self.thread(n).allotment);
        let told = self.s.call(event);
        let answer = told.err().map_or(0, |refusal| refusal.number());
        let record = Record::from(event);
        self.answers.insert(answer);
        let what = match event {
            Event::Admit { group: 0, .. } => "admit",
            Event::Admit { .. } => "lab",
            Event::AdmitBestEffort { .. } => "weight",
            Event::Change { .. } => "change",
            _ => "",
        };
        if running.is_some() && !what.is_empty() {
            self.while_running.insert(answer);
        } else if !what.is_empty() {
            let (thread, amount) = (record.subject, record.amount);
            let line = format!("{what} {thread} {amount}: {answer}");
            self.asked.push(line);
        }
        if answer != 0 {
            return;
        }
        self.accepted.insert(record.kind);
        match event {
            Event::AdmitBestEffort { thread, weight } => {
                self.spare.insert(thread, [weight.into(), 0]);
            }
            Event::Admit { thread, .. } | Event::Change { thread, .. } | Event::Wake { thread }
                if thread == READOUT =>
            {
                self.stretches.push(Stretch {
                    reservation: self.thread(READOUT).reservation.into(),
                    ..Stretch::default()
                });
            }
            Event::Report { used, .. } => self.report(running.unwrap(), left.into(), used.into()),
            _ => {}
        }
        if let Ok(Some(Dispatch::Run { slice, .. })) = told {
            self.slice = slice.into();
        }
    }

    /// The thread used these ticks, and had so many left of its allotment.
    fn report(&mut self, thread: u8, left: i64, used: i64) {
        let late = (used - self.slice).max(0);
        let [m, p, o] = SETTINGS;
        assert!(late <= o);
        match self.spare.get_mut(&thread) {
            Some([_, ticks]) => *ticks += used,
            None => {
                let most = self.debts.get(&thread).map_or(0, |debt| debt[0]);
                if used - left > most {
                    let debt = [used - left, self.thread(thread).allotment.into()];
                    self.debts.insert(thread, debt);
                }
            }
        }
        // The report with which readout blocks is in no stretch.
        if self.thread(READOUT).status == raw::STATUS_BLOCKED {
            return;
        }
        let lag = self.s.lag(READOUT).unwrap();
        let stretch = self.stretches.last_mut().unwrap();
        stretch.all += used;
        let reads = thread == READOUT;
        stretch.own += if reads { used } else { 0 };
        stretch.late[reads as usize] += late;
        // Readout's limit, and what the others' overruns take beyond it.
        let f = stretch.reservation;
        let bound = 2 * f * (1000 - f) * m + f * p;
        assert!(lag <= bound + f * stretch.late[0], "{lag}: {stretch:?}");
    }

    /// The tables that a host prints at the end.
    fn tables(&self) -> String {
        let mut text = String::new();
        let mut table = [Entry::default(); 64];
        for e in self.s.roster(&mut table).unwrap() {
            let state = format!("{:?}", e.state).to_lowercase();
            let (allotment, lag, share) = (e.allotment, e.lag, e.share);
            text += &format!("roster {} {state} {allotment} {lag} {share}\n", e.thread);
        }
        for (thread, [owed, left]) in &self.debts {
            text += &format!("debt {thread} {owed} {left}\n");
        }
        for s in &self.stretches {
            text += &format!("readout {} {} {}\n", s.reservation, s.all, s.share());
        }
        let sum = |of: usize| self.spare.values().map(|spare| spare[of]).sum::<i64>();
        for (thread, [weight, ticks]) in &self.spare {
            let (share, due) = (thousandths(*ticks, sum(1)), thousandths(*weight, sum(0)));
            assert!(share.abs_diff(due) <= 50, "{share} for {due}");
            text += &format!("best-effort {thread} {weight} {ticks} {share} {due}\n");
        }
        text
    }

    /// Every kind of call is accepted, and every refusal that a host can meet occurs. The timer is late for readout and for others, and
    /// there are debts. Readout has what it reserves.
    fn holds(&self) {
        assert!(self.accepted.iter().copied().eq(1..=10));
        assert!(self.answers.iter().copied().eq(0..=14));
        // Of a running best-effort thread, and of a reserved one.
        assert!(self.while_running.iter().eq(&[7, 9]));
        assert_eq!(self.asked.join(", "), ASKED);
        assert!(self.debts.len() > 1);
        let stretches = &self.stretches;
        let reserved: Vec<i64> = stretches.iter().map(|s| s.reservation).collect();
        assert_eq!(reserved, [500, 700, 500, 500]);
        for stretch in stretches {
            assert!(stretch.late.iter().all(|&ticks| ticks > 0));
            assert!(stretch.share() >= stretch.reservation, "{stretch:?}");
        }
    }
}

fn compare(seed: &str, milliseconds: &str) {
    let name = format!("{seed}-{milliseconds}");
    let (c_name, rust_name) = (format!("c-{name}.blocks"), format!("rust-{name}.blocks"));
    let (c_printed, c_journal) = hosted(c_host(), &c_name, seed, milliseconds);
    let (printed, journal) = hosted(rust_host(), &rust_name, seed, milliseconds);
    assert!(c_journal == journal, "{name}");
    assert_eq!(c_printed, printed, "{name}");

    let (answers, tables) = printed.split_at(printed.find("roster").unwrap());
    assert_eq!(replayed(&rust_name), answers, "{name}");
    let events = events(&journal);
    assert_eq!(events.len(), answers.lines().count());
    let mut count = Count::default();
    events.iter().for_each(|event| count.call(*event));
    count.holds();
    assert_eq!(count.tables(), tables, "{name}");
}

#[test]
fn the_same_journal_and_the_same_answers() {
    for seed in ["1", "2", "18446744073709551615"] {
        compare(seed, "1000");
    }
    compare("4", "10000");
}

#[test]
fn bad_arguments() {
    let taken = scratch("bad.blocks");
    let _ = fs::remove_file(&taken);
    let taken = taken.to_str().unwrap();
    let none = scratch("none/journal");
    let none = none.to_str().unwrap();
    for host in [c_host(), rust_host()] {
        for words in [
            &["1"][..],
            &["x", taken],
            &["-1", taken],
            &["18446744073709551616", taken],
            &["1", taken, "1000001"],
            &["1", taken, "1", "1"],
            &["1", none],
        ] {
            let done = run(host, words);
            assert_eq!(done.status.code(), Some(1), "{words:?}");
            assert!(done.stdout.is_empty(), "{words:?}");
            assert!(done.stderr.starts_with(b"controller: "), "{words:?}");
        }
    }
    assert!(!Path::new(taken).exists());
}

/// The files of the tree and what they hold, but for what is built and git's own.
fn tree() -> BTreeMap<PathBuf, Vec<u8>> {
    let built = ["target", "dist", ".git"].map(|name| root().join(name));
    let mut files = BTreeMap::new();
    let mut open = vec![root()];
    while let Some(folder) = open.pop() {
        for entry in fs::read_dir(folder).unwrap() {
            let entry = entry.unwrap();
            let path = entry.path();
            if built.contains(&path) || path.ends_with("out") {
                continue;
            }
            match entry.file_type().unwrap().is_dir() {
                true => open.push(path),
                false => {
                    let held = fs::read(&path).unwrap();
                    files.insert(path, held);
                }
            }
        }
    }
    files
}

/// What a command prints, run at the root.
fn printed(command: &str) -> String {
    let mut shell = Command::new("sh");
    let done = shell.args(["-c", command]).current_dir(root()).output();
    let done = done.unwrap();
    let told = String::from_utf8_lossy(&done.stderr).into_owned();
    assert!(done.status.success(), "{command}: {told}");
    String::from_utf8(done.stdout).unwrap()
}

/// The lines that a table's rows begin with.
fn shown(text: &str) -> Vec<&str> {
    text.lines()
        .filter_map(|line| Some(line.strip_prefix("| `")?.split_once('`')?.0))
        .collect()
}

/// These lines stand in the text, in this order.
fn in_order(text: &str, lines: &[&str]) {
    let mut rest = text.lines();
    for line in lines {
        assert!(rest.any(|next| next == *line), "{line}");
    }
}

/// The sections of a document with their titles.
fn sections(document: &str) -> BTreeMap<&str, &str> {
    let parts = document.split("\n## ").skip(1);
    parts.map(|part| part.split_once('\n').unwrap()).collect()
}

/// The commands of the page run as they stand there, one after the other, and leave nothing in the tree. What the first one builds is there.
/// The lines that a section of the page shows are printed, in its order. README's sections about the hosts are true of the same run.
#[test]
fn the_page() {
    let page = fs::read_to_string(root().join("examples/host/README.md")).unwrap();
    let commands: Vec<&str> = page
        .lines()
        .filter_map(|line| line.strip_prefix("    "))
        .filter(|line| !line.starts_with("tools/build.sh "))
        .collect();
    assert_eq!(commands.len(), 5, "{commands:?}");
    let before = tree();
    assert!(before.contains_key(&root().join("examples/host/README.md")));
    let told: Vec<String> = commands.into_iter().map(printed).collect();
    // What both say stands there too.
    for line in SAID.lines() {
        assert!(page.contains(line), "{line}");
    }
    let [_, c, rust, _, replayed] = &told[..] else {
        panic!("{}", told.len());
    };
    assert!(c == rust && !replayed.is_empty() && c.starts_with(replayed));
    let sections = sections(&page);
    for (title, count) in [("A method change", 13), ("Reports in idle time", 16)] {
        let shown = shown(sections[title]);
        assert_eq!(shown.len(), count, "{shown:?}");
        in_order(c, &shown);
    }
    readme(c);
    let after = tree();
    let differs = |path: &&PathBuf| before.get(*path) != after.get(*path);
    let changed: Vec<&PathBuf> = before.keys().chain(after.keys()).filter(differs).collect();
    assert!(changed.is_empty(), "{changed:?}");
}

/// The commands of a section print what stands below them, and the lines of its table are among that, in order. Counts of both.
fn holds(section: &str) -> (usize, usize) {
    let (mut commands, mut answers) = (0, String::new());
    for part in section.split("\n\n") {
        let Some(example) = part.strip_prefix("    $ ") else {
            continue;
        };
        let (command, below) = example.split_once('\n').unwrap();
        let below: String = below.lines().map(|l| format!("{}\n", &l[4..])).collect();
        assert_eq!(printed(command), below, "{command}");
        commands += 1;
        answers += &below;
    }
    let shown = shown(section);
    in_order(&answers, &shown);
    (commands, shown.len())
}

/// README's shares of readout are those that the hosts print, and the commands of its sections on idle time and on the roster print what
/// stands there.
fn readme(told: &str) {
    let readme = fs::read_to_string(root().join("README.md")).unwrap();
    let sections = sections(&readme);
    let shares = told.lines().filter(|line| line.starts_with("readout "));
    let shares: Vec<Vec<&str>> = shares.map(|line| line.split(' ').collect()).collect();
    let table = sections["Raising readout during a run"];
    for (when, line) in ["before", "during the method change", "after it"]
        .iter()
        .zip(&shares)
    {
        let row = format!("| {when}, {} | {} |", line[1], line[3]);
        assert!(table.lines().any(|line| line == row), "{row}");
    }

    assert_eq!(holds(sections["Report printing in idle time"]), (2, 5));
    assert_eq!(holds(sections["Small threads on top"]), (1, 4));
}
