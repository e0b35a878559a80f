//! The shipped files: journals, their texts, the threads' names, pictures.

use std::fmt::Write as _;
use std::io::{self, Write as _};
use std::path::{Path, PathBuf};

use journal::draw::{draw, Options, WIDTH};
use journal::engine::{Engine, Proved};
use journal::names::Names;
use journal::playback::Journal;
use journal::progress::Progress;
use journal::text;
use journal::track::{Mark, View};

use crate::broken::RefillOnWake;
use crate::controller::{self, play, Server, EXPORTER, LENGTH, RESERVATIONS};
use crate::{late, raised, spare};

/// A shipped journal.
#[derive(Clone, Copy, Debug)]
pub struct Case {
    /// Name of its files.
    pub name: &'static str,
    pub title: &'static str,
    pub server: Server,
}

pub const CASES: [Case; 2] = [
    Case {
        name: "steady",
        title: "Readout beside an exporter with a steady server",
        server: Server::Steady,
    },
    Case {
        name: "exporter",
        title: "Readout beside an exporter that wakes at every reply",
        server: Server::Jittery,
    },
];

/// Name and title of the journal with a timer that fires late.
pub const LATE: (&str, &str) = ("late", "A timer that fires up to 90 \u{b5}s late");

/// Name and title of the journal with a method change.
pub const RAISED: (&str, &str) = ("raised", "Readout raised from 500 to 700 for a method");

/// Name and title of the journal with best-effort threads.
pub const SPARE: (&str, &str) = ("spare", "A report printer and a log packer in spare time");

/// Title of the picture of the broken rule.
pub const BROKEN: &str = "The same exporter by a broken rule: every wake fills the allotment";

/// A worked example of 15 records.
pub const LISTING: &str = include_str!("../listing.txt");

/// The part of the exporter's journal that a page looks into.
const ZOOM: &str = "The exporter's longest wait";

fn zoom() -> View {
    View {
        from: Some(Mark::Record(150)),
        to: Some(Mark::Record(190)),
        threads: vec![0, EXPORTER as u8],
    }
}

/// Width of the three pictures that stand side by side.
pub const NARROW: u32 = 460;

/// Names of the threads, from 0.
fn called() -> impl Iterator<Item = &'static str> {
    controller::NAMES.into_iter().chain(spare::NAMES)
}

fn picture<E: Engine>(journal: &[u8], title: &str, view: View, width: u32) -> String {
    let mut names = Names::default();
    for (n, name) in (0u8..).zip(called()) {
        names.give(n, name);
    }
    let options = Options {
        title: Some(title.into()),
        names,
        view,
        width,
    };
    let whole = Journal::whole(journal);
    match draw::<E>(whole, &options, &mut Progress::silent()) {
        Ok(drawing) => drawing.svg,
        // Only a part that is not there is an error.
        Err(message) => message,
    }
}

/// The exporter beside readout by the broken rule, run and drawn by it.
pub fn broken_picture() -> String {
    let journal = play::<RefillOnWake>(Server::Jittery, LENGTH).journal();
    picture::<RefillOnWake>(&journal, BROKEN, View::default(), NARROW)
}

fn names() -> String {
    let mut out = String::from(
        "# Threads of the shipped journals steady, exporter, late, raised and spare.\n",
    );
    for (n, name) in called().enumerate() {
        let _ = writeln!(out, "{n} {name}");
    }
    out
}

fn here() -> &'static Path {
    Path::new(env!("CARGO_MANIFEST_DIR"))
}

/// A journal by the rule with its text, which begins with its threads, and its
/// picture of a width.
fn shipped(
    (name, title): (&str, &str),
    (reservations, weights): (&[u64], &[u64]),
    journal: &[u8],
    width: u32,
) -> [(PathBuf, Vec<u8>); 3] {
    let root = here().join("../..");
    let mut lines = Vec::new();
    // Writing to a vector does not fail.
    let _ = writeln!(&mut lines, "# {title}.");
    let reserved = reservations.iter().map(|f| format!("reservation {f}"));
    let efforts = weights.iter().map(|w| format!("best effort, weight {w}"));
    for (n, (name, has)) in called().zip(reserved.chain(efforts)).enumerate() {
        let _ = writeln!(&mut lines, "# thread {n}: {name}, {has}");
    }
    let whole = Journal::whole(journal);
    let _ = text::decode(whole, &mut lines, &mut Progress::silent());
    let svg = picture::<Proved>(journal, title, View::default(), width);
    [
        (here().join(format!("examples/{name}.txt")), lines),
        (root.join(format!("docs/{name}.svg")), svg.into()),
        (
            root.join(format!("examples/journals/{name}.blocks")),
            journal.to_vec(),
        ),
    ]
}

/// The files with their contents.
pub fn files() -> Vec<(PathBuf, Vec<u8>)> {
    let root = here().join("../..");
    let journals = root.join("examples/journals");
    let mut files = vec![
        (journals.join("names.txt"), names().into()),
        (root.join("docs/broken.svg"), broken_picture().into()),
    ];
    if let Ok(journal) = text::encode(LISTING.as_bytes(), 0, false, &mut Progress::silent()) {
        files.push((journals.join("listing.blocks"), journal));
    }
    for case in CASES {
        let journal = play::<Proved>(case.server, LENGTH).journal();
        let called = (case.name, case.title);
        files.extend(shipped(called, (&RESERVATIONS, &[]), &journal, NARROW));
        if case.server == Server::Jittery {
            let all = picture::<Proved>(&journal, case.title, View::default(), WIDTH);
            let part = picture::<Proved>(&journal, ZOOM, zoom(), WIDTH);
            files.push((root.join("docs/journal.svg"), all.into()));
            files.push((root.join("docs/zoom.svg"), part.into()));
        }
    }
    let latest = late::SETTINGS.overrun.into();
    let journal = late::play::<Proved>(latest, late::LENGTH).journal();
    let reserved = (&late::RESERVATIONS[..], &[][..]);
    files.extend(shipped(LATE, reserved, &journal, WIDTH));
    let journal = raised::play::<Proved>(raised::LENGTH).journal();
    files.extend(shipped(RAISED, (&RESERVATIONS, &[]), &journal, WIDTH));
    let journal = spare::play::<Proved>(spare::LENGTH).journal();
    let threads = (&RESERVATIONS[..], &spare::WEIGHTS[..]);
    files.extend(shipped(SPARE, threads, &journal, WIDTH));
    files
}

/// Writes the files and tells their names.
pub fn renew() -> io::Result<String> {
    let mut out = String::new();
    for (path, bytes) in files() {
        std::fs::write(&path, bytes)?;
        let _ = writeln!(out, "renewed {}", path.display());
    }
    Ok(out)
}
