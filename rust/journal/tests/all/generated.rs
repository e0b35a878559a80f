//! Generated journals, damaged ones and any bytes: text and back, answers, figures,
//! pictures, whole and in part.

use std::collections::BTreeSet;

use journal::codec::BLOCK;
use journal::draw::{draw, Options};
use journal::engine::{Engine, Proved};
use journal::names::Names;
use journal::playback::Journal;
use journal::progress::Progress;
use journal::text::{self, Notes, PROBLEMS};
use journal::track::{Mark, View};
use journal::why::{why, Why};
use model::replay::replay;
use samples::random::{any_record, blocking, journal, Rng};
use samples::records::block;

use crate::common::*;
use crate::why::{numbers, spelt};

/// Half of them with many blocked threads.
fn journals(r: &mut Rng, count: usize) -> Vec<Vec<u8>> {
    let one = |n: usize| match n % 2 {
        0 => journal(r),
        _ => blocking(r),
    };
    (0..count).map(one).collect()
}

#[test]
fn text_gives_the_bytes_back_and_answers_are_those_of_the_replay() {
    let mut r = Rng::new(1);
    let (mut parts, mut all) = (0, String::new());
    for bytes in journals(&mut r, 300) {
        let text = ran(Journal::whole(&bytes), &Notes::new());
        assert!(text.starts_with(&format!("# {}\n", Proved::SAYS)));
        assert_eq!(encode(&decode(&bytes)), bytes);
        assert_eq!(encode(&text), bytes);
        assert!(printed(&text).as_bytes() == replay(&bytes), "{text}");
        all += &text;
        // A part answers as the whole does with the blocks before it damaged.
        let first = 1 + r.below(3);
        let cut = BLOCK * first as usize;
        if bytes.len() > cut {
            let piece = Journal {
                bytes: &bytes[cut..],
                first,
            };
            let text = ran(piece, &Notes::new());
            let mut damaged = bytes.clone();
            damaged[..cut].fill(0);
            let whole = String::from_utf8(replay(&damaged)).unwrap();
            let expected: Vec<&str> = whole.lines().skip(first as usize).collect();
            let told = printed(&text);
            assert!(told.lines().eq(expected), "{text}");
            parts += 1;
        }
    }
    let occur = |what: &str| all.matches(what).count();
    for (what, least) in [
        ("\ndamaged ", 100),
        ("\nchange ", 500),
        (" weight ", 500),
        (" not run", 500),
    ] {
        assert!(occur(what) > least, "{what}: {}", occur(what));
    }
    assert!(parts > 50, "{parts}");
    // Blocks of records with any values, full and empty ones, and any bytes.
    for _ in 0..200 {
        let blocks = (0..r.below(4) as u32).map(|n| {
            let records = (0..r.edgy(0, 31)).map(|_| any_record(&mut r));
            block(n, &records.collect::<Vec<_>>())
        });
        let mut bytes = blocks.collect::<Vec<_>>().concat();
        assert!(!decode(&bytes).contains("damaged"));
        assert_eq!(encode(&decode(&bytes)), bytes);
        let any = r.edgy(0, 2 * BLOCK as u64);
        bytes.extend((0..any).map(|_| r.bits() as u8));
        assert_eq!(encode(&decode(&bytes)), bytes);
    }
}

#[test]
fn mangled_text_gives_blocks_or_problems() {
    let mut r = Rng::new(7);
    let (mut good, mut bad) = (0, 0);
    for _ in 0..400 {
        let mut bytes = decode(&journal(&mut r)).into_bytes();
        for _ in 0..r.below(4) {
            if bytes.is_empty() {
                break;
            }
            let at = r.below(bytes.len() as u64) as usize;
            match r.below(4) {
                0 => {
                    bytes.remove(at);
                }
                1 => bytes[at] = r.pick(b"09 \n#abx\xff"),
                2 => bytes.insert(at, r.bits() as u8),
                _ => bytes.truncate(at),
            }
        }
        match text::encode(&bytes, 0, false, &mut Progress::silent()) {
            Ok(blocks) => {
                good += 1;
                assert_eq!(encode(&decode(&blocks)), blocks);
            }
            Err(problems) => {
                bad += 1;
                let lines = bytes.split(|&b| b == b'\n').count() as u64;
                assert!(!problems.is_empty() && problems.len() <= PROBLEMS);
                assert!(problems.iter().all(|p| (1..=lines).contains(&p.line)));
                assert!(problems.is_sorted_by_key(|p| p.line));
            }
        }
    }
    assert!(good > 70 && bad > 70, "{good} {bad}");
}

fn sum(csv: &str, name: &str) -> u64 {
    let values = column(csv, name).into_iter();
    values.map(|(_, n)| n.parse::<u64>().unwrap()).sum()
}

/// What the answers come to: dispatches of a thread, overruns and their ticks,
/// changes, refusals.
fn counted(text: &str) -> [u64; 5] {
    let mut out = [0; 5];
    for line in text
        .lines()
        .filter(|line| !line.starts_with(['#', ' ', 'd']))
    {
        let beyond = line.strip_suffix(" beyond the slice");
        if let Some(ticks) = beyond.and_then(|line| line.rsplit(' ').next()) {
            out[1] += 1;
            out[2] += ticks.parse::<u64>().unwrap();
        }
        out[3] += u64::from(line.starts_with("change") && line.ends_with(" 0 0 0 0"));
    }
    for line in printed(text).lines().filter(|line| !line.starts_with('b')) {
        let words: Vec<&str> = line.split(' ').collect();
        out[0] += u64::from(words[1] == "0" && words[3] != "0");
        out[4] += u64::from(words[1] != "0" && words[1] != "20");
    }
    out
}

/// The figures are those of the answers, and parts add up to the whole.
#[test]
fn figures_add_up() {
    let mut r = Rng::new(31);
    let (mut all, mut cuts) = ([0; 5], 0);
    for bytes in journals(&mut r, 240) {
        let text = ran(Journal::whole(&bytes), &Notes::new());
        let whole = told(&bytes);
        let names = ["runs", "overruns", "overrun", "changes"];
        let sums = names.map(|name| sum(&whole.csv, name));
        let refused = sum(&whole.refusals, "count");
        let found = counted(&text);
        assert_eq!([&sums[..], &[refused]].concat(), found);
        all = std::array::from_fn(|i| all[i] + found[i]);
        let end = sum(&whole.csv, "ticks");
        if end < 2 {
            continue;
        }
        cuts += 1;
        let at = Some(Mark::Time(r.range(1, end - 1)));
        let (mut before, mut after) = (View::default(), View::default());
        (before.to, after.from) = (at, at);
        let none = Names::default();
        let parts = [before, after].map(|view| figures(&bytes, &view, &none).csv);
        for name in ["ticks", "overrun"] {
            for (thread, of_all) in column(&whole.csv, name) {
                let in_parts = parts.iter().flat_map(|csv| column(csv, name));
                let in_parts = in_parts.filter(|row| row.0 == thread);
                let sum: u64 = in_parts.map(|row| row.1.parse::<u64>().unwrap()).sum();
                assert_eq!(sum.to_string(), of_all, "{name} of thread {thread}");
            }
        }
    }
    assert!(all[0] > 2000 && all[1] > 100, "{all:?}");
    assert!(all[3] > 300 && all[4] > 1000, "{all:?}");
    assert!(cuts > 100, "{cuts}");
}

#[test]
fn pictures_of_the_whole_and_of_any_part() {
    let mut r = Rng::new(8);
    let (mut drawings, mut said) = (0, 0);
    let mut all = journals(&mut r, 160);
    all.extend((0..20).map(|_| (0..r.below(5000)).map(|_| r.bits() as u8).collect()));
    for bytes in all {
        let whole = svg(&bytes);
        assert!(whole.len() < 1_000_000);
        let text = ran(Journal::whole(&bytes), &Notes::new());
        let [.., changes, _] = counted(&text);
        let changes = match changes {
            0 => String::new(),
            1 => "1 change of reservation".into(),
            n => format!("{n} changes of reservation"),
        };
        assert!(whole.contains(&changes), "{changes}");
        assert_eq!(changes.is_empty(), !whole.contains("of reservation"));
        let shown = whole.contains("\u{b7} best effort ");
        assert!(shown || !text.contains(" best-effort\n"));
        let mut mark = || match r.below(5) {
            0 => None,
            1 | 2 => Some(Mark::Record(r.below(120))),
            _ => Some(Mark::Time(r.below(100_000))),
        };
        let options = Options {
            view: View {
                from: mark(),
                to: mark(),
                threads: Vec::new(),
            },
            ..Options::default()
        };
        let journal = Journal {
            bytes: &bytes,
            first: r.below(2),
        };
        match draw::<Proved>(journal, &options, &mut Progress::silent()) {
            Ok(drawing) => {
                crate::draw::check(&drawing.svg);
                drawings += 1;
            }
            Err(message) => {
                let told = message.contains("--from") || message.contains("--to");
                assert!(told, "{message}");
                said += 1;
            }
        }
    }
    assert!(drawings > 40 && said > 40, "{drawings} {said}");
}

/// The answers of `run --why`, all at once and alone, are the model's; with them
/// the text is that without them and lines of comment.
#[test]
fn every_dispatch_is_told_of_as_by_the_model() {
    let mut r = Rng::new(71);
    let mut names = Names::default();
    for n in 0..64 {
        names.give(n, "line\nbreaks\r\n# and\u{85} more");
    }
    let (mut several, mut effort, mut idle, mut running, mut none) = (0, 0, 0, 0, 0);
    for bytes in journals(&mut r, 70) {
        let whole = Journal::whole(&bytes);
        let asked = |numbers| why::<Proved>(whole, &numbers, &mut Progress::silent());
        let mut notes = Notes::new();
        for (number, found) in asked(numbers(&bytes).collect()) {
            assert_eq!(spelt(&found), model::why::why(&bytes, number), "{number}");
            if r.chance(1, 20) {
                let alone = asked(BTreeSet::from([number]));
                assert_eq!(alone[&number], found, "{number}");
            }
            match &found {
                Ok(Why::Reserved { before, .. }) => several += usize::from(before.len() > 1),
                Ok(Why::BestEffort { before, .. }) => effort += usize::from(before.len() > 1),
                Ok(Why::Idle { before }) => idle += usize::from(!before.is_empty()),
                Ok(Why::Running(_)) => running += 1,
                Ok(Why::Full(_)) => panic!("{number}"),
                Err(_) => none += 1,
            }
            if let Ok(why) = found {
                notes.insert(number, why.told(&names));
            }
        }
        let (text, bare) = (ran(whole, &notes), ran(whole, &Notes::new()));
        assert_eq!(encode(&text), bytes);
        let lines = text.split_inclusive('\n');
        let without: String = lines.filter(|line| !line.starts_with(' ')).collect();
        assert_eq!(without, bare);
        let lines: usize = notes.values().map(Vec::len).sum();
        assert_eq!(text.lines().count() - bare.lines().count(), lines);
    }
    let least = several.min(effort).min(idle).min(running).min(none);
    assert!(least > 40, "{several} {effort} {idle} {running} {none}");
}
