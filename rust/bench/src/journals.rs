//! Records per second of the programs `mtrrun` and `mtrwhy` beside the model, on journals of a million records and of half a million.
//! `mtrwhy` is asked about the last dispatch, so that it runs all of them.

use model::blocks::{kind, write_block, Record};
use model::calls::{apply, record, Call};
use model::rule::Scheduler;
use model::why::why_from_with;
use samples::random::Rng;
use std::ffi::{OsStr, OsString};
use std::fs::File;
use std::io::Write;
use std::path::{Path, PathBuf};
use std::process::Command;
use std::time::Instant;

const ROUNDS: usize = 15;

fn call(state: &Scheduler, rng: &mut Rng, threads: u64) -> Call {
    if state.running != 64 {
        let slice = state.threads[state.running as usize].slice(&state.settings) as u64;
        let reason = u64::from(rng.chance(1, 8));
        let used = rng.range(0, slice);
        return Call::Report { reason, used };
    }
    let n = rng.below(threads);
    if state.threads[n as usize].status == 2 {
        return Call::Wake { number: n };
    }
    Call::Dispatch
}

/// Writes a journal of so many records, and answers the number of its last dispatch: a start, the admissions, then dispatches, reports and
/// wakes, all accepted.
pub fn journal(threads: u64, records: u64, out: &mut dyn Write) -> u64 {
    let mut rng = Rng::new(threads);
    let mut state = Scheduler::start(10, 5000, 0).unwrap();
    let start = Record {
        kind: kind::START,
        amount: 10,
        ticks: 5000,
        ..Record::default()
    };
    let (mut part, mut last) = (Vec::new(), 0);
    for number in 0..records {
        part.push(if number == 0 {
            start
        } else {
            let next = match number.checked_sub(1).filter(|&n| n < threads) {
                Some(number) => Call::Admit {
                    number,
                    group: 0,
                    reservation: 1000 / threads,
                },
                None => call(&state, &mut rng, threads),
            };
            assert_eq!(apply(&mut state, next).answer, 0);
            if next == Call::Dispatch {
                last = number;
            }
            record(next)
        });
        if part.len() == 31 || number + 1 == records {
            let mut area = [0; 512];
            assert_eq!(write_block(&mut area, (number / 31) as u32, &part), 0);
            out.write_all(&area).unwrap();
            part.clear();
        }
    }
    last
}

/// Seconds that a program takes with these arguments, from one file to the other.
pub fn seconds(program: &Path, args: &[&OsStr], input: &Path, output: &Path) -> f64 {
    let begin = Instant::now();
    let status = Command::new(program)
        .args(args)
        .stdin(File::open(input).unwrap())
        .stdout(File::create(output).unwrap())
        .status()
        .unwrap_or_else(|e| panic!("{}: {e}", program.display()));
    assert!(status.success());
    begin.elapsed().as_secs_f64()
}

pub fn median(mut numbers: Vec<f64>) -> f64 {
    numbers.sort_by(f64::total_cmp);
    numbers[numbers.len() / 2]
}

/// What is timed, each in every round.
#[derive(Default)]
struct Times {
    mtrrun: Vec<f64>,
    replay: Vec<f64>,
    mtrwhy: Vec<f64>,
    why: Vec<f64>,
}

/// One of the times divided by another, round by round.
pub fn ratio(above: &[f64], below: &[f64]) -> f64 {
    median(above.iter().zip(below).map(|(a, b)| a / b).collect())
}

/// The rounds of a journal, in a folder to work in.
fn rounds(work: &Path, journal: &[u8], asked: u64) -> Times {
    let own = std::env::current_exe().unwrap();
    let model = own.with_file_name("model-replay");
    let bin = PathBuf::from(env!("CARGO_MANIFEST_DIR")).join("../../target/bin");
    let (mtrrun, mtrwhy) = (bin.join("mtrrun"), bin.join("mtrwhy"));
    let [input, left, right, cause] = ["input", "left", "right", "cause"].map(|n| work.join(n));
    std::fs::write(&input, journal).unwrap();
    let number = OsString::from(asked.to_string());
    let question: [&OsStr; 2] = [input.as_ref(), &number];
    let mut times = Times::default();
    for round in 0..ROUNDS {
        // Each of the two programs comes first in turn.
        for first in [round % 2 == 0, round % 2 == 1] {
            if first {
                times.mtrrun.push(seconds(&mtrrun, &[], &input, &left));
            } else {
                times
                    .mtrwhy
                    .push(seconds(&mtrwhy, &question, &input, &cause));
            }
        }
        times.replay.push(seconds(&model, &[], &input, &right));
        let begin = Instant::now();
        let wanted = why_from_with::<false, _>(File::open(&input).unwrap(), asked).unwrap();
        times.why.push(begin.elapsed().as_secs_f64());
        assert!(std::fs::read(&cause).unwrap() == wanted && wanted.starts_with(b"0 "));
    }
    assert!(std::fs::read(&left).unwrap() == std::fs::read(&right).unwrap());
    times
}

/// The model's replay tests soundness at each record, its search for the cause does not.
pub fn print() {
    let work = std::env::temp_dir().join(format!("journals-{}", std::process::id()));
    std::fs::create_dir(&work).unwrap();
    println!("                       times                                       mtrrun's speed,  mtrwhy's speed,");
    println!("threads   records     mtrrun     replay     mtrwhy        why   of the replay's    of the why's  of mtrrun's");
    for (threads, records) in [
        (2, 1_000_000),
        (16, 1_000_000),
        (64, 1_000_000),
        (64, 500_000),
    ] {
        let mut bytes = Vec::new();
        let asked = journal(threads, records, &mut bytes);
        let t = rounds(&work, &bytes, asked);
        println!(
            "{threads:7}  {records:8}  {}   {:15.2}  {:14.2}  {:11.2}",
            [&t.mtrrun, &t.replay, &t.mtrwhy, &t.why]
                .map(|times| format!("{:7.3} s", median(times.clone())))
                .join("  "),
            ratio(&t.replay, &t.mtrrun),
            ratio(&t.why, &t.mtrwhy),
            ratio(&t.mtrrun, &t.mtrwhy),
        );
    }
    std::fs::remove_dir_all(&work).unwrap();
}
