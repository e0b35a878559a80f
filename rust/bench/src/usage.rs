//! The programs `mtrsum` and `mtrask` beside `mtrrun`, the model and a plain reading of the same bytes. `mtrask` is asked 64 questions,
//! among them the last block of the summary.

use crate::journals::{journal, median, ratio, seconds};
use model::blocks::BLOCK;
use model::usage::{ask_from, lines, summary_from_with, Question};
use samples::random::Rng;
use std::ffi::{OsStr, OsString};
use std::fs::File;
use std::io::{BufWriter, Read, Write};
use std::path::{Path, PathBuf};
use std::process::{Command, Stdio};
use std::time::{Duration, Instant};

const THREADS: u64 = 16;

/// What is timed, each in every round.
#[derive(Default)]
struct Times {
    mtrrun: Vec<f64>,
    mtrsum: Vec<f64>,
    summed: Vec<f64>,
    mtrask: Vec<f64>,
    asked: Vec<f64>,
    plain: Vec<f64>,
}

/// The files of a run, in a folder to work in.
struct Files {
    bin: PathBuf,
    input: PathBuf,
    printed: PathBuf,
    summary: PathBuf,
    answers: PathBuf,
}

impl Files {
    fn new(work: &Path) -> Files {
        Files {
            bin: PathBuf::from(env!("CARGO_MANIFEST_DIR")).join("../../target/bin"),
            input: work.join("input"),
            printed: work.join("printed"),
            summary: work.join("summary"),
            answers: work.join("answers"),
        }
    }

    /// The arguments of `mtrask`.
    fn asking(&self, questions: &[Question]) -> Vec<OsString> {
        let mut args = vec![self.summary.clone().into_os_string()];
        for q in questions {
            args.extend([q.thread, q.first, q.second].map(|n| n.to_string().into()));
        }
        args
    }
}

/// 64 questions about blocks of a journal of so many, the last one among them.
fn questions(blocks: u64) -> Vec<Question> {
    let mut rng = Rng::new(9);
    let mut list: Vec<Question> = (0..63)
        .map(|_| {
            let (a, b) = (rng.below(blocks), rng.below(blocks));
            Question {
                thread: rng.below(THREADS),
                first: a.min(b),
                second: a.max(b),
            }
        })
        .collect();
    list.push(Question {
        thread: 63,
        first: 0,
        second: blocks - 1,
    });
    list
}

fn timed<T>(times: &mut Vec<f64>, work: impl FnOnce() -> T) -> T {
    let begin = Instant::now();
    let done = work();
    times.push(begin.elapsed().as_secs_f64());
    done
}

/// Reads a file to its end in pieces of 32 blocks.
fn read(path: &Path) -> u64 {
    let (mut file, mut piece, mut size) = (File::open(path).unwrap(), [0; 32 * BLOCK], 0);
    loop {
        match file.read(&mut piece).unwrap() {
            0 => return size,
            n => size += n as u64,
        }
    }
}

fn rounds(files: &Files, rounds: usize) -> Times {
    let size = std::fs::metadata(&files.input).unwrap().len();
    let questions = questions(size / BLOCK as u64);
    let asking = files.asking(&questions);
    let asking: Vec<&OsStr> = asking.iter().map(OsString::as_os_str).collect();
    let mut t = Times::default();
    let program = |name: &str, args: &[&OsStr], out: &Path| {
        seconds(&files.bin.join(name), args, &files.input, out)
    };
    for _ in 0..rounds {
        t.mtrrun.push(program("mtrrun", &[], &files.printed));
        let mtrsum = program("mtrsum", &[files.input.as_ref()], &files.summary);
        t.mtrsum.push(mtrsum);
        let other = files.printed.with_file_name("other");
        timed(&mut t.summed, || {
            let out = File::create(&other).unwrap();
            let refusal = summary_from_with::<false, _, _>(File::open(&files.input).unwrap(), out);
            assert_eq!(refusal.unwrap(), None);
        });
        assert!(same(&other, &files.summary));
        std::fs::remove_file(&other).unwrap();
        let read = timed(&mut t.plain, || read(&files.summary));
        assert_eq!(read, 2 * size);
        t.mtrask.push(program("mtrask", &asking, &files.answers));
        let wanted = timed(&mut t.asked, || {
            ask_from(File::open(&files.summary).unwrap(), &questions).unwrap()
        });
        assert!(std::fs::read(&files.answers).unwrap() == lines(&wanted));
    }
    t
}

/// Whether two files hold the same bytes.
fn same(a: &Path, b: &Path) -> bool {
    let status = Command::new("cmp").arg("-s").args([a, b]).status().unwrap();
    status.success()
}

fn print_times(name: &str, t: &Times) {
    println!(
        "{name:>9}  {}   {:8.2}  {:8.2}   {:8.2}  {:8.2}",
        [&t.mtrrun, &t.mtrsum, &t.summed, &t.mtrask, &t.asked, &t.plain]
            .map(|times| format!("{:7.3} s", median(times.clone())))
            .join(" "),
        ratio(&t.mtrrun, &t.mtrsum),
        ratio(&t.summed, &t.mtrsum),
        ratio(&t.asked, &t.mtrask),
        ratio(&t.plain, &t.mtrask),
    );
}

fn heading() {
    println!("             times                                                       mtrsum's speed,      mtrask's speed,");
    println!("  records    mtrrun    mtrsum     model    mtrask     model   reading   mtrrun's   model's   model's  reading's");
}

fn folder() -> PathBuf {
    let work = std::env::temp_dir().join(format!("usage-{}", std::process::id()));
    std::fs::create_dir(&work).unwrap();
    work
}

/// Journals that fit the page cache, round by round.
pub fn print() {
    let work = folder();
    let files = Files::new(&work);
    heading();
    for records in [200_000, 1_000_000] {
        let mut out = BufWriter::new(File::create(&files.input).unwrap());
        journal(THREADS, records, &mut out);
        out.flush().unwrap();
        print_times(&records.to_string(), &rounds(&files, 15));
    }
    std::fs::remove_dir_all(&work).unwrap();
}

/// The most memory that a program held, in KiB.
fn memory(files: &Files, name: &str, args: &[&OsStr]) -> u64 {
    let mut child = Command::new(files.bin.join(name))
        .args(args)
        .stdout(Stdio::from(File::create(&files.printed).unwrap()))
        .spawn()
        .unwrap();
    let status = PathBuf::from(format!("/proc/{}/status", child.id()));
    let mut most = 0;
    while child.try_wait().unwrap().is_none() {
        let text = std::fs::read_to_string(&status).unwrap_or_default();
        if let Some(line) = text.lines().find(|line| line.starts_with("VmHWM")) {
            let held = line.split_whitespace().nth(1).unwrap().parse().unwrap();
            most = most.max(held);
        }
        std::thread::sleep(Duration::from_millis(20));
    }
    most
}

/// A journal of 1 GiB, about two days of a busy controller: three rounds, and the memory of both programs.
pub fn long() {
    let work = folder();
    let files = Files::new(&work);
    let blocks = (1u64 << 30) / BLOCK as u64;
    let mut out = BufWriter::with_capacity(1 << 20, File::create(&files.input).unwrap());
    journal(THREADS, 31 * blocks, &mut out);
    out.flush().unwrap();
    heading();
    print_times(&(31 * blocks).to_string(), &rounds(&files, 3));
    let asking = files.asking(&questions(blocks));
    let asking: Vec<&OsStr> = asking.iter().map(OsString::as_os_str).collect();
    println!(
        "memory: mtrsum {} KiB, mtrask {} KiB",
        memory(&files, "mtrsum", &[files.input.as_ref()]),
        memory(&files, "mtrask", &asking)
    );
    std::fs::remove_dir_all(&work).unwrap();
}
