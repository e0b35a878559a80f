//! A controller's main loop on a virtual clock, in Rust: readout, pumps, an
//! archive, the lab's viewer and an exporter that waits for a server whose
//! replies come sooner or later, under a timer that fires up to 50 ticks late.
//! For a while a method change needs more readout. The lab's programs are
//! admitted by their priorities, under a table of the lab's own. A report
//! printer and a log packer reserve nothing: between two samples they share, by
//! weight, the time that the others leave. Every call of the scheduler is
//! journalled into event blocks.
//!
//! ```text
//! cargo run --release -p controller -- SEED JOURNAL [MILLISECONDS]
//! ```
//!
//! Standard output has a line for each call, as `mtrrun` prints it for the
//! call's record (number, answer, thread, slice, threads before it), and at the
//! end the roster, each thread's largest debt, readout's share under each
//! reservation and the best-effort threads' shares beside their weights.
//! `target/bin/mtrrun < JOURNAL` prints the same lines but for these tables.
//! `examples/host/c` is the same host in C.

#![forbid(unsafe_code)]

mod host;
mod lab;
mod tasks;
mod world;

use std::error::Error;
use std::fs::File;
use std::process::ExitCode;

use host::Host;
use world::World;

const USAGE: &str = "usage: controller SEED JOURNAL [MILLISECONDS, at most 1000000]";

fn main() -> ExitCode {
    match run() {
        Ok(()) => ExitCode::SUCCESS,
        Err(error) => {
            eprintln!("controller: {error}");
            ExitCode::FAILURE
        }
    }
}

fn run() -> Result<(), Box<dyn Error>> {
    let words: Vec<String> = std::env::args().skip(1).collect();
    let (seed, journal, milliseconds) = match &words[..] {
        [seed, journal] => (seed.parse(), journal, Ok(1000)),
        [seed, journal, milliseconds] => (seed.parse(), journal, milliseconds.parse()),
        _ => return Err(USAGE.into()),
    };
    let (Ok(seed), Ok(milliseconds @ 0..=1_000_000)) = (seed, milliseconds) else {
        return Err(USAGE.into());
    };
    let mut host = Host::new(File::create(journal)?);
    let mut world = World::new(seed);
    world.simulate(&mut host, 1000 * milliseconds)?;
    host.finish()?;
    host.print_figures(world.debts(), world.stretches(), &world.spares())?;
    Ok(())
}
