//! What the commands do.

use std::fs;
use std::io::{self, IsTerminal};
use std::path::Path;

use journal::codec;
use journal::draw::draw;
use journal::engine::Proved;
use journal::names::Names;
use journal::playback::Journal;
use journal::priorities::{Table, Wrong};
use journal::progress::Progress;
use journal::stats::stats;
use journal::text::{self, Notes, Problem, Tally, PROBLEMS};
use journal::why::why;
use journal::words;

use super::line::{Command, Job};
use super::output::{write_all, Output};
use super::{input, say, Stop};

/// Does what the command line asks for.
pub fn work(mut job: Job) -> Result<(), Stop> {
    let mut progress = Progress::new();
    let name = input::name(job.input.as_deref());
    if job.command == Command::Encode && job.output.is_none() && io::stdout().is_terminal() {
        return Err(Stop::Usage(
            "blocks are not written to a terminal; name a file with -o".into(),
        ));
    }
    if let Some(file) = job.names.take() {
        let mut names = read_names(&file, &mut progress)?;
        names.extend(std::mem::take(&mut job.options.names));
        job.options.names = names;
    }
    let bytes = input::read(job.input.as_deref(), &mut progress)?;
    let journal = Journal {
        bytes: &bytes,
        first: job.first,
    };
    let tally = match job.command {
        Command::Encode => return encode(&job, &name, &bytes, &mut progress),
        Command::Priorities => return write_mappings(&job, &name, &bytes, &mut progress),
        Command::Decode | Command::Run => write_text(&job, &name, journal, &mut progress)?,
        Command::Draw => write_picture(job, &name, journal, &mut progress)?,
        Command::Stats => write_figures(&job, &name, journal, &mut progress)?,
    };
    note(&name, journal, tally);
    Ok(())
}

/// A line for each problem.
fn problems(name: &str, problems: &[Problem]) -> Stop {
    let line = |p: &Problem| format!("{name}: line {}: {}", p.line, p.message);
    Stop::Bad(problems.iter().map(line).collect())
}

fn read_names(file: &Path, progress: &mut Progress) -> Result<Names, Stop> {
    let bytes = input::read(Some(file), progress)?;
    Names::read(&bytes).map_err(|wrong| problems(&file.display().to_string(), &wrong))
}

fn encode(job: &Job, name: &str, bytes: &[u8], progress: &mut Progress) -> Result<(), Stop> {
    progress.doing("encoding");
    let blocks = text::encode(bytes, job.first, job.pack, progress)
        .map_err(|wrong| problems(name, &wrong))?;
    progress.clear();
    write_all(job.output.as_deref(), &blocks)
}

fn write_mappings(
    job: &Job,
    name: &str,
    bytes: &[u8],
    progress: &mut Progress,
) -> Result<(), Stop> {
    // The table is the customer's only copy, as often as not.
    let same = |path: &Path| fs::canonicalize(path).ok();
    if let (Some(from), Some(to)) = (&job.input, &job.output) {
        if same(from).is_some() && same(from) == same(to) {
            let message = format!("{name}: the result would replace the table; name another file");
            return Err(Stop::bad(message));
        }
    }
    let table = Table::read(bytes);
    progress.clear();
    let table = table.map_err(|wrong| match wrong {
        Wrong::Lines(lines) => problems(name, &lines),
        Wrong::Whole(message) => Stop::bad(format!("{name}: {message}")),
    })?;
    write_all(job.output.as_deref(), table.text().as_bytes())
}

/// Below the dispatches asked about why each was answered as it was.
fn notes(job: &Job, name: &str, journal: Journal, progress: &mut Progress) -> Result<Notes, Stop> {
    let (mut notes, mut wrong) = (Notes::new(), Vec::new());
    for (number, found) in why::<Proved>(journal, &job.why, progress) {
        match found {
            Ok(why) => {
                notes.insert(number, why.told(&job.options.names));
            }
            Err(message) => wrong.push(format!("{name}: record {number}: {message}")),
        }
    }
    match wrong.is_empty() {
        true => Ok(notes),
        false => {
            wrong.truncate(PROBLEMS);
            progress.clear();
            Err(Stop::Bad(wrong))
        }
    }
}

fn write_text(
    job: &Job,
    name: &str,
    journal: Journal,
    progress: &mut Progress,
) -> Result<Tally, Stop> {
    progress.doing("looking");
    let notes = notes(job, name, journal, progress)?;
    let mut output = Output::open(job.output.as_deref())?;
    let written = match job.command {
        Command::Run => {
            progress.doing("running");
            text::run(journal, &notes, &mut output, progress)
        }
        _ => {
            progress.doing("decoding");
            text::decode(journal, &mut output, progress)
        }
    };
    progress.clear();
    let tally = written.map_err(|e| output.failed(&e))?;
    output.finish()?;
    Ok(tally)
}

fn write_picture(
    job: Job,
    name: &str,
    journal: Journal,
    progress: &mut Progress,
) -> Result<Tally, Stop> {
    let mut options = job.options;
    if options.title.is_none() {
        let file = job.input.as_deref().and_then(Path::file_name);
        options.title = file.map(|file| file.to_string_lossy().into_owned());
    }
    let picture = draw::<Proved>(journal, &options, progress)
        .map_err(|message| Stop::bad(format!("{name}: {message}")))?;
    progress.clear();
    write_all(job.output.as_deref(), picture.svg.as_bytes())?;
    Ok(picture.tally)
}

fn write_figures(
    job: &Job,
    name: &str,
    journal: Journal,
    progress: &mut Progress,
) -> Result<Tally, Stop> {
    let figures = stats::<Proved>(journal, &job.options.view, progress)
        .map_err(|message| Stop::bad(format!("{name}: {message}")))?;
    progress.clear();
    let names = &job.options.names;
    let text = match (job.csv, job.refusals, job.best_effort) {
        (false, _, _) => figures.text(name, names),
        (true, true, _) => figures.refusals_csv(),
        (true, _, true) => figures.best_effort_csv(names),
        (true, false, false) => figures.csv(names),
    };
    write_all(job.output.as_deref(), text.as_bytes())?;
    Ok(figures.tally())
}

/// Tells of damaged blocks, of text where blocks were expected, and of blocks
/// that begin at another number.
fn note(name: &str, journal: Journal, tally: Tally) {
    let Some((place, refusal)) = tally.first else {
        return;
    };
    let (damaged, blocks) = (tally.damaged, tally.blocks);
    let text = |b: &u8| b.is_ascii_graphic() || b.is_ascii_whitespace();
    let hint = match journal
        .blocks()
        .next()
        .and_then(|(_, b)| codec::number_of(b))
    {
        Some(number) if place == journal.first => {
            format!("; the first block is number {number}, '--first-block {number}' reads it")
        }
        _ if damaged == blocks && journal.bytes.iter().all(text) => {
            "; it looks like text, of which 'journal encode' makes blocks".into()
        }
        _ => String::new(),
    };
    say(&format!(
        "{name}: {damaged} of {blocks} blocks damaged, the first at place {place} ({refusal}, {}){hint}",
        words::damage(refusal)
    ));
}
