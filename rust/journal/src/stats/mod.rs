//! A journal in figures: per thread its share, runs, wakes, longest run and
//! wait and largest lag beside the bound of the share guarantee, its runs
//! beyond their slices and the changes of its reservation; how best-effort
//! threads share what is left; refusals by number. As text to read, and as
//! comma-separated values.

mod csv;
mod tables;

use std::fmt::Write;

use crate::engine::Engine;
use crate::names::Names;
use crate::playback::Journal;
use crate::progress::Progress;
use crate::scale::{count, counted, exact, settings};
use crate::text::Tally;
use crate::track::{End, Survey, View, What};
use crate::words;

use tables::{Column, Row, APART, BEYOND, CHANGED, HAS, MOST, SHARES, WAITS};

/// The figures of a journal or of a part of it.
#[derive(Clone, Debug)]
pub struct Figures {
    survey: Survey,
    part: bool,
    says: &'static str,
}

/// Runs a journal for its figures. If the part asked for is not there, says
/// so.
pub fn stats<E: Engine>(
    journal: Journal,
    view: &View,
    progress: &mut Progress,
) -> Result<Figures, String> {
    progress.doing("running");
    let window = view.locate::<E>(journal, progress)?;
    Ok(Figures {
        survey: view.survey::<E>(journal, &window, progress)?,
        part: view.is_part(),
        says: E::SAYS,
    })
}

/// Ticks in milliseconds with every tick.
fn ms(ticks: u64) -> String {
    format!("{}.{:03}", ticks / 1000, ticks % 1000)
}

/// A lag, thousandths of ticks, in milliseconds to the nearest tick.
fn lag_ms(lag: i64) -> String {
    let ticks = (lag as f64 / 1000.0).round();
    let sign = if ticks < 0.0 { "-" } else { "" };
    format!("{sign}{}", ms(ticks.abs() as u64))
}

/// What became of a thread.
fn became(end: Option<End>) -> &'static str {
    match end {
        None | Some(End::Later) => "goes on",
        Some(End::Stays(What::Run)) => "running",
        Some(End::Stays(What::Wait)) => "runnable",
        Some(End::Stays(What::Blocked)) => "blocked",
        Some(End::Left(_)) => "left",
        Some(End::Restarted(_)) => "ended by a start",
        Some(End::Lost) => "lost in damage",
    }
}

const LEGEND: &str = "\
Times are in milliseconds of processor time, shares and reservations in
thousandths. The share is that of a thread's last life, from admission to its
end. Runs are dispatches; a longest run may be several in a row. Refused are
records that name the thread, or reports of its runs. A lag is owed time; the
bound is what the share guarantee lets it be at most.
";

const EFFORT: &str = "\
Best-effort threads run while no reserved one is runnable. Of the rest is a
thread's part of what all of them ran in its last life, by weight that of its
weight in theirs, in thousandths. Two that stay runnable come apart by the
difference of their times, each divided by its weight; told is the pair that came
nearest to the limit, (P + O) / v + (P + O) / w by their weights v and w.
";

const LATE: &str = "\
An overrun is what a run used beyond its slice. The bound has room for what the
other threads overran since the lag is counted.
";

const OTHER: &str = "\
A change gives a thread another reservation; reserved is the last. From there on
its lag is counted afresh and has the bound of that reservation. Reservations are
those of its last life.
";

impl Figures {
    pub fn tally(&self) -> Tally {
        self.survey.tally
    }

    /// As text, with a title.
    pub fn text(&self, title: &str, names: &Names) -> String {
        let mut out = format!("{title}\n{}\n\n", self.says);
        // Writing to a string does not fail.
        let _ = writeln!(out, "{}", self.facts());
        self.threads(names, &mut out);
        self.groups(&mut out);
        self.refusals(&mut out);
        self.gaps(&mut out);
        out
    }

    /// The threads in tables, and what these mean.
    fn threads(&self, names: &Names, out: &mut String) {
        let s = &self.survey;
        let all: Vec<Row> = self.rows(names).collect();
        if all.is_empty() {
            out.push_str("\nNo thread was admitted.\n");
            return;
        }
        let of = |which: fn(&Row) -> bool| -> Vec<Row> {
            all.iter().copied().filter(|row| which(row)).collect()
        };
        let reserved = of(|row| row.t.reserved_lives > 0);
        let efforts = of(|row| row.portion.is_some());
        let apart = of(|row| row.farthest().is_some());
        let late = if s.overruns() > 0 { &all[..] } else { &[] };
        let others = of(|row| row.t.changes > 0);
        let tables: [(&[Column], &[Row]); 7] = [
            (&HAS, &reserved),
            (&MOST, &reserved),
            (&SHARES, &efforts),
            (&WAITS, &efforts),
            (&APART, &apart),
            (&BEYOND, late),
            (&CHANGED, &others),
        ];
        for (columns, rows) in tables {
            if !rows.is_empty() {
                out.push('\n');
                tables::put(columns, rows, out);
            }
        }
        let _ = write!(out, "\n{LEGEND}");
        for (told, legend) in [(&efforts[..], EFFORT), (late, LATE), (&others, OTHER)] {
            if !told.is_empty() {
                out.push_str(legend);
            }
        }
    }

    /// The threads that were admitted.
    fn rows<'a>(&'a self, names: &'a Names) -> impl Iterator<Item = Row<'a>> {
        let s = &self.survey;
        s.admitted().map(move |thread| Row {
            thread,
            t: &s.threads[thread as usize],
            portion: s.fairness.portion(thread),
            weights: s.fairness.weights(),
            names,
        })
    }

    fn facts(&self) -> String {
        let s = &self.survey;
        let mut facts = Vec::new();
        if self.part {
            facts.push(format!(
                "part from {} to {}",
                exact(s.from.time),
                exact(s.to.time)
            ));
        }
        let blocks = match self.part {
            true => String::new(),
            false => format!(" in {}", counted(s.tally.blocks, "block")),
        };
        facts.push(format!("{}{blocks}", counted(s.records, "record")));
        facts.push(format!("{} ms of processor time", ms(s.time())));
        facts.push(match s.one_setting {
            true => settings(&s.settings, |n| n.to_string()),
            false => "settings change".into(),
        });
        facts.push(counted(s.starts, "start"));
        facts.push(format!("idle {}", counted(s.idle, "time")));
        if s.fairness.weights() > 0 {
            facts.push(format!("best effort {} ms", ms(s.fairness.ticks())));
        }
        facts.join(", ")
    }

    fn groups(&self, out: &mut String) {
        let open = self.survey.groups.iter().enumerate();
        for (i, (n, group)) in open.filter_map(|(n, g)| g.map(|g| (n, g))).enumerate() {
            if i == 0 {
                out.push('\n');
            }
            let closed = if group.open { "" } else { ", closed" };
            let _ = writeln!(
                out,
                "group {n} in {}: ceiling {}{closed}",
                group.parent, group.ceiling
            );
        }
    }

    fn refusals(&self, out: &mut String) {
        let s = &self.survey;
        let _ = match s.refused() {
            0 => writeln!(out, "\nNo record was refused."),
            1 => writeln!(out, "\n1 record was refused:"),
            n => writeln!(out, "\n{} records were refused:", count(n)),
        };
        for ((answer, words), r) in &s.refusals {
            let _ = writeln!(
                out,
                "{answer:4}  {words}: {}, first at record {}, {}",
                counted(r.count, "time"),
                r.record,
                exact(r.at)
            );
        }
    }

    fn gaps(&self, out: &mut String) {
        for gap in &self.survey.gaps {
            let what = match gap.refusal {
                None if gap.damaged == 0 => format!("blocks 0 to {} are missing", gap.last),
                None => format!("blocks 0 to {} are missing or damaged", gap.last),
                Some(refusal) if gap.damaged == 1 => format!(
                    "block {} was refused: {refusal}, {}",
                    gap.first,
                    words::damage(refusal)
                ),
                Some(_) => format!(
                    "{} were refused, from {} to {}",
                    counted(gap.damaged, "block"),
                    gap.first,
                    gap.last
                ),
            };
            let skipped = counted(gap.skipped, "record");
            let _ = writeln!(out, "At {} {what}; {skipped} not run.", exact(gap.at.time));
        }
    }
}

#[cfg(test)]
mod tests {
    use super::*;

    #[test]
    fn milliseconds_keep_every_tick() {
        assert_eq!(ms(20_001), "20.001");
        assert_eq!(lag_ms(-4_000_000), "-4.000");
        assert_eq!(lag_ms(1_499), "0.001");
    }
}
