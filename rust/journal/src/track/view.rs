//! A part of a journal to look at: from one record or point in time to
//! another, and some of the threads.

use crate::codec::THREADS;
use crate::engine::Engine;
use crate::playback::Journal;
use crate::progress::Progress;
use crate::scale::duration;

use super::clip::{Clip, Window};
use super::sink::{At, Gap, Moment, Sink};
use super::{track, Survey};

/// A place in a journal.
#[derive(Clone, Copy, Debug, PartialEq, Eq)]
pub enum Mark {
    /// By the number of a record.
    Record(u64),
    /// By processor time in ticks since the journal's beginning.
    Time(u64),
}

/// Units of a time, with their ticks.
const UNITS: [(&str, f64); 6] = [
    ("us", 1.0),
    ("µs", 1.0),
    ("ms", 1e3),
    ("min", 6e7),
    ("s", 1e6),
    ("h", 3.6e9),
];

/// Digits, perhaps with a point among them.
fn decimal(text: &str) -> Option<&str> {
    let (whole, part) = text.split_once('.').unwrap_or((text, "0"));
    let digits = |text: &str| !text.is_empty() && text.bytes().all(|b| b.is_ascii_digit());
    (text.len() <= 20 && digits(whole) && digits(part)).then_some(text)
}

impl Mark {
    /// A record's number, as `310`, or a time with its unit, as `120ms`, `1.5s`
    /// or `2min`.
    pub fn parse(text: &str) -> Option<Mark> {
        for (unit, ticks) in UNITS {
            if let Some(value) = text.strip_suffix(unit).map(str::trim_end) {
                let value: f64 = decimal(value)?.parse().ok()?;
                return Some(Mark::Time((value * ticks).round() as u64));
            }
        }
        let digits = decimal(text).filter(|digits| !digits.contains('.'))?;
        digits.parse().ok().map(Mark::Record)
    }

    fn says(self) -> String {
        match self {
            Mark::Record(number) => number.to_string(),
            Mark::Time(ticks) => duration(ticks as f64),
        }
    }
}

/// What is asked to be looked at; by default all.
#[derive(Clone, Debug, Default, PartialEq, Eq)]
pub struct View {
    pub from: Option<Mark>,
    pub to: Option<Mark>,
    /// Empty for all.
    pub threads: Vec<u8>,
}

impl View {
    /// Not from the beginning to the end.
    pub fn is_part(&self) -> bool {
        self.from.is_some() || self.to.is_some()
    }

    /// Finds the places in a journal. Nothing to be found is told in words.
    pub fn locate<E: Engine>(
        &self,
        journal: Journal,
        progress: &mut Progress,
    ) -> Result<Window, String> {
        let mut window = Window {
            threads: [self.threads.is_empty(); THREADS],
            ..Window::whole()
        };
        for &thread in &self.threads {
            window.threads[thread as usize] = true;
        }
        if !self.is_part() {
            return Ok(window);
        }
        let mut search = Search::new(self);
        track::<E>(journal, progress, &mut search);
        search.found(self, window)
    }

    /// Surveys the part, and fails in words if a thread is not in it.
    pub fn survey<E: Engine>(
        &self,
        journal: Journal,
        window: &Window,
        progress: &mut Progress,
    ) -> Result<Survey, String> {
        let mut survey = Survey::new::<E>(window.from);
        track::<E>(journal, progress, &mut Clip::new(window, &mut survey));
        let absent = |&&n: &&u8| survey.threads[n as usize].lives == 0;
        match self.threads.iter().find(absent) {
            None => Ok(survey),
            Some(thread) if self.is_part() => Err(format!(
                "--thread {thread}: it is not admitted between --from and --to"
            )),
            Some(thread) => Err(format!("--thread {thread}: it is never admitted")),
        }
    }
}

/// Looks for the places of marks.
struct Search {
    wanted: (Option<Mark>, Option<Mark>),
    gaps: Vec<u64>,
    /// The first record from --from on, and the last up to --to.
    from: Option<Moment>,
    to: Option<Moment>,
    /// The first point in time after --to, and the last before --from.
    next: Option<At>,
    prior: At,
    last: Option<u64>,
    end: At,
}

impl Search {
    fn new(view: &View) -> Search {
        Search {
            wanted: (view.from, view.to),
            gaps: Vec::new(),
            from: None,
            to: None,
            next: None,
            prior: At::default(),
            last: None,
            end: At::default(),
        }
    }

    /// A point in time, with the gaps before it, or up to it.
    fn at(&self, time: u64, included: bool) -> At {
        let before = |&gap: &u64| gap < time || (included && gap == time);
        let gaps = self.gaps.partition_point(before) as u64;
        At { time, gaps }
    }

    fn found(&self, view: &View, mut window: Window) -> Result<Window, String> {
        window.to = self.end;
        match view.from {
            None => {}
            Some(Mark::Time(time)) if time >= self.end.time => {
                let end = duration(self.end.time as f64);
                let asked = duration(time as f64);
                return Err(format!("--from {asked}: the journal ends at {end}"));
            }
            Some(Mark::Time(time)) => window.from = self.at(time, false),
            Some(Mark::Record(number)) => {
                let Some(moment) = self.from else {
                    let last = match self.last {
                        Some(last) => format!("the last record is {last}"),
                        None => "there is no record".into(),
                    };
                    return Err(format!("--from {number}: {last}"));
                };
                window.from = moment.before;
                // A record that was not run shows the gap that it lies in.
                window.from.gaps -= u64::from(moment.skipped);
                window.records.0 = number;
            }
        }
        match view.to {
            None => {}
            Some(Mark::Time(time)) if time >= self.end.time => {}
            Some(Mark::Time(time)) => window.to = self.at(time, true),
            Some(Mark::Record(number)) => {
                let Some(moment) = self.to else {
                    return Err(format!("--to {number}: no record stands before it"));
                };
                window.to = moment.after;
                window.records.1 = number;
            }
        }
        let (from, to) = (window.from, window.to);
        let (first, last) = window.records;
        if from > to || first > last {
            let says = |mark: Option<Mark>| mark.map_or("the end".into(), Mark::says);
            return Err(format!(
                "nothing lies between --from {} and --to {}",
                view.from.map_or("0".into(), Mark::says),
                says(view.to)
            ));
        }
        // Records among which no time passes are shown up to the next report, or
        // from the last.
        if from.time == to.time {
            match self.next {
                Some(next) => window.to = next,
                None => window.from = self.prior.min(from),
            }
        }
        Ok(window)
    }
}

impl Sink for Search {
    fn record(&mut self, moment: &Moment) {
        let (from, to) = self.wanted;
        if self.from.is_none() && moment.after.time > moment.before.time {
            self.prior = moment.before;
        }
        if let Some(Mark::Record(number)) = from {
            if moment.number >= number && self.from.is_none() {
                self.from = Some(*moment);
            }
        }
        match to {
            Some(Mark::Record(number)) if moment.number <= number => self.to = Some(*moment),
            Some(Mark::Time(time)) if moment.after.time <= time => {}
            None => {}
            _ => {
                let stood = self.to.map_or(0, |to| to.after.time);
                if self.next.is_none() && moment.after.time > stood {
                    self.next = Some(moment.after);
                }
            }
        }
        self.last = Some(moment.number);
    }

    fn gap(&mut self, gap: &Gap) {
        self.gaps.push(gap.at.time);
    }

    fn end(&mut self, at: At, _: Option<u8>) {
        self.end = at;
    }
}
