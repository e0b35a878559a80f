//! Every span as a shape of its own, for journals with few of them.

use std::fmt::Write;

use crate::codec::THREADS;
use crate::names::Names;
use crate::scale::exact;
use crate::track::{At, Change, Life, Limit, Overrun, Refused, Sink, Span, What};

use super::changes::Marks;
use super::layout::{Layout, Panel};
use super::rows::Lane;
use super::svg::{escape, C};

/// Narrowest run that is drawn.
const NARROW: f64 = 0.8;

/// Shapes of one thread.
#[derive(Clone, Debug, Default)]
pub struct Shapes {
    pub runs: String,
    /// Of the runs, what lies beyond their slices.
    pub late: String,
    pub waits: String,
    pub blocked: String,
    pub wakes: String,
    pub lag: String,
    pub bound: String,
    /// Ends of the lag's line and of the bound's so far.
    last: Option<(At, i64)>,
    last_bound: Option<(At, i64)>,
    /// A bound without length, which counts if no other lasts in its life.
    touched: Option<Limit>,
}

/// Refusals at the same pixel.
#[derive(Clone, Debug)]
pub struct Cross {
    pub x: f64,
    pub answers: Vec<u32>,
    pub title: String,
}

pub struct Exact<'a> {
    layout: &'a Layout,
    names: &'a Names,
    lanes: [Option<Lane>; THREADS],
    panels: [Option<Panel>; THREADS],
    pub shapes: Vec<Shapes>,
    pub changes: Marks,
    pub crosses: Vec<Cross>,
    pub starts: Vec<f64>,
    /// Whether wakes have room for a triangle each.
    roomy: bool,
    /// Whether runs say what they are when pointed at.
    titles: bool,
}

impl<'a> Exact<'a> {
    pub fn new(layout: &'a Layout, names: &'a Names, roomy: bool, titles: bool) -> Exact<'a> {
        let mut lanes = [None; THREADS];
        let mut panels = [None; THREADS];
        for lane in &layout.lanes {
            lanes[lane.thread as usize] = Some(*lane);
        }
        for panel in &layout.panels {
            panels[panel.thread as usize] = Some(*panel);
        }
        Exact {
            layout,
            names,
            lanes,
            panels,
            shapes: vec![Shapes::default(); THREADS],
            changes: Marks::new(),
            crosses: Vec::new(),
            starts: Vec::new(),
            roomy,
            titles,
        }
    }

    fn run(&mut self, lane: Lane, x0: f64, x1: f64, title: impl FnOnce() -> String) {
        let title = self.titles.then(title);
        let runs = &mut self.shapes[lane.thread as usize].runs;
        bar(runs, "run", lane, (x0, x1), title);
    }

    /// Goes on with the line of a thread's lag.
    fn lag(&mut self, span: &Span, panel: Panel, x0: f64, x1: f64) {
        let shapes = &mut self.shapes[span.thread as usize];
        let (y0, y1) = (panel.y(span.lag as f64), panel.y(span.last_lag() as f64));
        match shapes.last {
            Some((at, lag)) if at == span.from => {
                if lag != span.lag {
                    let _ = write!(shapes.lag, "V{}", C(y0));
                }
            }
            _ => {
                let _ = write!(shapes.lag, "M{} {}", C(x0), C(y0));
            }
        }
        let _ = write!(shapes.lag, "L{} {}", C(x1), C(y1));
        shapes.last = Some((span.end(), span.last_lag()));
    }
}

/// A stretch of a lane's bar: an element of its own if it has a title, else a
/// part of a path.
fn bar(out: &mut String, class: &str, lane: Lane, (x0, x1): (f64, f64), title: Option<String>) {
    let w = (x1 - x0).max(NARROW);
    let (x, y, h) = (C(x0), C(lane.top), C(lane.bar));
    let _ = match title {
        Some(title) => writeln!(
            out,
            "<rect class=\"{class}\" x=\"{x}\" y=\"{y}\" width=\"{}\" height=\"{h}\"><title>{}</title></rect>",
            C(w),
            escape(&title)
        ),
        None => write!(out, "M{x} {y}h{}v{h}h{}z", C(w), C(-w)),
    };
}

impl Sink for Exact<'_> {
    fn span(&mut self, span: &Span) {
        let n = span.thread as usize;
        let Some(lane) = self.lanes[n] else { return };
        let (x0, x1) = (self.layout.x(span.from), self.layout.x(span.end()));
        let middle = lane.top + lane.bar / 2.0;
        let names = self.names;
        match span.what {
            What::Run => self.run(lane, x0, x1, || {
                format!(
                    "{} has the core from {} to {}, from record {}",
                    names.told(span.thread),
                    exact(span.from.time),
                    exact(span.to),
                    span.record
                )
            }),
            What::Wait => {
                let waits = &mut self.shapes[n].waits;
                let _ = write!(waits, "M{} {}H{}", C(x0), C(middle), C(x1));
            }
            What::Blocked => {
                let h = (lane.bar * 0.5).round();
                let blocked = &mut self.shapes[n].blocked;
                let (y, w) = (middle - h / 2.0, x1 - x0);
                let _ = write!(blocked, "M{} {}h{}v{}h{}z", C(x0), C(y), C(w), C(h), C(-w));
            }
        }
        if let Some(panel) = self.panels[n].filter(|_| !span.best_effort) {
            self.lag(span, panel, x0, x1);
        }
    }

    fn empty_run(&mut self, thread: u8, at: At, record: u64) {
        let Some(lane) = self.lanes[thread as usize] else {
            return;
        };
        let (x, names) = (self.layout.x(at), self.names);
        self.run(lane, x - NARROW / 2.0, x, || {
            format!(
                "{} has the core at {} without a tick, from record {record}",
                names.told(thread),
                exact(at.time)
            )
        });
    }

    fn overrun(&mut self, o: &Overrun) {
        let n = o.thread as usize;
        let Some(lane) = self.lanes[n] else { return };
        let end = self.layout.x(o.end());
        // A narrow one grows into its run.
        let x = (self.layout.x(o.from).min(end - NARROW), end);
        let title = self.titles.then(|| {
            format!(
                "{} runs {} beyond its slice, up to record {}",
                self.names.told(o.thread),
                exact(o.length()),
                o.record
            )
        });
        bar(&mut self.shapes[n].late, "late", lane, x, title);
    }

    fn limit(&mut self, limit: &Limit) {
        let n = limit.thread as usize;
        let Some(panel) = self.panels[n] else { return };
        let (x0, x1) = (self.layout.x(limit.from), self.layout.x(limit.end()));
        let (bound, last) = (limit.bound, limit.last_bound());
        let (y0, y1) = (panel.y(bound as f64), panel.y(last as f64));
        let shapes = &mut self.shapes[n];
        if limit.is_empty() {
            shapes.touched = Some(*limit);
            return;
        }
        let _ = match shapes.last_bound {
            Some(end) if end == (limit.from, bound) => Ok(()),
            Some((at, _)) if at == limit.from => write!(shapes.bound, "V{}", C(y0)),
            _ => write!(shapes.bound, "M{} {}", C(x0), C(y0)),
        };
        let _ = match limit.slope {
            0 => write!(shapes.bound, "H{}", C(x1)),
            _ => write!(shapes.bound, "L{} {}", C(x1), C(y1)),
        };
        shapes.last_bound = Some((limit.end(), last));
    }

    fn life(&mut self, life: &Life) {
        let n = life.thread as usize;
        let shapes = &mut self.shapes[n];
        let touched = shapes.touched.take();
        if let (Some(limit), Some(panel), None) = (touched, self.panels[n], shapes.last_bound) {
            let (x, y) = (self.layout.x(limit.from), panel.y(limit.bound as f64));
            let _ = write!(shapes.bound, "M{} {}H{}", C(x), C(y), C(x));
        }
        // A new life does not go on with the lines of the last.
        (shapes.last, shapes.last_bound) = (None, None);
    }

    fn change(&mut self, c: &Change) {
        self.changes.add(self.layout.x(c.at), c);
    }

    fn wake(&mut self, thread: u8, at: At, _: u64) {
        let Some(lane) = self.lanes[thread as usize] else {
            return;
        };
        let (x, y) = (self.layout.x(at), lane.top + lane.bar + 1.5);
        let wakes = &mut self.shapes[thread as usize].wakes;
        let _ = if self.roomy {
            write!(wakes, "M{} {}l4 7h-8z", C(x), C(y))
        } else {
            write!(wakes, "M{} {}h1v5h-1z", C(x - 0.5), C(y))
        };
    }

    fn refusal(&mut self, r: &Refused) {
        let x = self.layout.x(r.at);
        let mut title = format!("record {} refused: {}, {}", r.number, r.answer, r.words);
        if let Some(thread) = r.thread {
            let _ = write!(title, " ({})", self.names.told(thread));
        }
        match self.crosses.last_mut() {
            Some(last) if x - last.x < 1.0 => {
                if !last.answers.contains(&r.answer) {
                    last.answers.push(r.answer);
                }
                if last.title.len() < 1000 {
                    let _ = write!(last.title, "\n{title}");
                }
            }
            _ => self.crosses.push(Cross {
                x,
                answers: vec![r.answer],
                title,
            }),
        }
    }

    fn start(&mut self, at: At, _: u64) {
        self.starts.push(self.layout.x(at));
    }
}
