//! What falls into each pixel column, for journals with many spans: the part
//! of the column's time that a thread had the core or was blocked, how often
//! it was woken, and between which values its lag was.

use std::fmt::Write;

use crate::codec::THREADS;
use crate::track::{At, Change, Life, Limit, Overrun, Refused, Sink, Span, What};

use super::changes::Marks;
use super::layout::{Layout, Panel};
use super::svg::C;

/// The columns of one thread.
#[derive(Clone, Debug)]
pub struct Columns {
    pub run: Vec<f32>,
    /// Of the runs, what lies beyond their slices.
    pub late: Vec<f32>,
    pub blocked: Vec<f32>,
    pub here: Vec<f32>,
    pub wakes: Vec<u32>,
    /// Least and greatest lag, the first above the second where there is none.
    pub lags: Vec<(f64, f64)>,
    /// Largest bound, 0 where there is none, and whether it rises or changes
    /// anywhere.
    pub bound: Vec<f64>,
    steps: bool,
    /// In the present life: a bound without length, which counts if no other
    /// lasts.
    touched: Option<(usize, f64)>,
    lasts: bool,
}

impl Columns {
    fn new(columns: usize) -> Columns {
        Columns {
            run: vec![0.0; columns],
            late: vec![0.0; columns],
            blocked: vec![0.0; columns],
            here: vec![0.0; columns],
            wakes: vec![0; columns],
            lags: vec![(f64::INFINITY, f64::NEG_INFINITY); columns],
            bound: vec![0.0; columns],
            steps: false,
            touched: None,
            lasts: false,
        }
    }
}

/// The columns that a stretch of x touches, each with the part of the stretch
/// in it.
fn parts(layout: &Layout, x0: f64, x1: f64) -> impl Iterator<Item = (usize, f64, f64)> {
    let left = layout.left;
    (column(layout, x0)..=column(layout, x1)).map(move |c| {
        let edge = left + c as f64;
        (c, x0.max(edge), x1.min(edge + 1.0))
    })
}

fn column(layout: &Layout, x: f64) -> usize {
    ((x - layout.left).max(0.0) as usize).min(layout.columns() - 1)
}

fn cover(layout: &Layout, columns: &mut [f32], x0: f64, x1: f64) {
    for (c, from, to) in parts(layout, x0, x1) {
        columns[c] += (to - from).max(0.0) as f32;
    }
}

pub struct Thin<'a> {
    layout: &'a Layout,
    pub threads: Vec<Option<Box<Columns>>>,
    pub changes: Marks,
    pub refusals: Vec<u32>,
    pub starts: Vec<bool>,
}

impl<'a> Thin<'a> {
    pub fn new(layout: &'a Layout) -> Thin<'a> {
        Thin {
            layout,
            threads: vec![None; THREADS],
            changes: Marks::new(),
            refusals: vec![0; layout.columns()],
            starts: vec![false; layout.columns()],
        }
    }

    /// How many times the parts with the core can be enlarged so that hardly any
    /// outgrows its lane.
    pub fn enlarged(&self) -> u32 {
        let columns = self.threads.iter().flatten();
        let parts = columns.flat_map(|c| c.run.iter().copied().filter(|&part| part > 0.0));
        let mut parts: Vec<f32> = parts.collect();
        parts.sort_by(f32::total_cmp);
        let Some(&large) = parts.get(parts.len() * 98 / 100) else {
            return 1;
        };
        let fits = |times: &u32| *times as f32 * large <= 1.0;
        [50, 20, 10, 5, 2].into_iter().find(fits).unwrap_or(1)
    }

    fn columns(&mut self, thread: u8) -> &mut Columns {
        let columns = self.layout.columns();
        self.threads[thread as usize].get_or_insert_with(|| Box::new(Columns::new(columns)))
    }
}

impl Sink for Thin<'_> {
    fn span(&mut self, span: &Span) {
        let layout = self.layout;
        let (x0, x1) = (layout.x(span.from), layout.x(span.end()));
        let columns = self.columns(span.thread);
        match span.what {
            What::Run => cover(layout, &mut columns.run, x0, x1),
            What::Wait => {}
            What::Blocked => cover(layout, &mut columns.blocked, x0, x1),
        }
        if span.best_effort {
            return;
        }
        let (lag, last) = (span.lag as f64, span.last_lag() as f64);
        let slope = if x1 > x0 {
            (last - lag) / (x1 - x0)
        } else {
            0.0
        };
        for (c, from, to) in parts(layout, x0, x1) {
            let (mut a, mut b) = (lag + slope * (from - x0), lag + slope * (to - x0));
            // Where the whole span lies in a column its ends count as they are.
            if from == x0 {
                a = lag;
            }
            if to == x1 {
                b = last;
            }
            let (least, most) = &mut columns.lags[c];
            *least = least.min(a).min(b);
            *most = most.max(a).max(b);
        }
    }

    fn life(&mut self, life: &Life) {
        let to = At {
            time: life.to,
            ..life.from
        };
        let layout = self.layout;
        let (x0, x1) = (layout.x(life.from), layout.x(to));
        let columns = self.columns(life.thread);
        cover(layout, &mut columns.here, x0, x1);
        let lasts = std::mem::take(&mut columns.lasts);
        if let Some((c, bound)) = columns.touched.take().filter(|_| !lasts) {
            columns.bound[c] = columns.bound[c].max(bound);
        }
    }

    fn overrun(&mut self, o: &Overrun) {
        let layout = self.layout;
        let (x0, x1) = (layout.x(o.from), layout.x(o.end()));
        cover(layout, &mut self.columns(o.thread).late, x0, x1);
    }

    fn limit(&mut self, limit: &Limit) {
        let layout = self.layout;
        let (x0, x1) = (layout.x(limit.from), layout.x(limit.end()));
        let (bound, last) = (limit.bound as f64, limit.last_bound() as f64);
        let columns = self.columns(limit.thread);
        if limit.is_empty() {
            columns.touched = Some((column(layout, x0), bound));
            return;
        }
        columns.lasts = true;
        columns.steps |= limit.slope > 0;
        for (c, _, to) in parts(layout, x0, x1) {
            // It is largest where it ends.
            let here = match to < x1 {
                true => bound + (last - bound) * (to - x0) / (x1 - x0),
                false => last,
            };
            columns.bound[c] = columns.bound[c].max(here);
        }
    }

    fn change(&mut self, c: &Change) {
        let column = column(self.layout, self.layout.x(c.at));
        self.columns(c.thread).steps = true;
        let x = self.layout.left + column as f64 + 0.5;
        self.changes.add(x, c);
    }

    fn wake(&mut self, thread: u8, at: At, _: u64) {
        let c = column(self.layout, self.layout.x(at));
        self.columns(thread).wakes[c] += 1;
    }

    fn refusal(&mut self, r: &Refused) {
        self.refusals[column(self.layout, self.layout.x(r.at))] += 1;
    }

    fn start(&mut self, at: At, _: u64) {
        self.starts[column(self.layout, self.layout.x(at))] = true;
    }
}

/// Columns from the left as bars from a base line, up to `height` for a value of 1; down
/// from it if the height is negative. A value above 0 is at least half a pixel.
pub fn bars(values: impl Iterator<Item = f64>, left: f64, base: f64, height: f64) -> String {
    let mut path = String::new();
    // The height of the bar that is being drawn, in half pixels.
    let mut level = 0;
    let mut end = 0;
    for (c, value) in values.enumerate() {
        end = c + 1;
        let full = (height.abs() * 2.0).round();
        let next = if value > 0.0 {
            (value.min(1.0) * full).round().max(1.0) as i64
        } else {
            0
        };
        if next == level {
            continue;
        }
        let (x, y) = (left + c as f64, base - height.signum() * next as f64 / 2.0);
        let _ = match (level, next) {
            (0, _) => write!(path, "M{} {}V{}", C(x), C(base), C(y)),
            (_, 0) => write!(path, "H{}V{}z", C(x), C(base)),
            _ => write!(path, "H{}V{}", C(x), C(y)),
        };
        level = next;
    }
    if level > 0 {
        let _ = write!(path, "H{}V{}z", C(left + end as f64), C(base));
    }
    path
}

/// A line from the least to the greatest lag in each column.
pub fn lag_lines(columns: &Columns, panel: &Panel, left: f64) -> String {
    let mut path = String::new();
    for (c, &(least, most)) in columns.lags.iter().enumerate() {
        if least <= most {
            let (top, bottom) = (panel.y(most), panel.y(least));
            // At least a pixel.
            let more = ((1.0 - (bottom - top)) / 2.0).max(0.0);
            let _ = write!(
                path,
                "M{} {}V{}",
                C(left + c as f64 + 0.5),
                C(top - more),
                C(bottom + more)
            );
        }
    }
    path
}

/// The bound over the columns. One that rises or changes is a line with steps.
pub fn bound_line(columns: &Columns, panel: &Panel, left: f64) -> String {
    let mut path = String::new();
    let mut level = 0.0;
    for (c, &bound) in columns.bound.iter().enumerate() {
        if bound == level {
            continue;
        }
        let (x, y) = (C(left + c as f64), C(panel.y(bound)));
        if level > 0.0 {
            let _ = write!(path, "H{x}");
        }
        let _ = match bound > 0.0 {
            true if columns.steps && level > 0.0 => write!(path, "V{y}"),
            true => write!(path, "M{x} {y}"),
            false => Ok(()),
        };
        level = bound;
    }
    if level > 0.0 {
        let _ = write!(path, "H{}", C(left + columns.bound.len() as f64));
    }
    path
}
