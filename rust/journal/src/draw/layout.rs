//! Where things stand in the picture.

use crate::names::Names;
use crate::track::{At, End, Survey, Thread};

use super::best_effort::weight;
use super::rows::{rows, stack, Heading, Lane, Row, INDENT, MARGIN};
use super::svg::{bold, width as wide, wrap};

/// Widths that a picture may have, and the one it has.
pub const WIDTHS: (u32, u32) = (360, 4000);
pub const WIDTH: u32 = 1120;
/// Where the plots begin at the least, and at the most in parts of the width.
const LEFT: (f64, f64) = (120.0, 0.4);
/// From the plots' end to that of the picture, also with words after shares.
const RIGHT: (f64, f64) = (84.0, 110.0);
/// What a lane's reservation takes beside its name, at the least.
const RESERVED: f64 = 66.0;

/// Widest gap, and the most that all gaps together take of a plot.
const GAP: f64 = 24.0;
const GAPS: f64 = 0.3;

/// A thread's lag over time. Lags above 0 and below 0 share a scale unless
/// the lowest lies farther from 0 than the top does.
#[derive(Clone, Copy, Debug)]
pub struct Panel {
    pub thread: u8,
    pub top: f64,
    pub height: f64,
    pub zero: f64,
    up: f64,
    down: f64,
}

impl Panel {
    fn new(thread: u8, top: f64, height: f64, largest: i64, lowest: i64) -> Panel {
        let (most, least) = ((largest as f64).max(1.0), -(lowest as f64).min(0.0));
        let (up, down, above) = if least <= most {
            let scale = height / (most + least);
            (scale, scale, most * scale)
        } else {
            (height / 2.0 / most, height / 2.0 / least, height / 2.0)
        };
        Panel {
            thread,
            top,
            height,
            zero: top + above,
            up,
            down,
        }
    }

    pub fn y(&self, lag: f64) -> f64 {
        self.zero - lag * if lag > 0.0 { self.up } else { self.down }
    }

    pub fn bottom(&self) -> f64 {
        self.top + self.height
    }

    /// The scale below 0 is another than above.
    pub fn squeezed(&self) -> bool {
        self.up != self.down
    }
}

#[derive(Clone, Debug)]
pub struct Layout {
    from: At,
    per_tick: f64,
    pub gap: f64,
    pub width: f64,
    /// Where the plots begin and end, and how wide they are.
    pub left: f64,
    pub right: f64,
    pub plot: f64,
    /// What a lane's reservation takes beside its name, and whether it is told as
    /// it changed.
    reserved: f64,
    told: bool,
    /// Lines of labels above the lanes, for starts and damaged blocks.
    pub flags: f64,
    pub groups: Vec<Heading>,
    /// Top of the line above the lanes of best-effort threads, if there are any.
    pub best_effort: Option<f64>,
    pub lanes: Vec<Lane>,
    pub pitch: f64,
    /// Top of the lane of refusals, if there are any.
    pub refusals: Option<f64>,
    /// The lanes' lower edge.
    pub axis: f64,
    /// Base line of the lag plots' heading, its lines, and base line of what
    /// the plots' lines mean.
    pub heading: f64,
    pub headings: Vec<String>,
    pub legend: f64,
    pub panels: Vec<Panel>,
    /// The lag plots' lower edge.
    pub floor: f64,
    /// Base line of the refusals' heading.
    pub key: f64,
    /// Base line of the last lines, and these.
    pub footer: f64,
    pub says: Vec<String>,
    pub height: f64,
}

/// Height of the refusals' lane.
pub const REFUSALS: f64 = 30.0;
/// Between two lag plots.
const PANELS: f64 = 26.0;
/// From the lanes' lower edge to the end of the axis below it.
const AXIS: f64 = 42.0;
/// Height of a line of words about refusals, and the most of them.
pub const WORDS: f64 = 18.0;
pub const MOST_WORDS: usize = 24;

impl Layout {
    /// The layout of a picture of a width below a head that ends somewhere,
    /// over a sentence.
    pub fn new(survey: &Survey, names: &Names, width: f64, head: f64, says: &str) -> Layout {
        let rows = rows(survey);
        let threads: Vec<u8> = survey.admitted().collect();
        let labels = labels(&rows, &threads, names);
        let (reserved, told) = reserved(survey, &threads, most(width) - MARGIN - labels);
        let left = (MARGIN + labels + reserved)
            .clamp(LEFT.0, most(width))
            .round();
        let words = threads.iter().any(|&n| {
            let end = survey.threads[n as usize].end;
            matches!(end, Some(End::Left(_) | End::Restarted(_) | End::Lost))
        });
        let right = width - if words { RIGHT.1 } else { RIGHT.0 };
        let plot = right - left;
        let (gap, per_tick) = scale(survey, plot);

        let (pitch, bar, panel) = match threads.len() {
            0..=4 => (34.0, 18.0, 92.0),
            5..=8 => (28.0, 15.0, 70.0),
            9..=16 => (24.0, 12.0, 48.0),
            _ => (19.0, 9.0, 32.0),
        };
        let flags = match survey.gaps.is_empty() && survey.starts < 2 {
            true => head + 24.0,
            false => head + 42.0,
        };
        let stack = stack(&rows, survey, flags + 26.0, pitch, bar);
        let mut y = stack.end;
        if threads.is_empty() {
            // Room for a line that says so.
            y += pitch;
        }
        let refusals = (!survey.refusals.is_empty()).then_some(y);
        if refusals.is_some() {
            y += REFUSALS;
        }
        let axis = y;
        let heading = axis + AXIS + 34.0;
        let headings = wrap(&lags(survey, stack.best_effort), 14.0, width - 32.0);
        let legend = heading + 20.0 * headings.len() as f64;
        let (panels, end) = panels(survey, &stack.lanes, legend + 14.0, panel);
        let floor = end - PANELS + 12.0;
        let plots = if panels.is_empty() { axis } else { floor };
        let key = plots + AXIS + 30.0;
        let words = match survey.refusals.len().min(MOST_WORDS) {
            0 => 0.0,
            lines => lines as f64 * WORDS + 36.0,
        };
        let footer = plots + AXIS + words + 26.0;
        let says = wrap(says, 11.0, width - 32.0);
        Layout {
            from: survey.from,
            per_tick,
            gap,
            width,
            left,
            right,
            plot,
            reserved,
            told,
            flags,
            groups: stack.groups,
            best_effort: stack.best_effort,
            lanes: stack.lanes,
            pitch,
            refusals,
            axis,
            heading,
            headings,
            legend,
            panels,
            floor,
            key,
            footer,
            height: footer + 14.0 * says.len() as f64,
            says,
        }
    }

    pub fn x(&self, at: At) -> f64 {
        let time = at.time as f64 - self.from.time as f64;
        let gaps = at.gaps as f64 - self.from.gaps as f64;
        self.left + self.per_tick * time + self.gap * gaps
    }

    /// Pixel columns of a plot.
    pub fn columns(&self) -> usize {
        self.plot as usize
    }

    /// Room for a name that begins at x.
    pub fn room(&self, x: f64) -> f64 {
        self.left - self.reserved - x + 4.0
    }

    /// What a lane says that its thread reserves.
    pub fn reserved(&self, t: &Thread) -> String {
        said(t, self.told)
    }
}

/// What a thread reserves: as it changed, or the last with an arrow before it.
fn said(t: &Thread, told: bool) -> String {
    match told || t.reserved.changes == 0 {
        true => format!("{} \u{2030}", t.reserved.told()),
        false => format!("\u{2192} {} \u{2030}", t.reserved.last),
    }
}

/// The width for what the threads have, and whether there is room to tell how
/// reservations changed.
fn reserved(survey: &Survey, threads: &[u8], room: f64) -> (f64, bool) {
    let fairness = &survey.fairness;
    let width = |told: bool| {
        let texts = threads.iter().filter_map(|&n| {
            let t = &survey.threads[n as usize];
            match t.best_effort {
                true => fairness.portion(n).map(|p| weight(fairness, &p)),
                false => (t.reserved.changes > 0).then(|| said(t, told)),
            }
        });
        let widths = texts.map(|text| wide(&text, 12.0) + 16.0);
        widths.fold(RESERVED, f64::max)
    };
    match width(true) <= room {
        true => (width(true), true),
        false => (width(false), false),
    }
}

/// What stands over the lag plots, also beside best-effort threads and where
/// reservations change.
fn lags(survey: &Survey, best_effort: Option<f64>) -> String {
    let reserved = if best_effort.is_some() {
        "reserved "
    } else {
        ""
    };
    let last = match survey.changes() {
        0 => "wake or yield",
        _ => "wake, yield or change",
    };
    format!(
        "Lag: processor time owed to a {reserved}thread since its admission, last {last}; \
         below 0 it is ahead"
    )
}

/// Puts the lag plots of reserved threads below each other, and answers where the
/// next would begin. Where a bound changes its plot is higher, since the steps may be small.
fn panels(survey: &Survey, lanes: &[Lane], top: f64, height: f64) -> (Vec<Panel>, f64) {
    let mut y = top;
    let mut panels = Vec::new();
    for lane in lanes {
        let t = &survey.threads[lane.thread as usize];
        if t.reserved_lives == 0 {
            continue;
        }
        let largest = t.bound.max(t.largest.lag);
        let height = height * if t.changes > 0 { 1.5 } else { 1.0 };
        panels.push(Panel::new(lane.thread, y, height, largest, t.lowest));
        y += height + PANELS;
    }
    (panels, y)
}

/// Where the plots begin at the most.
fn most(width: f64) -> f64 {
    (LEFT.1 * width).min(330.0)
}

/// What the names take.
fn labels(rows: &[Row], threads: &[u8], names: &Names) -> f64 {
    let longest = threads.iter().map(|&n| bold(&names.label(n), 12.0));
    let deepest = rows.iter().map(|row| match row {
        Row::Group { depth, .. } => (depth + 1) as f64 * INDENT,
        Row::BestEffort | Row::Thread { .. } => 0.0,
    });
    longest.fold(0.0, f64::max) + deepest.fold(0.0, f64::max)
}

/// Widths of a gap and of a tick.
fn scale(survey: &Survey, plot: f64) -> (f64, f64) {
    let gaps = survey.gaps.len() as f64;
    let gap = match survey.gaps.is_empty() {
        true => 0.0,
        false => GAP.min(GAPS * plot / gaps),
    };
    let free = plot - gap * gaps;
    match survey.time() {
        0 => (gap, 0.0),
        time => (gap, free / time as f64),
    }
}
