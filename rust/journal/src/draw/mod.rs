//! A journal as a picture: who had the core when, a lane a thread, those of
//! best-effort threads apart, and below it each reserved thread's lag with the
//! bound of the share guarantee.
//!
//! The journal is run twice: once for what there is in all, from which the
//! picture is laid out, and once for the shapes. A journal or a part of few
//! spans is drawn span by span; of many, each pixel column shows what fell into
//! it. So the size of the picture does not grow with the journal.

mod axis;
mod best_effort;
mod changes;
mod exact;
mod heading;
mod key;
mod lags;
mod lanes;
mod layout;
mod picture;
mod rows;
mod svg;
mod thin;

use crate::engine::Engine;
use crate::names::Names;
use crate::playback::Journal;
use crate::progress::Progress;
use crate::text::Tally;
use crate::track::{Survey, Thread, View};

use heading::Head;
use layout::Layout;
use picture::Picture;
use svg::Svg;

pub use layout::{WIDTH, WIDTHS};

/// What a picture shows of a journal, and what it says beside.
#[derive(Clone, Debug)]
pub struct Options {
    pub title: Option<String>,
    pub names: Names,
    pub view: View,
    /// Pixels, within [`WIDTHS`].
    pub width: u32,
}

impl Default for Options {
    fn default() -> Self {
        Options {
            title: None,
            names: Names::default(),
            view: View::default(),
            width: WIDTH,
        }
    }
}

/// Drawn span by span, in the usual width, up to so many spans, wakes, overruns,
/// changes or rises of its bound a thread, refusals, starts or gaps, and up to
/// so many spans and rises in all.
const FEW: u64 = 400;
const FEW_IN_ALL: u64 = 4000;
/// Up to so many spans and overruns in all each says what it is when pointed at;
/// so do up to so many changes.
const FEW_TITLES: u64 = 400;
/// A wake has a triangle where the thread's have so many pixels each.
const WAKE: u64 = 10;

/// A picture, and what blocks the journal has.
#[derive(Clone, Debug, PartialEq, Eq)]
pub struct Drawing {
    pub svg: String,
    pub tally: Tally,
}

/// Draws a journal. If the part to be shown is not there, says so.
pub fn draw<E: Engine>(
    journal: Journal,
    options: &Options,
    progress: &mut Progress,
) -> Result<Drawing, String> {
    progress.doing("running");
    let window = options.view.locate::<E>(journal, progress)?;
    let survey = options.view.survey::<E>(journal, &window, progress)?;
    let width = f64::from(options.width.clamp(WIDTHS.0, WIDTHS.1));
    let detail = Detail::of(&survey, options.width);
    let head = Head::new(&survey, options, detail, width);
    let layout = Layout::new(&survey, &options.names, width, head.bottom, E::SAYS);
    progress.doing("drawing");
    let picture = Picture {
        survey: &survey,
        head: &head,
        layout: &layout,
        options,
        window: &window,
        detail,
        svg: Svg::default(),
    };
    Ok(Drawing {
        svg: picture.whole::<E>(journal, progress),
        tally: survey.tally,
    })
}

/// How closely a journal is drawn.
#[derive(Clone, Copy, Debug, PartialEq, Eq)]
enum Detail {
    /// Span by span; with triangles for wakes, with titles on spans.
    Exact { roomy: bool, titles: bool },
    /// By pixel column.
    Thin,
}

impl Detail {
    fn of(s: &Survey, width: u32) -> Detail {
        let most = |count: fn(&Thread) -> u64| s.threads.iter().map(count).max();
        let spans: u64 = s.threads.iter().map(|t| t.spans).sum();
        let rises: u64 = s.threads.iter().map(|t| t.rises).sum();
        let marks = s.refused().max(s.starts).max(s.gaps.len() as u64);
        let few = FEW * u64::from(width) / u64::from(WIDTH);
        let marked = |t: &Thread| t.wakes.max(t.overruns).max(t.changes);
        let crowded = most(|t| t.spans.max(t.rises)).max(most(marked)) > Some(few);
        if crowded || spans + rises > FEW_IN_ALL || marks > few {
            return Detail::Thin;
        }
        Detail::Exact {
            roomy: most(|t| t.wakes) <= Some(u64::from(width) / WAKE),
            titles: spans + s.overruns() <= FEW_TITLES,
        }
    }
}
