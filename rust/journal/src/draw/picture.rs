//! The parts of the picture put together.

use crate::engine::Engine;
use crate::playback::Journal;
use crate::progress::Progress;
use crate::track::{track, Clip, Survey, Window};

use super::exact::Exact;
use super::heading::Head;
use super::layout::Layout;
use super::svg::{Anchor, Svg};
use super::thin::Thin;
use super::{Detail, Options};

/// A picture being put together.
pub struct Picture<'a> {
    pub survey: &'a Survey,
    pub head: &'a Head,
    pub layout: &'a Layout,
    pub options: &'a Options,
    pub window: &'a Window,
    pub detail: Detail,
    pub svg: Svg,
}

impl Picture<'_> {
    /// The whole SVG. The journal is run for the shapes.
    pub fn whole<E: Engine>(mut self, journal: Journal, progress: &mut Progress) -> String {
        match self.detail {
            Detail::Exact { roomy, titles } => {
                let mut exact = Exact::new(self.layout, &self.options.names, roomy, titles);
                track::<E>(journal, progress, &mut Clip::new(self.window, &mut exact));
                self.background(1);
                self.exact_lanes(&exact, titles);
                self.exact_lags(&exact);
                self.flags(&exact.starts);
            }
            Detail::Thin => {
                let mut thin = Thin::new(self.layout);
                track::<E>(journal, progress, &mut Clip::new(self.window, &mut thin));
                let times = thin.enlarged();
                self.background(times);
                self.thin_lanes(&thin, times);
                self.thin_lags(&thin);
                let columns = (0u32..).zip(&thin.starts).filter(|(_, &start)| start);
                let left = self.layout.left;
                let starts: Vec<f64> = columns.map(|(c, _)| left + f64::from(c)).collect();
                self.flags(&starts);
            }
        }
        self.lane_labels();
        self.time_axis(self.layout.axis);
        if !self.layout.panels.is_empty() {
            self.panel_labels();
            self.time_axis(self.layout.floor);
        }
        self.refusal_words();
        let mut y = self.layout.footer;
        for line in &self.layout.says {
            self.svg.text(16.0, y, Anchor::Start, "small", line);
            y += 14.0;
        }
        self.svg.out.push_str("</svg>\n");
        self.svg.out
    }

    /// What stands behind and above the shapes.
    fn background(&mut self, times: u32) {
        self.open();
        self.legend(times);
        self.grid();
    }
}

/// A cross in the place of a refusal.
pub fn cross(x: f64, y: f64) -> String {
    use super::svg::C;
    format!(
        "M{} {}l8 8M{} {}l8 -8",
        C(x - 4.0),
        C(y - 4.0),
        C(x - 4.0),
        C(y + 4.0)
    )
}
