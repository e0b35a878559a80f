//! Time: the axes, the lines behind the shapes, the gaps.

use std::fmt::Write;

use crate::scale::{number, step, unit};
use crate::track::At;

use super::picture::Picture;
use super::svg::{fit, width, Anchor, C};

impl Picture<'_> {
    /// Times of the axis, with their place and label.
    fn times(&self) -> Vec<(f64, String)> {
        let s = self.survey;
        let total = s.time() as f64;
        if total <= 0.0 {
            return vec![(self.layout.left, number(s.from.time as f64 / 1e3, 3))];
        }
        let unit = unit(total);
        let step = step(
            total / unit.ticks,
            (self.layout.plot / 70.0).clamp(2.0, 12.0),
        );
        let decimals = (-step.log10().floor()).max(0.0) as usize;
        let first = (s.from.time as f64 / unit.ticks / step).ceil() as u64;
        let mut out = Vec::new();
        for i in first.. {
            let value = step * i as f64;
            let time = (value * unit.ticks).round() as u64;
            if time > s.to.time {
                break;
            }
            let before = s.gaps.partition_point(|gap| gap.at.time < time) as u64;
            let gaps = s.from.gaps + before;
            out.push((self.layout.x(At { time, gaps }), number(value, decimals)));
        }
        out
    }

    pub(super) fn grid(&mut self) {
        let l = self.layout;
        for panel in &l.panels {
            let (top, height) = (panel.top - 6.0, panel.height + 12.0);
            self.svg.rect("panel", l.left, top, l.plot, height);
        }
        let mut path = String::new();
        for (x, _) in self.times() {
            let _ = write!(path, "M{} {}V{}", C(x), C(l.flags + 20.0), C(l.axis));
            if let Some(first) = l.panels.first() {
                let _ = write!(path, "M{} {}V{}", C(x), C(first.top - 8.0), C(l.floor));
            }
        }
        self.svg.path("grid", &path);
        // Gaps that touch are one shape.
        let mut shapes: Vec<(f64, f64)> = Vec::new();
        for gap in &self.survey.gaps {
            let (from, to) = (l.x(gap.at), l.x(gap.at) + l.gap);
            match shapes.last_mut() {
                Some(last) if from - last.1 < 1.0 => last.1 = to,
                _ => shapes.push((from, to)),
            }
        }
        for (from, to) in shapes {
            let w = (to - from).max(1.0);
            let top = l.flags + 20.0;
            self.svg.rect("gap", from, top, w, l.axis - top);
            if let Some(first) = l.panels.first() {
                let top = first.top - 8.0;
                self.svg.rect("gap", from, top, w, l.floor - top);
            }
        }
    }

    pub(super) fn time_axis(&mut self, y: f64) {
        let (left, plot) = (self.layout.left, self.layout.plot);
        self.svg
            .path("axis", &format!("M{} {}h{}", C(left), C(y), C(plot)));
        let mut ticks = String::new();
        let mut free = f64::NEG_INFINITY;
        for (x, label) in self.times() {
            let _ = write!(ticks, "M{} {}v5", C(x), C(y));
            let half = width(&label, 11.0) / 2.0;
            if x - half > free {
                self.svg.text(x, y + 18.0, Anchor::Middle, "small", &label);
                free = x + half + 6.0;
            }
        }
        self.svg.path("axis", &ticks);
        let s = self.survey;
        let part = self.options.view.is_part();
        let unit = match s.time() {
            0 => "ms",
            time => unit(time as f64).name,
        };
        let text = if s.time() == 0 && !part {
            "no processor time was charged".to_string()
        } else if s.starts > 1 || part || !s.gaps.is_empty() {
            format!("processor time since the journal's beginning ({unit})")
        } else {
            format!("processor time, the meter ({unit})")
        };
        let middle = left + plot / 2.0;
        let text = fit(&text, 11.0, 2.0 * middle.min(self.layout.width - middle));
        self.svg
            .text(middle, y + 36.0, Anchor::Middle, "small", &text);
    }
}
