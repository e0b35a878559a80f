//! The lag plots.

use crate::scale::duration;

use super::exact::Exact;
use super::layout::Panel;
use super::picture::Picture;
use super::rows::MARGIN;
use super::svg::{fit, width, Anchor, C};
use super::thin::{self, Thin};
use super::Detail;

impl Picture<'_> {
    pub(super) fn exact_lags(&mut self, exact: &Exact) {
        for panel in &self.layout.panels {
            let shapes = &exact.shapes[panel.thread as usize];
            self.panel_frame(panel);
            self.panel_changes(panel, exact.changes.of(panel.thread));
            self.svg.path("bound", &shapes.bound);
            self.svg.path("lag", &shapes.lag);
        }
    }

    pub(super) fn thin_lags(&mut self, thin: &Thin) {
        let left = self.layout.left;
        for panel in &self.layout.panels {
            self.panel_frame(panel);
            self.panel_changes(panel, thin.changes.of(panel.thread));
            if let Some(columns) = &thin.threads[panel.thread as usize] {
                self.svg
                    .path("lags", &thin::lag_lines(columns, panel, left));
                self.svg
                    .path("bound", &thin::bound_line(columns, panel, left));
            }
        }
    }

    fn panel_frame(&mut self, panel: &Panel) {
        let (left, plot) = (self.layout.left, self.layout.plot);
        let path = format!("M{} {}h{}", C(left), C(panel.zero), C(plot));
        self.svg.path("zero", &path);
    }

    pub(super) fn panel_labels(&mut self) {
        let l = self.layout;
        let mut y = l.heading;
        for line in &l.headings {
            self.svg.text(16.0, y, Anchor::Start, "heading", line);
            y += 20.0;
        }
        let y = l.legend;
        let mut x = MARGIN;
        self.svg
            .path("lag", &format!("M{} {}h18", C(x), C(y - 4.0)));
        let lag = match self.detail {
            Detail::Thin => "lag, least to greatest",
            Detail::Exact { .. } => "lag",
        };
        self.svg.text(x + 24.0, y, Anchor::Start, "quiet", lag);
        x += 24.0 + width(lag, 12.0) + 20.0;
        self.svg
            .path("bound", &format!("M{} {}h26", C(x), C(y - 4.0)));
        let squeezed = match l.panels.iter().any(|panel| panel.squeezed()) {
            true => "; scale below 0 narrowed",
            false => "",
        };
        let (overruns, meaning) = match self.survey.grown {
            true => (" + fV", ", V others' overruns"),
            false => ("", ""),
        };
        let changing = match self.survey.changes() {
            0 => "",
            _ => ", f as reserved at the time",
        };
        let formula = format!(
            "most by the share guarantee, \
             (2f(1000 \u{2212} f)m + fP{overruns}) / 1000{meaning}{changing}"
        );
        let room = l.right - x - 32.0;
        let text = [
            format!("{formula}{squeezed}"),
            "most by the share guarantee".into(),
            "most by guarantee".into(),
        ];
        let fits = |text: &&String| width(text, 12.0) <= room;
        let text = text.iter().find(fits).unwrap_or(&text[2]);
        self.svg.text(x + 32.0, y, Anchor::Start, "quiet", text);
        let x = l.right + 14.0;
        self.svg.text(x, y, Anchor::Start, "small", "largest");
        for panel in &l.panels {
            self.panel_label(panel);
        }
    }

    fn panel_label(&mut self, panel: &Panel) {
        let l = self.layout;
        let t = &self.survey.threads[panel.thread as usize];
        let names = &self.options.names;
        let name = fit(&names.label(panel.thread), 12.0, l.room(MARGIN));
        let middle = panel.top + panel.height / 2.0 + 4.0;
        let told = names.told(panel.thread);
        self.svg.titled(MARGIN, middle, "name", &name, &told);
        // Lag counts thousandths of ticks.
        let in_time = |lag: i64| duration(lag as f64 / 1000.0);
        let (top, zero) = (panel.y(t.bound as f64), panel.zero);
        let mut label = |y: f64, text: &str| {
            let x = l.left - 8.0;
            self.svg.text(x, y + 4.0, Anchor::End, "small", text)
        };
        label(top, &in_time(t.bound));
        if zero - top >= 12.0 {
            label(zero, "0");
        }
        if panel.bottom() - zero >= 12.0 && t.lowest < 0 {
            label(panel.bottom(), &in_time(t.lowest));
        }
        let largest = in_time(t.largest.lag);
        let title = format!(
            "largest lag of {told}: {largest} of at most {}",
            in_time(t.largest.bound)
        );
        let class = match t.largest.lag > t.largest.bound {
            true => "number",
            false => "name",
        };
        self.svg
            .titled(l.right + 14.0, middle, class, &largest, &title);
    }
}
