//! The lanes of best-effort threads: below the others, with weights in the place
//! of reservations, and shares of what reserved threads left.

use std::fmt::Write;

use crate::scale::{duration, exact};
use crate::track::{Fairness, Portion};

use super::lanes::ending;
use super::picture::Picture;
use super::rows::{Lane, MARGIN};
use super::svg::{width, Anchor};

const HEADING: &str = "best effort";
const WEIGHT: &str = "weight";

/// What a lane says of a weight: the weight, and all of them together.
pub fn weight(fairness: &Fairness, portion: &Portion) -> String {
    format!("{} of {}", portion.weight, fairness.weights())
}

impl Picture<'_> {
    /// The line above the lanes.
    pub(super) fn best_effort_heading(&mut self, top: f64) {
        let l = self.layout;
        let (y, small) = (top + 21.0, "small");
        self.svg.text(MARGIN, y, Anchor::Start, small, HEADING);
        let x = l.left - 10.0;
        if MARGIN + width(HEADING, 11.0) + 6.0 <= x - width(WEIGHT, 11.0) {
            self.svg.text(x, y, Anchor::End, small, WEIGHT);
        }
        let rest = duration(self.survey.fairness.ticks() as f64);
        let texts = [
            format!("what reserved threads leave, shared by weight: {rest}"),
            format!("what is left: {rest}"),
        ];
        if let Some(text) = texts.iter().find(|text| width(text, 11.0) <= l.plot) {
            self.svg.text(l.left, y, Anchor::Start, small, text);
        }
        let x = l.right + 14.0;
        self.svg.text(x, y, Anchor::Start, small, "of the rest");
    }

    /// The weight of all weights, and the part of what the best-effort threads
    /// had.
    pub(super) fn best_effort_label(&mut self, lane: &Lane) {
        let fairness = &self.survey.fairness;
        let Some(portion) = fairness.portion(lane.thread) else {
            return;
        };
        let weight = weight(fairness, &portion);
        self.lane_begins(lane, &format!("best effort, weight {weight}"), &weight);
        let names = &self.options.names;
        let (word, how) = ending(self.survey.threads[lane.thread as usize].end);
        let mut title = format!(
            "{}, {how}: {} of the {} that best-effort threads had in its time",
            names.told(lane.thread),
            exact(portion.ticks),
            exact(portion.of)
        );
        if let Some(apart) = portion.farthest {
            let _ = write!(
                title,
                "; runnable together, it and {} came apart by up to {} a weight, of at most {}",
                names.told(apart.other),
                duration(apart.per_weight()),
                duration(apart.limit_per_weight())
            );
        }
        let share = format!("{} \u{2030}", portion.share());
        self.lane_ends(lane, &share, word, &title);
    }
}
