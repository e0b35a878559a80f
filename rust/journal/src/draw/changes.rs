//! Marks where a reservation changes: in the thread's lane, and in its lag plot,
//! where lag and bound begin anew.

use std::fmt::Write;

use crate::codec::THREADS;
use crate::scale::{duration, exact};
use crate::track::Change;

use super::layout::Panel;
use super::picture::Picture;
use super::rows::Lane;
use super::svg::{escape, width, Anchor, C};
use super::FEW_TITLES;

/// Beside the style where reservations change.
pub const STYLE: &str = "\
.change{fill:#009e73}
.changed{stroke:#009e73;stroke-width:1;fill:none}
.to{font-size:11px;fill:#00664b}
";

/// Changes of a thread at the same pixel, each from what the one before it
/// left: what it reserved before and after them, and the bounds of its lag.
#[derive(Clone, Debug)]
pub struct Mark {
    x: f64,
    reserved: (u64, u64),
    bounds: (i64, i64),
    title: String,
}

/// The marks, thread by thread.
pub struct Marks(Vec<Vec<Mark>>);

impl Marks {
    pub fn new() -> Marks {
        Marks(vec![Vec::new(); THREADS])
    }

    pub fn of(&self, thread: u8) -> &[Mark] {
        &self.0[thread as usize]
    }

    /// Adds a change at a place.
    pub fn add(&mut self, x: f64, c: &Change) {
        let marks = &mut self.0[c.thread as usize];
        let title = format!(
            "record {} changes its reservation from {} to {} \u{2030} at {}; its lag begins \
             anew and is at most {}",
            c.record,
            c.old,
            c.new,
            exact(c.at.time),
            duration(c.new_bound as f64 / 1000.0)
        );
        match marks.last_mut() {
            // What another life of the thread reserved has a mark of its own.
            Some(last) if x - last.x < 1.0 && c.old == last.reserved.1 => {
                (last.reserved.1, last.bounds.1) = (c.new, c.new_bound);
                if last.title.len() < 1000 {
                    let _ = write!(last.title, "\n{title}");
                }
            }
            _ => marks.push(Mark {
                x,
                reserved: (c.old, c.new),
                bounds: (c.old_bound, c.new_bound),
                title,
            }),
        }
    }
}

/// A mark's shape, with its tip at a place.
pub fn tip(x: f64, y: f64) -> String {
    format!("M{} {}l4 -7h-8z", C(x), C(y))
}

/// From a mark to its label.
const ASIDE: f64 = 7.0;

/// What is written beside a mark, the longer text first, and the base line at its
/// left and at its right.
struct Label {
    texts: [String; 2],
    left: f64,
    right: f64,
}

impl Picture<'_> {
    /// Marks above the bar of a lane, with what was reserved before and after
    /// where there is room. A few tell more when pointed at.
    pub(super) fn lane_changes(&mut self, lane: &Lane, marks: &[Mark]) {
        let few = self.survey.changes() <= FEW_TITLES;
        let y = lane.top - 1.0;
        let mut path = String::new();
        for mark in marks {
            if few {
                let told = self.options.names.told(lane.thread);
                let title = escape(&format!("{told}: {}", mark.title));
                let d = tip(mark.x, y);
                self.svg.put(format_args!(
                    "<path class=\"change\" d=\"{d}\"><title>{title}</title></path>"
                ));
            } else {
                let _ = write!(path, "M{} {}h1v-6h-1z", C(mark.x - 0.5), C(y));
            }
        }
        self.svg.path("change", &path);
        self.beside(marks, |mark| {
            let (old, new) = mark.reserved;
            Some(Label {
                texts: [
                    format!("{old} \u{2192} {new} \u{2030}"),
                    format!("\u{2192} {new}"),
                ],
                left: y - 1.0,
                right: y - 1.0,
            })
        });
    }

    /// A line down through a lag plot for each mark, with the bounds before and
    /// after it below that of the bound, where there is room.
    pub(super) fn panel_changes(&mut self, panel: &Panel, marks: &[Mark]) {
        let mut path = String::new();
        for mark in marks {
            let (top, bottom) = (panel.top - 6.0, panel.bottom() + 6.0);
            let _ = write!(path, "M{} {}V{}", C(mark.x), C(top), C(bottom));
        }
        self.svg.path("changed", &path);
        let in_time = |bound: i64| duration(bound as f64 / 1000.0);
        self.beside(marks, |mark| {
            let (old, new) = mark.bounds;
            // One that has no time in the part may lie above the plot.
            let below = |bound: i64| panel.y(bound as f64).max(panel.top) + 12.0;
            let (left, right) = (below(old), below(new));
            let room = left.max(right) < panel.zero - 2.0;
            (room && old != new).then(|| Label {
                texts: [
                    format!("{} \u{2192} {}", in_time(old), in_time(new)),
                    format!("\u{2192} {}", in_time(new)),
                ],
                left,
                right,
            })
        });
    }

    /// A label at the right of each mark, or at its left, where neither another
    /// mark nor its label stands in the way.
    fn beside(&mut self, marks: &[Mark], label: impl Fn(&Mark) -> Option<Label>) {
        let l = self.layout;
        let mut free = l.left;
        for (i, mark) in marks.iter().enumerate() {
            let next = marks
                .get(i + 1)
                .map_or(l.right + ASIDE, |next| next.x - ASIDE);
            let (before, x) = (free, mark.x);
            free = x + ASIDE;
            let Some(label) = label(mark) else { continue };
            for text in &label.texts {
                let w = width(text, 11.0);
                if x + ASIDE + w <= next {
                    let x = x + ASIDE;
                    self.svg.text(x, label.right, Anchor::Start, "to", text);
                    free = x + w + ASIDE;
                    break;
                }
                if x - ASIDE - w >= before {
                    let x = x - ASIDE;
                    self.svg.text(x, label.left, Anchor::End, "to", text);
                    break;
                }
            }
        }
    }
}
