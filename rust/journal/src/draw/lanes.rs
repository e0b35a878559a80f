//! The lanes: who has the core, wakes, refusals, groups, labels.

use std::fmt::Write;

use crate::scale::{count, counted, exact};
use crate::track::{End, Gap};
use crate::words;

use super::exact::{Cross, Exact};
use super::layout::REFUSALS;
use super::picture::{cross, Picture};
use super::rows::{Heading, Lane, INDENT, MARGIN};
use super::svg::{bold, escape, fit, width, Anchor, C};
use super::thin::{self, Thin};

/// Up to so many starts each has a line down through the lanes.
const FEW_STARTS: usize = 12;

impl Picture<'_> {
    pub(super) fn exact_lanes(&mut self, exact: &Exact, titles: bool) {
        let l = self.layout;
        for lane in &l.lanes {
            let shapes = &exact.shapes[lane.thread as usize];
            self.svg.path("wait", &shapes.waits);
            self.svg.path("blocked", &shapes.blocked);
            for (class, runs) in [("run", &shapes.runs), ("late", &shapes.late)] {
                match titles {
                    true => self.svg.out.push_str(runs),
                    false => self.svg.path(class, runs),
                }
            }
            self.svg.path("wake", &shapes.wakes);
            self.lane_changes(lane, exact.changes.of(lane.thread));
            self.still_running(lane);
        }
        if let Some(top) = l.refusals {
            self.refused(top, &exact.crosses);
        }
    }

    /// An arrow at the end of the lane of the thread that runs then.
    fn still_running(&mut self, lane: &Lane) {
        if self.survey.running != Some(lane.thread) {
            return;
        }
        let (x, half) = (self.layout.x(self.survey.to) + 2.0, lane.bar / 2.0);
        self.svg.put(format_args!(
            "<path class=\"run\" d=\"M{} {}l{} {}l{} {}z\"><title>{} has the core at the end</title></path>",
            C(x),
            C(lane.top),
            C(half),
            C(half),
            C(-half),
            C(half),
            escape(&self.options.names.told(lane.thread))
        ));
    }

    /// Crosses, with the answers' numbers where there is room.
    fn refused(&mut self, top: f64, crosses: &[Cross]) {
        let mut free = f64::NEG_INFINITY;
        for r in crosses {
            self.svg.put(format_args!(
                "<path class=\"refusal\" d=\"{}\"><title>{}</title></path>",
                cross(r.x, top + 9.0),
                escape(&r.title)
            ));
            let mut answers: Vec<String> = r.answers.iter().map(u32::to_string).collect();
            if answers.len() > 4 {
                answers.truncate(3);
                answers.push("\u{2026}".into());
            }
            let text = answers.join(", ");
            let half = width(&text, 10.0) / 2.0;
            if r.x - half > free {
                self.svg
                    .text(r.x, top + 25.0, Anchor::Middle, "code", &text);
                free = r.x + half + 4.0;
            }
        }
    }

    pub(super) fn thin_lanes(&mut self, thin: &Thin, times: u32) {
        let l = self.layout;
        let most = thin.threads.iter().flatten().flat_map(|c| &c.wakes).max();
        let most = most.copied().unwrap_or(0).max(1) as f64;
        for lane in &l.lanes {
            let Some(columns) = &thin.threads[lane.thread as usize] else {
                continue;
            };
            let (top, bottom) = (lane.top, lane.top + lane.bar);
            for (class, values, base, height, times) in [
                ("here", &columns.here, bottom, lane.bar, 1),
                ("blocked", &columns.blocked, top, -lane.bar, 1),
                ("run", &columns.run, bottom, lane.bar, times),
                ("late", &columns.late, bottom, lane.bar, times),
            ] {
                let parts = values.iter().map(|&part| part as f64 * times as f64);
                self.svg
                    .path(class, &thin::bars(parts, l.left, base, height));
            }
            let wakes = columns.wakes.iter().map(|&wakes| wakes as f64 / most);
            let height = (l.pitch - lane.bar - 4.0).min(6.0);
            let base = bottom + 1.0 + height;
            self.svg
                .path("wake", &thin::bars(wakes, l.left, base, height));
            self.lane_changes(lane, thin.changes.of(lane.thread));
            self.still_running(lane);
        }
        if let Some(top) = l.refusals {
            let most = thin.refusals.iter().copied().max().unwrap_or(0).max(1) as f64;
            let refusals = thin.refusals.iter().map(|&r| r as f64 / most);
            let bars = thin::bars(refusals, l.left, top + REFUSALS - 8.0, 18.0);
            self.svg.path("refusals", &bars);
        }
    }

    /// Starts and damaged blocks, labelled above the lanes where there is room.
    /// A start at the very beginning or at the end of a gap needs no label.
    pub(super) fn flags(&mut self, starts: &[f64]) {
        let l = self.layout;
        let mut labels: Vec<(f64, Vec<String>, &str)> = Vec::new();
        let gaps = &self.survey.gaps;
        let known = |x: f64| {
            let next = gaps.partition_point(|gap| l.x(gap.at) + l.gap <= x + 1.0);
            x <= l.left
                || next
                    .checked_sub(1)
                    .is_some_and(|i| x - l.x(gaps[i].at) - l.gap < 1.5)
        };
        let starts: Vec<f64> = starts.iter().copied().filter(|&x| !known(x)).collect();
        let bottom = match starts.len() <= FEW_STARTS {
            true => l.axis,
            false => l.flags + 18.0,
        };
        let mut path = String::new();
        for x in starts {
            let _ = write!(path, "M{} {}V{}", C(x), C(l.flags + 6.0), C(bottom));
            labels.push((x, vec!["start".into()], "small"));
        }
        self.svg.path("start", &path);
        for gap in &self.survey.gaps {
            labels.push((l.x(gap.at) + l.gap / 2.0, gap_texts(gap), "flag"));
        }
        labels.sort_by(|a, b| a.0.total_cmp(&b.0));
        self.flag_labels(&labels);
    }

    fn flag_labels(&mut self, labels: &[(f64, Vec<String>, &str)]) {
        let l = self.layout;
        let mut free = l.left - 40.0;
        for (i, (x, texts, class)) in labels.iter().enumerate() {
            // A text but the shortest leaves the next one room for its own
            // shortest but one.
            let next = labels.get(i + 1).map_or(l.width - 8.0, |(x, texts, _)| {
                let short = &texts[texts.len().saturating_sub(2)];
                x - width(short, 11.0) / 2.0 - 8.0
            });
            for (k, text) in texts.iter().enumerate() {
                let half = width(text, 11.0) / 2.0;
                let centre = x.max(l.left - 30.0 + half).min(l.width - 12.0 - half);
                let last = k + 1 == texts.len();
                if centre - half > free && (last || centre + half < next) {
                    self.svg.text(centre, l.flags, Anchor::Middle, class, text);
                    free = centre + half + 8.0;
                    break;
                }
            }
        }
    }

    pub(super) fn lane_labels(&mut self) {
        let l = self.layout;
        for group in &l.groups {
            self.group_label(group);
        }
        if l.lanes.is_empty() {
            let y = l.axis - l.pitch + 18.0;
            let text = "No thread was admitted.";
            self.svg.text(l.left, y, Anchor::Start, "quiet", text);
        } else if !self.survey.threads[l.lanes[0].thread as usize].best_effort {
            let head = l.flags + 17.0;
            let small = "small";
            self.svg.text(MARGIN, head, Anchor::Start, small, "thread");
            let x = l.left - 10.0;
            self.svg.text(x, head, Anchor::End, small, "reserved");
            let share = match self.options.view.is_part() {
                true => "share here",
                false => "share",
            };
            let x = l.right + 14.0;
            self.svg.text(x, head, Anchor::Start, small, share);
        }
        if let Some(top) = l.best_effort {
            self.best_effort_heading(top);
        }
        for lane in &l.lanes {
            match self.survey.threads[lane.thread as usize].best_effort {
                true => self.best_effort_label(lane),
                false => self.lane_label(lane),
            }
        }
        if let Some(top) = l.refusals {
            let y = top + 13.0;
            self.svg.text(MARGIN, y, Anchor::Start, "name", "refusals");
            let refusals = count(self.survey.refused());
            let x = l.right + 14.0;
            self.svg.text(x, y, Anchor::Start, "name", &refusals);
        }
    }

    fn lane_label(&mut self, lane: &Lane) {
        let t = &self.survey.threads[lane.thread as usize];
        let told = self.options.names.told(lane.thread);
        let what = format!(
            "reservation {} \u{2030} in group {}",
            t.reserved.told(),
            t.group
        );
        let reserved = self.layout.reserved(t);
        self.lane_begins(lane, &what, &reserved);
        let share = format!("{} \u{2030}", t.share);
        let (word, how) = ending(t.end);
        let title = format!("share of {told}, {how}: {share}");
        self.lane_ends(lane, &share, word, &title);
    }

    /// At the left of a lane the thread's name, what it has, and more when it is
    /// pointed at.
    pub(super) fn lane_begins(&mut self, lane: &Lane, what: &str, has: &str) {
        let l = self.layout;
        let t = &self.survey.threads[lane.thread as usize];
        let names = &self.options.names;
        let y = lane.top + lane.bar / 2.0 + 4.0;
        let name = fit(&names.label(lane.thread), 12.0, l.room(lane.label));
        let mut title = format!(
            "{}: {what}, {}, {}",
            names.told(lane.thread),
            counted(t.runs, "dispatch").replace("dispatchs", "dispatches"),
            counted(t.wakes, "wake")
        );
        if t.overruns > 0 {
            let overruns = counted(t.overruns, "overrun");
            let _ = write!(title, ", {overruns} of {}", exact(t.overrun));
        }
        if t.changes > 0 {
            let _ = write!(title, ", {}", counted(t.changes, "change"));
        }
        self.svg.titled(lane.label, y, "name", &name, &title);
        let x = l.left - 10.0;
        self.svg.text(x, y, Anchor::End, "quiet", has);
    }

    /// At the right of a lane what the thread got, and a word on its end.
    pub(super) fn lane_ends(&mut self, lane: &Lane, share: &str, word: &str, title: &str) {
        let (x, y) = (self.layout.right + 14.0, lane.top + lane.bar / 2.0 + 4.0);
        self.svg.titled(x, y, "name", share, title);
        if !word.is_empty() {
            let x = x + bold(share, 12.0) + 4.0;
            self.svg.text(x, y, Anchor::Start, "small", word);
        }
    }

    /// A group's number and ceiling above its lanes, and a line beside them.
    fn group_label(&mut self, heading: &Heading) {
        let entry = self.survey.groups[heading.group as usize];
        let x = MARGIN + heading.depth as f64 * INDENT;
        let y = heading.top + 12.0;
        let text = match entry {
            None => format!("group {} \u{b7} ceiling 1000 \u{2030}", heading.group),
            Some(group) => format!(
                "group {} in {} \u{b7} ceiling {} \u{2030}{}",
                heading.group,
                group.parent,
                group.ceiling,
                if group.open { "" } else { " \u{b7} closed" }
            ),
        };
        self.svg.text(x, y, Anchor::Start, "small", &text);
        if heading.bottom > heading.top + 20.0 {
            let (top, bottom) = (heading.top + 17.0, heading.bottom);
            let path = format!("M{} {}V{}", C(x + 2.0), C(top), C(bottom));
            self.svg.path("group", &path);
        }
    }
}

/// How a thread's time ended, in a word and in more.
pub fn ending(end: Option<End>) -> (&'static str, String) {
    match end {
        None | Some(End::Later) => ("", "in the part shown".into()),
        Some(End::Stays(_)) => ("", "at the end".into()),
        Some(End::Left(record)) => ("left", format!("until it left at record {}", count(record))),
        Some(End::Restarted(record)) => (
            "ended",
            format!("until the start at record {}", count(record)),
        ),
        Some(End::Lost) => ("lost", "up to a damaged block".into()),
    }
}

/// What a gap's label says, the longest text first.
fn gap_texts(gap: &Gap) -> Vec<String> {
    let skipped = match gap.skipped {
        0 => String::new(),
        n => format!(", {} not run", counted(n, "record")),
    };
    let (first, last) = (gap.first, gap.last);
    match gap.refusal {
        None => vec![
            match gap.damaged {
                0 => format!("blocks {first} to {last} are missing{skipped}"),
                _ => format!("blocks {first} to {last} are missing or damaged{skipped}"),
            },
            format!("blocks {first} to {last} missing"),
            format!("\u{2026}{last}"),
        ],
        Some(refusal) if gap.damaged == 1 => vec![
            format!(
                "block {first} refused: {refusal}, {}{skipped}",
                words::damage(refusal)
            ),
            format!("block {first} refused: {refusal}{skipped}"),
            format!("block {first}: {refusal}"),
            format!("{first}"),
        ],
        Some(_) => vec![
            format!(
                "{} refused from {first} to {last}{skipped}",
                counted(gap.damaged, "block")
            ),
            format!("blocks {first} to {last}, {} not run", count(gap.skipped)),
            format!("blocks {first} to {last}"),
            format!("{first}\u{2026}"),
        ],
    }
}
