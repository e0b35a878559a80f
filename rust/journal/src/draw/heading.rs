//! The picture's head: style, title, what the journal holds, what the shapes
//! mean.

use crate::scale::{count, counted, duration, exact, settings};
use crate::track::Survey;

use super::changes::{self, tip};
use super::picture::{cross, Picture};
use super::svg::{escape, fit, width, wrap, Anchor, C};
use super::{Detail, Options};

const STYLE: &str = "\
text{font-family:'Helvetica Neue',Helvetica,Arial,'Liberation Sans','DejaVu Sans',sans-serif;font-size:12px;fill:#24292f}
.title{font-size:19px;font-weight:bold}
.heading{font-size:14px;font-weight:bold}
.name{font-weight:bold}
.quiet{fill:#57606a}
.small{font-size:11px;fill:#57606a}
.code{font-size:10px;fill:#a23f00}
.number{font-weight:bold;fill:#a23f00}
.flag{font-size:11px;fill:#8a3a6a}
.back{fill:#ffffff}
.grid{stroke:#e4e7eb;stroke-width:1;fill:none}
.axis{stroke:#8c959f;stroke-width:1;fill:none}
.group{stroke:#8c959f;stroke-width:1.5;fill:none}
.here{fill:#d7e6f1}
.panel{fill:#f7f9fb}
.run{fill:#0072b2}
.wait{stroke:#8fb8d3;stroke-width:1.5;fill:none}
.blocked{fill:#c6cbd1}
.wake{fill:#e69f00}
.refusal{stroke:#d55e00;stroke-width:1.8;fill:none}
.refusals{fill:#d55e00}
.start{stroke:#57606a;stroke-width:1;stroke-dasharray:2 3;fill:none}
.damage{stroke:#cc79a7;stroke-width:2}
.gap{fill:url(#damage)}
.zero{stroke:#b6bdc5;stroke-width:1;fill:none}
.lag{stroke:#0072b2;stroke-width:1.4;fill:none;stroke-linejoin:round}
.lags{stroke:#3f93c5;stroke-width:1;fill:none}
.bound{stroke:#d55e00;stroke-width:1.5;stroke-dasharray:6 4;fill:none}
";

/// Beside it where runs went beyond their slices.
const LATE: &str = ".late{fill:#12263a}\n";

/// What the shapes mean.
#[derive(Clone, Copy, Debug, PartialEq, Eq)]
enum Sign {
    Run,
    Late,
    Blocked,
    Wait,
    Wake,
    Change,
    Refusal,
    Gap,
    /// Words alone, on heights that are enlarged.
    Heights,
}

impl Sign {
    /// Width of its shape.
    fn wide(self) -> f64 {
        match self {
            Sign::Wake | Sign::Change | Sign::Refusal => 10.0,
            Sign::Heights => 0.0,
            _ => 18.0,
        }
    }

    /// Thinned out, the heights of who has the core are enlarged so many times.
    fn words(self, s: &Survey, thin: bool, times: u32) -> String {
        match (self, thin) {
            (Sign::Run, _) => "has the core".into(),
            (Sign::Late, _) => "beyond its slice".into(),
            (Sign::Blocked, _) => "blocked".into(),
            (Sign::Wait, _) => "runnable, waits".into(),
            (Sign::Wake, false) => "wake".into(),
            (Sign::Wake, true) => "wakes".into(),
            (Sign::Change, false) => "change of reservation".into(),
            (Sign::Change, true) => "changes of reservation".into(),
            (Sign::Refusal, false) => "refusal, with its number (words below)".into(),
            (Sign::Refusal, true) => "refusals (words below)".into(),
            (Sign::Gap, _) => match s.gaps.iter().any(|gap| gap.refusal.is_none()) {
                true => "missing or damaged blocks, up to the next start".into(),
                false => "damaged block, up to the next start".into(),
            },
            (Sign::Heights, _) => match times {
                0 | 1 => "(heights: parts of the time)".into(),
                n => format!("(heights: parts of the time, core \u{d7} {n})"),
            },
        }
    }
}

/// The picture's head, laid out.
#[derive(Clone, Debug)]
pub struct Head {
    /// The title in up to two lines.
    title: Vec<String>,
    facts: Vec<String>,
    /// Signs with their places.
    signs: Vec<(Sign, f64, f64)>,
    /// The lowest base line.
    pub bottom: f64,
}

impl Head {
    pub fn new(s: &Survey, options: &Options, detail: Detail, total: f64) -> Head {
        let room = total - 32.0;
        let mut title = wrap(title(options), 19.0, room);
        if title.len() > 2 {
            let rest = title.split_off(1).join(" ");
            title.push(fit(&rest, 19.0, room));
        }
        let mut lines: Vec<String> = Vec::new();
        for fact in facts(s, options.view.is_part()) {
            match lines.last_mut() {
                Some(line) if width(&format!("{line} \u{b7} {fact}"), 12.0) <= room => {
                    line.push_str(" \u{b7} ");
                    line.push_str(&fact);
                }
                _ => lines.push(fact),
            }
        }
        let thin = detail == Detail::Thin;
        let above = 40.0 + 24.0 * title.len() as f64;
        let (mut x, mut y) = (16.0, above + 16.0 * lines.len() as f64);
        let mut places = Vec::new();
        for sign in signs(s, thin) {
            let w = sign.wide() + 6.0 + width(&sign.words(s, thin, 50), 12.0);
            if x + w > total - 8.0 && x > 16.0 {
                (x, y) = (16.0, y + 18.0);
            }
            places.push((sign, x, y));
            x += w + 16.0;
        }
        Head {
            title,
            facts: lines,
            signs: places,
            bottom: y,
        }
    }
}

fn title(options: &Options) -> &str {
    options.title.as_deref().unwrap_or("Journal")
}

/// What the journal, or the part shown, holds.
fn facts(s: &Survey, part: bool) -> Vec<String> {
    let mut facts = Vec::new();
    if part {
        let (from, to) = (exact(s.from.time), exact(s.to.time));
        facts.push(format!("part from {from} to {to}"));
        if let Some((first, last)) = s.numbers {
            facts.push(format!("records {} to {}", count(first), count(last)));
        }
    } else {
        let blocks = counted(s.tally.blocks, "block");
        facts.push(format!("{} in {blocks}", counted(s.records, "record")));
        facts.push(format!("{} of processor time", duration(s.time() as f64)));
    }
    facts.push(match s.one_setting {
        true => settings(&s.settings, count),
        false => "settings change".to_string(),
    });
    if s.starts > 1 {
        facts.push(counted(s.starts, "start"));
    }
    match s.idle {
        0 => {}
        1 => facts.push("1 idle dispatch".into()),
        n => facts.push(format!("{} idle dispatches", count(n))),
    }
    if s.fairness.weights() > 0 {
        let time = duration(s.fairness.ticks() as f64);
        facts.push(format!("best effort {time}"));
    }
    if s.overruns() > 0 {
        facts.push(counted(s.overruns(), "overrun"));
    }
    if s.changes() > 0 {
        let changes = counted(s.changes(), "change");
        facts.push(format!("{changes} of reservation"));
    }
    if s.refused() > 0 {
        facts.push(counted(s.refused(), "refusal"));
    }
    if s.tally.damaged > 0 {
        facts.push(format!("{} damaged", counted(s.tally.damaged, "block")));
    }
    if s.skipped > 0 {
        facts.push(format!("{} not run", counted(s.skipped, "record")));
    }
    facts
}

/// The signs that occur.
fn signs(s: &Survey, thin: bool) -> Vec<Sign> {
    let mut signs = Vec::new();
    if s.admitted().next().is_some() {
        signs.push(Sign::Run);
        if s.overruns() > 0 {
            signs.push(Sign::Late);
        }
        signs.extend([Sign::Blocked, Sign::Wait]);
    }
    if s.threads.iter().any(|t| t.wakes > 0) {
        signs.push(Sign::Wake);
    }
    if s.changes() > 0 {
        signs.push(Sign::Change);
    }
    if !s.refusals.is_empty() {
        signs.push(Sign::Refusal);
    }
    if !s.gaps.is_empty() {
        signs.push(Sign::Gap);
    }
    if thin {
        signs.push(Sign::Heights);
    }
    signs
}

impl Picture<'_> {
    pub(super) fn open(&mut self) {
        let title = title(self.options);
        let (total, height) = (self.layout.width, self.layout.height);
        self.svg.put(format_args!(
            "<svg xmlns=\"http://www.w3.org/2000/svg\" width=\"{}\" height=\"{}\" viewBox=\"0 0 {} {}\" role=\"img\">",
            C(total),
            C(height),
            C(total),
            C(height)
        ));
        let facts = self.head.facts.join(" \u{b7} ");
        self.svg
            .put(format_args!("<title>{}</title>", escape(title)));
        self.svg
            .put(format_args!("<desc>{}</desc>", escape(&facts)));
        let late = if self.survey.overruns() > 0 { LATE } else { "" };
        let changes = match self.survey.changes() {
            0 => "",
            _ => changes::STYLE,
        };
        self.svg
            .put(format_args!("<style>\n{STYLE}{late}{changes}</style>"));
        self.svg.put(format_args!(
            "<defs><pattern id=\"damage\" width=\"7\" height=\"7\" patternUnits=\"userSpaceOnUse\" patternTransform=\"rotate(45)\"><rect width=\"7\" height=\"7\" fill=\"#fbf1f7\"/><path class=\"damage\" d=\"M1 0V7\"/></pattern></defs>"
        ));
        self.svg.rect("back", 0.0, 0.0, total, height);
        let mut y = 32.0;
        for line in &self.head.title {
            self.svg.text(16.0, y, Anchor::Start, "title", line);
            y += 24.0;
        }
        y -= 3.0;
        for line in &self.head.facts {
            self.svg.text(16.0, y, Anchor::Start, "quiet", line);
            y += 16.0;
        }
    }

    /// What the shapes mean; only those that occur.
    pub(super) fn legend(&mut self, times: u32) {
        let thin = self.detail == Detail::Thin;
        for &(sign, x, y) in &self.head.signs {
            let svg = &mut self.svg;
            match sign {
                Sign::Run => svg.rect("run", x, y - 10.0, 18.0, 12.0),
                Sign::Late => {
                    svg.rect("run", x, y - 10.0, 12.0, 12.0);
                    svg.rect("late", x + 12.0, y - 10.0, 6.0, 12.0);
                }
                Sign::Blocked => svg.rect("blocked", x, y - 8.0, 18.0, 8.0),
                Sign::Wait if thin => svg.rect("here", x, y - 10.0, 18.0, 12.0),
                Sign::Wait => svg.path("wait", &format!("M{} {}h18", C(x), C(y - 4.0))),
                Sign::Wake => {
                    let shape = match self.detail {
                        Detail::Exact { roomy: true, .. } => "l4 7h-8z",
                        Detail::Exact { .. } => "h1.5v7h-1.5z",
                        Detail::Thin => "m-5 7v-4h3v-3h3v4h3v-2h3v5z",
                    };
                    svg.path("wake", &format!("M{} {}{shape}", C(x + 5.0), C(y - 7.5)));
                }
                Sign::Change => svg.path("change", &tip(x + 5.0, y)),
                Sign::Refusal => svg.path("refusal", &cross(x + 5.0, y - 4.0)),
                Sign::Gap => svg.rect("gap", x, y - 10.0, 18.0, 12.0),
                Sign::Heights => {}
            }
            let text = sign.words(self.survey, thin, times);
            let x = x + sign.wide() + 6.0;
            self.svg.text(x, y, Anchor::Start, "quiet", &text);
        }
    }
}
