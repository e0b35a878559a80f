//! Spans are whole, within the bound, and cut as asked.

mod bounds;
mod changes;
mod fairness;

use super::*;
use crate::engine::{bound, Proved};
use model::blocks;
use model::calls::{self, Call};
use model::rule::Scheduler;
use samples::random::{self, Rng};
use samples::records;

fn encode(text: &str) -> Vec<u8> {
    crate::text::encode(text.as_bytes(), 0, false, &mut Progress::silent()).unwrap()
}

/// The part between two times.
fn between(from: u64, to: u64) -> Window {
    let at = |time| At { time, gaps: 0 };
    Window {
        from: at(from),
        to: at(to),
        ..Window::whole()
    }
}

/// Hands a sink what lies in a part.
fn tracked<S: Sink>(journal: &[u8], window: &Window, mut sink: S) -> S {
    let mut clip = Clip::new(window, &mut sink);
    track::<Proved>(Journal::whole(journal), &mut Progress::silent(), &mut clip);
    sink
}

fn surveyed(journal: &[u8], window: &Window) -> Survey {
    tracked(journal, window, Survey::new::<Proved>(window.from))
}

/// A record as the model takes it.
fn of_model(record: &Record) -> blocks::Record {
    blocks::Record {
        kind: record.kind,
        subject: record.subject,
        group: record.group,
        reason: record.reason,
        amount: record.amount,
        overrun: record.overrun,
        ticks: record.ticks,
    }
}

/// Checks each life as it ends against the spans, limits and changes handed out
/// for it, in a whole journal or in a part of one without gaps.
#[derive(Default)]
struct Checked {
    /// The part, if it is one, begins here.
    part: Option<At>,
    spans: Vec<Vec<Span>>,
    limits: Vec<Vec<Limit>>,
    changes: Vec<Vec<Change>>,
    /// The last span of a thread's last life.
    last: Vec<Option<Span>>,
    ticks: u64,
    /// Lives of best-effort threads.
    efforts: u64,
    /// Limits that rise, and limits that fall back.
    rises: u64,
    falls: u64,
    /// Spans that a change alone parts from the one before.
    parted: u64,
    gaps: u64,
}

impl Checked {
    fn new(part: Option<At>) -> Checked {
        Checked {
            part,
            spans: vec![Vec::new(); THREADS],
            limits: vec![Vec::new(); THREADS],
            changes: vec![Vec::new(); THREADS],
            last: vec![None; THREADS],
            ..Checked::default()
        }
    }
}

/// What a reserved thread reserves at the end.
fn at_the_end(life: &Life) -> u64 {
    match life.class {
        Class::Reserved { reservation, .. } => reservation,
        Class::BestEffort { .. } => panic!("thread {} reserves nothing", life.thread),
    }
}

/// What a thread reserves from a time on.
fn reserved(life: &Life, changes: &[Change], time: u64) -> u64 {
    match changes.iter().rev().find(|c| c.at.time <= time) {
        Some(last) => last.new,
        None => changes.first().map_or(at_the_end(life), |next| next.old),
    }
}

/// A life's changes follow each other and lead to what it reserves at its end.
fn checked_changes(life: &Life, changes: &[Change]) {
    let mut before: Option<Change> = None;
    for c in changes {
        if let Some(before) = before {
            assert_eq!((before.new, before.new_bound), (c.old, c.old_bound));
            assert!(before.record < c.record && before.at <= c.at);
        }
        assert_eq!(c.old_bound, bound(c.old, life.settings));
        assert_eq!(c.new_bound, bound(c.new, life.settings));
        before = Some(*c);
    }
    assert!(before.is_none_or(|last| last.new == at_the_end(life)));
    assert_eq!(life.bound, bound(at_the_end(life), life.settings));
}

/// Limits of a life: they follow each other, rise by the reservation of the time
/// or not at all, and else go to the bare bound of it alone. Answers how many rise
/// and how often they go there.
fn checked_limits(life: &Life, limits: &[Limit], changes: &[Change], whole: bool) -> (u64, u64) {
    let (mut rises, mut falls) = (0, 0);
    let mut before: Option<Limit> = None;
    for limit in limits {
        assert_eq!(limit.from, before.map_or(life.from, |before| before.end()));
        // A part may touch one at its edge, on the other side of a change.
        if !limit.is_empty() || whole {
            let f = reserved(life, changes, limit.from.time);
            assert!(limit.slope == 0 || limit.slope == f as i64);
            assert_eq!(limit.bare, bound(f, life.settings));
        }
        assert!(limit.bound >= limit.bare);
        for c in changes {
            if limit.from.time < c.at.time && c.at.time < limit.to {
                assert_eq!((c.new_bound, limit.slope), (limit.bound, 0));
            }
        }
        rises += u64::from(limit.slope > 0);
        match before {
            None => assert!(!whole || limit.bound == limit.bare),
            Some(before) if before.last_bound() == limit.bound => {}
            Some(_) => {
                assert_eq!(limit.bound, limit.bare);
                falls += 1;
            }
        }
        before = Some(*limit);
    }
    assert_eq!(before.map(|last| last.to), Some(life.to));
    (rises, falls)
}

/// The slope of a span is that of the reservation of the time; where that changes
/// the lag is 0, and a change within a span changes nothing of it. Whether a
/// change alone parts it from the one before.
fn checked_slope(life: &Life, span: &Span, before: Option<Span>, changes: &[Change]) -> bool {
    let f = reserved(life, changes, span.from.time) as i64;
    let slope = match span.what {
        What::Run => f - 1000,
        What::Wait => f,
        What::Blocked => 0,
    };
    assert_eq!(span.slope, slope);
    for c in changes {
        let within = span.from.time < c.at.time && c.at.time < span.to;
        assert!(span.from != c.at || span.lag == 0);
        // Of several at a time the first and the last count.
        let last = changes.iter().rev().find(|last| last.at == c.at);
        let first = changes.iter().find(|first| first.at == c.at);
        let (Some(first), Some(last)) = (first, last) else {
            continue;
        };
        if within && span.what == What::Blocked {
            assert_eq!(first.old_bound, last.new_bound);
        } else if within {
            let gone = (c.at.time - span.from.time) as i64;
            assert_eq!((first.old, span.lag + span.slope * gone), (last.new, 0));
        }
    }
    let begins = Begun {
        time: span.from.time,
        record: span.record,
    };
    let parted = span.begun.time < begins.time;
    match before {
        Some(before) if parted => {
            assert_eq!((span.what, span.begun), (before.what, before.begun));
            assert!(changes.iter().any(|c| c.at == span.from));
        }
        // A record at the same time may have begun it, before the change.
        _ => assert!(span.begun.time == begins.time && span.begun.record <= begins.record),
    }
    parted
}

/// The bound at the ends of a span is that of the limits there.
fn within(span: &Span, limits: &[Limit]) {
    let (from, to) = (span.from.time, span.to);
    let at = |limit: &Limit, time: u64| limit.bound + limit.slope * (time - limit.from.time) as i64;
    let first = limits.iter().find(|l| l.from.time <= from && from < l.to);
    let last = limits.iter().find(|l| l.from.time < to && to <= l.to);
    assert_eq!(first.map(|l| at(l, from)), Some(span.bound));
    assert_eq!(last.map(|l| at(l, to)), Some(span.last_bound));
    // The share guarantee, with others' overruns.
    assert!(span.lag <= span.bound && span.last_lag() <= span.last_bound);
}

impl Sink for Checked {
    fn span(&mut self, span: &Span) {
        assert!(span.to > span.from.time);
        if span.what == What::Run {
            self.ticks += span.to - span.from.time;
        }
        if span.what == What::Blocked {
            assert_eq!((span.lag, span.slope), (0, 0));
        }
        self.spans[span.thread as usize].push(*span);
    }

    fn overrun(&mut self, o: &Overrun) {
        assert!(o.length() > 0);
    }

    fn limit(&mut self, limit: &Limit) {
        self.limits[limit.thread as usize].push(*limit);
    }

    fn change(&mut self, c: &Change) {
        self.changes[c.thread as usize].push(*c);
    }

    fn life(&mut self, life: &Life) {
        let n = life.thread as usize;
        let limits = std::mem::take(&mut self.limits[n]);
        let changes = std::mem::take(&mut self.changes[n]);
        let spans = std::mem::take(&mut self.spans[n]);
        let effort = life.class.is_best_effort();
        if effort {
            // It has no lag.
            self.efforts += 1;
            assert!(limits.is_empty() && changes.is_empty() && life.bound == 0);
        } else {
            checked_changes(life, &changes);
            let whole = self.part.is_none();
            let (rises, falls) = checked_limits(life, &limits, &changes, whole);
            (self.rises, self.falls) = (self.rises + rises, self.falls + falls);
        }
        let mut at = life.from;
        let mut before: Option<Span> = None;
        for span in &spans {
            // Spans follow each other without a hole.
            assert_eq!(span.from, at);
            at = span.end();
            assert_eq!(span.best_effort, effort);
            if effort {
                assert_eq!((span.lag, span.slope), (0, 0));
                assert_eq!((span.bound, span.last_bound), (0, 0));
            } else {
                within(span, &limits);
                self.parted += u64::from(checked_slope(life, span, before, &changes));
            }
            // Lag goes on or is counted afresh, and like spans are one.
            if let Some(before) = before {
                let goes_on = (span.lag, span.bound) == (before.last_lag(), before.last_bound);
                assert!(goes_on || span.lag == 0);
                let alike = (span.what, span.slope) == (before.what, before.slope);
                assert!(!alike || !goes_on);
            }
            before = Some(*span);
        }
        assert_eq!(at.time, life.to);
        self.last[n] = before;
    }

    fn gap(&mut self, gap: &Gap) {
        assert_eq!(gap.at.gaps, self.gaps);
        assert!(gap.first <= gap.last && gap.damaged <= gap.last - gap.first + 1);
        self.gaps += 1;
    }

    fn end(&mut self, at: At, _: Option<u8>) {
        assert_eq!(at.gaps, self.gaps);
        assert!(self.spans.iter().all(Vec::is_empty));
        // Every tick of every accepted report fell to one thread.
        assert_eq!(self.ticks, at.time - self.part.unwrap_or_default().time);
    }
}

/// The survey and the state at the end agree.
fn agree(journal: &[u8], checked: &Checked) {
    let survey = surveyed(journal, &Window::whole());
    let (journal, quiet) = (Journal::whole(journal), &mut Progress::silent());
    let state = play::<Proved>(journal, quiet, |_, _| ControlFlow::Continue(()));
    for n in 0..THREADS as u8 {
        let t = &survey.threads[n as usize];
        let stays = matches!(t.end, Some(End::Stays(_)));
        let Some(state) = &state else {
            assert!(!stays);
            continue;
        };
        assert_eq!(stays, state.class(n).is_some());
        if stays {
            assert_eq!(Some(t.share), state.share(n));
            let class = match t.best_effort {
                true => survey
                    .fairness
                    .portion(n)
                    .map(|p| Class::BestEffort { weight: p.weight }),
                false => Some(Class::Reserved {
                    reservation: t.reserved.last,
                    group: t.group,
                }),
            };
            assert_eq!(class, state.class(n));
            if let Some(span) = checked.last[n as usize] {
                let lag = state.lag(n);
                assert!(lag == 0 || span.to < survey.to.time || lag == span.last_lag());
            }
        }
    }
}

/// A journal with long lives and an overrun limit.
fn late_journal(r: &mut Rng, records: usize) -> Vec<u8> {
    let (m, p) = (r.range(2, 1000), r.range(1, 20_000));
    let o = r.range(1, m - 1);
    let mut out = vec![records::start(m as u16, p as u32, o as u16)];
    let mut s = Scheduler::start(m, p, o).unwrap();
    while out.len() < records {
        let call = random::call(r, &s);
        let ends =
            matches!(call, Call::Remove { .. }) || matches!(call, Call::Report { reason: 3, .. });
        if ends && !r.chance(1, 20) {
            continue;
        }
        calls::apply(&mut s, call);
        out.push(calls::record(call));
    }
    records::journal(&out)
}

#[test]
fn spans_are_whole_and_within_the_bound() {
    let mut r = Rng::new(20);
    let (mut efforts, mut parted, mut rises, mut falls) = (0, 0, 0, 0);
    for i in 0..300 {
        let journal = match i % 20 {
            0 => late_journal(&mut r, 1500),
            _ => random::journal(&mut r),
        };
        let checked = tracked(&journal, &Window::whole(), Checked::new(None));
        agree(&journal, &checked);
        (efforts, parted) = (efforts + checked.efforts, parted + checked.parted);
        (rises, falls) = (rises + checked.rises, falls + checked.falls);
    }
    assert!(efforts > 200 && parted > 200, "{efforts} {parted}");
    assert!(rises > 2000 && falls > 200, "{rises} {falls}");
}

#[test]
fn parts_are_whole_and_keep_the_bounds() {
    let mut r = Rng::new(22);
    let (mut rises, mut parted) = (0, 0);
    for _ in 0..60 {
        let journal = late_journal(&mut r, 200);
        let end = surveyed(&journal, &Window::whole()).to.time;
        let mut edges = [r.below(end + 1), r.below(end + 1)];
        edges.sort_unstable();
        for (from, to) in [(0, edges[0]), (edges[0], edges[1]), (edges[1], end)] {
            let window = between(from, to);
            let checked = tracked(&journal, &window, Checked::new(Some(window.from)));
            (rises, parted) = (rises + checked.rises, parted + checked.parted);
        }
    }
    assert!(rises > 2000 && parted > 50, "{rises} {parted}");
}
