//! The part of a journal that is looked at, cut out of the whole.

use crate::codec::THREADS;
use crate::engine::Class;

use super::sink::{
    At, Begun, Change, Effort, End, Gap, Life, Limit, Moment, Overrun, Refused, Sink, Span, What,
};

/// The part of a journal that is looked at.
#[derive(Clone, Copy, Debug)]
pub struct Window {
    pub from: At,
    pub to: At,
    /// Numbers of the first and the last record in it.
    pub(super) records: (u64, u64),
    pub(super) threads: [bool; THREADS],
}

impl Window {
    /// Everything.
    pub fn whole() -> Window {
        let most = u64::MAX;
        Window {
            from: At::default(),
            to: At {
                time: most,
                gaps: most,
            },
            records: (0, most),
            threads: [true; THREADS],
        }
    }

    fn shows(&self, thread: u8) -> bool {
        self.threads
            .get(thread as usize)
            .is_some_and(|&shown| shown)
    }

    fn holds(&self, at: At, record: u64) -> bool {
        (self.from..=self.to).contains(&at) && (self.records.0..=self.records.1).contains(&record)
    }

    /// It has ended before a record at a time.
    fn ended(&self, at: At, record: u64) -> bool {
        at > self.to || (at == self.to && record > self.records.1)
    }

    /// The part of a stretch of time that lies in it.
    fn part(&self, from: u64, to: u64) -> (u64, u64) {
        (from.max(self.from.time), to.min(self.to.time))
    }

    /// The part, perhaps without length, of a thread's time in the list, if the
    /// thread is shown and there is one.
    fn lived(&self, thread: u8, from: At, to: u64) -> Option<(At, u64)> {
        let end = At { time: to, ..from };
        let there = self.shows(thread) && end >= self.from && from <= self.to;
        let (time, to) = self.part(from.time, to);
        there.then_some((At { time, ..from }, to))
    }
}

/// Hands on what lies in a window.
pub struct Clip<'a, S: Sink> {
    window: &'a Window,
    sink: &'a mut S,
    /// Ticks of all overruns before the window and up to its end.
    overruns: (u64, u64),
    /// What a thread reserves at the window's end if it is changed after it.
    reserved: [Option<u64>; THREADS],
}

impl<'a, S: Sink> Clip<'a, S> {
    pub fn new(window: &'a Window, sink: &'a mut S) -> Clip<'a, S> {
        Clip {
            window,
            sink,
            overruns: (0, 0),
            reserved: [None; THREADS],
        }
    }
}

impl Span {
    /// The bound of the lag where so many ticks of overruns lie before. While a
    /// thread waits it grows with them.
    fn bound_after(&self, overruns: u64) -> i64 {
        match self.what {
            What::Wait => self.bound + self.slope * (overruns - self.overruns) as i64,
            What::Run | What::Blocked => self.bound,
        }
    }
}

impl<S: Sink> Sink for Clip<'_, S> {
    fn block(&mut self, place: u64, refusal: Option<u32>) {
        self.sink.block(place, refusal);
    }

    fn record(&mut self, moment: &Moment) {
        let w = self.window;
        let (first, last) = w.records;
        let numbered = (first..=last).contains(&moment.number);
        if numbered && moment.after >= w.from && moment.before <= w.to {
            self.sink.record(moment);
        }
    }

    fn span(&mut self, span: &Span) {
        let (from, to) = self.window.part(span.from.time, span.to);
        if from < to && self.window.shows(span.thread) {
            let cut = (from - span.from.time) as i64;
            let mut part = Span {
                from: At {
                    time: from,
                    ..span.from
                },
                to,
                lag: span.lag + span.slope * cut,
                ..*span
            };
            if cut > 0 {
                part.bound = span.bound_after(self.overruns.0);
                part.overruns = self.overruns.0;
            }
            part.begun = Begun {
                time: span.begun.time.max(self.window.from.time),
                ..span.begun
            };
            if to < span.to {
                part.last_bound = span.bound_after(self.overruns.1);
            }
            self.sink.span(&part);
        }
    }

    fn overrun(&mut self, o: &Overrun) {
        let w = self.window;
        let up_to = |edge: u64| edge.clamp(o.from.time, o.to) - o.from.time;
        self.overruns.0 += up_to(w.from.time);
        self.overruns.1 += up_to(w.to.time);
        let (from, to) = w.part(o.from.time, o.to);
        if from < to && w.shows(o.thread) {
            self.sink.overrun(&Overrun {
                from: At {
                    time: from,
                    ..o.from
                },
                to,
                ..*o
            });
        }
    }

    fn limit(&mut self, limit: &Limit) {
        if let Some((from, to)) = self.window.lived(limit.thread, limit.from, limit.to) {
            let cut = (from.time - limit.from.time) as i64;
            self.sink.limit(&Limit {
                from,
                to,
                bound: limit.bound + limit.slope * cut,
                ..*limit
            });
        }
    }

    fn dispatch(&mut self, thread: u8, at: At, record: u64) {
        if self.window.shows(thread) && self.window.holds(at, record) {
            self.sink.dispatch(thread, at, record);
        }
    }

    fn empty_run(&mut self, thread: u8, at: At, record: u64) {
        if self.window.shows(thread) && self.window.holds(at, record) {
            self.sink.empty_run(thread, at, record);
        }
    }

    fn change(&mut self, c: &Change) {
        if self.window.shows(c.thread) && self.window.holds(c.at, c.record) {
            self.sink.change(c);
        }
        if self.window.ended(c.at, c.record) {
            self.reserved[c.thread as usize].get_or_insert(c.old);
        }
    }

    fn life(&mut self, life: &Life) {
        let mut class = life.class;
        let reserved = self.reserved[life.thread as usize].take();
        if let (Class::Reserved { reservation, .. }, Some(reserved)) = (&mut class, reserved) {
            *reservation = reserved;
        }
        if let Some((from, to)) = self.window.lived(life.thread, life.from, life.to) {
            self.sink.life(&Life {
                from,
                to,
                class,
                bound: class.bound(life.settings),
                end: match life.to > self.window.to.time {
                    true => End::Later,
                    false => life.end,
                },
                ..*life
            });
        }
    }

    fn effort(&mut self, thread: u8, at: At, effort: Effort) {
        let w = self.window;
        match effort {
            Effort::Ran { to } => {
                let (time, to) = w.part(at.time, to);
                if time < to {
                    self.sink
                        .effort(thread, At { time, ..at }, Effort::Ran { to });
                }
            }
            _ if at <= w.to => self.sink.effort(thread, at, effort),
            _ => {}
        }
    }

    fn wake(&mut self, thread: u8, at: At, record: u64) {
        if self.window.shows(thread) && self.window.holds(at, record) {
            self.sink.wake(thread, at, record);
        }
    }

    fn idle(&mut self, at: At, record: u64) {
        if self.window.holds(at, record) {
            self.sink.idle(at, record);
        }
    }

    fn refusal(&mut self, refused: &Refused) {
        if self.window.holds(refused.at, refused.number) {
            self.sink.refusal(refused);
        }
    }

    fn start(&mut self, at: At, record: u64) {
        if self.window.holds(at, record) {
            self.sink.start(at, record);
        }
    }

    fn group(&mut self, group: u8, at: At, opened: Option<(u8, u64)>) {
        if at <= self.window.to {
            self.sink.group(group, at, opened);
        }
    }

    fn gap(&mut self, gap: &Gap) {
        let (from, to) = (self.window.from.gaps, self.window.to.gaps);
        if (from..to).contains(&gap.at.gaps) {
            self.sink.gap(gap);
        }
    }

    fn end(&mut self, at: At, running: Option<u8>) {
        let whole = at <= self.window.to;
        let running = running.filter(|&n| whole && self.window.shows(n));
        self.sink.end(at.min(self.window.to), running);
    }
}
