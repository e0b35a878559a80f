//! The scheduler as a value with methods.

use crate::refusal::{accepted, refused};
use crate::{numbers, raw, Dispatch, Entry, Event, Reason, Refusal, Settings};

/// A move-to-rear list scheduler.
///
/// A call that is refused leaves it as it was. Arguments have the types of
/// event records, so that every call can be journalled as an [`Event`].
///
/// ```
/// use mtr::{Dispatch, Reason, Refusal, Scheduler, Settings};
///
/// let mut scheduler = Scheduler::new(Settings::default())?;
/// scheduler.admit(5, 0, 500)?;
/// scheduler.admit(7, 0, 100)?;
/// assert_eq!(scheduler.admit(8, 0, 401), Err(Refusal::NoRoom));
///
/// let Dispatch::Run { thread, slice, .. } = scheduler.dispatch()? else {
///     panic!("two threads are runnable");
/// };
/// assert_eq!((thread, slice), (5, 20_000));
/// scheduler.report(Reason::Block, 12_000)?;
///
/// // Thread 5 keeps its place in the list while it is blocked.
/// let run = Dispatch::Run { thread: 7, slice: 10_000, before: 1 };
/// assert_eq!(scheduler.dispatch()?, run);
/// # Ok::<(), Refusal>(())
/// ```
#[derive(Clone, Debug, PartialEq, Eq)]
pub struct Scheduler {
    state: raw::Scheduler,
}

impl Default for Scheduler {
    /// A scheduler with the default settings, which are in their ranges.
    fn default() -> Self {
        Scheduler {
            state: start(Settings::default()).state,
        }
    }
}

impl Scheduler {
    /// A scheduler with no threads and group 0 open. Refused with
    /// [`Settings`](Refusal::Settings) if one of them is outside its range.
    pub fn new(settings: Settings) -> Result<Scheduler, Refusal> {
        let reply = start(settings);
        accepted(reply.answer)?;
        Ok(Scheduler { state: reply.state })
    }

    /// Opens a group below an open parent of a lower number. Refused with
    /// [`NoGroup`](Refusal::NoGroup), [`GroupNumber`](Refusal::GroupNumber),
    /// [`Amount`](Refusal::Amount) or [`NoRoom`](Refusal::NoRoom).
    pub fn open(&mut self, group: u8, parent: u8, ceiling: u16) -> Result<(), Refusal> {
        self.take(numbers::open(
            self.state,
            group.into(),
            parent.into(),
            ceiling.into(),
        ))
    }

    /// Closes a group that has no thread and no child. Refused with
    /// [`NoGroup`](Refusal::NoGroup) or [`GroupInUse`](Refusal::GroupInUse).
    pub fn close(&mut self, group: u8) -> Result<(), Refusal> {
        self.take(numbers::close(self.state, group.into()))
    }

    /// Admits a thread to a group: runnable, with a full allotment, at the rear
    /// of the list. Refused with [`NoThread`](Refusal::NoThread),
    /// [`AlreadyAdmitted`](Refusal::AlreadyAdmitted),
    /// [`NoGroup`](Refusal::NoGroup), [`Amount`](Refusal::Amount) or
    /// [`NoRoom`](Refusal::NoRoom).
    pub fn admit(&mut self, thread: u8, group: u8, reservation: u16) -> Result<(), Refusal> {
        self.take(numbers::admit(
            self.state,
            thread.into(),
            group.into(),
            reservation.into(),
        ))
    }

    /// Admits a best-effort thread: runnable, in no group and outside the list.
    /// It is dispatched only while no reserved thread is runnable, for the
    /// preemption interval, and shares that time with the other best-effort
    /// threads by weight, 1 to 16. A thread of weight 2 gets twice what one of
    /// weight 1 gets, so long as both are runnable; while it is blocked it saves
    /// nothing up. It is woken, reported and removed like any other thread; its
    /// lag and allotment are 0. Refused with [`NoThread`](Refusal::NoThread),
    /// [`AlreadyAdmitted`](Refusal::AlreadyAdmitted) or
    /// [`Amount`](Refusal::Amount).
    ///
    /// ```
    /// use mtr::{Dispatch, Reason, Refusal, Scheduler};
    ///
    /// let mut scheduler = Scheduler::default();
    /// scheduler.admit(5, 0, 1000)?;
    /// scheduler.admit_best_effort(40, 1)?;
    /// assert_eq!(scheduler.admit_best_effort(41, 17), Err(Refusal::Amount));
    ///
    /// let run = |thread, before| Dispatch::Run { thread, slice: 20_000, before };
    /// assert_eq!(scheduler.dispatch()?, run(5, 0));
    /// scheduler.report(Reason::Block, 300)?;
    ///
    /// // The one reserved thread is blocked.
    /// assert_eq!(scheduler.dispatch()?, run(40, 1));
    /// scheduler.report(Reason::Block, 50)?;
    /// assert_eq!(scheduler.dispatch()?, Dispatch::Idle { before: 2 });
    /// # Ok::<(), Refusal>(())
    /// ```
    pub fn admit_best_effort(&mut self, thread: u8, weight: u16) -> Result<(), Refusal> {
        self.take(numbers::admit_best_effort(
            self.state,
            thread.into(),
            weight.into(),
        ))
    }

    /// Removes a thread that does not run. Refused with
    /// [`NoThread`](Refusal::NoThread) or
    /// [`ThreadRunning`](Refusal::ThreadRunning).
    pub fn remove(&mut self, thread: u8) -> Result<(), Refusal> {
        self.take(numbers::remove(self.state, thread.into()))
    }

    /// Makes a blocked thread runnable; it keeps its place and allotment. While
    /// a best-effort thread runs, a woken reserved one waits for the run in
    /// hand, and the next dispatch takes a reserved thread. Refused with
    /// [`NoThread`](Refusal::NoThread) or [`NotBlocked`](Refusal::NotBlocked).
    pub fn wake(&mut self, thread: u8) -> Result<(), Refusal> {
        self.take(numbers::wake(self.state, thread.into()))
    }

    /// Takes the first runnable thread of the list; where there is none, the
    /// runnable best-effort thread with the smallest tag, of equal ones the one
    /// with the lowest number; or is idle. Refused with
    /// [`Busy`](Refusal::Busy) or [`MeterFull`](Refusal::MeterFull).
    pub fn dispatch(&mut self) -> Result<Dispatch, Refusal> {
        let reply = numbers::dispatch(self.state);
        let (before, slice) = (reply.before, reply.slice);
        let dispatch = match reply.thread {
            raw::NO_THREAD => Dispatch::Idle { before },
            thread => Dispatch::Run {
                thread: thread as u8,
                slice,
                before,
            },
        };
        self.take(reply)?;
        Ok(dispatch)
    }

    /// Charges the running thread the ticks used and ends its run. Refused with
    /// [`NothingRunning`](Refusal::NothingRunning) or
    /// [`OverSlice`](Refusal::OverSlice).
    ///
    /// What is used beyond the slice is an overrun; the setting
    /// [`overrun`](Settings::overrun) limits it. All ticks used are charged.
    /// Where they exceed the allotment the thread is in debt: it moves to the
    /// rear, and its next allotment is its quantum less the debt.
    ///
    /// ```
    /// use mtr::{Dispatch, Reason, Refusal, Scheduler, Settings};
    ///
    /// let settings = Settings { thousandth: 10, interval: 1000, overrun: 9 };
    /// let mut scheduler = Scheduler::new(settings)?;
    /// scheduler.admit(5, 0, 10)?;
    /// let run = |slice| Dispatch::Run { thread: 5, slice, before: 0 };
    ///
    /// assert_eq!(scheduler.dispatch()?, run(100));
    /// let late = scheduler.report(Reason::Tick, 110);
    /// assert_eq!(late, Err(Refusal::OverSlice));
    /// scheduler.report(Reason::Tick, 109)?;
    ///
    /// // It owed 9 ticks of its next 100.
    /// assert_eq!(scheduler.dispatch()?, run(91));
    /// # Ok::<(), Refusal>(())
    /// ```
    pub fn report(&mut self, reason: Reason, used: u32) -> Result<(), Refusal> {
        self.take(numbers::report(
            self.state,
            reason.number().into(),
            used.into(),
        ))
    }

    /// Changes the reservation of a reserved thread that does not run. It keeps
    /// its place, and stays blocked if it is. Its allotment is cut to the new
    /// quantum if it is larger and never raised: less holds at once, and more
    /// when the allotment is next renewed, after what the thread has left. Its
    /// lag is counted afresh from here; its share goes on. What it reserves now
    /// stands in [`as_raw`](Scheduler::as_raw). Refused with
    /// [`NoThread`](Refusal::NoThread), also of a best-effort thread,
    /// [`ThreadRunning`](Refusal::ThreadRunning),
    /// [`Amount`](Refusal::Amount) or [`NoRoom`](Refusal::NoRoom); what the
    /// thread has already counts as free.
    ///
    /// ```
    /// use mtr::{Refusal, Scheduler};
    ///
    /// let mut scheduler = Scheduler::default();
    /// scheduler.admit(5, 0, 500)?;
    /// scheduler.admit(7, 0, 100)?;
    ///
    /// // 400 are free, and 500 of its own.
    /// assert_eq!(scheduler.change(5, 901), Err(Refusal::NoRoom));
    /// scheduler.change(5, 900)?;
    /// scheduler.change(5, 500)?;
    /// # Ok::<(), Refusal>(())
    /// ```
    pub fn change(&mut self, thread: u8, reservation: u16) -> Result<(), Refusal> {
        self.take(numbers::change(
            self.state,
            thread.into(),
            reservation.into(),
        ))
    }

    /// Makes the call of an event. An accepted start replaces the state; only a
    /// dispatch has something to tell. Refused as the call is, and a report
    /// also with [`Reason`](Refusal::Reason).
    ///
    /// ```
    /// use mtr::{Dispatch, Event, Refusal, Scheduler};
    ///
    /// let mut scheduler = Scheduler::default();
    /// let idle = Dispatch::Idle { before: 0 };
    /// assert_eq!(scheduler.call(Event::Dispatch), Ok(Some(idle)));
    /// let wake = Event::Wake { thread: 9 };
    /// assert_eq!(scheduler.call(wake), Err(Refusal::NoThread));
    /// ```
    pub fn call(&mut self, event: Event) -> Result<Option<Dispatch>, Refusal> {
        match event {
            Event::Open {
                group,
                parent,
                ceiling,
            } => self.open(group, parent, ceiling)?,
            Event::Close { group } => self.close(group)?,
            Event::Admit {
                thread,
                group,
                reservation,
            } => self.admit(thread, group, reservation)?,
            Event::Remove { thread } => self.remove(thread)?,
            Event::Wake { thread } => self.wake(thread)?,
            Event::Dispatch => return self.dispatch().map(Some),
            Event::Report { reason, used } => {
                self.take(numbers::report(self.state, reason.into(), used.into()))?
            }
            Event::Start(settings) => *self = Scheduler::new(settings)?,
            Event::Change {
                thread,
                reservation,
            } => self.change(thread, reservation)?,
            Event::AdmitBestEffort { thread, weight } => self.admit_best_effort(thread, weight)?,
        }
        Ok(None)
    }

    /// The state is sound. That of a started scheduler always is, so long as
    /// nothing else writes its memory; otherwise every call is refused with
    /// [`Unsound`](Refusal::Unsound).
    pub fn is_sound(&self) -> bool {
        numbers::sound(self.state)
    }

    /// Thousandths reserved in a group and in every group below it. Refused
    /// with [`NoGroup`](Refusal::NoGroup).
    pub fn subtree_total(&self, group: u8) -> Result<u16, Refusal> {
        let total = numbers::subtree(self.state, group.into());
        accepted(total.answer)?;
        Ok(total.thousandths as u16)
    }

    /// A thread's lag: reservation × (meter since its anchor) − 1000 × (its
    /// ticks since then), and 0 while it is blocked; 0 of a best-effort thread.
    /// The anchor is its admission, wake, yield or change of reservation,
    /// whichever came last. Refused with [`NoThread`](Refusal::NoThread).
    pub fn lag(&self, thread: u8) -> Result<i64, Refusal> {
        let lag = numbers::lag(self.state, thread.into());
        lag.result().map_err(refused)
    }

    /// A thread's ticks since its admission, in thousandths of the meter's
    /// growth since then, to the nearest, half to even; 0 if it has not grown.
    /// Refused with [`NoThread`](Refusal::NoThread).
    pub fn share(&self, thread: u8) -> Result<u32, Refusal> {
        let share = numbers::share(self.state, thread.into());
        accepted(share.answer)?;
        Ok(share.share)
    }

    /// Fills a table with every admitted thread, largest lag first, equal lags
    /// by smaller reservation (a best-effort thread counts as 0), then by
    /// lower number, and hands out the filled part. Entries past the last
    /// keep their contents. Refused with [`Length`](Refusal::Length) if the
    /// table is shorter than the number of threads.
    ///
    /// ```
    /// use mtr::{Entry, Refusal, Scheduler};
    ///
    /// let mut scheduler = Scheduler::default();
    /// scheduler.admit(3, 0, 200)?;
    /// let mut table = [Entry::default(); 64];
    /// for entry in scheduler.roster(&mut table)? {
    ///     println!("thread {} lags {}", entry.thread, entry.lag);
    /// }
    /// # Ok::<(), Refusal>(())
    /// ```
    pub fn roster<'t>(&self, table: &'t mut [Entry]) -> Result<&'t [Entry], Refusal> {
        let mut rows = [raw::Entry::default(); raw::THREADS];
        let length = table.len().min(raw::THREADS);
        accepted(numbers::roster(self.state, &mut rows[..length]))?;
        // Accepted, as many records are filled as there are threads.
        let admitted = self.state.threads.iter().filter(|t| t.status != 0);
        let filled = admitted.count().min(length);
        for (to, from) in table.iter_mut().zip(&rows[..filled]) {
            *to = Entry::of(from);
        }
        Ok(&table[..filled])
    }

    /// The settings.
    pub fn settings(&self) -> Settings {
        let held = self.state.settings;
        Settings {
            thousandth: held.thousandth,
            interval: held.interval,
            overrun: held.overrun,
        }
    }

    /// The sum of ticks in all accepted reports since the start.
    pub fn meter(&self) -> u64 {
        self.state.meter
    }

    /// The running thread.
    pub fn running(&self) -> Option<u8> {
        (self.state.running < raw::NO_THREAD).then_some(self.state.running as u8)
    }

    /// The list of all reserved threads, front first; empty if its length makes
    /// the state unsound. Best-effort threads stand outside it.
    pub fn list(&self) -> &[u8] {
        let count = self.state.count as usize;
        self.state.order.get(..count).unwrap_or_default()
    }

    /// A scheduler of a stored state. Any value is harmless: of a state that is
    /// not sound every call is refused with [`Unsound`](Refusal::Unsound).
    pub fn from_raw(state: raw::Scheduler) -> Scheduler {
        Scheduler { state }
    }

    /// The state as numbers, to be stored.
    pub fn as_raw(&self) -> &raw::Scheduler {
        &self.state
    }

    /// Takes over the state of an accepted call.
    fn take(&mut self, reply: raw::Reply) -> Result<(), Refusal> {
        accepted(reply.answer)?;
        self.state = reply.state;
        Ok(())
    }
}

fn start(settings: Settings) -> raw::Reply {
    numbers::start(
        settings.thousandth.into(),
        settings.interval.into(),
        settings.overrun.into(),
    )
}
