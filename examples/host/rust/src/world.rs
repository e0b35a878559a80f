//! The loop, and what the simulated threads do in it.

use std::io;

use mtr::{Dispatch, Event, PriorityTable, Reason, Refusal, Settings};

use crate::host::{Debt, Host, Spare, Stretch};
use crate::lab::{self, LAB, LAB_CEILING};
use crate::tasks::{reservation_of, Claim, ARCHIVE, EXPORTER, PRINTER, READOUT, TASKS, VIEWER};

/// Readout during a method change, and the archive, which makes room for it.
const RAISED: u16 = 700;
const LOWERED: u16 = 50;

/// The most ticks that the timer fires after the end of a slice: the overrun
/// limit that the scheduler is started with.
const LATEST: u16 = 50;

/// A step of the run, between a report and the next dispatch: nothing runs.
type Step = fn(&mut World, &mut Host) -> io::Result<()>;

/// The steps of the run, by quarters of the sample's time.
const STEPS: [(u64, Step); 5] = [
    (1, World::raise_readout),
    (2, World::reconnect),
    (3, World::restore_readout),
    (4, World::end_sample),
    (6, World::begin_sample),
];

pub struct World {
    clock: u64,
    random: u64,
    /// What the lab's priorities are worth.
    priorities: PriorityTable,
    /// Ticks left of each task's burst, none if it has no end.
    left: [Option<u32>; TASKS.len()],
    /// When each task is woken.
    due: [Option<u64>; TASKS.len()],
    /// The largest debt of each task.
    debts: [Debt; TASKS.len()],
    /// How many steps of the run are done.
    steps: usize,
    /// Whether a sample is measured, and who is blocked until the next one.
    measuring: bool,
    waits: [bool; TASKS.len()],
    /// Readout before, in and after its method change, and in the next sample.
    stretches: Vec<Stretch>,
    /// Ticks of each best-effort task.
    spare: [u64; TASKS.len()],
}

impl World {
    pub fn new(seed: u64) -> World {
        World {
            clock: 0,
            random: seed,
            priorities: PriorityTable::standard(),
            left: [None; TASKS.len()],
            due: [None; TASKS.len()],
            debts: [Debt::default(); TASKS.len()],
            steps: 0,
            measuring: true,
            waits: [false; TASKS.len()],
            stretches: vec![stretch(reservation_of(READOUT))],
            spare: [0; TASKS.len()],
        }
    }

    pub fn debts(&self) -> &[Debt] {
        &self.debts
    }

    pub fn stretches(&self) -> &[Stretch] {
        &self.stretches
    }

    /// The best-effort threads with what they used.
    pub fn spares(&self) -> Vec<Spare> {
        (0..)
            .zip(&TASKS)
            .zip(&self.spare)
            .filter_map(|((thread, task), &ticks)| {
                let weight = task.weight()?;
                Some(Spare {
                    thread,
                    weight,
                    ticks,
                })
            })
            .collect()
    }

    /// The loop: wake who is due, dispatch, run, report.
    pub fn simulate(&mut self, host: &mut Host, sample: u64) -> io::Result<()> {
        let quarter = sample / 4;
        self.boot(host)?;
        let mut dispatches = 0;
        while self.clock < 7 * quarter {
            while let Some((at, step)) = STEPS.get(self.steps) {
                if self.clock < at * quarter {
                    break;
                }
                step(self, host)?;
                self.steps += 1;
            }
            self.wake_due(host)?;
            match host.accepted(Event::Dispatch)? {
                Some(Dispatch::Run { thread, slice, .. }) => {
                    dispatches += 1;
                    if dispatches % 16 == 0 {
                        confuse(host, thread, slice)?;
                    }
                    self.run(host, thread, slice)?;
                }
                // Nobody can run, of either kind: sleep until the next wake.
                _ => match self.due.iter().flatten().min() {
                    Some(&next) => self.clock = next,
                    None => break,
                },
            }
        }
        Ok(())
    }

    /// Power-up, and mistakes that a host can make: each of those is refused
    /// and changes nothing.
    fn boot(&mut self, host: &mut Host) -> io::Result<()> {
        let settings = Settings {
            overrun: LATEST,
            ..Settings::default()
        };
        let lab = Event::Open {
            group: LAB,
            parent: 0,
            ceiling: LAB_CEILING,
        };
        for event in [
            Event::Start(Settings {
                thousandth: 0,
                overrun: 0,
                ..settings
            }),
            Event::Start(Settings {
                overrun: settings.thousandth,
                ..settings
            }),
            Event::Start(settings),
            Event::Dispatch,
            Event::Report { reason: 0, used: 1 },
            Event::Open {
                group: LAB,
                parent: 2,
                ceiling: LAB_CEILING,
            },
            lab,
            lab,
            Event::Open {
                group: 2,
                parent: 0,
                ceiling: 1_001,
            },
        ] {
            let _refused_or_not = host.call(event)?;
        }
        self.priorities = lab::table();
        for thread in 0..TASKS.len() as u8 {
            self.admit(host, thread)?;
        }
        for event in [
            Event::Admit {
                thread: READOUT,
                group: 0,
                reservation: 1,
            },
            Event::Admit {
                thread: 64,
                group: 0,
                reservation: 1,
            },
            Event::Admit {
                thread: TASKS.len() as u8,
                group: LAB,
                reservation: LAB_CEILING,
            },
            Event::Close { group: LAB },
            change(64, 1),
            change(READOUT, 1_001),
            admit_best_effort(64, 1),
            admit_best_effort(READOUT, 1),
            admit_best_effort(TASKS.len() as u8, 0),
            admit_best_effort(TASKS.len() as u8, 17),
            // The printer has no reservation to change.
            change(PRINTER, 1),
        ] {
            let _refused = host.call(event)?;
        }
        // Too early: the self-test still has its reservation.
        self.raise_readout(host)
    }

    /// A method change needs more readout. The archive makes room first; where
    /// there is still too little, it gets its reservation back, not what was cut of
    /// its turn, and readout goes on with what it has. A running thread can't be
    /// changed, so this is done between a report and a dispatch.
    fn raise_readout(&mut self, host: &mut Host) -> io::Result<()> {
        host.accepted(change(ARCHIVE, LOWERED))?;
        let answer = host.call(change(READOUT, RAISED))?;
        if answer == Err(Refusal::NoRoom) {
            host.accepted(change(ARCHIVE, reservation_of(ARCHIVE)))?;
            let kept = reservation_of(READOUT);
            eprintln!("controller: no room for {RAISED}, readout goes on with {kept}");
            return Ok(());
        }
        answer.map_err(io::Error::other)?;
        self.stretches.push(stretch(RAISED));
        Ok(())
    }

    /// After the method change: readout goes back first, so that the archive has
    /// room.
    fn restore_readout(&mut self, host: &mut Host) -> io::Result<()> {
        if self.stretches.len() != 2 {
            return Ok(());
        }
        for thread in [READOUT, ARCHIVE] {
            host.accepted(change(thread, reservation_of(thread)))?;
        }
        self.stretches.push(stretch(reservation_of(READOUT)));
        Ok(())
    }

    /// The lab's network is set up again: its threads and its group go and come
    /// back.
    fn reconnect(&mut self, host: &mut Host) -> io::Result<()> {
        for event in [
            Event::Remove { thread: VIEWER },
            Event::Remove { thread: EXPORTER },
            Event::Close { group: LAB },
            Event::Open {
                group: LAB,
                parent: 0,
                ceiling: LAB_CEILING,
            },
        ] {
            host.accepted(event)?;
        }
        self.admit(host, VIEWER)?;
        self.admit(host, EXPORTER)
    }

    /// The sample is done: who measures has some ticks to do yet and then blocks.
    fn end_sample(&mut self, _: &mut Host) -> io::Result<()> {
        self.measuring = false;
        for (n, task) in TASKS.iter().enumerate() {
            if task.measures {
                self.left[n] = Some(self.between((500, 2_000)));
            }
        }
        Ok(())
    }

    /// The next sample: who measures is due now.
    fn begin_sample(&mut self, _: &mut Host) -> io::Result<()> {
        self.measuring = true;
        for n in 0..TASKS.len() {
            if self.waits[n] {
                self.due[n] = Some(self.clock);
            }
        }
        Ok(())
    }

    fn wake_due(&mut self, host: &mut Host) -> io::Result<()> {
        for thread in 0..TASKS.len() as u8 {
            let n = thread as usize;
            if self.due[n].is_some_and(|due| due <= self.clock) {
                host.accepted(Event::Wake { thread })?;
                if thread == READOUT {
                    self.stretches.push(stretch(reservation_of(READOUT)));
                }
                self.waits[n] = false;
                self.due[n] = None;
            }
        }
        Ok(())
    }

    fn admit(&mut self, host: &mut Host, thread: u8) -> io::Result<()> {
        host.accepted(match TASKS[thread as usize].claim {
            Claim::Reserved(reservation) => Event::Admit {
                thread,
                group: 0,
                reservation,
            },
            Claim::Imported(priority) => Event::Admit {
                thread,
                group: LAB,
                reservation: self
                    .priorities
                    .reservation_of(priority)
                    .map_err(io::Error::other)?,
            },
            Claim::BestEffort(weight) => admit_best_effort(thread, weight),
        })?;
        self.begin_burst(thread as usize);
        Ok(())
    }

    fn begin_burst(&mut self, thread: usize) {
        self.left[thread] = TASKS[thread].burst.map(|range| self.between(range));
        self.due[thread] = None;
    }

    /// Runs the thread until the timer fires, its burst ends or another is to be
    /// woken, and reports. The timer is set to the end of the slice and fires
    /// some ticks later.
    fn run(&mut self, host: &mut Host, thread: u8, slice: u32) -> io::Result<()> {
        let n = thread as usize;
        let task = &TASKS[n];
        let fires = slice + self.between((0, LATEST.into()));
        let mut used = fires.min(self.left[n].unwrap_or(u32::MAX));
        if let Some(next) = self.due.iter().flatten().min() {
            used = used.min((next - self.clock).try_into().unwrap_or(u32::MAX));
        }
        self.clock += used as u64;
        if let Some(left) = &mut self.left[n] {
            *left -= used;
        }
        if self.left[n] != Some(0) {
            return self.end_run(host, n, Reason::Tick, used);
        }
        self.waits[n] = task.measures && !self.measuring;
        let reason = if self.waits[n] {
            Reason::Block
        } else {
            task.reason
        };
        self.end_run(host, n, reason, used)?;
        self.begin_burst(n);
        if task.reason == Reason::Block {
            let pause = self.between(task.pause);
            let factor = if self.between((0, 7)) == 0 {
                task.late
            } else {
                1
            };
            self.due[n] = Some(self.clock + (pause * factor) as u64);
        }
        Ok(())
    }

    /// Reports all ticks that the running thread used, those beyond its slice
    /// too, and notes them and what it owes for them.
    fn end_run(&mut self, host: &mut Host, n: usize, reason: Reason, used: u32) -> io::Result<()> {
        let best_effort = TASKS[n].weight().is_some();
        let owed = if best_effort {
            0
        } else {
            used as i32 - host.allotment(n)
        };
        let reason = reason.number();
        host.accepted(Event::Report { reason, used })?;
        if owed > self.debts[n].owed {
            let left = host.allotment(n);
            self.debts[n] = Debt { owed, left };
        }
        let used = u64::from(used);
        if best_effort {
            self.spare[n] += used;
        }
        // The report with which readout blocks is in no stretch.
        let reading = !self.waits[usize::from(READOUT)];
        if let Some(stretch) = self.stretches.last_mut().filter(|_| reading) {
            stretch.all += used;
            stretch.own += if n == READOUT.into() { used } else { 0 };
        }
        Ok(())
    }

    /// SplitMix64, from the first to the second.
    fn between(&mut self, (low, high): (u32, u32)) -> u32 {
        self.random = self.random.wrapping_add(0x9e37_79b9_7f4a_7c15);
        let mut z = self.random;
        z = (z ^ (z >> 30)).wrapping_mul(0xbf58_476d_1ce4_e5b9);
        z = (z ^ (z >> 27)).wrapping_mul(0x94d0_49bb_1331_11eb);
        z ^= z >> 31;
        low + (z % (high - low + 1) as u64) as u32
    }
}

fn change(thread: u8, reservation: u16) -> Event {
    Event::Change {
        thread,
        reservation,
    }
}

fn admit_best_effort(thread: u8, weight: u16) -> Event {
    Event::AdmitBestEffort { thread, weight }
}

/// A stretch that begins.
fn stretch(reservation: u16) -> Stretch {
    Stretch {
        reservation,
        ..Stretch::default()
    }
}

/// What a confused driver does while a thread runs: all of it is refused.
fn confuse(host: &mut Host, running: u8, slice: u32) -> io::Result<()> {
    for event in [
        Event::Dispatch,
        Event::Wake { thread: running },
        Event::Remove { thread: running },
        change(running, 1),
        Event::Report {
            reason: Reason::Exit.number() + 1,
            used: 0,
        },
        Event::Report {
            reason: Reason::Tick.number(),
            used: slice + u32::from(LATEST) + 1,
        },
    ] {
        let _refused = host.call(event)?;
    }
    Ok(())
}
