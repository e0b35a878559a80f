//! The scheduler state and its calls.
//!
//! Every public call on a state first tests that it is sound and answers 16
//! if it is not, so no call panics or overflows on any bit pattern. A refused
//! call leaves the state as it was.

mod sound;
mod state;

pub use state::*;

/// Reservation of a priority of 1 to 10.
pub fn priority(p: u64) -> Result<u32, u32> {
    if (1..=10).contains(&p) {
        Ok(p as u32 + 10)
    } else {
        Err(answer::AMOUNT)
    }
}

impl Default for Scheduler {
    /// The default settings and no threads.
    fn default() -> Self {
        Scheduler::fresh(Settings::default())
    }
}

/// The calls.
impl Scheduler {
    fn fresh(settings: Settings) -> Scheduler {
        let mut groups = [Group::CLOSED; GROUPS];
        groups[0] = Group::ROOT;
        Scheduler {
            threads: [Thread::UNUSED; THREADS],
            order: [0; THREADS],
            groups,
            meter: 0,
            time: 0,
            settings,
            count: 0,
            running: NONE,
        }
    }

    /// A fresh state with m, P and O.
    pub fn start(m: u64, p: u64, o: u64) -> Result<Scheduler, u32> {
        if m == 0
            || m > Settings::MAX_THOUSANDTH as u64
            || p == 0
            || p > Settings::MAX_INTERVAL as u64
            || o >= m
        {
            return Err(answer::SETTINGS);
        }
        Ok(Scheduler::fresh(Settings {
            interval: p as u32,
            thousandth: m as u16,
            overrun: o as u16,
        }))
    }

    pub fn open(&mut self, number: u64, parent: u64, ceiling: u64) -> u32 {
        if !self.sound() {
            return answer::UNSOUND;
        }
        self.open_sound(number, parent, ceiling)
    }

    pub fn close(&mut self, number: u64) -> u32 {
        if !self.sound() {
            return answer::UNSOUND;
        }
        self.close_sound(number)
    }

    pub fn admit(&mut self, number: u64, group: u64, reservation: u64) -> u32 {
        if !self.sound() {
            return answer::UNSOUND;
        }
        self.admit_sound(number, group, reservation)
    }

    /// Admits a best-effort thread.
    pub fn admit_best_effort(&mut self, number: u64, weight: u64) -> u32 {
        if !self.sound() {
            return answer::UNSOUND;
        }
        self.admit_best_effort_sound(number, weight)
    }

    pub fn remove(&mut self, number: u64) -> u32 {
        if !self.sound() {
            return answer::UNSOUND;
        }
        self.remove_sound(number)
    }

    pub fn wake(&mut self, number: u64) -> u32 {
        if !self.sound() {
            return answer::UNSOUND;
        }
        self.wake_sound(number)
    }

    /// Gives a reserved thread another reservation; its place stays.
    pub fn change(&mut self, number: u64, reservation: u64) -> u32 {
        if !self.sound() {
            return answer::UNSOUND;
        }
        self.change_sound(number, reservation)
    }

    pub fn dispatch(&mut self) -> Reply {
        if !self.sound() {
            return Reply::plain(answer::UNSOUND);
        }
        self.dispatch_sound()
    }

    pub fn report(&mut self, reason: u64, used: u64) -> u32 {
        if !self.sound() {
            return answer::UNSOUND;
        }
        self.report_sound(reason, used)
    }

    /// The list, front first (of an unsound state at most 64 entries).
    #[inline]
    pub fn list(&self) -> &[u8] {
        &self.order[..(self.count as usize).min(THREADS)]
    }

    /// The number names an admitted thread of either kind.
    #[inline]
    pub fn admitted(&self, number: u64) -> bool {
        number < THREADS as u64 && self.threads[number as usize].status != FREE
    }

    /// The number names an open group.
    #[inline]
    pub fn is_open(&self, number: u64) -> bool {
        number < GROUPS as u64 && self.groups[number as usize].opened == 1
    }

    /// What a group's threads, all reserved ones, and child groups take of its
    /// ceiling.
    pub fn taken(&self, group: usize) -> u32 {
        let mut sum = 0;
        for t in &self.threads {
            if t.is_reserved() && t.group() == group {
                sum += t.reservation as u32;
            }
        }
        for child in &self.groups[1..] {
            if child.opened == 1 && child.parent as usize == group {
                sum += child.ceiling as u32;
            }
        }
        sum
    }
}

/// The calls on a state known to be sound.
impl Scheduler {
    /// Whether an amount in range fits what the group has free with `given` of
    /// what is taken counted free. The groups above it are not looked at.
    #[inline]
    fn fits(&self, group: usize, given: u64, amount: u64) -> bool {
        self.taken(group) as u64 + amount <= self.groups[group].ceiling as u64 + given
    }

    #[inline]
    pub(crate) fn open_sound(&mut self, number: u64, parent: u64, ceiling: u64) -> u32 {
        if !self.is_open(parent) {
            return answer::GROUP;
        }
        if number >= GROUPS as u64 || self.is_open(number) || number <= parent {
            return answer::GROUP_NUMBER;
        }
        if ceiling == 0 || ceiling > WHOLE as u64 {
            return answer::AMOUNT;
        }
        if !self.fits(parent as usize, 0, ceiling) {
            return answer::ROOM;
        }
        self.groups[number as usize] = Group {
            ceiling: ceiling as u16,
            parent: parent as u8,
            opened: 1,
        };
        answer::ACCEPTED
    }

    #[inline]
    pub(crate) fn close_sound(&mut self, number: u64) -> u32 {
        if number == 0 || !self.is_open(number) {
            return answer::GROUP;
        }
        // Ceilings and reservations are at least 1: nothing is taken if and
        // only if the group has no thread and no child.
        if self.taken(number as usize) != 0 {
            return answer::GROUP_IN_USE;
        }
        self.groups[number as usize] = Group::CLOSED;
        answer::ACCEPTED
    }

    #[inline]
    pub(crate) fn admit_sound(&mut self, number: u64, group: u64, reservation: u64) -> u32 {
        if number >= THREADS as u64 {
            return answer::THREAD;
        }
        if self.admitted(number) {
            return answer::ADMITTED;
        }
        if !self.is_open(group) {
            return answer::GROUP;
        }
        if reservation == 0 || reservation > WHOLE as u64 {
            return answer::AMOUNT;
        }
        if !self.fits(group as usize, 0, reservation) {
            return answer::ROOM;
        }
        self.threads[number as usize] = Thread {
            admission: self.meter,
            anchor: self.meter,
            ticks: 0,
            since: 0,
            allotment: reservation as i32 * self.settings.thousandth as i32,
            reservation: reservation as u16,
            group_or_weight: group as u8,
            status: RUNNABLE,
            tag: 0,
        };
        // A number was free, so the list is not full.
        self.order[self.count as usize] = number as u8;
        self.count += 1;
        answer::ACCEPTED
    }

    #[inline]
    pub(crate) fn admit_best_effort_sound(&mut self, number: u64, weight: u64) -> u32 {
        if number >= THREADS as u64 {
            return answer::THREAD;
        }
        if self.admitted(number) {
            return answer::ADMITTED;
        }
        if weight == 0 || weight > WEIGHT_MOST as u64 {
            return answer::AMOUNT;
        }
        self.threads[number as usize] = Thread {
            admission: self.meter,
            anchor: self.meter,
            group_or_weight: weight as u8,
            status: RUNNABLE,
            // Its last finish tag counts as 0.
            tag: self.time,
            ..Thread::UNUSED
        };
        answer::ACCEPTED
    }

    #[inline]
    pub(crate) fn remove_sound(&mut self, number: u64) -> u32 {
        if !self.admitted(number) {
            return answer::THREAD;
        }
        if self.running as u64 == number {
            return answer::RUNS;
        }
        self.free(number as usize);
        answer::ACCEPTED
    }

    #[inline]
    pub(crate) fn wake_sound(&mut self, number: u64) -> u32 {
        if !self.admitted(number) {
            return answer::THREAD;
        }
        let (meter, time) = (self.meter, self.time);
        let t = &mut self.threads[number as usize];
        if t.status != BLOCKED {
            return answer::NOT_BLOCKED;
        }
        t.status = RUNNABLE;
        t.anchor = meter;
        t.since = 0;
        if t.reservation == 0 {
            t.tag = t.tag.max(time);
        }
        answer::ACCEPTED
    }

    #[inline]
    pub(crate) fn change_sound(&mut self, number: u64, reservation: u64) -> u32 {
        if !self.admitted(number) || self.threads[number as usize].reservation == 0 {
            return answer::THREAD;
        }
        if self.running as u64 == number {
            return answer::RUNS;
        }
        if reservation == 0 || reservation > WHOLE as u64 {
            return answer::AMOUNT;
        }
        // The old reservation counts as free.
        let n = number as usize;
        let (group, old) = (self.threads[n].group(), self.threads[n].reservation);
        if !self.fits(group, old as u64, reservation) {
            return answer::ROOM;
        }
        let quantum = reservation as i32 * self.settings.thousandth as i32;
        let t = &mut self.threads[n];
        t.reservation = reservation as u16;
        t.allotment = t.allotment.min(quantum);
        t.anchor = self.meter;
        t.since = 0;
        answer::ACCEPTED
    }

    #[inline]
    pub(crate) fn dispatch_sound(&mut self) -> Reply {
        if self.running != NONE {
            return Reply::plain(answer::A_THREAD_RUNS);
        }
        if self.meter >= METER_LIMIT {
            return Reply::plain(answer::METER);
        }
        for (before, &n) in self.list().iter().enumerate() {
            let t = &self.threads[n as usize % THREADS];
            if t.status == RUNNABLE {
                let slice = t.slice(&self.settings);
                self.running = n as u32;
                return Reply {
                    answer: answer::ACCEPTED,
                    thread: n as u32,
                    slice,
                    before: before as u32,
                };
            }
        }
        self.dispatch_best_effort()
    }

    /// The dispatch where no reserved thread is runnable: smallest tag first, then
    /// lower number.
    fn dispatch_best_effort(&mut self) -> Reply {
        let (mut first, mut least, mut admitted) = (NONE, u64::MAX, 0);
        for (n, t) in self.threads.iter().enumerate() {
            admitted += (t.status != FREE) as u32;
            // No tag of a sound state is as large as `least` is at first.
            if t.status == RUNNABLE && t.tag < least {
                (first, least) = (n as u32, t.tag);
            }
        }
        if first == NONE {
            return Reply {
                answer: answer::ACCEPTED,
                thread: NONE,
                slice: 0,
                before: admitted,
            };
        }
        self.running = first;
        self.time = least;
        Reply {
            answer: answer::ACCEPTED,
            thread: first,
            slice: self.settings.interval,
            before: self.count,
        }
    }

    #[inline]
    pub(crate) fn report_sound(&mut self, reason: u64, used: u64) -> u32 {
        if self.running == NONE {
            return answer::NOTHING_RUNS;
        }
        if reason > EXIT {
            return answer::REASON;
        }
        let n = self.running as usize % THREADS;
        let t = &mut self.threads[n];
        if used > t.slice(&self.settings) as u64 + self.settings.overrun as u64 {
            return answer::USED;
        }

        self.meter += used;
        self.running = NONE;
        if reason == EXIT {
            self.free(n);
            return answer::ACCEPTED;
        }
        t.ticks += used;
        t.since += used;
        if reason == BLOCK {
            t.status = BLOCKED;
        }
        if reason == YIELD {
            t.anchor = self.meter;
            t.since = 0;
        }
        if t.reservation == 0 {
            t.tag += used * t.step();
            return answer::ACCEPTED;
        }
        // Nothing left, or a debt of at most O: the quantum, which is more than O,
        // is added once.
        let left = t.allotment - used as i32;
        let quantum = t.reservation as i32 * self.settings.thousandth as i32;
        t.allotment = if left <= 0 {
            left + quantum
        } else if reason == YIELD {
            quantum
        } else {
            left
        };
        if left <= 0 || reason == YIELD {
            self.rotate_to_rear(n);
        }
        answer::ACCEPTED
    }

    /// Moves a listed thread to the rear; the entries after it shift forward.
    #[inline]
    fn rotate_to_rear(&mut self, n: usize) {
        let len = (self.count as usize).min(THREADS);
        let list = &mut self.order[..len];
        if let Some(at) = list.iter().position(|&entry| entry as usize == n) {
            list.copy_within(at + 1.., at);
            list[len - 1] = n as u8;
        }
    }

    /// Frees an admitted thread's entry and takes a reserved one off the list. Its
    /// number stays behind just past the list's new end.
    #[inline]
    fn free(&mut self, n: usize) {
        if self.threads[n].reservation != 0 {
            self.rotate_to_rear(n);
            self.count -= 1;
        }
        self.threads[n] = Thread::UNUSED;
    }
}
