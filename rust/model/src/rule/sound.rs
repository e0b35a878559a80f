//! The test that a state is sound.

use super::state::*;

impl Scheduler {
    /// Every condition on a state holds (RULE 5).
    ///
    /// Free entries, closed groups, `order` past the list's end, group 0's stored
    /// parent, a best-effort thread's allotment and a reserved one's tag are not
    /// looked at. One pass over the groups, one over the
    /// threads and one over the list.
    pub fn sound(&self) -> bool {
        if !self.framed() {
            return false;
        }
        // Bit g of `open`: group g is open. `taken[g]`: what its threads and
        // child groups take of its ceiling.
        let mut open: u16 = 1;
        let mut taken = [0u32; GROUPS];
        for g in 1..GROUPS {
            let group = &self.groups[g];
            match group.opened {
                0 => {}
                1 => {
                    // Only lower numbers are in `open` by now.
                    let parent = group.parent as usize;
                    if parent >= GROUPS
                        || open >> parent & 1 == 0
                        || group.ceiling.wrapping_sub(1) >= WHOLE
                    {
                        return false;
                    }
                    taken[parent] += group.ceiling as u32;
                    open |= 1 << g;
                }
                _ => return false,
            }
        }

        // Bounds are tested by signs: with both below 2^63, the top bit of x - y
        // tells whether x < y. The top bit of `below` is set once an operand is
        // too large or a difference negative; an allotment below 0 has it set
        // once 1 is taken. That a reservation is at most 1000 follows: the sum is
        // within a ceiling.
        let meter = self.meter;
        let m = self.settings.thousandth as u64;
        let mut below: u64 = 0;
        let mut reserved: u64 = 0;
        let mut bit: u64 = 1;
        for t in &self.threads {
            if t.status != FREE {
                if t.status > BLOCKED {
                    return false;
                }
                let since_admission = meter.wrapping_sub(t.admission);
                let since_anchor = meter.wrapping_sub(t.anchor);
                below |= t.admission
                    | t.anchor
                    | t.ticks
                    | t.since
                    | since_anchor
                    | t.anchor.wrapping_sub(t.admission)
                    | since_admission.wrapping_sub(t.ticks)
                    | since_anchor.wrapping_sub(t.since);
                if t.reservation != 0 {
                    let group = t.group();
                    if group >= GROUPS || open >> group & 1 == 0 {
                        return false;
                    }
                    let allotment = t.allotment as i64 as u64;
                    let quantum = t.reservation as u64 * m;
                    below |= allotment.wrapping_sub(1) | quantum.wrapping_sub(allotment);
                    taken[group] += t.reservation as u32;
                    reserved |= bit;
                } else {
                    below |= self.strayed(t);
                }
            }
            bit <<= 1;
        }
        below >> 63 == 0 && self.roomy(&taken) && self.lists(reserved)
    }

    /// The top bit is set unless a best-effort thread has a weight of 1 to 16 and
    /// its tag lies within its bounds. No bound reaches 2^63: the virtual time and
    /// 720,720 × the meter are at most 7.3 × 10^18 here, what is added to the one
    /// at most 7.3 × 10^11.
    #[inline(always)]
    fn strayed(&self, t: &Thread) -> u64 {
        let step = t.step();
        let most = (self.settings.interval as u64 + self.settings.overrun as u64) * step;
        let least = if t.status == RUNNABLE { self.time } else { 0 };
        step.wrapping_sub(1)
            | t.tag
            | (self.time + most).wrapping_sub(t.tag)
            | (TAG_UNIT * self.meter).wrapping_sub(t.tag)
            | t.tag.wrapping_sub(least)
    }

    /// Settings, meter, virtual time, count, the running thread and group 0.
    #[inline(always)]
    fn framed(&self) -> bool {
        let meter = self.meter;
        if !self.settings.sound()
            || meter > METER_MAX
            || self.time > TAG_UNIT * meter
            || self.count > THREADS as u32
            || self.running > NONE
        {
            return false;
        }
        if let Some(thread) = self.threads.get(self.running as usize) {
            if thread.status != RUNNABLE
                || meter >= METER_LIMIT
                || thread.reservation == 0 && thread.tag != self.time
            {
                return false;
            }
        }
        self.groups[0].opened == 1 && self.groups[0].ceiling == WHOLE
    }

    /// No group has more taken than its ceiling. Nothing is taken of a closed
    /// one.
    #[inline(always)]
    fn roomy(&self, taken: &[u32; GROUPS]) -> bool {
        for (group, &sum) in self.groups.iter().zip(taken) {
            if sum > group.ceiling as u32 {
                return false;
            }
        }
        true
    }

    /// The list has `count` entries that are together the `count` reserved
    /// threads, bit n for thread n: each once.
    #[inline(always)]
    fn lists(&self, reserved: u64) -> bool {
        let (mut listed, mut all) = (0u64, 0u8);
        for &n in self.list() {
            listed |= 1u64.wrapping_shl(n as u32);
            all |= n;
        }
        all < THREADS as u8 && listed == reserved && reserved.count_ones() == self.count
    }
}
