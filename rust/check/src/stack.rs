//! The stack that a call of the library needs, measured: it is made on a painted stack, and where the
//! paint is gone afterwards the call has been.
//!
//! The exported function is called by hand, register by register, so that nothing counts but what the
//! calling convention and the library's own frames put there.

use crate::compare::{to_library, to_library_record, to_library_table, to_model};
use core::arch::asm;
use model::calls::Call as Made;
use mtr::raw::{self, Entry, Found, PriorityLine, PriorityTable, Records, Reply};
use mtr::{Reason, Scheduler, Settings};
use samples::random::{any_record, any_table, asked_priority, hostile_state, sound_state, Rng};

/// Bytes of the painted stack.
const STACK: usize = 64 * 1024;
const PAINT: u8 = 0xa7;

#[repr(C, align(16))]
struct Painted([u8; STACK]);

/// What a call is handed.
struct Handed {
    /// What goes by value over the stack, and its bytes: a state, a table, records or nothing.
    value: (*const u8, usize),
    /// What goes in registers, the reply's address first where the reply goes over memory.
    numbers: [u64; 6],
}

impl Painted {
    /// Calls the function and hands out the bytes of stack that it took, the value among them.
    ///
    /// # Safety
    ///
    /// The value and the numbers are the function's arguments by the C calling convention, and its
    /// result goes over memory or registers as they say.
    unsafe fn call(&mut self, function: *const (), handed: &Handed) -> usize {
        self.0.fill(PAINT);
        // The call finds the stack at a multiple of 16, and the value right there.
        let (value, length) = handed.value;
        let top = self.0.as_mut_ptr_range().end;
        // SAFETY: the function runs on the painted stack, which is far longer than what it takes, and
        // the stack pointer is back in its place after the call.
        unsafe {
            asm!(
                "mov r12, rsp",
                "mov rsp, r13",
                "mov rdi, rsp",
                "rep movsb",
                "mov rdi, [r14]",
                "mov rsi, [r14 + 8]",
                "mov rdx, [r14 + 16]",
                "mov rcx, [r14 + 24]",
                "mov r8, [r14 + 32]",
                "mov r9, [r14 + 40]",
                "call r15",
                "mov rsp, r12",
                inout("rcx") length => _,
                inout("rsi") value => _,
                in("r13") top.sub(length.next_multiple_of(16)),
                in("r14") handed.numbers.as_ptr(),
                in("r15") function,
                out("r12") _,
                clobber_abi("C"),
            );
        }
        let left = self.0.iter().take_while(|&&byte| byte == PAINT).count();
        assert!(left > 0, "the stack is too short");
        STACK - left
    }
}

/// The calls by their names in C without `mtr_`, the exported function of each, and the bytes of the
/// reply that the function in C keeps on the stack.
const CALLS: [(&str, *const (), usize); 19] = [
    ("start", raw::mtr_by_value_start as *const (), REPLY),
    ("open", raw::mtr_by_value_open as *const (), REPLY),
    ("close", raw::mtr_by_value_close as *const (), REPLY),
    ("admit", raw::mtr_by_value_admit as *const (), REPLY),
    (
        "admit_best_effort",
        raw::mtr_by_value_admit_best_effort as *const (),
        REPLY,
    ),
    ("remove", raw::mtr_by_value_remove as *const (), REPLY),
    ("wake", raw::mtr_by_value_wake as *const (), REPLY),
    ("dispatch", raw::mtr_by_value_dispatch as *const (), REPLY),
    ("report", raw::mtr_by_value_report as *const (), REPLY),
    ("change", raw::mtr_by_value_change as *const (), REPLY),
    ("sound", raw::mtr_by_value_sound as *const (), 0),
    ("priority", raw::mtr_by_value_priority as *const (), 8),
    ("subtree", raw::mtr_by_value_subtree as *const (), 8),
    (
        "priority_under",
        raw::mtr_by_value_priority_under as *const (),
        size_of::<PriorityLine>(),
    ),
    ("lag", raw::mtr_by_value_lag as *const (), 16),
    ("share", raw::mtr_by_value_share as *const (), 8),
    ("roster", raw::mtr_by_value_roster as *const (), 0),
    ("write_block", raw::mtr_by_value_write_block as *const (), 0),
    (
        "read_block",
        raw::mtr_by_value_read_block as *const (),
        FOUND,
    ),
];

const REPLY: usize = size_of::<Reply>();
const FOUND: usize = size_of::<Found>();

/// The most stack of each call over this many random states, and over those that take a call deepest:
/// by name, in bytes, arguments and reply among them.
pub fn measured(rounds: u64) -> Vec<(&'static str, usize)> {
    let mut painted = Box::new(Painted([PAINT; STACK]));
    let mut most = CALLS.map(|(name, _, _)| (name, 0));
    let mut r = Rng::new(rounds);
    let mut states: Vec<raw::Scheduler> = deep().to_vec();
    for _ in 0..rounds {
        states.push(to_library(&sound_state(&mut r)));
        states.push(to_library(&hostile_state(&mut r)));
    }
    for state in &states {
        for (i, &(_, function, reply)) in CALLS.iter().enumerate() {
            let taken = one(&mut painted, &mut r, i, function, state);
            most[i].1 = most[i].1.max(taken + reply);
        }
    }
    most.to_vec()
}

/// One call on a state, with arguments that are mostly accepted.
fn one(
    painted: &mut Painted,
    r: &mut Rng,
    call: usize,
    function: *const (),
    state: &raw::Scheduler,
) -> usize {
    let mut reply = [0u64; REPLY.div_ceil(8)];
    let mut table = [Entry::default(); raw::THREADS];
    let mut area = [0u8; raw::BLOCK_BYTES];
    let mut list = Records::default();
    let count = r.range(0, 31);
    for record in list.records.iter_mut().take(count as usize) {
        *record = to_library_record(&any_record(r));
    }
    if call == 18 && r.chance(3, 4) {
        mtr::numbers::write_first(&mut area, 7, list, count as usize);
    }
    // The standard table has ten rows, and the priority of the last is asked for.
    let (priorities, priority) = match r.chance(1, 4) {
        true => (raw::mtr_standard_table(), raw::LOWEST_PRIORITY),
        false => (to_library_table(&any_table(r)), asked_priority(r)),
    };
    let to = reply.as_mut_ptr() as u64;
    let by_value = (state as *const raw::Scheduler).cast();
    let by_value = (by_value, size_of::<raw::Scheduler>());
    let nothing = (to as *const u8, 0);
    let lent = area.as_mut_ptr() as u64;
    let (value, numbers) = match call {
        0 => (nothing, [to, 100, 20_000, r.range(0, 100), 0, 0]),
        1..=9 => (by_value, step(r, to, call, state)),
        10 => (by_value, [0; 6]),
        11 => (nothing, [r.range(0, 11), 0, 0, 0, 0, 0]),
        12 => (by_value, [r.range(0, 3), 0, 0, 0, 0, 0]),
        13 => {
            let rows = (&priorities as *const PriorityTable).cast();
            let rows = (rows, size_of::<PriorityTable>());
            (rows, [priority, 0, 0, 0, 0, 0])
        }
        14 | 15 => (by_value, [r.range(0, 64), 0, 0, 0, 0, 0]),
        16 => (by_value, [table.as_mut_ptr() as u64, 64, 0, 0, 0, 0]),
        17 => {
            let records = (&list as *const Records).cast();
            let records = (records, size_of::<Records>());
            (records, [lent, 512, 7, count, 0, 0])
        }
        _ => (nothing, [to, lent, 512, 7, 0, 0]),
    };
    let handed = Handed { value, numbers };
    // SAFETY: these are the function's arguments; the lent memory is as long as they say.
    unsafe { painted.call(function, &handed) }
}

/// The numbers of one of the nine calls that a state is changed by.
fn step(r: &mut Rng, to: u64, call: usize, state: &raw::Scheduler) -> [u64; 6] {
    // Of the model's calls on this state the first of the kind, if one comes soon.
    for _ in 0..40 {
        let made = samples::random::call(r, &to_model(state));
        let (kind, numbers) = match made {
            Made::Open {
                number,
                parent,
                ceiling,
            } => (1, [number, parent, ceiling]),
            Made::Close { number } => (2, [number, 0, 0]),
            Made::Admit {
                number,
                group,
                reservation,
            } => (3, [number, group, reservation]),
            Made::AdmitBestEffort { number, weight } => (4, [number, weight, 0]),
            Made::Remove { number } => (5, [number, 0, 0]),
            Made::Wake { number } => (6, [number, 0, 0]),
            Made::Dispatch => (7, [0; 3]),
            Made::Report { reason, used } => (8, [reason, used, 0]),
            Made::Change {
                number,
                reservation,
            } => (9, [number, reservation, 0]),
        };
        if kind == call {
            return [to, numbers[0], numbers[1], numbers[2], 0, 0];
        }
    }
    [to, r.range(0, 64), 0, 1, 0, 0]
}

/// States with 64 threads and 16 groups, each below the one before: one is running, none is, all are
/// blocked but the last, and one with a place left; then the same with every other thread a
/// best-effort one, which comes to run where the reserved ones are blocked.
fn deep() -> [raw::Scheduler; 8] {
    let [a, b, c, d] = deepest(false);
    let [e, f, g, h] = deepest(true);
    [a, b, c, d, e, f, g, h]
}

fn deepest(mixed: bool) -> [raw::Scheduler; 4] {
    let built = |threads: u8| {
        // Reports may end in debt.
        let late = Settings {
            overrun: 99,
            ..Settings::default()
        };
        let mut s = Scheduler::new(late).unwrap();
        for group in 1..16 {
            // Each has room for four threads and the group below it.
            s.open(group, group - 1, 1000 - 60 * u16::from(group))
                .unwrap();
        }
        for thread in 0..threads {
            if mixed && thread % 2 == 1 {
                s.admit_best_effort(thread, u16::from(1 + thread % 16))
                    .unwrap();
            } else {
                s.admit(thread, 15 - thread % 16, 15).unwrap();
            }
        }
        s
    };
    let block = |s: &mut Scheduler, runs: usize| {
        for _ in 0..runs {
            s.dispatch().unwrap();
            s.report(Reason::Block, 1).unwrap();
        }
    };
    let idle = built(64);
    let mut running = built(64);
    if mixed {
        block(&mut running, 32);
    }
    running.dispatch().unwrap();
    let mut blocked = built(64);
    block(&mut blocked, 63);
    [&idle, &running, &blocked, &built(63)].map(|s| *s.as_raw())
}
