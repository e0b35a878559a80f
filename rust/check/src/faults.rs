//! Names the call that ended the process by a signal.

use core::ffi::c_int;
use core::sync::atomic::{AtomicU64, Ordering::Relaxed};

extern "C" {
    fn signal(number: c_int, handler: usize) -> usize;
    fn write(file: c_int, bytes: *const u8, length: usize) -> isize;
}

const DEFAULT: usize = 0;
const SIGILL: c_int = 4;
const SIGBUS: c_int = 7;
const SIGFPE: c_int = 8;
const SIGSEGV: c_int = 11;

static SEED: AtomicU64 = AtomicU64::new(0);
static ROUND: AtomicU64 = AtomicU64::new(0);
static CALL: AtomicU64 = AtomicU64::new(0);

/// Remembers where the attack is.
pub fn note(seed: u64, round: u64, call: u64) {
    SEED.store(seed, Relaxed);
    ROUND.store(round, Relaxed);
    CALL.store(call, Relaxed);
}

/// From now on a fatal signal says where the attack was before it ends the process.
pub fn watch() {
    for number in [SIGILL, SIGBUS, SIGFPE, SIGSEGV] {
        // SAFETY: the handler only reads atomics and calls write and signal.
        unsafe { signal(number, on_fault as extern "C" fn(c_int) as usize) };
    }
}

/// The instruction is tried again on return, and then the signal has its default effect.
extern "C" fn on_fault(number: c_int) {
    say(b"signal ", number as u64);
    say(b" in seed ", SEED.load(Relaxed));
    say(b" round ", ROUND.load(Relaxed));
    say(b" call ", CALL.load(Relaxed));
    // SAFETY: one byte of a constant; the default handler is always there.
    unsafe {
        write(2, b"\n".as_ptr(), 1);
        signal(number, DEFAULT);
    }
}

/// Writes a word and a number without allocating.
fn say(word: &[u8], mut value: u64) {
    let mut digits = [0u8; 20];
    let mut at = digits.len();
    loop {
        at -= 1;
        digits[at] = b'0' + (value % 10) as u8;
        value /= 10;
        if value == 0 {
            break;
        }
    }
    let digits = &digits[at..];
    // SAFETY: pointer and length of a slice each.
    unsafe {
        write(2, word.as_ptr(), word.len());
        write(2, digits.as_ptr(), digits.len());
    }
}
