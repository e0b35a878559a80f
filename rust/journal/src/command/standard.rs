//! Whether standard input and output were closed when the program began.
//!
//! The runtime opens `/dev/null` in the place of a closed standard stream
//! before `main`: what is written there is lost without an error, and what is
//! read is nothing. So the streams are looked at earlier, by a function that
//! the loader calls.

use std::sync::atomic::{AtomicBool, Ordering};

static INPUT: AtomicBool = AtomicBool::new(false);
static OUTPUT: AtomicBool = AtomicBool::new(false);

/// Standard input was closed from the beginning.
pub fn input_closed() -> bool {
    INPUT.load(Ordering::Relaxed)
}

/// Standard output was closed from the beginning.
pub fn output_closed() -> bool {
    OUTPUT.load(Ordering::Relaxed)
}

#[cfg(target_os = "linux")]
extern "C" fn look() {
    use std::path::Path;

    let streams = Path::new("/proc/self/fd");
    let there = |path: &Path| path.symlink_metadata().is_ok();
    if there(streams) {
        INPUT.store(!there(&streams.join("0")), Ordering::Relaxed);
        OUTPUT.store(!there(&streams.join("1")), Ordering::Relaxed);
    }
}

#[cfg(target_os = "linux")]
#[allow(unsafe_code)]
#[used]
#[link_section = ".init_array"]
static LOOK: extern "C" fn() = look;
