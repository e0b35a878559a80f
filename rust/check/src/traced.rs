//! A program that is stopped where it reads a file, goes to its start, and writes: the file can be changed there, and what the call of the
//! system gives can be made another. For x86-64, as the programs.

use std::ffi::{c_int, c_long, c_uint};
use std::fs::{self, File};
use std::os::unix::process::CommandExt;
use std::path::Path;
use std::process::{Command, Stdio};

/// A call of the system: a read of the file or a seek in it, or a write to standard output.
#[derive(Clone, Copy, Debug, PartialEq, Eq)]
pub enum Call {
    Read,
    Seek,
    Write,
}

/// A call that is about to be made.
#[derive(Clone, Copy, Debug, PartialEq, Eq)]
pub struct Stop {
    pub call: Call,
    /// How many of its kind were made before it.
    pub before: usize,
    /// For how many bytes it is made.
    pub length: usize,
}

/// What becomes of a call.
#[derive(Clone, Copy, Debug, PartialEq, Eq)]
pub enum Then {
    /// It goes on.
    Goes,
    /// The same for so many bytes at most.
    Takes(usize),
    /// It gives this error instead.
    Fails(i64),
}

/// Errors.
pub const EIO: i64 = 5;
pub const ENOSPC: i64 = 28;

extern "C" {
    fn ptrace(request: c_uint, ...) -> c_long;
    fn waitpid(process: c_int, status: *mut c_int, options: c_int) -> c_int;
}

/// What a request does not use.
const NONE: c_long = 0;
const TRACE_ME: c_uint = 0;
const PEEK_USER: c_uint = 3;
const POKE_USER: c_uint = 6;
const SYSCALL: c_uint = 24;
const SET_OPTIONS: c_uint = 0x4200;
const DETACH: c_uint = 17;
/// A stop at a call is told from a signal, there is one at the end, and the program ends with the test.
const OPTIONS: c_long = 1 | (1 << 6) | (1 << 20);
const SIGTRAP: c_int = 5;
const AT_CALL: c_int = SIGTRAP | 0x80;
const AT_END: c_int = SIGTRAP | (6 << 8);

/// Where a register stands: the call's number, its first and third argument, its result.
const NUMBER: c_long = 8 * 15;
const FIRST: c_long = 8 * 14;
const THIRD: c_long = 8 * 12;
const RESULT: c_long = 8 * 10;

/// A process that was started to be traced by this thread, and has stopped.
struct Stopped(c_int);

impl Stopped {
    fn get(&self, register: c_long) -> c_long {
        // SAFETY: it reads a register of a child that has stopped.
        unsafe { ptrace(PEEK_USER, self.0, register, NONE) }
    }

    fn set(&self, register: c_long, value: c_long) {
        // SAFETY: it writes a register of a child that has stopped.
        assert_eq!(unsafe { ptrace(POKE_USER, self.0, register, value) }, 0);
    }

    /// Lets it go on to its next call, with this signal; where it stops.
    fn next(&self, signal: c_int) -> c_int {
        // SAFETY: a child that has stopped.
        assert_eq!(
            unsafe { ptrace(SYSCALL, self.0, NONE, signal as c_long) },
            0
        );
        self.wait()
    }

    fn wait(&self) -> c_int {
        let mut status = 0;
        // SAFETY: it writes one number.
        assert_eq!(unsafe { waitpid(self.0, &mut status, 0) }, self.0);
        assert_eq!(status & 0xff, 0x7f, "the program has ended");
        status >> 8
    }

    /// Which call it is about to make, if it is one that is asked about: of at least a byte, where it has a length.
    fn call(&self, path: &Path) -> Option<Call> {
        let file = self.get(FIRST);
        let of_path = || {
            let link = fs::read_link(format!("/proc/{}/fd/{file}", self.0));
            link.is_ok_and(|to| to == path)
        };
        match self.get(NUMBER) {
            0 if self.get(THIRD) > 0 && of_path() => Some(Call::Read),
            1 if file == 1 => Some(Call::Write),
            8 if of_path() => Some(Call::Seek),
            _ => None,
        }
    }
}

/// What a program prints and says that has the file at `path` for an argument. `at` is asked at each call, and says what becomes of it. The
/// output goes to `out`, a new file.
///
/// # Panics
///
/// If the program can't be started, or its status is not 0.
pub fn traced(
    mut command: Command,
    path: &Path,
    out: &Path,
    mut at: impl FnMut(Stop) -> Then,
) -> (Vec<u8>, String) {
    let path = path.canonicalize().unwrap();
    command.stdin(Stdio::null()).stderr(Stdio::piped());
    command.stdout(File::create(out).unwrap());
    // SAFETY: one call of the system between fork and exec.
    unsafe {
        command.pre_exec(|| match ptrace(TRACE_ME, 0, NONE, NONE) {
            0 => Ok(()),
            _ => Err(std::io::Error::last_os_error()),
        });
    }
    let child = command.spawn().expect("a program is traced, by ptrace");
    let process = Stopped(child.id() as c_int);
    let first = process.wait();
    // SAFETY: a child that has stopped.
    let set = unsafe { ptrace(SET_OPTIONS, process.0, NONE, OPTIONS) };
    assert!(first == SIGTRAP && set == 0, "it can't be traced");
    let (mut made, mut inside, mut fails) = ([0; 3], false, None::<i64>);
    let mut stop = process.next(0);
    while stop != AT_END {
        if stop != AT_CALL {
            stop = process.next(stop);
            continue;
        }
        inside = !inside;
        if !inside {
            if let Some(error) = fails.take() {
                process.set(RESULT, -error);
            }
        } else if let Some(call) = process.call(&path) {
            let length = process.get(THIRD) as usize;
            let before = made[call as usize];
            match at(Stop {
                call,
                before,
                length,
            }) {
                Then::Goes => {}
                Then::Takes(bytes) => process.set(THIRD, length.min(bytes) as c_long),
                Then::Fails(error) => {
                    // There is no such call.
                    process.set(NUMBER, -1);
                    fails = Some(error);
                }
            }
            made[call as usize] += 1;
        }
        stop = process.next(0);
    }
    // SAFETY: a child that has stopped.
    assert_eq!(unsafe { ptrace(DETACH, process.0, NONE, NONE) }, 0);
    let output = child.wait_with_output().unwrap();
    assert!(output.status.success());
    (
        fs::read(out).unwrap(),
        String::from_utf8(output.stderr).unwrap(),
    )
}
