//! What the tests of how programs end share: what one printed and said, bad arguments, inputs that can't be read to their end, outputs that
//! can't be written.

use check::program::{root, Folder};
use std::ffi::{c_int, c_long, c_ulong, OsString};
use std::fs::{self, File};
use std::io::{Read, Write};
use std::os::fd::{AsRawFd, FromRawFd, OwnedFd};
use std::os::unix::ffi::OsStringExt;
use std::os::unix::fs::{symlink, MetadataExt, PermissionsExt};
use std::os::unix::net::UnixListener;
use std::os::unix::process::CommandExt;
use std::path::{Path, PathBuf};
use std::process::{Child, Command, Output, Stdio};
use std::time::Duration;

/// What was printed, and what was said on standard error.
pub fn ended(output: Output) -> (Vec<u8>, String) {
    assert!(output.status.success());
    (output.stdout, String::from_utf8(output.stderr).unwrap())
}

/// The same of a program that prints text.
pub fn told(output: Output) -> (String, String) {
    let (printed, said) = ended(output);
    (String::from_utf8(printed).unwrap(), said)
}

/// What is no number of 1 to 19 digits.
pub const BAD: [&str; 13] = [
    "",
    "-0",
    "-1",
    "1.0",
    "+1",
    " 1",
    "1 ",
    "1\n",
    "0x1",
    "\u{661}",
    "00000000000000000003",
    "10000000000000000000",
    "18446744073709551619",
];

/// Paths of what can't be opened, or not be read.
pub fn bad_files(folder: &Folder) -> Vec<PathBuf> {
    folder.file("file", b"");
    let nowhere = folder.join("nowhere");
    symlink(folder.join("missing"), &nowhere).unwrap();
    let around = folder.join("around");
    symlink(&around, &around).unwrap();
    let socket = folder.join("socket");
    drop(UnixListener::bind(&socket).unwrap());
    let mut bad = vec![
        PathBuf::new(),
        "/".into(),
        ".".into(),
        "..".into(),
        folder.join(""),
    ];
    bad.extend(["missing", "missing/file", "file/file", "file/"].map(|n| folder.join(n)));
    bad.extend([nowhere, around, socket]);
    bad.extend([255, 256, 4094, 4095, 4096, 5000].map(|n| "x".repeat(n).into()));
    bad
}

/// Other paths of a file: the longest that can be opened; and two that are longer.
pub fn odd_paths(path: &Path) -> (PathBuf, [PathBuf; 2]) {
    let own = path.as_os_str().len();
    let long = |length: usize| format!("{}{}", "/".repeat(length - own), path.display()).into();
    (long(4095), [4096, 4097].map(long))
}

/// Another path of a file, by a name that is no UTF-8: the programs' library opens no such name, and they answer 4.
pub fn foreign_path(folder: &Folder, path: &Path) -> PathBuf {
    let foreign = folder.join(OsString::from_vec(vec![b'3', 0xff]));
    symlink(path, &foreign).unwrap();
    foreign
}

/// A program on a file, its first argument, with each of these rights, by a user who is not root.
pub fn as_nobody(program: &str, path: &Path, args: &[&str], modes: [u32; 3]) -> [Output; 3] {
    // Where nobody can start it.
    let own = path.with_file_name(program);
    fs::copy(root().join("target/bin").join(program), &own).unwrap();
    let root = fs::metadata(&own).unwrap().uid() == 0;
    modes.map(|mode| {
        fs::set_permissions(path, PermissionsExt::from_mode(mode)).unwrap();
        let mut command = Command::new(&own);
        command.arg(path).args(args).current_dir("/");
        if root {
            command.uid(65534).gid(65534);
        }
        command.output().unwrap()
    })
}

/// A file that opens, but whose first byte can't be read.
pub fn unreadable() -> &'static Path {
    let memory = Path::new("/proc/self/mem");
    assert!(File::open(memory).unwrap().read(&mut [0]).is_err());
    memory
}

/// A pipe with a name, open at both ends.
pub fn named_pipe(path: &Path) -> File {
    let _ = fs::remove_file(path);
    let made = Command::new("mkfifo").arg(path).status();
    assert!(made.unwrap().success());
    File::options().read(true).write(true).open(path).unwrap()
}

extern "C" {
    fn syscall(number: c_long, ...) -> c_long;
    fn fcntl(file: c_int, command: c_int, ...) -> c_int;
    fn ioctl(file: c_int, request: c_ulong, ...) -> c_int;
    fn kill(process: c_int, signal: c_int) -> c_int;
}

const PIDFD_OPEN: c_long = 434;
const PIDFD_GETFD: c_long = 438;
const F_SETFL: c_int = 4;
const O_NONBLOCK: c_int = 0o4000;
const FIONREAD: c_ulong = 0x541b;
const SIGCONT: c_int = 18;
const SIGSTOP: c_int = 19;

/// Waits until something is so.
fn until<T>(mut so: impl FnMut() -> Option<T>) -> T {
    loop {
        if let Some(found) = so() {
            return found;
        }
        std::thread::sleep(Duration::from_millis(1));
    }
}

/// How many bytes lie in a pipe.
fn held(pipe: &File) -> c_int {
    let mut bytes: c_int = -1;
    // SAFETY: it writes one number.
    assert_eq!(unsafe { ioctl(pipe.as_raw_fd(), FIONREAD, &mut bytes) }, 0);
    bytes
}

/// The descriptor by which another process has the file open. It is shared: flags that are set on it are set for both.
fn shared(child: &Child, file: &File) -> Option<File> {
    // SAFETY: a number goes in, and a descriptor that nobody else owns comes back.
    let process = unsafe {
        let process = syscall(PIDFD_OPEN, child.id() as c_int, 0);
        assert!(process >= 0, "pidfd_open");
        OwnedFd::from_raw_fd(process as c_int)
    };
    let same = |f: &File| f.metadata().unwrap().ino() == file.metadata().unwrap().ino();
    // The first that is free: 3, or a later one where this program was started with more open.
    (3..16).find_map(|own| {
        // SAFETY: as above.
        let found = unsafe {
            let found = syscall(PIDFD_GETFD, process.as_raw_fd(), own, 0);
            (found >= 0).then(|| File::from_raw_fd(found as c_int))
        };
        found.filter(same)
    })
}

/// A program on a pipe whose reads fail after these bytes. The pipe, which the command names, stays open. Once the bytes are taken, the
/// program's own descriptor is told not to wait: the next read fails, and one that waits already is begun again by a stop.
pub fn cut_off(mut command: Command, mut pipe: File, bytes: &[u8]) -> Output {
    pipe.write_all(bytes).unwrap();
    let mut child = command
        .stdout(Stdio::piped())
        .stderr(Stdio::piped())
        .spawn()
        .unwrap();
    // It may have its answer before the end.
    let own = until(|| match child.try_wait().unwrap() {
        Some(_) => Some(None),
        None if held(&pipe) == 0 => shared(&child, &pipe).map(Some),
        None => None,
    });
    if let Some(own) = own {
        // SAFETY: numbers go in.
        assert_eq!(unsafe { fcntl(own.as_raw_fd(), F_SETFL, O_NONBLOCK) }, 0);
    }
    until(|| {
        let done = child.try_wait().unwrap();
        if done.is_none() {
            for signal in [SIGSTOP, SIGCONT] {
                // SAFETY: a child that was not waited for.
                assert_eq!(unsafe { kill(child.id() as c_int, signal) }, 0);
            }
        }
        done
    });
    child.wait_with_output().unwrap()
}

/// A program whose output goes to a full disk, and one whose output is not open: both say so. Then a file, opened to be read, gets the
/// output's number.
pub fn unwritten(name: &str, command: impl Fn() -> Command) {
    let full = File::options().write(true).open("/dev/full").unwrap();
    let output = command().stdout(full).output().unwrap();
    let said = format!("{name}: standard output: No space left on device\n");
    assert_eq!(ended(output), (Vec::new(), said));
    let closed = started(command(), "exec \"$0\" \"$@\" >&-").output();
    let said = format!("{name}: standard output: Bad file descriptor\n");
    assert_eq!(ended(closed.unwrap()), (Vec::new(), said));
}

/// A program started by a line of the shell, which has it as "$0" "$@".
pub fn started(command: Command, line: &str) -> Command {
    let mut shell = Command::new("sh");
    shell.args(["-c", line]).arg(command.get_program());
    shell.args(command.get_args());
    shell
}

/// A program whose reader goes away after so many bytes: that is no failure. The signal is ignored here, so that the program sees EPIPE.
pub fn deserted(command: Command, bytes: usize) {
    let mut shell = started(command, "trap '' PIPE; read x; exec \"$0\" \"$@\"")
        .stdin(Stdio::piped())
        .stdout(Stdio::piped())
        .stderr(Stdio::piped())
        .spawn()
        .unwrap();
    let mut reader = shell.stdout.take().unwrap();
    let mut go = shell.stdin.take().unwrap();
    if bytes > 0 {
        go.write_all(b"go\n").unwrap();
        reader.read_exact(&mut vec![0; bytes]).unwrap();
        drop(reader);
    } else {
        // It writes after its reader has gone.
        drop(reader);
        go.write_all(b"go\n").unwrap();
    }
    let output = shell.wait_with_output().unwrap();
    assert_eq!(ended(output), (Vec::new(), String::new()));
}
