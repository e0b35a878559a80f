//! How the program `mtrrun` ends: it never fails silently. One line on standard error says that the input could not be read, the output not
//! be written, or that an argument was given; the language has no exit status, so that is 0.

use check::program::{printed, root};
use std::fs::File;
use std::io::Write;
use std::os::fd::OwnedFd;
use std::os::unix::net::UnixStream;
use std::process::{Command, Output, Stdio};

fn mtrrun() -> Command {
    Command::new(root().join("target/bin/mtrrun"))
}

fn said(output: &Output) -> &str {
    assert!(output.status.success());
    std::str::from_utf8(&output.stderr).unwrap()
}

fn listing() -> Vec<u8> {
    std::fs::read(root().join("crates/mtrrun/stdin")).unwrap()
}

#[test]
fn input_that_cannot_be_read() {
    let output = mtrrun().stdin(File::open("/").unwrap()).output().unwrap();
    assert_eq!(said(&output), "mtrrun: standard input: Is a directory\n");
    assert!(output.stdout.is_empty());
}

/// What was read before a read that fails is replayed, whole blocks alone. The input is a socket whose reads don't wait: once its bytes are
/// taken the next read fails, since the other end is open and sends no more.
#[test]
fn read_that_fails_in_the_middle() {
    let listing = listing();
    let shown = std::fs::read(root().join("crates/mtrrun/stdout")).unwrap();
    let run = |input: &[u8]| {
        let (mut host, end) = UnixStream::pair().unwrap();
        host.write_all(input).unwrap();
        end.set_nonblocking(true).unwrap();
        let output = mtrrun().stdin(OwnedFd::from(end)).output().unwrap();
        drop(host);
        let unread = "mtrrun: standard input: Resource temporarily unavailable\n";
        assert_eq!(said(&output), unread);
        output.stdout
    };
    // Nothing, a part of a block, whole blocks alone, and with a part of the next.
    assert!(run(&[]).is_empty() && run(&listing[..511]).is_empty());
    assert_eq!(run(&listing), shown);
    for part in [1, 100, 511] {
        assert_eq!(run(&[&listing[..], &vec![7; part]].concat()), shown);
    }
    // The program reads 32 blocks at a time. Blocks after the first are refused here, each with a line of its own.
    for blocks in [31, 32, 33, 70] {
        let whole = listing.repeat(blocks);
        let replayed = printed(&whole, &[whole.len()]);
        let refused = format!("block {} 19\n", blocks - 1);
        assert!(replayed.starts_with(&shown) && replayed.ends_with(refused.as_bytes()));
        assert_eq!(run(&whole), replayed);
        assert_eq!(run(&[&whole[..], &listing[..300]].concat()), replayed);
    }
}

#[test]
fn output_that_cannot_be_written() {
    let full = File::options().write(true).open("/dev/full").unwrap();
    let input = File::open(root().join("crates/mtrrun/stdin")).unwrap();
    let output = mtrrun().stdin(input).stdout(full).output().unwrap();
    assert_eq!(
        said(&output),
        "mtrrun: standard output: No space left on device\n"
    );
}

/// A reader that goes away is no failure: the signal is ignored here, so that the program sees EPIPE.
#[test]
fn reader_that_goes_away() {
    let mut shell = Command::new("sh")
        .args(["-c", "trap '' PIPE; exec \"$0\"; :"])
        .arg(root().join("target/bin/mtrrun"))
        .stdin(Stdio::piped())
        .stdout(Stdio::piped())
        .stderr(Stdio::piped())
        .spawn()
        .unwrap();
    drop(shell.stdout.take());
    let mut input = shell.stdin.take().unwrap();
    // The program may end before all is written.
    let _ = input.write_all(&listing());
    drop(input);
    let output = shell.wait_with_output().unwrap();
    assert_eq!(said(&output), "");
}

#[test]
fn argument() {
    let output = mtrrun()
        .arg("journal")
        .stdin(Stdio::null())
        .output()
        .unwrap();
    assert_eq!(
        said(&output),
        "mtrrun: takes no argument; the journal is its standard input\n"
    );
    assert!(output.stdout.is_empty());
}

#[test]
fn no_message_at_the_end_of_the_input() {
    let input = File::open(root().join("crates/mtrrun/stdin")).unwrap();
    assert_eq!(said(&mtrrun().stdin(input).output().unwrap()), "");
}
