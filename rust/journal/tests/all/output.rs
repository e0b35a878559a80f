//! Results are written whole or not at all, and failures told.

use std::fs::{self, File, Permissions};
use std::os::unix::fs::{symlink, PermissionsExt};
use std::process::{Command, Stdio};
use std::time::Duration;

use crate::common::*;

/// `decode` writes piece by piece, `stats` and the others at the end.
#[test]
fn streams_that_fail_are_told() {
    let folder = Folder::new("streams");
    let blocks = folder.file("l.blocks", listing());
    let table = folder.file("site.txt", "1 10 5\n");
    for command in [
        format!("decode {blocks}"),
        format!("stats {blocks}"),
        format!("priorities {table}"),
    ] {
        let full = "No space left on device";
        for (streams, told) in [
            ("> /dev/full", format!("standard output: {full}")),
            ("-o /dev/full", format!("/dev/full: {full}")),
            (">&-", "standard output: it is closed".into()),
        ] {
            let ran = shell(&format!("$JOURNAL {command} {streams}"));
            assert_eq!(ran.bad(1), format!("journal: {told}\n"));
        }
        // Nothing is asked of it where a file is named, nor of /dev/null.
        let out = folder.path("out");
        for streams in [format!("-o {out} >&-"), "<> /dev/null >&0".into()] {
            let ran = shell(&format!("$JOURNAL {command} {streams}"));
            assert_eq!(ran.good(), b"");
        }
    }
    for command in ["encode", "decode", "priorities"] {
        let errors = shell(&format!("$JOURNAL {command} <&-")).bad(1);
        assert_eq!(errors, "journal: standard input: it is closed\n");
    }
    for out in ["> /dev/full", ">&-"] {
        assert_eq!(shell(&format!("$JOURNAL --help {out}")).code, 1);
    }
}

#[test]
fn files_that_cannot_be_read_or_written() {
    let folder = Folder::new("unreadable");
    let missing = folder.path("missing");
    for command in ["decode", "priorities"] {
        let errors = run(&[command, &missing], b"").bad(1);
        let told = format!("journal: {missing}: No such file or directory\n");
        assert_eq!(errors, told);
    }
    let errors = run(&["draw", folder.0.to_str().unwrap()], b"").bad(1);
    assert!(errors.contains("Is a directory"));
    let errors = run(&["decode", "-o", &folder.path("missing/out")], b"").bad(1);
    assert!(errors.contains("No such file or directory"));
    assert!(folder.names().is_empty());
}

#[test]
fn a_reader_of_the_first_line_is_no_failure() {
    let folder = Folder::new("head");
    let blocks = folder.file("long.blocks", encode(&"dispatch\n".repeat(60_000)));
    for command in ["decode", "run"] {
        // The status is that of the command, behind the pipe.
        let script = format!("{{ $JOURNAL {command} {blocks}; echo $? >&2; }} | head -1");
        let ran = shell(&script);
        assert_eq!((ran.code, ran.errors.as_str()), (0, "0\n"));
        assert_eq!(ran.text().lines().count(), 1);
    }
}

#[test]
fn a_replaced_file_keeps_its_mode_and_links_lead_to_it() {
    let folder = Folder::new("mode");
    let blocks = folder.file("l.blocks", listing());
    let out = folder.file("out.txt", "old");
    let link = folder.path("link.txt");
    symlink(&out, &link).unwrap();
    for mode in [0o600, 0o755] {
        fs::set_permissions(&out, Permissions::from_mode(mode)).unwrap();
        assert_eq!(good(&["decode", &blocks, "-o", &link], b""), "");
        let metadata = fs::metadata(&out).unwrap();
        assert_eq!(metadata.permissions().mode() & 0o777, mode);
        assert!(fs::read(&out).unwrap().starts_with(b"block 0\n"));
        assert!(fs::symlink_metadata(&link).unwrap().is_symlink());
    }
    assert_eq!(folder.names(), ["l.blocks", "link.txt", "out.txt"]);
}

#[test]
fn a_killed_run_leaves_the_old_file_and_the_next_takes_its_part_away() {
    let folder = Folder::new("killed");
    // A journal that takes a while.
    let blocks = folder.file("long.blocks", encode(&"dispatch\n".repeat(400_000)));
    let out = folder.file("out.txt", "as it was");
    // What an earlier run left, and what another that lives is writing.
    folder.file(".out.txt.4194305.part", "half");
    let held = folder.file(&format!(".out.txt.{}.part", std::process::id()), "half");
    let other = folder.file(".other.txt.4194305.part", "half");
    // Killed while it writes; a run may be over before that is seen.
    let killed = || {
        fs::write(&out, "as it was").unwrap();
        let mut child = Command::new(JOURNAL)
            .args(["run", &blocks, "-o", &out])
            .stdin(Stdio::null())
            .spawn()
            .unwrap();
        let part = folder.path(&format!(".out.txt.{}.part", child.id()));
        while child.try_wait().unwrap().is_none() {
            if fs::metadata(&part).is_ok_and(|m| m.len() > 0) {
                child.kill().unwrap();
                let status = child.wait().unwrap();
                return status.code().is_none().then_some(part);
            }
            std::thread::sleep(Duration::from_millis(1));
        }
        None
    };
    let part = (0..10).find_map(|_| killed()).unwrap();
    assert_eq!(fs::read(&out).unwrap(), b"as it was");
    assert!(fs::metadata(&part).is_ok());
    let earlier = ".out.txt.4194305.part".to_string();
    assert!(!folder.names().contains(&earlier));

    assert_eq!(good(&["decode", &blocks, "-o", &out], b""), "");
    let text = fs::read_to_string(&out).unwrap();
    assert!(text.starts_with("block 0\n") && text.ends_with("\ndispatch\n"));
    assert_eq!(text.lines().count(), 400_000 + 12_904);
    assert!(fs::metadata(&part).is_err());
    // Those of a living process and of another result stay.
    assert!(fs::metadata(held).is_ok() && fs::metadata(other).is_ok());
}

#[test]
fn a_result_that_fails_leaves_the_old_file() {
    let folder = Folder::new("fails");
    let blocks = folder.file("l.blocks", listing());
    let out = folder.file("out.svg", "as it was");
    let errors = run(&["draw", "--from", "99", &blocks, "-o", &out], b"").bad(1);
    let told = format!("journal: {blocks}: --from 99: the last record is 14\n");
    assert_eq!(errors, told);
    assert_eq!(fs::read(&out).unwrap(), b"as it was");
    assert_eq!(folder.names(), ["l.blocks", "out.svg"]);
    // A part that is locked by a run that lives stays.
    let locked = folder.file(".out.svg.4194306.part", "half");
    let file = File::open(&locked).unwrap();
    file.lock().unwrap();
    assert_eq!(good(&["draw", &blocks, "-o", &out], b""), "");
    assert!(fs::metadata(&locked).is_ok());
    // Closed alone, it would stay locked by a child that another test is starting.
    file.unlock().unwrap();
    assert_eq!(good(&["draw", &blocks, "-o", &out], b""), "");
    assert_eq!(folder.names(), ["l.blocks", "out.svg"]);
}
