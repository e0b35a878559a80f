//! The manual pages of the programs, and docs/GUIDE.md: their examples print what stands there.

use crate::documents::{number, part, read, root};
use check::program::Folder;
use std::collections::BTreeSet;
use std::os::unix::fs::symlink;
use std::path::Path;
use std::process::{Command, Output};

/// Runs a command in a folder, with the proved programs on the path.
fn ran_in(folder: &Path, command: &str) -> Output {
    let path = std::env::var("PATH").unwrap();
    let programs = root().canonicalize().unwrap().join("target/bin");
    Command::new("sh")
        .args(["-c", command])
        .current_dir(folder)
        .env("PATH", format!("{}:{path}", programs.display()))
        .output()
        .unwrap()
}

/// Runs it at the root.
fn ran(command: &str) -> Output {
    ran_in(&root(), command)
}

/// The commands among lines, `$ COMMAND`, with what stands below each.
fn commanded(lines: &str) -> Vec<(&str, String)> {
    let mut found: Vec<(&str, String)> = Vec::new();
    for line in lines.lines() {
        match line.strip_prefix("$ ") {
            Some(command) => found.push((command, String::new())),
            None => found.last_mut().unwrap().1 += &format!("{line}\n"),
        }
    }
    found
}

/// The commands of a manual page: they stand between .nf and .fi.
fn examples(page: &str) -> Vec<(&str, String)> {
    let parts = page.split("\n.nf\n").skip(1);
    parts
        .flat_map(|lines| commanded(lines.split_once("\n.fi\n").unwrap().0))
        .collect()
}

/// The examples of a program's page print what stands there, and each of its answers stands in one of them, or in `unseen`. Its message
/// where nothing can be written stands there, too.
fn page(program: &str, section: &str, count: usize, unseen: &[&str], command: &str) {
    let page = read(&root().join(format!("docs/{program}.1")));
    let mut seen: BTreeSet<String> = unseen.iter().map(|n| n.to_string()).collect();
    for (command, below) in examples(&page) {
        let output = ran(command);
        let said = String::from_utf8(output.stderr).unwrap();
        let printed = String::from_utf8(output.stdout).unwrap();
        assert_eq!((printed, said), (below.clone(), String::new()), "{command}");
        seen.extend(below.lines().map(|line| number(line).to_string()));
    }
    let heads = part(&page, section, ".SH ");
    let answers: BTreeSet<String> = heads
        .map(|line| number(line.strip_prefix(".RI ").unwrap_or(line)).to_string())
        .filter(|answer| !answer.is_empty())
        .collect();
    assert_eq!(answers.len(), count, "{answers:?}");
    assert!(answers.is_subset(&seen), "{answers:?} {seen:?}");
    let output = ran(&format!("{command} > /dev/full"));
    let said = String::from_utf8(output.stderr).unwrap();
    let full = "No space left on device";
    assert_eq!(said, format!("{program}: standard output: {full}\n"));
    assert!(page.contains(&format!("\n.RI \"{program}: standard output: \" reason\n")));
}

#[test]
fn the_manual_page_of_mtrwhy() {
    let command = "mtrwhy examples/journals/listing.blocks 7";
    page("mtrwhy", ".SH ANSWERS", 5, &["15"], command);
}

#[test]
fn the_manual_page_of_mtrsum() {
    let command = "mtrsum examples/journals/listing.blocks";
    page("mtrsum", ".SH OUTPUT", 4, &[], command);
}

#[test]
fn the_manual_page_of_mtrask() {
    let command = "mtrask /dev/null 0 0 0";
    page("mtrask", ".SH ANSWERS", 6, &[], command);
}

/// The commands of docs/GUIDE.md, one after the other in a folder that has the examples.
#[test]
fn the_guide() {
    let folder = Folder::new("guide");
    symlink(root().join("examples"), folder.join("examples")).unwrap();
    let guide = read(&root().join("docs/GUIDE.md"));
    let mut commands = 0;
    for lines in guide.split("```console\n").skip(1) {
        let (lines, _) = lines.split_once("```").unwrap();
        for (command, below) in commanded(lines) {
            let output = ran_in(&folder.join(""), command);
            let said = String::from_utf8(output.stderr).unwrap();
            let printed = String::from_utf8(output.stdout).unwrap();
            assert_eq!((printed, said), (below, String::new()), "{command}");
            commands += 1;
        }
    }
    assert!(commands > 6);
}
