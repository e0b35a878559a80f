//! The commands of docs/JOURNAL.md, docs/CASES.md and of two sections of README.md
//! are run, and what they print and write is what stands there.
//!
//! A `console` block has lines `$ COMMAND`, a line that ends in `\` going on in
//! the next, and below each what it prints.

use std::collections::BTreeSet;
use std::fs;
use std::path::Path;
use std::process::Command;

use journal::engine::Proved;

use crate::answer::answer;
use crate::broken::RefillOnWake;
use crate::common::{root, Folder, Ran, JOURNAL};
use crate::controller::{play, Server, LENGTH};

/// Commands that make a reader's shell ready.
const SETUP: [&str; 3] = [
    "tools/build.sh abi",
    "cargo build --release -p journal",
    "PATH=$PWD/target/cargo/release:$PATH",
];
const CASES: &str = "cargo run --release -q -p journal --example cases";

/// A command and what stands below it.
#[derive(Debug)]
struct Shown {
    command: String,
    printed: String,
}

fn shown(page: &str) -> Vec<Shown> {
    let text = fs::read_to_string(root().join("docs").join(page)).unwrap();
    let blocks = text.split("```console\n").skip(1);
    let lines = blocks.map(|block| block.split("```").next().unwrap().lines());
    commands(page, lines)
}

/// The commands in blocks of lines.
fn commands<'l, B: Iterator<Item = &'l str>>(
    page: &str,
    blocks: impl Iterator<Item = B>,
) -> Vec<Shown> {
    let mut out: Vec<Shown> = Vec::new();
    for block in blocks {
        let mut goes_on = false;
        for line in block {
            match (line.strip_prefix("$ "), out.last_mut()) {
                (Some(command), _) => out.push(Shown {
                    command: command.to_string(),
                    printed: String::new(),
                }),
                (None, Some(last)) if goes_on => {
                    last.command.truncate(last.command.len() - 1);
                    last.command.push_str(line.trim_start());
                }
                (None, Some(last)) => {
                    last.printed.push_str(line);
                    last.printed.push('\n');
                }
                (None, None) => panic!("{page}: {line}"),
            }
            goes_on = line.ends_with('\\');
        }
    }
    out
}

/// Runs a command in a folder and answers what it prints, on both streams.
fn printed(command: &str, folder: &Path) -> String {
    if let Some(rest) = command.strip_prefix(CASES) {
        // The example's own code, without cargo.
        let (arguments, file) = match rest.split_once(" > ") {
            Some((arguments, file)) => (arguments, Some(file)),
            None => (rest, None),
        };
        let words = arguments.split_whitespace().filter(|&word| word != "--");
        let text = answer(&words.collect::<Vec<_>>()).unwrap();
        return match file {
            None => text,
            Some(file) => {
                fs::write(folder.join(file), text).unwrap();
                String::new()
            }
        };
    }
    let ran = ran(command, folder);
    assert_eq!(ran.code, 0, "{command}: {}", ran.errors);
    let errors = ran.errors.clone();
    ran.text() + &errors
}

/// Runs a command in a folder.
fn ran(command: &str, folder: &Path) -> Ran {
    let tools = folder.join("tools");
    let path = std::env::var("PATH").unwrap();
    let output = Command::new("sh")
        .args(["-c", command])
        .current_dir(folder)
        .env("PATH", format!("{}:{path}", tools.display()))
        .output();
    Ran::of(output.unwrap())
}

/// A folder as the repository's root is to the commands.
fn ready(name: &str) -> Folder {
    let folder = Folder::new(name);
    for part in ["tools", "docs"] {
        fs::create_dir_all(folder.0.join(part)).unwrap();
    }
    std::os::unix::fs::symlink(JOURNAL, folder.0.join("tools/journal")).unwrap();
    for part in ["examples/journals", "examples/priorities"] {
        fs::create_dir_all(folder.0.join(part)).unwrap();
        for entry in fs::read_dir(root().join(part)).unwrap() {
            let entry = entry.unwrap();
            let to = folder.0.join(part).join(entry.file_name());
            fs::copy(entry.path(), to).unwrap();
        }
    }
    folder
}

/// Runs a page's commands. Answers the pictures that they write.
fn page(name: &str) -> BTreeSet<String> {
    let folder = ready(name);
    let mut commands = 0;
    for Shown {
        command,
        printed: below,
    } in shown(name)
    {
        if SETUP.contains(&command.as_str()) {
            continue;
        }
        commands += 1;
        assert_eq!(printed(&command, &folder.0), below, "{name}: {command}");
    }
    assert!(commands > 2, "{name}");
    let mut pictures = BTreeSet::new();
    for entry in fs::read_dir(folder.0.join("docs")).unwrap() {
        let entry = entry.unwrap();
        let picture = entry.file_name().into_string().unwrap();
        let shipped = fs::read(root().join("docs").join(&picture)).unwrap_or_default();
        let same = fs::read(entry.path()).unwrap() == shipped;
        assert!(same, "docs/{picture} is not what {name} says");
        pictures.insert(picture);
    }
    pictures
}

/// The pictures that a page shows.
fn pictures(page: &str) -> BTreeSet<String> {
    let text = fs::read_to_string(root().join("docs").join(page)).unwrap();
    let names = text.split(['(', ')', '"']);
    let pictures = names.filter(|name| name.ends_with(".svg") && !name.contains(' '));
    pictures.map(str::to_string).collect()
}

#[test]
fn the_page_about_journals_shows_what_its_commands_give() {
    assert_eq!(page("JOURNAL.md"), pictures("JOURNAL.md"));
}

#[test]
fn the_page_about_the_cases_shows_what_its_commands_give() {
    let made = page("CASES.md");
    assert_eq!(made, pictures("CASES.md"));
    assert_eq!(made.len(), 6);
    // Readout's shares below the three pictures of one controller.
    let shares = [
        play::<Proved>(Server::Steady, LENGTH),
        play::<Proved>(Server::Jittery, LENGTH),
        play::<RefillOnWake>(Server::Jittery, LENGTH),
    ]
    .map(|outcome| {
        let share = outcome.shares[0];
        format!("| readout, 500 thousandths reserved, gets **{share}** ")
    });
    let text = fs::read_to_string(root().join("docs/CASES.md")).unwrap();
    assert!(text.contains(&shares.concat()));
}

/// A section of README.md by its title.
fn section(title: &str) -> String {
    let readme = fs::read_to_string(root().join("README.md")).unwrap();
    let (_, section) = readme.split_once(&format!("\n## {title}\n")).unwrap();
    section.split_once("\n## ").unwrap().0.to_string()
}

/// README's section about a dispatch: what its commands print, and of each line
/// of the answer the record that it comes from.
#[test]
fn the_section_why_a_thread_ran_is_true() {
    let section = section("Why did the viewer run?");
    let indented = section.lines().filter_map(|line| line.strip_prefix("    "));
    let shown = commands("README.md", std::iter::once(indented));
    let folder = ready("README");
    fs::create_dir_all(folder.0.join("target/bin")).unwrap();
    let program = root().join("target/bin/mtrwhy");
    std::os::unix::fs::symlink(program, folder.0.join("target/bin/mtrwhy")).unwrap();
    assert_eq!(shown.len(), 2);
    for Shown {
        command,
        printed: below,
    } in &shown
    {
        assert_eq!(&printed(command, &folder.0), below, "{command}");
    }

    let text = printed("journal run examples/journals/exporter.blocks", &folder.0);
    let has = |line: &str, answer: &str| {
        let found = text.lines().find_map(|run| {
            let (record, comment) = run.split_once(" # ")?;
            comment.starts_with(answer).then_some(record.trim_end())
        });
        assert_eq!(found, Some(line), "{answer}");
    };
    // A table's row has the line and the record in backticks.
    let rows = section.lines().filter(|line| line.starts_with("| `"));
    let rows: Vec<Vec<&str>> = rows.map(|row| row.split('`').collect()).collect();
    let lines: String = rows.iter().map(|row| format!("{}\n", row[1])).collect();
    assert_eq!(lines, shown[0].printed);
    let dispatch = shown[0].command.rsplit(' ').next().unwrap();
    has(rows[0][3], &format!("{dispatch} {} ", rows[0][1]));
    for row in &rows[1..] {
        let (_, record) = row[1].split_once(' ').unwrap();
        has(row[3], &format!("{record} 0 "));
    }
    // What is told of readout and of the exporter's wake.
    has("report tick 3000", "42 0 ");
    has("wake 3", "47 0 ");
    has("dispatch", "48 0 3 8000 ");
}

/// The indented blocks of a text.
fn blocks(text: &str) -> Vec<Vec<&str>> {
    let parts = text.trim().split("\n\n");
    parts
        .filter_map(|part| part.lines().map(|l| l.strip_prefix("    ")).collect())
        .collect()
}

/// README's section about a customer's table: the shipped file, what the command
/// prints of it, and what it says of the wrong one that the text speaks of.
#[test]
fn the_section_about_a_customers_priorities_is_true() {
    let section = section("A customer's own priorities");
    let blocks = blocks(&section);
    let (file, rest) = blocks.split_first().unwrap();
    let folder = ready("README-priorities");
    let site = fs::read_to_string(folder.0.join("examples/priorities/site.txt")).unwrap();
    assert_eq!(file.join("\n") + "\n", site);
    let shown = commands("README.md", rest.iter().map(|block| block.iter().copied()));
    let [usable, wrong] = &shown[..] else {
        panic!("two commands expected: {shown:?}");
    };
    let printed = ran(&usable.command, &folder.0).good();
    assert_eq!(printed, usable.printed.as_bytes());

    assert!(section.contains("With a 7 in the place of the 8"));
    assert_eq!(site.matches('8').count(), 1);
    fs::write(folder.0.join("site.txt"), site.replace('8', "7")).unwrap();
    assert_eq!(ran(&wrong.command, &folder.0).bad(1), wrong.printed);
}
