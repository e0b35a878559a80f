//! What the tests share: folders, commands and compilers.

#![allow(dead_code)]

use std::fs;
use std::path::{Path, PathBuf};
use std::process::{Command, Output};

/// A folder of the test's own, empty.
pub fn folder(name: &str) -> PathBuf {
    let folder = Path::new(env!("CARGO_TARGET_TMPDIR")).join(name);
    let _ = fs::remove_dir_all(&folder);
    fs::create_dir_all(&folder).unwrap();
    folder
}

pub fn run(command: &mut Command) -> Output {
    command
        .output()
        .unwrap_or_else(|e| panic!("{command:?}: {e}"))
}

pub fn said(output: &Output) -> String {
    let both = [&output.stdout[..], &output.stderr[..]].concat();
    String::from_utf8_lossy(&both).into_owned()
}

/// What a command that must succeed prints.
pub fn printed(command: &mut Command) -> String {
    let output = run(command);
    assert!(output.status.success(), "{command:?}: {}", said(&output));
    said(&output)
}

/// A file of the repository.
pub fn committed(path: &str) -> String {
    fs::read_to_string(boundary::root().join(path)).unwrap_or_else(|e| panic!("{path}: {e}"))
}

/// Whether a program can be run here.
pub fn has(program: &str) -> bool {
    Command::new(program).arg("--version").output().is_ok()
}

/// The compiler with its flags: the header's folder, and all warnings under which it gives none.
pub fn compiler(name: &str, standard: &str) -> Command {
    let mut compiler = Command::new(name);
    compiler.arg(format!("-std={standard}"));
    compiler.args(["-Wall", "-Wextra", "-Werror", "-pedantic"]);
    compiler.args(["-Wconversion", "-Wsign-conversion", "-I"]);
    compiler.arg(boundary::root().join("include"));
    compiler
}

/// The static library.
pub fn archive() -> PathBuf {
    boundary::root().join("target/staticlib/libabi.a")
}

/// Runs the script of a repository on what is built there.
pub fn dist(root: &Path, folder: &Path) -> Output {
    run(Command::new(root.join("dist.sh"))
        .arg("--no-build")
        .arg(folder)
        .env("REVISION", "test-1"))
}

/// The files in a folder, by their paths there.
pub fn files(folder: &Path) -> Vec<String> {
    let mut found = Vec::new();
    let mut open = vec![folder.to_path_buf()];
    while let Some(next) = open.pop() {
        for entry in fs::read_dir(next).unwrap() {
            let path = entry.unwrap().path();
            match path.is_dir() {
                true => open.push(path),
                false => {
                    let path = path.strip_prefix(folder).unwrap();
                    found.push(path.to_str().unwrap().to_string());
                }
            }
        }
    }
    found.sort_unstable();
    found
}

/// The text between a line of README and the next that is not indented.
pub fn shown(readme: &str, first: &str) -> String {
    let mut lines = readme.lines().skip_while(|line| line.trim() != first);
    let mut text = String::new();
    for line in lines.by_ref() {
        match line.strip_prefix("    ") {
            Some(code) => text += code,
            None if line.is_empty() => {}
            None => break,
        }
        text.push('\n');
    }
    assert!(!text.is_empty(), "README has no {first}");
    text
}
