//! `dist.sh`: the folder that it fills is whole and links from C and from Rust, by hand and through pkg-config and CMake. All tests look at
//! one folder, which is in a project's vendor/mtr.

mod common;

use common::{committed, dist, files, folder, has, printed, said, shown};
use std::fs;
use std::path::{Path, PathBuf};
use std::process::{Command, Stdio};
use std::sync::OnceLock;

fn cargo(words: &[&str]) -> Command {
    let mut cargo = Command::new(std::env::var("CARGO").unwrap_or("cargo".to_string()));
    cargo.args(words).args(["--quiet", "--offline"]);
    cargo
}

/// The project with the folder filled, after the program `journal` is built.
fn project() -> &'static Path {
    static PROJECT: OnceLock<PathBuf> = OnceLock::new();
    PROJECT.get_or_init(|| {
        let root = boundary::root();
        let mut build = cargo(&["build", "--release", "-p", "journal"]);
        build.env("CARGO_TARGET_DIR", root.join("target/cargo"));
        printed(build.current_dir(&root));
        let project = folder("dist");
        let output = dist(&root, &project.join("vendor/mtr"));
        assert!(output.status.success(), "{}", said(&output));
        project
    })
}

fn filled() -> PathBuf {
    project().join("vendor/mtr")
}

fn text(name: &str) -> String {
    fs::read_to_string(filled().join(name)).unwrap()
}

/// What the script writes.
const WRITTEN: [&str; 10] = [
    "KIT",
    "PROVED.md",
    "README",
    "SHA256SUMS",
    "VERSION",
    "examples/host/rust/Cargo.toml",
    "lib/cmake/mtr/mtrConfig.cmake",
    "lib/cmake/mtr/mtrConfigVersion.cmake",
    "lib/pkgconfig/mtr.pc",
    "rust/Cargo.toml",
];

/// What it copies, files and folders.
const COPIED: [(&str, &str); 17] = [
    ("RULE.md", "docs/RULE.md"),
    ("bin/journal", "target/cargo/release/journal"),
    ("bin/mtrask", "target/bin/mtrask"),
    ("bin/mtrrun", "target/bin/mtrrun"),
    ("bin/mtrsum", "target/bin/mtrsum"),
    ("bin/mtrwhy", "target/bin/mtrwhy"),
    ("examples/host/c", "examples/host/c"),
    ("examples/host/rust/src", "examples/host/rust/src"),
    ("examples/priorities", "examples/priorities"),
    ("include/mtr.h", "include/mtr.h"),
    ("lib/libmtr.a", "target/staticlib/libabi.a"),
    ("rust/build.rs", "rust/mtr/build.rs"),
    ("rust/src", "rust/mtr/src"),
    ("share/man/man1/mtrask.1", "docs/mtrask.1"),
    ("share/man/man1/mtrrun.1", "docs/mtrrun.1"),
    ("share/man/man1/mtrsum.1", "docs/mtrsum.1"),
    ("share/man/man1/mtrwhy.1", "docs/mtrwhy.1"),
];

#[test]
fn contents() {
    let mut wanted: Vec<String> = WRITTEN.map(str::to_string).to_vec();
    for (theirs, ours) in COPIED {
        let ours = boundary::root().join(ours);
        let parts = match ours.is_dir() {
            true => files(&ours),
            false => vec![String::new()],
        };
        assert!(!parts.is_empty(), "{theirs}");
        for part in parts {
            let at = |of: &Path| match &part[..] {
                "" => of.to_path_buf(),
                part => of.join(part),
            };
            let name = at(Path::new(theirs));
            let copy = fs::read(filled().join(&name)).unwrap_or_default();
            assert!(copy == fs::read(at(&ours)).unwrap(), "{}", name.display());
            wanted.push(name.to_str().unwrap().to_string());
        }
    }
    wanted.sort_unstable();
    let found = files(&filled());
    assert_eq!(found, wanted);
    let mut sums = Command::new("sha256sum");
    let checked = printed(sums.args(["-c", "SHA256SUMS"]).current_dir(filled()));
    assert_eq!(checked.matches(": OK\n").count(), found.len() - 1);
}

/// The version, the commit and the kit are said where they should be. The page on the proofs is whole.
#[test]
fn what_it_is() {
    let kit = printed(Command::new("rt").arg("version"));
    assert_eq!(text("KIT"), kit);
    let version = text("VERSION");
    let version = version.trim();
    assert!(committed("include/mtr.h").contains(&format!("MTR_VERSION_TEXT \"{version}\"")));
    let readme = text("README");
    assert!(readme.contains(&format!("version {version}")) && readme.contains("test-1"));

    let page = text("PROVED.md");
    for (what, value) in [
        ("version", version),
        ("commit", "test-1"),
        ("kit", kit.trim()),
    ] {
        assert!(page.contains(&format!("| {what} | {value} |\n")), "{page}");
    }
    let gate = page.lines().find_map(|l| l.strip_prefix("| gate | "));
    let gate = gate.unwrap().trim_end_matches(" |");
    let counted = gate.ends_with(" failed") && gate.contains(" passed, ");
    assert!(counted || gate.starts_with("was not run for "), "{gate}");
    let proofs = committed("docs/PROOFS.md");
    assert!(page.ends_with(proofs.split_once('\n').unwrap().1));
}

/// A program that admits and dispatches.
const PROGRAM: &str = r#"#include <mtr.h>
#include <stdio.h>
int main(void) {
    static mtr_scheduler state;
    mtr_run run = {0, 0, 0};
    if (mtr_start(&state, MTR_DEFAULT_THOUSANDTH, MTR_DEFAULT_INTERVAL, MTR_DEFAULT_OVERRUN) != MTR_ACCEPTED
        || mtr_admit(&state, 5, 0, 500) != MTR_ACCEPTED || mtr_dispatch(&state, &run) != MTR_ACCEPTED)
        return 1;
    printf("%u %u\n", run.thread, run.slice);
}
"#;

/// A folder above with the program, and a check of what is made of it there.
fn in_c(name: &str) -> (PathBuf, impl Fn(&str)) {
    let above = project().join(name);
    fs::create_dir(&above).unwrap();
    fs::write(above.join("prog.c"), PROGRAM).unwrap();
    let programs = above.clone();
    let ran = move |program: &str| {
        let told = printed(&mut Command::new(programs.join(program)));
        assert_eq!(told, "5 20000\n");
    };
    (above, ran)
}

/// As its README has it, and as a controller without shared libraries has it; through pkg-config.
#[test]
fn links_from_c() {
    let (above, ran) = in_c("c");
    let mut compile = Command::new("cc");
    compile.args(["-static", "-I../vendor/mtr/include", "prog.c"]);
    compile.args(["-L../vendor/mtr/lib", "-lmtr", "-o", "by-hand"]);
    assert_eq!(printed(compile.current_dir(&above)), "");
    ran("by-hand");
    if has("pkg-config") {
        let asked = |flag: &str| {
            let mut ask = Command::new("pkg-config");
            ask.env("PKG_CONFIG_PATH", filled().join("lib/pkgconfig"));
            printed(ask.args([flag, "mtr"]))
        };
        assert_eq!(asked("--modversion"), text("VERSION"));
        let mut compile = Command::new("cc");
        compile.args(asked("--cflags").split_whitespace());
        compile.arg("prog.c").args(["-o", "by-pkg-config"]);
        compile.args(asked("--libs").split_whitespace());
        printed(compile.current_dir(&above));
        ran("by-pkg-config");
    }
}

/// A later version and another major one are not found, an earlier one and this are.
#[test]
fn links_through_cmake() {
    if !has("cmake") {
        return;
    }
    let (above, ran) = in_c("cmake");
    let version = text("VERSION");
    let major: u32 = version.split('.').next().unwrap().parse().unwrap();
    let (before, next) = (major - 1, major + 1);
    let lists = format!(
        "cmake_minimum_required(VERSION 3.10)
project(prog C)
foreach(wanted {major}.99 {next}.0 {before}.0 {major}.0 {version})
    find_package(mtr ${{wanted}} QUIET)
    message(\"found ${{mtr_FOUND}}\")
endforeach()
add_executable(prog prog.c)
target_link_libraries(prog mtr::mtr)
"
    );
    fs::write(above.join("CMakeLists.txt"), lists).unwrap();
    let mut configure = Command::new("cmake");
    configure.args(["-S", ".", "-B", "build"]);
    configure.arg(format!("-DCMAKE_PREFIX_PATH={}", filled().display()));
    let told = printed(configure.current_dir(&above));
    let found: Vec<&str> = told
        .lines()
        .filter_map(|l| l.strip_prefix("found "))
        .collect();
    assert_eq!(found, ["0", "0", "0", "1", "1"]);
    let mut build = Command::new("cmake");
    printed(build.args(["--build", "build"]).current_dir(&above));
    ran("build/prog");
}

/// README's program in a project with the folder in vendor/mtr, which makes the crate a member of the project's workspace; then the example
/// hosts that go along, and the programs that do on their journal.
#[test]
fn links_from_rust() {
    let project = project();
    let manifest = "[package]
name = \"project\"
version = \"0.1.0\"
edition = \"2021\"

[workspace]

[dependencies]
mtr = { path = \"vendor/mtr/rust\" }
";
    let readme = committed("README.md");
    let program = shown(&readme, "use mtr::{Dispatch, Refusal, Scheduler};");
    fs::write(project.join("Cargo.toml"), manifest).unwrap();
    fs::create_dir(project.join("src")).unwrap();
    fs::write(project.join("src/main.rs"), program).unwrap();
    let built = |words: &[&str]| {
        let mut cargo = cargo(words);
        cargo.env("CARGO_TARGET_DIR", project.join("target"));
        printed(cargo.arg("-j1").current_dir(project))
    };
    assert_eq!(built(&["run"]), "thread 5 runs for 20000\n");

    let manifest = "vendor/mtr/examples/host/rust/Cargo.toml";
    built(&["build", "--manifest-path", manifest]);
    let mut compile = Command::new("cc");
    compile.args(["-std=c11", "-O2", "-Ivendor/mtr/include"]);
    compile.arg("vendor/mtr/examples/host/c/controller.c");
    compile.args(["-Lvendor/mtr/lib", "-lmtr", "-o", "controller"]);
    printed(compile.current_dir(project));
    let told = |program: &str, words: &[&str]| {
        let mut program = Command::new(project.join(program));
        printed(program.args(words).current_dir(project))
    };
    let host = ["1", "journal.blocks"];
    let shown = told("controller", &host);
    assert_eq!(told("target/debug/controller", &host), shown);
    let journal = fs::File::open(project.join("journal.blocks")).unwrap();
    let mut replay = Command::new(project.join("vendor/mtr/bin/mtrrun"));
    let replayed = printed(replay.stdin(Stdio::from(journal)));
    assert!(shown.starts_with(&replayed) && shown[replayed.len()..].starts_with("roster "));
    // A dispatch's line ends in its thread, its slice and how many threads stood before it.
    let lines = replayed.lines().map(|l| l.split(' ').collect::<Vec<_>>());
    let mut waited = lines.filter(|line| line[3] != "0" && line[4] != "0");
    let line = waited.next().unwrap();
    let why = told("vendor/mtr/bin/mtrwhy", &["journal.blocks", line[0]]);
    assert_eq!(why.lines().next(), Some(&format!("0 {}", line[2])[..]));
    assert_eq!((why.lines().count() - 1).to_string(), line[4]);
    let mut sum = Command::new(project.join("vendor/mtr/bin/mtrsum"));
    let summary = fs::File::create(project.join("journal.sum")).unwrap();
    sum.arg(project.join("journal.blocks"));
    assert_eq!(printed(sum.stdout(Stdio::from(summary))), "");
    let used = told("vendor/mtr/bin/mtrask", &["journal.sum", "0", "0", "2"]);
    assert!(used.starts_with("0 ") && used != "0 0\n", "{used}");
    let text = told("vendor/mtr/bin/journal", &["decode", "journal.blocks"]);
    assert!(text.contains("admit"), "{text}");
}
