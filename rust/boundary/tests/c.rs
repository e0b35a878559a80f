//! The header in C and C++: what compilers accept and refuse, what its functions do, what README shows.

mod common;

use common::{archive, committed, compiler, folder, has, printed, run, said, shown};
use std::fs;
use std::process::Command;

/// Every compiler with the oldest and the newest standard, and the name that a source has for it. Of those between the header and the
/// compilers make nothing that differs from both.
fn compilers() -> Vec<(&'static str, [&'static str; 2], &'static str)> {
    let c = ["c11", "c2x"];
    let cpp = ["c++11", "c++20"];
    let mut all = vec![("cc", c, "program.c"), ("c++", cpp, "program.cc")];
    if has("clang") {
        all.push(("clang", c, "program.c"));
        all.push(("clang++", cpp, "program.cc"));
    }
    all
}

/// What the answers from 0 to this say, from the library's own list.
fn texts(last: u64) -> Vec<String> {
    let sources =
        |path: &str| fs::read_to_string(boundary::root().join(path)).map_err(|e| e.to_string());
    let interface = boundary::interface::resolve(&sources).unwrap();
    let answers = interface.families.iter().find(|f| f.c == "mtr_answer");
    let names = &answers.unwrap().names;
    assert_eq!(names.len(), 23);
    let text = |number| match names.iter().find(|n| n.value == number) {
        Some(n) => boundary::words(&n.doc),
        None => "no listed answer".to_string(),
    };
    (0..=last).map(text).collect()
}

/// No warning, and the program's checks hold: each function beside its export.
#[test]
fn every_function() {
    let folder = folder("c-functions");
    let source = committed("rust/boundary/tests/program.c");
    // No function answers 21.
    let wanted = texts(24);
    let unlisted = (0..25).filter(|&i| wanted[i] == "no listed answer");
    assert!(unlisted.eq([21, 24]), "{wanted:?}");
    for (name, [oldest, newest], file) in compilers() {
        fs::write(folder.join(file), &source).unwrap();
        let compiled = |standard: &str| {
            let mut compile = compiler(name, standard);
            if file.ends_with(".cc") {
                compile.arg("-Wold-style-cast");
            }
            compile.arg(file).current_dir(&folder);
            compile
        };
        let mut compile = compiled(newest);
        assert_eq!(printed(compile.arg("-fsyntax-only")), "", "{name} {newest}");
        let mut compile = compiled(oldest);
        compile.arg(archive()).args(["-O1", "-o", "program"]);
        assert_eq!(printed(&mut compile), "", "{name} {oldest}");
        let told = printed(&mut Command::new(folder.join("program")));
        assert_eq!(told.lines().collect::<Vec<_>>(), wanted, "{name} {oldest}");
    }
}

/// What the header says where it can't be used.
#[test]
fn other_targets_are_refused() {
    let folder = folder("c-targets");
    for name in ["a.c", "a.cc"] {
        fs::write(folder.join(name), "#include <mtr.h>\n").unwrap();
    }
    let include = boundary::root().join("include");
    let mut cases = vec![
        ("cc", "-std=c99", "a.c", "mtr.h needs C11 or later"),
        ("cc", "-std=c90", "a.c", "mtr.h needs C11 or later"),
        ("c++", "-std=c++98", "a.cc", "mtr.h needs C++11 or later"),
        ("cc", "-m32", "a.c", "the library is for x86-64"),
        ("cc", "-mx32", "a.c", "pointers of 64 bits"),
    ];
    if has("clang") {
        let arm = "--target=aarch64-linux-gnu";
        cases.push(("clang", arm, "a.c", "the library is for x86-64"));
        let windows = "--target=x86_64-pc-windows-msvc";
        cases.push(("clang", windows, "a.c", "System V calling convention"));
    }
    for (compiler, flag, name, text) in cases {
        let mut compile = Command::new(compiler);
        compile.args([flag, "-fsyntax-only", "-I"]).arg(&include);
        let output = run(compile.arg(name).current_dir(&folder));
        assert!(!output.status.success(), "{compiler} {flag}");
        let told = said(&output);
        assert!(told.contains(text), "{compiler} {flag}: {told}");
    }
}

const RIGHT: &str = "mtr_answer a = mtr_wake(&s, 5); return a == MTR_ACCEPTED;";

/// Answers that are not looked at. Compilers look for these where nothing else is wrong.
const UNUSED: [&str; 6] = [
    "mtr_wake(&s, 5); return 0;",
    "mtr_run r; mtr_dispatch(&s, &r); return 0;",
    "mtr_change(&s, 5, 700); return 0;",
    "mtr_admit_best_effort(&s, 5, 1); return 0;",
    "mtr_sound(&s); return 0;",
    "mtr_priority_table t = mtr_standard_table(); mtr_priority_under(&t, 5); return s.count != 0;",
];

/// A state that is lost, an answer that has a place with it, a group for a best-effort thread, and what older versions had: a start
/// without an overrun limit, before 2.0.0, and a thread's group by that name, before 3.0.0.
const WRONG: [&str; 6] = [
    "mtr_answer a = mtr_dispatch(s); return a == 0;",
    "mtr_answer a = mtr_wake(s, 5); return a == 0;",
    "mtr_priority_table t = mtr_standard_table(); mtr_answer a = mtr_priority_under(&t, 5); return a == s.count;",
    "mtr_answer a = mtr_admit_best_effort(&s, 5, 0, 1); return a == 0;",
    "mtr_answer a = mtr_start(&s, 100, 20000); return a == 0;",
    "return s.threads[5].group;",
];

/// Each mistake stands in a line of its own, behind one that is right, and the compiler complains of all of these lines alone.
#[test]
fn mistakes_do_not_compile() {
    let folder = folder("c-mistakes");
    for (name, [oldest, _], file) in compilers() {
        for (cases, text) in [(UNUSED, "unused"), (WRONG, "error: ")] {
            let mut source = "#include <mtr.h>\n".to_string();
            for (i, body) in [RIGHT].iter().chain(&cases).enumerate() {
                let head = format!("int f{i}(mtr_scheduler s)");
                source += &format!("{head}; {head} {{ {body} }}\n");
            }
            fs::write(folder.join(file), source).unwrap();
            let mut compile = compiler(name, oldest);
            compile.args(["-c", file, "-o", "out"]).current_dir(&folder);
            let told = said(&run(&mut compile));
            let errors = |line: usize| {
                let at = format!("{file}:{line}:");
                let mut lines = told.lines().filter(|l| l.starts_with(&at));
                lines.any(|l| l.contains("error: ") && l.contains(text))
            };
            assert!(!errors(2), "{name}: {told}");
            for (line, body) in (3..).zip(cases) {
                assert!(errors(line), "{name}: {body}: {told}");
            }
        }
    }
}

/// A call through the header takes the stack that it states, and little for the function's own frame.
#[test]
fn stack() {
    let folder = folder("c-stack");
    let costs = committed(boundary::costs::FILE);
    let stated = |name: &str| -> usize {
        let line = costs.lines().find(|l| l.split(' ').next() == Some(name));
        let line = line.unwrap_or_else(|| panic!("{name} has no cost"));
        line.split(' ').nth(1).unwrap().parse().unwrap()
    };
    let source = boundary::root().join("rust/boundary/tests/stack.c");
    let include = boundary::root().join("include");
    for (name, [oldest, _], _) in compilers() {
        if oldest != "c11" {
            continue;
        }
        for level in ["-O0", "-O2"] {
            let mut compile = Command::new(name);
            compile.args(["-std=c11", level, "-I"]).arg(&include);
            compile.arg(&source).arg(archive());
            compile.args(["-Wl,-z,now", "-o", "stack"]);
            assert_eq!(printed(compile.current_dir(&folder)), "");
            let told = printed(&mut Command::new(folder.join("stack")));
            assert_eq!(told.lines().count(), 19, "{told}");
            for line in told.lines() {
                let (call, taken) = line.split_once(' ').unwrap();
                let taken: usize = taken.parse().unwrap();
                // Without optimisation a compiler may copy the records of a block once more.
                let more = if call == "write_block" { 600 } else { 160 };
                let most = stated(call) + more;
                assert!(taken <= most, "{name} {level}: {line}, of {most}");
            }
        }
    }
}

/// README's program in C compiles without a warning, runs, and keeps its state.
#[test]
fn readme() {
    let folder = folder("c-readme");
    let readme = committed("README.md");
    let program = shown(&readme, "#include <mtr.h>");
    let (program, command) = program.split_once("\n}\n").unwrap();
    assert!(command.trim().starts_with("cc "), "{command}");
    fs::write(folder.join("prog.c"), format!("{program}\n}}\n")).unwrap();
    let mut compile = compiler("cc", "c11");
    compile.arg("prog.c").arg(archive()).args(["-o", "prog"]);
    assert_eq!(printed(compile.current_dir(&folder)), "");
    let told = printed(&mut Command::new(folder.join("prog")));
    assert_eq!(told, "thread 5 runs for 20000\n");
}
