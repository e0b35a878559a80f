//! The committed header and declarations: up to date, and the same sizes,
//! offsets, constants and version in both.

mod common;

use std::collections::{BTreeMap, BTreeSet};
use std::fs;
use std::process::Command;

use boundary::interface::c_name;
use common::{archive, committed, folder, printed, run, said};

#[test]
fn up_to_date() {
    let files = boundary::generate(&boundary::root()).unwrap();
    assert_eq!(files.len(), 2);
    for (path, text) in files {
        let now = committed(path);
        let line = now
            .lines()
            .zip(text.lines())
            .take_while(|(a, b)| a == b)
            .count()
            + 1;
        assert!(
            now == text,
            "{path} is out of date from line {line} on. Renew it, from the repository's root:\n    {}",
            boundary::COMMAND
        );
    }
}

/// A field of another size or in another place, or a struct of another alignment, makes the compiler refuse the header.
#[test]
fn asserts_hold_the_layout() {
    let folder = folder("refuse");
    let header = committed("include/mtr.h");
    fs::write(folder.join("a.c"), "#include \"mtr.h\"\n").unwrap();
    for (from, to) in [
        ("    uint16_t amount;", "    uint8_t amount;"),
        ("    int32_t allotment;", "    int64_t allotment;"),
        ("    mtr_group groups[16];", "    mtr_group groups[17];"),
        (
            "    uint64_t meter;\n    uint64_t time;",
            "    uint64_t time;\n    uint64_t meter;",
        ),
        (
            "} mtr_priority_row;",
            "} __attribute__((packed)) mtr_priority_row;",
        ),
    ] {
        let changed = header.replacen(from, to, 1);
        assert_ne!(changed, header, "{from}");
        fs::write(folder.join("mtr.h"), changed).unwrap();
        let mut compile = Command::new("cc");
        compile.args(["-std=c11", "-fsyntax-only", "a.c"]);
        let output = run(compile.current_dir(&folder));
        assert!(!output.status.success(), "{to} is accepted");
        let told = said(&output);
        assert!(told.contains("static assertion failed"), "{to}: {told}");
    }
}

/// Size and alignment by struct, and offset and size by struct and field.
type Layout = BTreeMap<(String, String), [u64; 2]>;

fn pair(text: &str) -> [u64; 2] {
    let (a, b) = text.split_once(", ").unwrap();
    [a, b].map(|n| n.parse().unwrap())
}

fn asserted_in_c() -> Layout {
    let mut found = Layout::new();
    for line in committed("include/mtr.h").lines() {
        let Some((of, rest)) = line.strip_suffix(");").and_then(|l| l.split_once('(')) else {
            continue;
        };
        let parts: Vec<&str> = rest.splitn(3, ", ").collect();
        let (name, field, rest) = match (of, &parts[..]) {
            ("MTR_STRUCT", [name, size, align]) => (name, "", format!("{size}, {align}")),
            ("MTR_FIELD", [name, field, rest]) => (name, *field, rest.to_string()),
            _ => continue,
        };
        found.insert((name.to_string(), field.to_string()), pair(&rest));
    }
    found
}

fn asserted_in_rust() -> Layout {
    let mut found = Layout::new();
    let text = committed("rust/mtr/src/raw.rs");
    for layout in text.split("\nlayout! {\n").skip(1) {
        let mut name = String::new();
        for line in layout.lines().take_while(|line| *line != "}") {
            let (what, rest) = line.trim().trim_end_matches(';').split_once(" = ").unwrap();
            let field = match name.is_empty() {
                true => {
                    name = c_name(what);
                    String::new()
                }
                false => what.to_string(),
            };
            found.insert((name.clone(), field), pair(rest));
        }
    }
    found
}

#[test]
fn both_assert_the_same() {
    let mut c = asserted_in_c();
    let size = c.remove(&("size_t".to_string(), String::new()));
    assert_eq!(size, Some([8, 8]));
    let structs = c.keys().filter(|key| key.1.is_empty()).count();
    assert!(
        structs == 16 && c.len() > 70,
        "{structs} structs, {} lines",
        c.len()
    );
    assert_eq!(c, asserted_in_rust());
}

/// Every constant has the same value in both.
#[test]
fn both_have_the_same_constants() {
    let mut c = BTreeMap::new();
    for line in committed("include/mtr.h").lines() {
        let line = line.trim().trim_end_matches(',');
        let pair = match line.strip_prefix("#define MTR_") {
            Some(rest) => rest.split_once(' '),
            None => line
                .strip_prefix("MTR_")
                .and_then(|rest| rest.split_once(" = ")),
        };
        if let Some((name, value)) = pair {
            let value = value.trim_start_matches("UINT64_C(").trim_end_matches(')');
            if let Ok(value) = value.parse::<u64>() {
                c.insert(name.to_string(), value);
            }
        }
    }
    let mut rust = BTreeMap::new();
    for line in committed("rust/mtr/src/raw.rs").lines() {
        let rest = line
            .strip_prefix("pub const ")
            .and_then(|rest| rest.strip_suffix(';'));
        if let Some((name, rest)) = rest.and_then(|rest| rest.split_once(": ")) {
            let (_, value) = rest.split_once(" = ").unwrap();
            rust.insert(name.to_string(), value.parse::<u64>().unwrap());
        }
    }
    assert!(c.len() > 50, "{}", c.len());
    assert_eq!(c, rust);
}

/// The archive has every function that the header declares and no other, needs of libc what README says, and holds no data.
#[test]
fn the_archive_has_the_functions() {
    let text = printed(Command::new("nm").arg("-g").arg(archive()));
    let names = |mark: &str| {
        let rows = text.lines().filter_map(|l| Some(l.split_once(mark)?.1));
        rows.collect::<BTreeSet<&str>>()
    };
    let header = committed("include/mtr.h");
    let declared: BTreeSet<&str> = header
        .lines()
        .filter(|l| !l.starts_with(['#', ' ', '/', 'M', '}']))
        .filter_map(|l| l.split_once('(')?.0.split_once(' '))
        .map(|pair| pair.1)
        .collect();
    assert_eq!(declared.len(), 21);
    assert_eq!(names(" T "), declared);
    assert_eq!(names(" U "), BTreeSet::from(["memcpy", "memset"]));
    let sizes = printed(Command::new("size").arg("-B").arg(archive()));
    let sizes: Vec<&str> = sizes.lines().nth(1).unwrap().split_whitespace().collect();
    assert_eq!(sizes[1..3], ["0", "0"], "data and bss");
}

/// What docs/PERFORMANCE.md has of each call's stack is what was measured.
#[test]
fn the_document_has_the_stack() {
    let page = committed("docs/PERFORMANCE.md");
    let (_, table) = page
        .split_once("| call | stack, bytes |\n|---|---|\n")
        .unwrap();
    let rows: Vec<String> = table
        .lines()
        .map_while(|line| line.strip_prefix("| ")?.strip_suffix(" |"))
        .map(|row| row.replace(" | ", " "))
        .collect();
    let costs = committed(boundary::costs::FILE);
    let measured: Vec<&str> = costs
        .lines()
        .filter(|line| !line.starts_with('#'))
        .filter_map(|line| Some(line.rsplit_once(' ')?.0))
        .collect();
    assert_eq!(rows, measured);
}

/// No registers but those that the header names: the general ones and SSE.
#[test]
fn the_machine_is_as_stated() {
    let mut dump = Command::new("objdump");
    let text = printed(dump.args(["-d", "--no-show-raw-insn"]).arg(archive()));
    let code: Vec<&str> = text
        .lines()
        .filter_map(|line| Some(line.split_once(":\t")?.1.trim()))
        .collect();
    assert!(code.len() > 1_000, "{} instructions", code.len());
    let holds = |part: &str| code.iter().filter(|c| c.contains(part)).count();
    assert!(holds("%xmm") > 0);
    for part in ["%ymm", "%zmm", "%fs:", "%gs:", "%st", "%mm0", "syscall"] {
        assert_eq!(holds(part), 0, "{part}");
    }
    let x87 = code.iter().filter(|c| c.starts_with('f')).count();
    assert_eq!(x87, 0);
}

/// The rest of the first line that begins so.
fn after<'a>(text: &'a str, start: &str) -> &'a str {
    let mut lines = text.lines();
    lines
        .find_map(|line| line.strip_prefix(start))
        .unwrap_or_else(|| panic!("no line begins with {start}"))
}

/// One version: in the header, the Rust crate and the changelog. The library's is compared with the header's in program.c.
#[test]
fn one_version() {
    let manifest = committed("rust/mtr/Cargo.toml");
    let version = after(&manifest, "version = ").trim_matches('"');
    let parts: Vec<u32> = version.split('.').map(|n| n.parse().unwrap()).collect();
    let [major, minor, patch] = parts[..] else {
        panic!("{version}");
    };
    assert!(minor < 100 && patch < 100, "{version}");
    let number = (10000 * major + 100 * minor + patch).to_string();

    let header = committed("include/mtr.h");
    let text = after(&header, "#define MTR_VERSION_TEXT ");
    assert_eq!(text.trim_matches('"'), version);
    assert_eq!(after(&header, "#define MTR_VERSION "), number);
    let raw = committed("rust/mtr/src/raw.rs");
    assert_eq!(after(&raw, "pub const VERSION: u32 = "), number + ";");
    assert_eq!(after(&committed("CHANGELOG.md"), "## "), version);
}
