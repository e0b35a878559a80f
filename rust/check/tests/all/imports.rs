//! The sources below crates/: every name that a file imports is used in it, and no line is long.

use check::antt::{import, names, uncommented, uses};
use check::program::root;
use std::collections::BTreeSet;
use std::fs;
use std::path::{Path, PathBuf};

/// The longest line, in characters.
const LINE: usize = 140;

/// How a file says it: what an import begins with, and a comment.
#[derive(Clone, Copy)]
struct Form {
    import: &'static str,
    comment: &'static str,
}

/// Definitions and proofs; code, where contracts import their words.
const PROOF: Form = Form {
    import: "use ",
    comment: "--",
};
const CODE: Form = Form {
    import: "ghost use ",
    comment: "//",
};

/// A line that brings names in as the reader of imports does not see it: in a module, over several lines, or by `open`.
fn hidden(line: &str, form: Form) -> bool {
    let own = line.trim_start();
    let import = own.starts_with(form.import) && (own.contains('{') || own != line);
    import || own.starts_with("open ")
}

/// The names that a file imports and does not use, or imports twice. Those that an edit of it uses count as used.
fn unused(text: &str, form: Form, edits: &str) -> Vec<String> {
    let mut body = edits.to_string();
    let mut imported = Vec::new();
    for line in text.lines() {
        let line = uncommented(line, form.comment);
        if let Some(import) = import(line, form.import) {
            imported.extend(import.names.into_iter().map(|(_, here)| here));
        } else if hidden(line, form) {
            return vec![format!("'{line}' is not read")];
        } else {
            body += &format!("\n{line}");
        }
    }
    let used = names(&body);
    let mut once = BTreeSet::new();
    imported.retain(|name| !once.insert(*name) || !uses(&used, name));
    imported.into_iter().map(str::to_string).collect()
}

/// The new texts that the edits of a crate put into its files, after the file's name.
fn edits(folder: &Path) -> Vec<(String, String)> {
    let mut found = Vec::new();
    let Ok(entries) = fs::read_dir(folder.join("must-fail")) else {
        return found;
    };
    for entry in entries {
        let text = fs::read_to_string(entry.unwrap().path()).unwrap();
        let mut file = "";
        for line in text.lines() {
            if let Some(name) = line.strip_prefix("file: ") {
                file = name.trim();
            } else if let Some(new) = line.strip_prefix("new: ") {
                found.push((file.to_string(), new.to_string()));
            }
        }
    }
    found
}

fn crates() -> PathBuf {
    root().join("crates")
}

/// The sources below a folder.
fn sources(folder: &Path, found: &mut Vec<(PathBuf, Form)>) {
    for entry in fs::read_dir(folder).unwrap() {
        let path = entry.unwrap().path();
        if path.is_dir() {
            sources(&path, found);
        } else if path.extension().is_some_and(|end| end == "antt") {
            found.push((path, PROOF));
        } else if path.extension().is_some_and(|end| end == "rt") {
            found.push((path, CODE));
        }
    }
}

/// Every source: its crate's name, its path there, its form and its text.
fn each(mut look: impl FnMut(&str, &str, Form, &str)) {
    let mut count = 0;
    for folder in fs::read_dir(crates()).unwrap() {
        let folder = folder.unwrap().path();
        let name = folder.file_name().unwrap().to_str().unwrap();
        let mut found = Vec::new();
        for part in ["src", "specs", "proofs"].map(|part| folder.join(part)) {
            if part.is_dir() {
                sources(&part, &mut found);
            }
        }
        for (path, form) in found {
            let text = fs::read_to_string(&path).unwrap();
            let own = path.strip_prefix(&folder).unwrap().to_str().unwrap();
            look(name, own, form, &text);
            count += 1;
        }
    }
    assert!(count > 300, "{count} files");
}

#[test]
fn every_imported_name_is_used() {
    let (mut imports, mut wrong) = (0, Vec::new());
    each(|name, own, form, text| {
        let edits = edits(&crates().join(name)).into_iter();
        let edits = edits.filter(|(file, _)| file == own);
        let edits: Vec<String> = edits.map(|(_, new)| new).collect();
        for unused in unused(text, form, &edits.join("\n")) {
            wrong.push(format!("crates/{name}/{own}: {unused}"));
        }
        let lines = text.lines().filter_map(|line| import(line, form.import));
        imports += lines.count();
    });
    wrong.sort();
    assert!(
        wrong.is_empty(),
        "imported and not used, or twice:\n{}",
        wrong.join("\n")
    );
    assert!(imports > 2000, "{imports} imports");
}

#[test]
fn no_line_is_long() {
    let mut wrong = Vec::new();
    each(|name, own, _, text| {
        for (index, line) in text.lines().enumerate() {
            let length = line.chars().count();
            if length > LINE {
                wrong.push(format!("crates/{name}/{own}:{}: {length}", index + 1));
            }
        }
    });
    wrong.sort();
    assert!(
        wrong.is_empty(),
        "over {LINE} characters:\n{}",
        wrong.join("\n")
    );
}

/// A proof: what it imports, what it says, and which names are not used.
#[test]
fn what_counts_as_used() {
    for (imports, body, expected) in [
        ("a", "x = a", ""),
        ("a", "x = b", "a"),
        ("a, b", "x = f (b)", "a"),
        ("a, b", "x : a\nx = {b}", ""),
        ("a", "x = aa a-b a'", "a"),
        ("a", "-- a", "a"),
        ("a", "x = b -- a", "a"),
        ("a", "x = b-- a", ""),
        // A field is taken without an import; a qualified name is of another module.
        ("a", "x = t.a", "a"),
        ("a", "x = (f t).a", "a"),
        ("a", "x = a.b", ""),
        ("a", "x = λ y. a", ""),
        // Places for arguments.
        ("◌+◌, ◌<◌", "x = a + b", "◌<◌"),
        ("◌<◌", "x = f ◌<◌", ""),
        ("◌<◌", "x = f (λ a b. a < b)", ""),
        ("if◌then◌else◌", "x = if a then b else c", ""),
        ("if◌then◌else◌", "x = if a then b", "if◌then◌else◌"),
        ("[], ◌∷◌", "x = []", "◌∷◌"),
        ("«a_b»", "x = «a_b»", ""),
        ("«a_b»", "x = a b", "«a_b»"),
        // Another name here.
        ("a as b", "x = b", ""),
        ("a as b", "x = a", "b"),
        ("a, a", "x = a", "a"),
    ] {
        let text = format!("use m.{{{imports}}}\n\n{body}\n");
        assert_eq!(
            unused(&text, PROOF, "").join(" "),
            expected,
            "{imports}: {body}"
        );
    }
    // What an edit of the file uses is used.
    assert_eq!(unused("use m.{a}\n", PROOF, " a"), Vec::<String>::new());
    // A module with a name of its own.
    assert_eq!(
        unused("use m.n as t\nx = t.a\n", PROOF, ""),
        Vec::<String>::new()
    );
    assert_eq!(unused("use m.n as t\nx = n.a\n", PROOF, ""), ["t"]);
    // An import that can't be read is told, not passed over.
    for (text, line) in [
        ("use m.{a,\n  b}\n", "use m.{a,"),
        ("module _ where\n  use m.{a}\n  x = a\n", "  use m.{a}"),
        ("open m use {a}\nx = a\n", "open m use {a}"),
    ] {
        assert_eq!(unused(text, PROOF, ""), [format!("'{line}' is not read")]);
    }
    // Code: its own imports are none of a contract's.
    let code =
        "ghost use m.{a, b, ◌≡◌};\nuse m::c;\n/// b\nfn f() ensures { result ≡ a } {} // b\n";
    assert_eq!(unused(code, CODE, ""), ["b"]);
}
