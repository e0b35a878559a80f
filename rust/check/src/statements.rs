//! What the theorems say that docs/PROOFS.md names, taken from the proofs. docs/statements.txt has it as text.
//!
//! A theorem's statement is its type, under the parameters of the modules that it stands in. After the statements come the words of proofs/
//! that they are made with, whole, and the words that these are made with; then, for each file of both, where their other names come from.
//! What the words of specs/ say is left out: all that stands there is to be read and believed.

use std::collections::{BTreeMap, BTreeSet};
use std::fs;
use std::path::PathBuf;

use crate::antt::{import, names, uncommented, uses};

/// The file, below the root, and the command that writes it.
pub const FILE: &str = "docs/statements.txt";
pub const COMMAND: &str = "cargo run --release -p check --example statements";

/// What stands before the words, and before where the other names come from.
const WORDS: &str = "# The words of proofs/ that these are made with.";
const OTHERS: &str = "# Where the other names of both come from.";

/// Bytes of a line of imports.
const LINE: usize = 138;

/// A theorem or a word: its file below crates/, and its name.
pub type Named = (String, String);

/// The three parts of the file, each with what it says of a name.
pub type Parts = [Vec<(Named, String)>; 3];

/// The theorems in the tables of docs/PROOFS.md, each once, file by file.
pub fn theorems(proofs: &str) -> Vec<Named> {
    let mut files: Vec<&str> = Vec::new();
    let mut found: Vec<(usize, &str)> = Vec::new();
    let rows = proofs.lines().filter(|line| line.starts_with('|'));
    for cell in rows.flat_map(|row| row.split('|')) {
        let mut file = None;
        for word in cell.split('`').skip(1).step_by(2) {
            if word.ends_with(".antt") || word.ends_with(".rt") {
                file = word.contains("/proofs/").then(|| {
                    let known = files.iter().position(|name| *name == word);
                    known.unwrap_or_else(|| {
                        files.push(word);
                        files.len() - 1
                    })
                });
            } else if let Some(file) = file {
                if !found.contains(&(file, word)) {
                    found.push((file, word));
                }
            }
        }
    }
    found.sort_by_key(|(file, _)| *file);
    let theorem = |(file, name): (usize, &str)| (files[file].to_string(), name.to_string());
    found.into_iter().map(theorem).collect()
}

/// The file's text.
pub fn written(parts: &Parts) -> String {
    let mut text = format!(
        "# What the theorems say that PROOFS.md names, file by file: the type of each, and the parameters of the modules that it stands under.\n\
         # A test compares this with the proofs. It is written by\n\
         #     {COMMAND}\n"
    );
    for (part, head) in parts.iter().zip(["", WORDS, OTHERS]) {
        if !head.is_empty() {
            text += &format!("\n{head}\n");
        }
        let mut last = "";
        for ((file, _), said) in part {
            if file != last {
                text += &format!("\n{file}\n");
                last = file;
            }
            text += &format!("\n{said}\n");
        }
    }
    text
}

/// What such a text has.
pub fn stored(text: &str) -> Parts {
    let (text, others) = text.split_once(OTHERS).unwrap_or((text, ""));
    let (text, words) = text.split_once(WORDS).unwrap_or((text, ""));
    [text, words, others].map(|part| {
        let mut file = "";
        let mut found = Vec::new();
        for said in part.split("\n\n").map(|said| said.trim_matches('\n')) {
            if said.ends_with(".antt") {
                file = said;
            } else if !said.is_empty() && !said.starts_with('#') {
                let name = declared(said).unwrap_or_default();
                found.push(((file.to_string(), name.to_string()), said.to_string()));
            }
        }
        found
    })
}

/// A declaration: the modules that it stands in, the lines of its type, and all of its lines.
struct Declared {
    name: String,
    modules: Vec<usize>,
    statement: Vec<String>,
    whole: Vec<String>,
}

/// A file of proofs, without its comments.
#[derive(Default)]
struct Source {
    /// The modules' parameters, by lines.
    modules: Vec<Vec<String>>,
    declared: Vec<Declared>,
    /// The name here, the module, and the name there.
    imports: Vec<[String; 3]>,
}

/// The name that a line declares.
fn declared(line: &str) -> Option<&str> {
    let mut words = line.split_whitespace();
    let mut name = words.next()?;
    let mut shaped = false;
    while ["pub", "abbrev", "unfoldable", "data", "record"].contains(&name) {
        // These may have parameters between their name and its type.
        shaped |= ["data", "record"].contains(&name);
        name = words.next()?;
    }
    (words.next() == Some(":") || shaped).then_some(name)
}

impl Source {
    fn read(text: &str) -> Source {
        let mut source = Source::default();
        // The modules that are open: number, column, and the column of what stands in it.
        let mut open: Vec<(usize, usize, Option<usize>)> = Vec::new();
        let mut typed = false;
        let lines = text.lines().map(|line| uncommented(line, "--"));
        let mut lines = lines.filter(|line| !line.is_empty());
        while let Some(line) = lines.next() {
            if let Some(import) = import(line, "use ") {
                let own = |(there, here)| [here, import.module, there].map(str::to_string);
                source.imports.extend(import.names.into_iter().map(own));
                continue;
            }
            let own = line.trim_start();
            let column = line.len() - own.len();
            while open.last().is_some_and(|(_, above, _)| column <= *above) {
                open.pop();
            }
            let inner = open.last_mut();
            let inner = inner.map_or(0, |(_, _, inner)| *inner.get_or_insert(column));
            if column > inner {
                // It belongs to the declaration above it.
            } else if let Some(head) = own.strip_prefix("module ") {
                let mut head = vec![head.trim_start_matches("_ ").to_string()];
                while !head[head.len() - 1].ends_with(" where") {
                    head.push(lines.next().unwrap_or(" where").trim_start().to_string());
                }
                let last = head.pop().unwrap_or_default();
                head.push(last.trim_end_matches(" where").to_string());
                open.push((source.modules.len(), column, None));
                source.modules.push(head);
                continue;
            } else {
                let name = declared(own);
                typed = name.is_some();
                source.declared.extend(name.map(|name| Declared {
                    name: name.to_string(),
                    modules: open.iter().map(|(number, _, _)| *number).collect(),
                    statement: Vec::new(),
                    whole: Vec::new(),
                }));
            }
            if let Some(last) = source.declared.last_mut() {
                let line = &line[inner.min(column)..];
                last.whole.push(line.to_string());
                if typed {
                    last.statement.push(line.to_string());
                }
            }
        }
        source
    }

    /// Lines of a declaration, without its `pub`, under the parameters of its modules.
    fn shown(&self, declared: &Declared, lines: &[String]) -> String {
        let mut text = lines.join("\n").replacen("pub ", "", 1);
        for module in &declared.modules {
            text += &format!("\n    under {}", self.modules[*module].join("\n        "));
        }
        text
    }
}

/// The proofs below a folder of crates, read as they are asked for.
pub struct Proofs {
    crates: PathBuf,
    sources: BTreeMap<String, Source>,
}

impl Proofs {
    pub fn new(crates: PathBuf) -> Proofs {
        let sources = BTreeMap::new();
        Proofs { crates, sources }
    }

    /// Takes a text as that of a file, whatever stands there.
    pub fn take(&mut self, file: &str, text: &str) {
        self.sources.insert(file.to_string(), Source::read(text));
    }

    fn source(&mut self, file: &str) -> Option<&Source> {
        if !self.sources.contains_key(file) {
            let text = fs::read_to_string(self.crates.join(file)).ok()?;
            self.take(file, &text);
        }
        self.sources.get(file)
    }

    /// The place of a theorem in its file, if that declares it, and once.
    fn place(&mut self, (file, name): &Named) -> Option<usize> {
        let declared = &self.source(file)?.declared;
        let mut places = (0..declared.len()).filter(|at| declared[*at].name == *name);
        places.next().filter(|_| places.next().is_none())
    }

    /// What a theorem says.
    pub fn statement(&mut self, theorem: &Named) -> Option<String> {
        let at = self.place(theorem)?;
        let source = &self.sources[&theorem.0];
        let own = &source.declared[at];
        Some(source.shown(own, &own.statement))
    }

    /// What these theorems say, but for those that are not declared.
    pub fn parts(&mut self, theorems: &[Named]) -> Parts {
        let mut statements = Vec::new();
        let mut places: Vec<(String, usize)> = Vec::new();
        for theorem in theorems {
            if let (Some(at), Some(text)) = (self.place(theorem), self.statement(theorem)) {
                places.push((theorem.0.clone(), at));
                statements.push((theorem.clone(), text));
            }
        }
        let count = places.len();
        let mut others: Vec<(String, [String; 3])> = Vec::new();
        let mut next = 0;
        while let Some((file, at)) = places.get(next).cloned() {
            let (words, imports) = self.made_with(&file, at, next >= count);
            for word in words {
                if !places.contains(&word) {
                    places.push(word);
                }
            }
            others.extend(imports.into_iter().map(|import| (file.clone(), import)));
            next += 1;
        }
        let mut words = Vec::new();
        for (file, mut places) in by_file(places.split_off(count)) {
            places.sort_unstable();
            let source = &self.sources[&file];
            words.extend(places.into_iter().map(|at| {
                let own = &source.declared[at];
                let text = source.shown(own, &own.whole);
                ((file.clone(), own.name.clone()), text)
            }));
        }
        let others = by_file(others).into_iter();
        let others = others.map(|(file, imports)| ((file, String::new()), lines(imports)));
        [statements, words, others.collect()]
    }

    /// The words of proofs/ in a declaration, in its type or in all of it, and what it imports beside them.
    fn made_with(
        &mut self,
        file: &str,
        at: usize,
        whole: bool,
    ) -> (Vec<(String, usize)>, Vec<[String; 3]>) {
        let source = &self.sources[file];
        let own = &source.declared[at];
        let lines = if whole { &own.whole } else { &own.statement };
        let text = source.shown(own, lines);
        let mut names = names(&text);
        // Its own fields and cases are no words.
        for field in lines.iter().skip(1).filter_map(|line| declared(line)) {
            names.remove(field);
        }
        let mut words: Vec<(String, usize)> = Vec::new();
        for (at, word) in source.declared[..at].iter().enumerate() {
            if own.modules.starts_with(&word.modules) && uses(&names, &word.name) {
                words.push((file.to_string(), at));
            }
        }
        let imported = source
            .imports
            .iter()
            .filter(|[here, ..]| uses(&names, here));
        let mut imported: Vec<[String; 3]> = imported.cloned().collect();
        imported.retain(|[_, module, name]| {
            let file = below(module).unwrap_or_default();
            let declared = self
                .source(&file)
                .map_or(&[][..], |source| &source.declared);
            let place = declared.iter().position(|word| word.name == *name);
            words.extend(place.map(|at| (file, at)));
            place.is_none()
        });
        (words, imported)
    }
}

/// What belongs to each file, the files in the order of their first.
fn by_file<T>(list: Vec<(String, T)>) -> Vec<(String, Vec<T>)> {
    let mut files: Vec<(String, Vec<T>)> = Vec::new();
    for (file, own) in list {
        match files.iter_mut().find(|(name, _)| *name == file) {
            Some((_, all)) => all.push(own),
            None => files.push((file, vec![own])),
        }
    }
    files
}

/// Imports, module by module.
fn lines(imports: Vec<[String; 3]>) -> String {
    let imports: BTreeSet<(String, String)> = imports
        .into_iter()
        .map(|[here, module, there]| match here == there {
            true => (module, here),
            false => (module, format!("{there} as {here}")),
        })
        .collect();
    let mut lines: Vec<String> = Vec::new();
    for (module, name) in imports {
        let begin = format!("use {module}.{{");
        match lines.last_mut() {
            Some(last) if last.starts_with(&begin) && last.len() + name.len() < LINE => {
                last.insert_str(last.len() - 1, &format!(", {name}"));
            }
            _ => lines.push(format!("{begin}{name}}}")),
        }
    }
    lines.join("\n")
}

/// The file of a module of proofs/: `Rattle.block.proofs.Theorems` is block/proofs/Theorems.antt.
fn below(module: &str) -> Option<String> {
    let (own, path) = module.strip_prefix("Rattle.")?.split_once(".proofs.")?;
    Some(format!("{own}/proofs/{}.antt", path.replace('.', "/")))
}
