//! The documents name what is there: every section of docs/RULE.md that is
//! cited exists, and so does every definition and theorem in docs/PROOFS.md.
//! The published table of priorities is that of the code, the library and the model, and so is the standard table.
//! The table of kinds is that of the library and the model, and the tables of the worked examples are those that the tests run.

use check::compare::to_model_table;
use model::blocks::{fields, Record, BLOCK};
use model::calls::run;
use model::rule::{priority, Scheduler};
use mtr::{numbers, raw};
use samples::{examples, records};
use std::collections::BTreeSet;
use std::fs;
use std::path::{Path, PathBuf};

pub fn root() -> PathBuf {
    Path::new(env!("CARGO_MANIFEST_DIR")).join("../..")
}

pub fn read(path: &Path) -> String {
    fs::read_to_string(path).unwrap_or_else(|error| panic!("{}: {error}", path.display()))
}

/// Every file below a folder that ends in one of these.
fn files(folder: &Path, ends: &[&str], found: &mut Vec<PathBuf>) {
    for entry in fs::read_dir(folder).unwrap() {
        let path = entry.unwrap().path();
        let name = path.file_name().unwrap().to_string_lossy().into_owned();
        if path.is_dir() {
            if !name.starts_with('.') && !["target", "dist", "out"].contains(&name.as_str()) {
                files(&path, ends, found);
            }
        } else if ends.iter().any(|end| name.ends_with(end)) {
            found.push(path);
        }
    }
}

/// A section's number at the beginning of a text: "2", "2.4" or "10.1".
pub fn number(text: &str) -> &str {
    let end = text
        .find(|c: char| !c.is_ascii_digit() && c != '.')
        .unwrap_or(text.len());
    text[..end].trim_end_matches('.')
}

/// The numbers after a citation's name: "2.5, 2.7", "10.1 to 10.3", "9.4 and 9.5".
fn cited(mut rest: &str) -> Vec<String> {
    let mut numbers = Vec::new();
    loop {
        let one = number(rest);
        if one.is_empty() {
            return numbers;
        }
        numbers.push(one.to_string());
        let after = &rest[one.len()..];
        let joined = [", ", " to ", " and "]
            .iter()
            .find_map(|gap| after.strip_prefix(gap));
        match joined {
            Some(next) => rest = next,
            None => return numbers,
        }
    }
}

/// The sections of docs/RULE.md: headings "## 2 .." and paragraphs "**2.4 ..".
fn sections() -> BTreeSet<String> {
    let rule = read(&root().join("docs/RULE.md"));
    rule.lines()
        .filter_map(|line| line.strip_prefix("## ").or(line.strip_prefix("**")))
        .map(|line| number(line).to_string())
        .filter(|section| !section.is_empty())
        .collect()
}

#[test]
fn every_cited_section_exists() {
    let sections = sections();
    let mut places = Vec::new();
    files(
        &root(),
        &[".antt", ".rt", ".edit", ".md", ".rs", ".h"],
        &mut places,
    );
    let (mut citations, mut wrong) = (0, Vec::new());
    for place in places {
        for (index, line) in read(&place).lines().enumerate() {
            for part in line.split("RULE ").skip(1) {
                for section in cited(part) {
                    citations += 1;
                    if !sections.contains(&section) {
                        wrong.push(format!("{}:{}: RULE {section}", place.display(), index + 1));
                    }
                }
            }
        }
    }
    assert!(wrong.is_empty(), "no such section:\n{}", wrong.join("\n"));
    assert!(
        sections.len() > 50 && citations > 50,
        "{citations} citations"
    );
}

/// Whether a source declares a name.
fn declares(source: &str, name: &str) -> bool {
    const WORDS: [&str; 13] = [
        "pub",
        "pub(crate)",
        "unfoldable",
        "abbrev",
        "data",
        "record",
        "fn",
        "struct",
        "enum",
        "const",
        "mut",
        "mod",
        "extern",
    ];
    source.lines().any(|line| {
        let mut words = line
            .split_whitespace()
            .skip_while(|word| WORDS.contains(word));
        let first = words.next().unwrap_or("");
        let first = first.strip_prefix("\"C\"").unwrap_or(first);
        first == name
            || first
                .strip_prefix(name)
                .is_some_and(|rest| rest.starts_with(['(', ':', '<']))
    })
}

/// In the tables of docs/PROOFS.md a file in backticks, below crates/, is followed by names in it.
#[test]
fn every_name_in_proofs_exists() {
    let proofs = read(&root().join("docs/PROOFS.md"));
    let (mut names, mut wrong) = (0, Vec::new());
    for line in proofs.lines().filter(|line| line.starts_with('|')) {
        for cell in line.split('|') {
            let mut file: Option<(String, String)> = None;
            for word in cell.split('`').skip(1).step_by(2) {
                if word.ends_with(".antt") || word.ends_with(".rt") {
                    let source = read(&root().join("crates").join(word));
                    file = Some((word.to_string(), source));
                } else if let Some((path, source)) = &file {
                    names += 1;
                    let name = word.rsplit("::").next().unwrap();
                    if !declares(source, name) {
                        wrong.push(format!("{path}: {word}"));
                    }
                }
            }
        }
    }
    assert!(
        wrong.is_empty(),
        "not declared there:\n{}",
        wrong.join("\n")
    );
    assert!(names > 50, "{names} names");
}

/// A line of the table: priority, reservation, and what the priority is named, empty where it has no name.
type Line<'a> = (u64, u32, &'a str);

/// The lines of a text after one that begins so and before the next that ends the part.
pub fn part<'a>(text: &'a str, begin: &'a str, end: &'a str) -> impl Iterator<Item = &'a str> {
    text.lines()
        .skip_while(move |line| !line.starts_with(begin))
        .skip(1)
        .take_while(move |line| !line.starts_with(end))
}

/// The table in RULE 3.6: every line with a bar, the two of its head first.
fn published(rule: &str) -> Vec<Line<'_>> {
    let mut rows = part(rule, "**3.6 ", "#").filter(|line| line.contains('|'));
    assert_eq!(rows.next(), Some("| priority | reservation | named |"));
    assert_eq!(rows.next(), Some("|---|---|---|"));
    rows.map(|row| {
        let cells: Vec<&str> = row.split('|').map(str::trim).collect();
        let ["", priority, reservation, name, ""] = cells[..] else {
            panic!("no line of three cells: {row}");
        };
        (
            priority.parse().unwrap(),
            reservation.parse().unwrap(),
            name,
        )
    })
    .collect()
}

/// The table in the code: every case of the function but the last, which refuses.
fn written<'a>(source: &'a str) -> Vec<Line<'a>> {
    let cases: Vec<&str> = part(source, "pub fn reservation_of(", "}")
        .filter(|line| line.contains("=>"))
        .map(str::trim)
        .collect();
    let (refused, lines) = cases.split_last().unwrap();
    assert_eq!(*refused, "_ => Err(Refusal::Outside),");
    let line = |case: &&'a str| {
        let (priority, rest) = case.split_once(" => Ok(").unwrap();
        let (reservation, comment) = rest.split_once("),").unwrap();
        let name = comment.strip_prefix(" // ").unwrap_or(comment);
        (
            priority.parse().unwrap(),
            reservation.parse().unwrap(),
            name,
        )
    };
    lines.iter().map(line).collect()
}

/// The published table is that of the code, the library and the model, with the three values that source document 000 names.
#[test]
fn the_table_of_priorities() {
    let rule = read(&root().join("docs/RULE.md"));
    let source = read(&root().join("crates/priority/src/lib.rt"));
    let table = published(&rule);
    assert_eq!(table, written(&source));

    let priorities = table.iter().map(|line| line.0);
    let ends = raw::LOWEST_PRIORITY..=raw::HIGHEST_PRIORITY;
    assert_eq!(ends, 1..=10);
    assert!(priorities.eq(ends.rev()), "{table:?}");
    for &(p, reservation, _) in &table {
        assert_eq!(numbers::priority(p).result(), Ok(reservation), "{p}");
        assert_eq!(priority(p), Ok(reservation), "{p}");
    }
    let named: Vec<_> = table
        .into_iter()
        .filter(|line| !line.2.is_empty())
        .collect();
    assert_eq!(
        named,
        [(10, 20, "highest"), (5, 15, "normal"), (1, 11, "lowest")]
    );
}

/// The rows of the standard table in the code, a priority and its reservation each, and its count.
fn standard_rows(source: &str) -> (Vec<(u64, u32)>, usize) {
    let lines: Vec<&str> = part(source, "pub fn standard(", "}")
        .map(str::trim)
        .skip_while(|line| *line != "PriorityTable {")
        .collect();
    let ["PriorityTable {", "rows: [", rows @ .., "],", count, "}"] = &lines[..] else {
        panic!("{lines:?}");
    };
    let row = |line: &&str| {
        let numbers = line.strip_prefix("only(").unwrap().strip_suffix("),");
        let (priority, reservation) = numbers.unwrap().split_once(", ").unwrap();
        (priority.parse().unwrap(), reservation.parse().unwrap())
    };
    let count = count.strip_prefix("count: ").unwrap().strip_suffix(',');
    (
        rows.iter().map(row).collect(),
        count.unwrap().parse().unwrap(),
    )
}

/// The standard table has the rows of the published one, in its order: in the code, the library and the model.
#[test]
fn the_standard_table() {
    let rule = read(&root().join("docs/RULE.md"));
    let source = read(&root().join("crates/priority/src/table.rt"));
    let rows: Vec<(u64, u32)> = (published(&rule).iter())
        .map(|&(priority, reservation, _)| (priority, reservation))
        .collect();
    assert_eq!(rows.len(), raw::PRIORITY_ROWS);
    assert_eq!(standard_rows(&source), (rows.clone(), rows.len()));

    let table = numbers::standard_table();
    assert_eq!(table.count, rows.len() as u64);
    for (&(priority, reservation), row) in rows.iter().zip(&table.rows) {
        assert_eq!((row.first, row.last), (priority, priority));
        assert_eq!(row.reservation, reservation.into());
    }
    assert_eq!(to_model_table(&table), model::table::standard());
}

/// The cells of the lines of a table, after the two of its head, and without the empty ones at both ends.
fn rows<'a>(lines: impl Iterator<Item = &'a str>) -> Vec<Vec<&'a str>> {
    let table = lines.filter(|line| line.starts_with('|')).skip(2);
    table
        .map(|row| {
            let cells: Vec<&str> = row.split('|').map(str::trim).collect();
            cells[1..cells.len() - 1].to_vec()
        })
        .collect()
}

/// RULE 7.4: each kind with its fields. The model's table is the same, and the library writes a record whose fields used hold anything, and
/// none with another field set.
#[test]
fn the_table_of_kinds() {
    let rule = read(&root().join("docs/RULE.md"));
    let kinds = rows(part(&rule, "**7.4 ", "**7.5 "));
    assert_eq!(kinds.len(), raw::KIND_BEST_EFFORT as usize);
    for (i, row) in kinds.iter().enumerate() {
        let [number, call, used] = row[..] else {
            panic!("{row:?}");
        };
        let kind: u8 = number.parse().unwrap();
        assert_eq!(kind as usize, i + 1);
        let words: BTreeSet<&str> = used
            .split(", ")
            .filter_map(|field| field.split(' ').next())
            .collect();
        let uses = fields(kind).unwrap();
        let sides = [
            ("subject", uses.subject),
            ("group", uses.group),
            ("reason", uses.reason),
            ("amount", uses.amount),
            ("ticks", uses.ticks),
            ("overrun", uses.overrun),
        ];
        for (name, uses) in sides {
            assert_eq!(words.contains(name), uses, "{call}: {name}");
            let record = numbers::Record {
                kind,
                subject: (name == "subject") as u8,
                group: (name == "group") as u8,
                reason: (name == "reason") as u8,
                amount: (name == "amount") as u16,
                overrun: (name == "overrun") as u16,
                ticks: (name == "ticks") as u32,
            };
            let answer = numbers::write_block(&mut [0; BLOCK], 0, &[record]);
            assert_eq!(answer, if uses { 0 } else { 19 }, "{call}: {name}");
        }
    }
    let next = numbers::Record {
        kind: kinds.len() as u8 + 1,
        ..numbers::Record::default()
    };
    assert_eq!(numbers::write_block(&mut [0; BLOCK], 0, &[next]), 19);
}

/// A record as RULE 10 writes it: its name and its numbers.
fn described(text: &str) -> Record {
    let numbers: Vec<u64> = text
        .split(|c: char| !c.is_ascii_digit())
        .filter_map(|word| word.parse().ok())
        .collect();
    let digit = text.find(|c: char| c.is_ascii_digit());
    match (text[..digit.unwrap_or(text.len())].trim(), &numbers[..]) {
        ("start, m =", &[m, p]) => records::start(m as u16, p as u32, 0),
        ("start, m =", &[m, p, o]) => records::start(m as u16, p as u32, o as u16),
        ("admit best-effort", &[number, weight]) => records::admit_weight(number, weight),
        ("admit", &[number, group, amount]) => records::admit(number, group, amount),
        ("wake", &[number]) => records::wake(number),
        ("dispatch", []) => records::dispatch(),
        ("report", &[reason, used]) => records::report(reason, used),
        ("change", &[number, reservation]) => records::change(number, reservation),
        _ => panic!("{text}"),
    }
}

/// A number that is written in groups of three.
fn grouped(text: &str) -> u64 {
    text.replace(',', "").parse().unwrap()
}

/// The tables of RULE 10.1 and 10.8 are the worked examples that the tests run, line by line, with the tags and the virtual time of 10.8.
#[test]
fn the_tables_of_the_examples() {
    let rule = read(&root().join("docs/RULE.md"));
    let all = examples::all();
    for (name, section, next) in [
        ("listing", "**10.1 ", "**10.2 "),
        ("best-effort", "**10.8 ", "**10.9 "),
    ] {
        let example = all.iter().find(|e| e.name == name).unwrap();
        let lines = rows(part(&rule, section, next));
        assert_eq!(lines.len(), example.steps.len());
        let mut s = Scheduler::default();
        for (row, step) in lines.iter().zip(&example.steps) {
            assert_eq!(row[0], format!("`{}`", step.printed), "{name}");
            assert_eq!(described(row[1]), step.record, "{name} {}", row[0]);
            run(&mut s, &step.record);
            let &[_, _, two, nine, time, _] = &row[..] else {
                continue;
            };
            for (thread, cell) in [(&s.threads[2], two), (&s.threads[9], nine)] {
                assert_eq!(thread.is_best_effort(), !cell.is_empty());
                assert!(cell.is_empty() || thread.tag == 240_240 * grouped(cell));
            }
            assert_eq!(s.time, 240_240 * grouped(time), "{}", row[0]);
        }
    }
    // The last paragraph of 10.8: what `mtrwhy` gives, in backquotes, before each number of a record.
    let example = all.iter().find(|e| e.name == "best-effort").unwrap();
    let end: Vec<&str> = part(&rule, "**10.8 ", "**10.9 ").collect();
    let end = end.join(" ");
    let facts = example.text.rsplit_once("dispatch").unwrap().1;
    for number in facts.lines().filter_map(|line| line.split(' ').nth(3)) {
        assert!(end.contains(number), "{number}");
    }
    let (_, causes) = end.split_once("`mtrwhy` gives ").unwrap();
    let told: Vec<(usize, String)> = causes
        .split(" for record ")
        .collect::<Vec<_>>()
        .windows(2)
        .map(|part| {
            let answer = part[0].split('`').skip(1).step_by(2);
            let lines = answer.map(|line| format!("{line}\n")).collect();
            (number(part[1]).parse().unwrap(), lines)
        })
        .collect();
    let asked = example.questions();
    let asked = asked.into_iter().map(|(n, answer)| (n, answer.to_string()));
    assert!(asked.eq(told));
}

/// The tables of RULE 10.9 are the example of processor use: its records with what `mtrrun` prints, its counts, and questions of it.
#[test]
fn the_tables_of_processor_use() {
    let rule = read(&root().join("docs/RULE.md"));
    let lines: Vec<&str> = part(&rule, "**10.9 ", "**10.10 ").collect();
    let tables: Vec<Vec<Vec<&str>>> = lines
        .split(|line| !line.starts_with('|'))
        .map(|table| rows(table.iter().copied()))
        .filter(|table| !table.is_empty())
        .collect();
    let [printed, counts, questions] = &tables[..] else {
        panic!("{} tables", tables.len());
    };
    let example = examples::usage();
    let steps: Vec<_> = example.blocks.iter().flat_map(|b| &b.steps).collect();
    assert_eq!(printed.len(), steps.len());
    for (row, step) in printed.iter().zip(steps) {
        assert_eq!(row[0], format!("`{}`", step.printed));
        assert_eq!(described(row[1]), step.record, "{}", row[0]);
    }
    assert_eq!(counts.len(), example.blocks.len());
    for (row, block) in counts.iter().zip(&example.blocks) {
        let wanted = [5, 40, 63].map(|n| block.charged[n]);
        assert_eq!([1, 2, 3].map(|i| grouped(row[i])), wanted);
        assert_eq!(wanted.iter().sum::<u64>(), block.charged.iter().sum());
    }
    assert!(questions.len() > 10);
    for row in questions {
        let asked = example
            .questions
            .iter()
            .find(|(q, _)| row[0] == format!("{} {} {}", q.thread, q.first, q.second));
        assert_eq!(row[1], format!("`{}`", asked.expect(row[0]).1));
    }
}
