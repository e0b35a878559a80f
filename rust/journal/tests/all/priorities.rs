//! `journal priorities`: tables that can be used, every sort of wrong one with
//! its line, files.

use std::fs;
use std::os::unix::fs::symlink;

use journal::priorities::{Table, Wrong};
use model::rule;
use model::table::{self, asked, Row, ROWS};
use samples::random::{damaged_tables, usable_table, Rng};

use crate::common::{good, run, Folder};

const COMMAND: &str = "priorities";

const USABLE: &str = "# ours\n1 7 10\n\n8 10 40 # instruments\n";

/// What is printed for it.
const PRINTED: &str = "\
priority    reservation  standard  line
10 highest           40        20     4
 9                   40        19     4
 8                   40        18     4
 7                   10        17     2
 6                   10        16     2
 5 normal            10        15     2
 4                   10        14     2
 3                   10        13     2
 2                   10        12     2
 1 lowest            10        11     2
";

fn usable(text: impl AsRef<[u8]>) -> String {
    Table::read(text.as_ref()).unwrap().text()
}

/// What is said of a text that gives no table.
fn refused(text: impl AsRef<[u8]>) -> Vec<String> {
    match Table::read(text.as_ref()).unwrap_err() {
        Wrong::Whole(message) => vec![message],
        Wrong::Lines(problems) => problems
            .iter()
            .map(|p| format!("line {}: {}", p.line, p.message))
            .collect(),
    }
}

#[test]
fn a_usable_table_is_printed_beside_the_standard_one() {
    let folder = Folder::new("table");
    let file = folder.file("site.txt", USABLE);
    assert_eq!(good(&[COMMAND], USABLE.as_bytes()), PRINTED);
    assert_eq!(good(&[COMMAND, &file], b"nothing of this is read"), PRINTED);
    // The example of the help.
    let help = good(&[COMMAND, "--help"], b"");
    let example: Vec<&str> = help.lines().filter(|line| line.contains(" # ")).collect();
    assert_eq!(example.len(), 3);
    let text = [example[0], example[1], "", example[2]].join("\n");
    assert_eq!(usable(text), PRINTED);
}

#[test]
fn blanks_tabs_line_ends_and_zeros_make_no_difference() {
    let same = |text: &str| assert_eq!(usable(text), PRINTED, "{text:?}");
    same(&USABLE.replace('\n', "\r\n"));
    same(&USABLE.replace(' ', " \t  "));
    same(&USABLE.replace(" 7", " 007"));
    same(&format!("\u{feff}{USABLE}"));
    same("# \u{e4}\n1 7 10#1 2 3\n \t \r\n8 10 40");
    same(&format!("\n1 7 {}10\n\n8 10 40\n", "0".repeat(70_000)));
    // A line with many digits, and the largest reservation.
    let printed = usable(format!("{}1 10 1000", "\n".repeat(123_455)));
    let lines: Vec<&str> = printed.lines().collect();
    assert_eq!(lines[0], "priority    reservation  standard    line");
    assert_eq!(lines[1], "10 highest         1000        20  123456");
}

#[test]
fn a_wrong_row_is_told_with_its_line_and_its_numbers() {
    for (row, words) in [
        ("7 4 5", "the row is upside down: first 7, last 4"),
        ("0 3 5", "priority 0 is outside 1 to 10"),
        ("11 11 5", "priority 11 is outside 1 to 10"),
        ("8 10 0", "reservation 0 is outside 1 to 1000"),
        (
            "11 0 18446744073709551615",
            "the row is upside down: first 11, last 0; priority 11 is outside 1 to 10; priority 0 \
             is outside 1 to 10; reservation 18446744073709551615 is outside 1 to 1000",
        ),
    ] {
        // The first wrong row, whatever is wrong besides.
        let text = format!("# ours\n1 7 10\n\n{row}\n0 0 0\n1 7 10\n");
        let told = format!("line 4: {words} (refused with 22)");
        assert_eq!(refused(text), [told]);
    }
}

#[test]
fn too_many_rows_and_none() {
    for text in ["", "\u{feff}", "# ours\r\n\r\n\t\n#"] {
        let none = ["no rows; a table has 1 to 10 (refused with 4)"];
        assert_eq!(refused(text), none, "{text:?}");
    }
    let ten: String = (1..=10).map(|p| format!("{p} {p} 5\n\n")).collect();
    assert_eq!(usable(&ten).lines().count(), 11);
    // Before any row is looked at.
    let many = format!("{ten}{}", "3 2 0\n".repeat(1000));
    let words = ["line 21: row 11 of 1010; a table has 1 to 10 rows (refused with 4)"];
    assert_eq!(refused(many), words);
}

#[test]
fn a_priority_in_no_row_or_in_several() {
    let gap = |p: u64| [format!("priority {p} stands in no row (refused with 23)")];
    let twice = |p: u64, first: u64, second: u64| {
        let words = format!("priority {p} stands in line {first} already");
        [format!("line {second}: {words} (refused with 23)")]
    };
    assert_eq!(refused("1 6 10\n8 10 40\n"), gap(7));
    assert_eq!(refused("1 7 10\n# ours\n7 10 40\n"), twice(7, 1, 3));
    assert_eq!(refused("1 10 40\n\n4 4 10\n4 4 5\n"), twice(4, 1, 3));
    // The lowest, whether it is in no row or in several.
    assert_eq!(refused("1 3 5\n3 5 5\n7 10 5\n"), twice(3, 1, 2));
    assert_eq!(refused("1 1 5\n3 5 5\n5 10 5\n"), gap(2));
}

#[test]
fn lines_that_are_not_three_numbers() {
    let row = "a row is 'first last reservation'";
    let ends = |name: &str| format!("the line ends before {name}; {row}");
    let digits = |name: &str, word: &str| format!("{name}: '{word}' is not a decimal number");
    let lost = "a carriage return within the line; it may stand at the line's end alone";
    let most = "18446744073709551616";
    let above = format!("the first priority: '{most}' is above 18446744073709551615");
    let long = format!("{} 1 1", "x".repeat(70_000));
    for (line, words) in [
        (&b"8"[..], ends("the last priority")),
        (b"8 10 # 40", ends("the reservation")),
        (b"8 10 40 5", format!("'5' after the reservation; {row}")),
        (b"-8 10 40", digits("the first priority", "-8")),
        (b"8 10 0x28", digits("the reservation", "0x28")),
        (b"8 10 40\x00", digits("the reservation", "40\u{fffd}")),
        (b"8\xc2\xa010 40", digits("the first priority", "8\u{a0}10")),
        (b"8 10 40 # \xe4", "this is not text in UTF-8".into()),
        (b"# all\r8 10 40", lost.into()),
        (format!("{most} 10 40").as_bytes(), above),
        (
            long.as_bytes(),
            digits("the first priority", &format!("{}..", "x".repeat(32))),
        ),
    ] {
        let text = [b"# ours\n1 7 10\n\n", line, b"\n"].concat();
        assert_eq!(refused(text), [format!("line 4: {words}")]);
    }
    // Before the table is judged, and up to twenty.
    let lines = refused("7 4 5\nx\n0 0 0\n1 2\n");
    let starts: Vec<&str> = lines.iter().map(|line| &line[..7]).collect();
    assert_eq!(starts, ["line 2:", "line 4:"]);
    for (count, named) in [(20, 20), (5000, 20)] {
        assert_eq!(refused("1 10 x\n".repeat(count)).len(), named);
    }
}

#[test]
fn a_file_is_written_whole_or_not_at_all() {
    let folder = Folder::new("table-output");
    let file = folder.file("site.txt", USABLE);
    let old = folder.file("old.out", "as it was");
    for (text, words) in [
        (
            "1 6 10\n8 10 40\n",
            "priority 7 stands in no row (refused with 23)",
        ),
        (
            "\n7 4 5\n",
            "line 2: the row is upside down: first 7, last 4 (refused with 22)",
        ),
    ] {
        let wrong = folder.file("wrong.txt", text);
        for out in [&old, &folder.path("new.out")] {
            let errors = run(&[COMMAND, &wrong, "-o", out], b"").bad(1);
            assert_eq!(errors, format!("journal: {wrong}: {words}\n"));
        }
    }
    assert_eq!(fs::read(&old).unwrap(), b"as it was");
    assert_eq!(good(&[COMMAND, &file, "-o", &old], b""), "");
    assert_eq!(fs::read_to_string(&old).unwrap(), PRINTED);
    assert_eq!(folder.names(), ["old.out", "site.txt", "wrong.txt"]);
    // A table is not replaced by what it says, also by another name of it.
    let link = folder.path("link.txt");
    symlink(&file, &link).unwrap();
    for (from, to) in [(&file, &file), (&link, &file), (&file, &link)] {
        let words = "the result would replace the table; name another file";
        let errors = run(&[COMMAND, from, "-o", to], b"").bad(1);
        assert_eq!(errors, format!("journal: {from}: {words}\n"));
        assert_eq!(fs::read_to_string(&file).unwrap(), USABLE);
    }
}

/// The rows as a text has them: as many as the table says, or more than ten.
fn rows_of(table: &table::Table) -> Vec<Row> {
    let mut rows = table.rows[..(table.count as usize).min(ROWS)].to_vec();
    if table.count > ROWS as u64 {
        rows.extend([rows[0]; 2]);
    }
    rows
}

/// A text with these rows and lines of other sorts; the lines of the rows.
fn text_of(rows: &[Row], r: &mut Rng) -> (String, Vec<u64>) {
    let (mut text, mut lines) = (String::new(), Vec::new());
    for row in rows {
        while r.chance(1, 3) {
            text += r.pick(&["\n", "# 1 10 5\n", " \t\r\n"]);
        }
        lines.push(text.matches('\n').count() as u64 + 1);
        let Row { first, last, .. } = row;
        text += &format!("{first} {last} {}\n", row.reservation);
    }
    (text, lines)
}

/// The lines of the rows that a priority stands in.
fn holding(priority: u64, rows: &[Row], lines: &[u64]) -> Vec<u64> {
    let held = |row: &Row| row.first <= priority && priority <= row.last;
    let rows = rows.iter().zip(lines).filter(|(row, _)| held(row));
    rows.map(|(_, &line)| line).collect()
}

/// Reservations and refusals are the model's, each with its line.
#[test]
fn generated_tables_are_judged_as_by_the_model() {
    let mut r = Rng::new(20_261);
    for _ in 0..100 {
        let table = usable_table(&mut r);
        let rows = rows_of(&table);
        let (text, lines) = text_of(&rows, &mut r);
        let told = usable(&text);
        for (told, p) in told.lines().skip(1).zip((1..=10).rev()) {
            let (own, standard) = (asked(&table, p).reservation, rule::priority(p).unwrap());
            let line = holding(p, &rows, &lines)[0];
            let columns = format!("  {own:>11}  {standard:>8}  {line:>4}");
            assert_eq!((&told[..2], &told[10..]), (&*format!("{p:>2}"), &*columns));
        }
    }
    // None, eleven, a row, in no row, in several.
    let mut seen = [0; 5];
    for _ in 0..40 {
        for (damage, table) in damaged_tables(&mut r) {
            let rows = rows_of(&table);
            let (text, lines) = text_of(&rows, &mut r);
            let answer = asked(&table, 1);
            let place = answer.place as usize;
            let held = holding(answer.place.into(), &rows, &lines);
            let (sort, words) = match (answer.answer, &held[..]) {
                (4, _) if rows.is_empty() => (0, "no rows; a table has 1 to 10".into()),
                (4, _) => {
                    let words = "row 11 of 12; a table has 1 to 10 rows";
                    (1, format!("line {}: {words}", lines[ROWS]))
                }
                (22, _) => (2, format!("line {}: ", lines[place])),
                (_, []) => (3, format!("priority {place} stands in no row")),
                (_, held) => {
                    let words = format!("priority {place} stands in line {} already", held[0]);
                    (4, format!("line {}: {words}", held[1]))
                }
            };
            seen[sort] += 1;
            let told = refused(&text);
            assert_eq!(told.len(), 1, "{damage}: {text}");
            let end = format!(" (refused with {})", answer.answer);
            let told = told[0].strip_suffix(&end).unwrap();
            match answer.answer {
                22 => assert!(told.starts_with(&words), "{damage}: {text}"),
                _ => assert_eq!(told, words, "{damage}: {text}"),
            }
        }
    }
    assert!(seen.iter().all(|&n| n > 5), "{seen:?}");
}
