//! The program `mtrwhy` against the model: the same bytes on standard output for the same journal and number.

use check::program::{answered, fed, feed, mtrwhy, root, shipped, silent, Folder};
use check::why::{drawn, rarer, sort_of, sorts, Named, Sort, Sorts, FAR};
use model::blocks::{read_block, BLOCK, RECORDS};
use model::why::why;
use samples::random::{blocking, journal, long, Rng};
use samples::records;
use std::io::{pipe, Read, Write};
use std::path::Path;
use std::process::Stdio;

/// Asks the program about a number and counts the sort of the answer, which is the model's.
fn ask(path: &Path, input: &[u8], sorts: &[Sort], asked: u64, text: &str, seen: &mut Sorts) {
    let (found, wanted) = (answered(path, text), why(input, asked));
    let sort = sort_of(sorts, asked);
    if found != wanted || !sort.fits(&wanted) {
        let kept = std::env::temp_dir().join("mtrwhy-differs.blocks");
        std::fs::write(&kept, input).unwrap();
        let [found, wanted] = [found, wanted].map(|b| String::from_utf8_lossy(&b).into_owned());
        panic!(
            "{}, {text}, {sort:?}: {found:?} for {wanted:?}",
            kept.display()
        );
    }
    *seen.entry(sort).or_default() += 1;
}

/// A number in digits, at times with leading zeros.
fn spelt(r: &mut Rng, n: u64) -> String {
    let digits = r.pick(&[1, 1, 1, 1, 2, 10, 18, 19]);
    format!("{n:0digits$}")
}

/// Some of the numbers of many journals, and every number of some; how often each sort of answer occurred.
fn compare(
    name: &str,
    make: fn(&mut Rng) -> Vec<u8>,
    seed: u64,
    journals: usize,
    whole: usize,
) -> Sorts {
    let folder = Folder::new(name);
    let mut r = Rng::new(seed);
    let mut seen = Sorts::new();
    for k in 0..journals {
        let input = make(&mut r);
        let path = folder.file("journal", &input);
        let sorts = sorts(&input);
        let asked: Vec<u64> = if k < whole {
            (0..sorts.len() as u64 + 2).chain(FAR).collect()
        } else {
            drawn(&mut r, &sorts)
        };
        for n in asked {
            let text = spelt(&mut r, n);
            ask(&path, &input, &sorts, n, &text, &mut seen);
        }
    }
    println!("{name}: {seen:?}");
    seen
}

#[test]
fn generated_journals() {
    let mut seen = compare("generated", journal, 50, 250, 3);
    for (sort, times) in compare("blocking", blocking, 51, 250, 3) {
        *seen.entry(sort).or_default() += times;
    }
    assert!(rarer(&seen, 5).is_empty(), "{seen:?}");
}

#[test]
fn shipped_journals() {
    let mut r = Rng::new(52);
    let mut seen = Sorts::new();
    for path in shipped() {
        let input = std::fs::read(&path).unwrap();
        let sorts = sorts(&input);
        for n in drawn(&mut r, &sorts) {
            ask(&path, &input, &sorts, n, &n.to_string(), &mut seen);
        }
        let last = sorts.iter().rposition(|sort| sort.is_dispatch());
        let n = last.unwrap() as u64;
        ask(&path, &input, &sorts, n, &n.to_string(), &mut seen);
    }
    println!("{seen:?}");
    // What `rt ci` runs.
    let journal = root().join("crates/mtrwhy/data/journal");
    let stdout = std::fs::read(root().join("crates/mtrwhy/stdout")).unwrap();
    assert_eq!(answered(&journal, "7"), stdout);
    assert_eq!(why(&std::fs::read(&journal).unwrap(), 7), stdout);
}

/// What the program prints for a journal that comes through a pipe in pieces of these lengths, again and again.
fn piped(input: &[u8], pieces: &[usize], asked: u64) -> Vec<u8> {
    let mut command = mtrwhy();
    command.args(["/dev/stdin", &asked.to_string()]);
    fed(command, input, pieces)
}

#[test]
fn odd_pieces() {
    let mut r = Rng::new(53);
    let mut seen = Sorts::new();
    for round in 0..150 {
        let input = if round % 2 == 0 {
            blocking(&mut r)
        } else {
            journal(&mut r)
        };
        let sorts = sorts(&input);
        let pieces: Vec<usize> = (0..7).map(|_| r.edgy(1, 1500) as usize).collect();
        let of = drawn(&mut r, &sorts);
        for asked in [r.pick(&of), r.pick(&of)] {
            assert_eq!(piped(&input, &pieces, asked), why(&input, asked), "{asked}");
            *seen.entry(sort_of(&sorts, asked)).or_default() += 1;
        }
    }
    println!("{seen:?}");
    assert!(rarer(&seen, 1).is_empty(), "{seen:?}");
}

/// A pipe with a name.
#[test]
fn named_pipe() {
    let folder = Folder::new("fifo");
    let mut r = Rng::new(54);
    for round in 0..100 {
        // A new pipe each time: a child that another test has just forked may hold the last one open for a moment more.
        let path = folder.join(format!("journal-{round}"));
        let made = std::process::Command::new("mkfifo").arg(&path).status();
        assert!(made.unwrap().success());
        let input = blocking(&mut r);
        let sorts = sorts(&input);
        let of = drawn(&mut r, &sorts);
        let (asked, length) = (r.pick(&of), r.edgy(1, 1500) as usize);
        let found = std::thread::scope(|scope| {
            scope.spawn(|| feed(std::fs::File::create(&path).unwrap(), &input, &[length]));
            answered(&path, asked.to_string())
        });
        assert_eq!(found, why(&input, asked), "{asked}");
    }
}

/// Journals that end at a piece's end, before it and after it, asked about blocks at the ends of pieces, as a file and as a
/// pipe.
#[test]
fn pieces_of_blocks() {
    let folder = Folder::new("pieces");
    let mut r = Rng::new(55);
    let mut seen = Sorts::new();
    for blocks in [1, 31, 32, 33, 63, 64, 65, 96] {
        let input = long(&mut r, blocks).concat();
        let path = folder.file("journal", &input);
        let sorts = sorts(&input);
        for place in [0, 30, 31, 32, 33, 62, 63, 64, 65, 95] {
            let numbers = RECORDS * place..RECORDS * (place + 1);
            let mut of: Vec<usize> = numbers.clone().collect();
            of.retain(|&n| sort_of(&sorts, n as u64).is_dispatch());
            let dispatches = [of.first(), of.last()].map(|n| n.copied().unwrap_or(numbers.start));
            for n in [numbers.start, dispatches[0], dispatches[1], numbers.end - 1] {
                ask(&path, &input, &sorts, n as u64, &n.to_string(), &mut seen);
                assert_eq!(piped(&input, &[1000], n as u64), why(&input, n as u64));
            }
        }
        // A part of a further block is one more block, and changes nothing before it.
        let more = [&input[..], &[7; 100]].concat();
        let (path, sorts) = (folder.file("more", &more), check::why::sorts(&more));
        for n in [
            RECORDS * blocks - 1,
            RECORDS * blocks,
            RECORDS * (blocks + 1),
        ] {
            ask(&path, &more, &sorts, n as u64, &n.to_string(), &mut seen);
        }
    }
    println!("{seen:?}");
    let several = Sort::Chosen(Named::Several);
    assert!(
        seen[&several] > 20 && seen[&Sort::PastTheEnd] > 20,
        "{seen:?}"
    );
}

/// A refused block takes what follows it up to the next start, and nothing before it.
#[test]
fn refused_blocks() {
    let folder = Folder::new("refused");
    let mut r = Rng::new(56);
    let mut seen = Sorts::new();
    let blocks = long(&mut r, 40);
    for bad in [0, 15, 31, 32, 39] {
        let mut damaged = blocks.clone();
        damaged[bad][r.below(BLOCK as u64) as usize] ^= 1;
        // Two blocks later a start and the records of the first block again.
        let again = bad + 2;
        if again < 39 {
            let mut list = read_block(&blocks[0], 0).unwrap();
            list.truncate(RECORDS - 1);
            list.insert(0, records::start(100, 20_000, 0));
            damaged[again] = records::block(again as u32, &list);
        }
        let (whole, input) = (blocks.concat(), damaged.concat());
        let path = folder.file("journal", &input);
        let sorts = sorts(&input);
        for place in [0, 2, 14, 15, 17, 30, 31, 32, 33, 34, 39] {
            for n in RECORDS * place..RECORDS * (place + 1) {
                let n = n as u64;
                if !sorts[n as usize].is_dispatch() {
                    continue;
                }
                ask(&path, &input, &sorts, n, &n.to_string(), &mut seen);
                if place < bad {
                    assert_eq!(why(&input, n), why(&whole, n));
                } else if place < again {
                    assert_eq!(why(&input, n), b"21\n");
                } else {
                    assert_ne!(why(&input, n), b"21\n");
                }
            }
        }
    }
    println!("{seen:?}");
    assert!(seen[&Sort::Stopped] > 20, "{seen:?}");
}

/// The program reads up to the end of the record's block and no further; all if there is no such block. With a bad argument it
/// reads nothing. The journal lies in a pipe, and what was not taken is still there.
#[test]
fn reads_no_further_than_needed() {
    let mut r = Rng::new(57);
    let input = long(&mut r, 120).concat();
    let taken = |number: &str| {
        let (mut rest, mut to) = pipe().unwrap();
        to.write_all(&input).unwrap();
        drop(to);
        let stdin = Stdio::from(rest.try_clone().unwrap());
        let output = mtrwhy().args(["/dev/stdin", number]).stdin(stdin).output();
        let printed = silent(output.unwrap());
        let mut left = Vec::new();
        rest.read_to_end(&mut left).unwrap();
        assert!(input.ends_with(&left));
        (printed, input.len() - left.len())
    };
    for place in [0, 1, 30, 31, 32, 33, 63, 64, 95, 96, 119] {
        for n in [31 * place, 31 * place + 15, 31 * place + 30] {
            let (printed, bytes) = taken(&n.to_string());
            assert_eq!(printed, why(&input, n));
            assert_eq!(bytes, BLOCK * (place as usize + 1), "{n}");
        }
    }
    for far in [31 * 120, 31 * 128, 1u64 << 32, 9_999_999_999_999_999_999] {
        assert_eq!(taken(&far.to_string()), (b"21\n".to_vec(), input.len()));
    }
    for bad in ["", "x", "00000000000000000000"] {
        assert_eq!(taken(bad), (b"4\n".to_vec(), 0));
    }
}
