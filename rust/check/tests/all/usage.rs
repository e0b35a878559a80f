//! The programs `mtrsum` and `mtrask` against the model: the same summary or refusal for the same journal, the same answers from the same
//! summary, and from one that is whole the answers of running the journal.

use check::program::{asked, fed, mtrask, shipped, spelt, summed, Folder};
use check::usage::{rarer, sort_of, written, Journals, Sorts};
use model::blocks::BLOCK;
use model::usage::{ask, ask_from, ask_journal, counts, lines, summary, Question};
use samples::random::{any_question, blocking, damage_summary, journal, long, Rng, SummaryDamage};
use samples::records;
use std::collections::BTreeMap;
use std::fs;
use std::path::Path;

/// What occurred.
#[derive(Default)]
struct Seen {
    journals: Journals,
    damage: BTreeMap<SummaryDamage, usize>,
    /// Of questions about whole summaries, and about damaged ones.
    sorts: [Sorts; 2],
}

/// What a program gave is what the model gives; else the input is kept.
fn same(input: &[u8], found: &[u8], wanted: &[u8], what: &dyn Fn() -> String) {
    if found != wanted {
        let own = format!("usage-differs-{}", std::process::id());
        let kept = std::env::temp_dir().join(own);
        fs::write(&kept, input).unwrap();
        let [found, wanted] = [found, wanted].map(|b| {
            let start = &b[..b.len().min(2000)];
            format!("{} bytes: {}", b.len(), start.escape_ascii())
        });
        panic!("{}, {}:\n{found}\nfor\n{wanted}", kept.display(), what());
    }
}

/// Sums a journal: the model's summary, if there is one.
fn sum(path: &Path, input: &[u8]) -> Option<Vec<u8>> {
    same(input, &summed(path), &written(input), &|| "mtrsum".into());
    summary(input).ok()
}

/// Asks a summary in a file, and counts the sorts of the questions; the answers.
fn put(
    path: &Path,
    summary: &[u8],
    questions: &[Question],
    seen: &mut Sorts,
) -> Vec<Result<u64, u32>> {
    let answers: Vec<_> = questions.iter().map(|q| ask(summary, q)).collect();
    assert_eq!(ask_from(summary, questions).unwrap(), answers);
    let found = asked(path, questions);
    same(summary, &found, &lines(&answers), &|| {
        format!("mtrask {}", spelt(questions).join(" "))
    });
    for (q, &answer) in questions.iter().zip(&answers) {
        let sort = sort_of(summary, q);
        assert!(sort.fits(answer), "{q:?}: {sort:?}, {answer:?}");
        *seen.entry(sort).or_default() += 1;
    }
    answers
}

/// Up to 64 questions.
fn drawn(r: &mut Rng, counts: &[[u64; 64]]) -> Vec<Question> {
    let n = r.pick(&[1, 2, 3, 10, 40, 63, 64, 64]);
    (0..n).map(|_| any_question(r, counts)).collect()
}

/// Sums a journal, asks its summary, and asks it again with damage.
fn compare(folder: &Folder, r: &mut Rng, input: &[u8], damages: usize, seen: &mut Seen) {
    seen.journals.journal(input);
    let path = folder.file("journal", input);
    let Some(summary) = sum(&path, input) else {
        return;
    };
    let path = folder.file("summary", &summary);
    let counts = counts(input).unwrap();
    let questions = drawn(r, &counts);
    let answers = put(&path, &summary, &questions, &mut seen.sorts[0]);
    for (q, &answer) in questions.iter().zip(&answers).take(8) {
        assert_eq!(ask_journal(input, q), answer, "{q:?}");
    }
    for _ in 0..damages {
        let mut damaged = summary.clone();
        for _ in 0..r.pick(&[1, 1, 2, 4]) {
            let sort = damage_summary(r, &mut damaged);
            *seen.damage.entry(sort).or_default() += 1;
        }
        let path = folder.file("summary", &damaged);
        let questions = drawn(r, &counts);
        put(&path, &damaged, &questions, &mut seen.sorts[1]);
    }
}

#[test]
fn generated_journals() {
    let folder = Folder::new("usage");
    let mut r = Rng::new(90);
    let mut seen = Seen::default();
    for round in 0..600 {
        let make = [journal, blocking][round % 2];
        let input = make(&mut r);
        compare(&folder, &mut r, &input, 3, &mut seen);
    }
    println!("{:?}", seen.journals);
    println!("whole: {:?}", seen.sorts[0]);
    println!("damaged: {:?}", seen.sorts[1]);
    println!("{:?}", seen.damage);
    assert!(seen.journals.rarer(10).is_empty(), "{:?}", seen.journals);
    assert!(rarer(&seen.sorts[1], 10).is_empty(), "{:?}", seen.sorts[1]);
    let often = |sort: &SummaryDamage| seen.damage.get(sort).is_some_and(|&n| n >= 20);
    assert!(SummaryDamage::ALL.iter().all(often), "{:?}", seen.damage);
    // A summary as it was written refuses nothing but bad questions.
    assert!(seen.sorts[0]
        .keys()
        .all(|sort| sort.fits(Ok(0)) || sort.fits(Ok(1)) || sort.fits(Err(24))));
}

#[test]
fn shipped_journals() {
    let folder = Folder::new("usage-shipped");
    let mut r = Rng::new(91);
    let mut seen = Seen::default();
    for path in shipped() {
        let input = fs::read(path).unwrap();
        compare(&folder, &mut r, &input, 0, &mut seen);
    }
    println!("{:?}, {:?}", seen.journals, seen.sorts[0]);
}

/// Journals and summaries that end at a piece's end, before it and after it. The programs read 32 blocks at a time, so a piece of the
/// journal has two of the summary.
#[test]
fn pieces_of_blocks() {
    let folder = Folder::new("usage-pieces");
    let mut r = Rng::new(92);
    let mut seen = Sorts::new();
    for blocks in [1, 15, 16, 17, 31, 32, 33, 63, 64, 65, 96, 97] {
        let input = long(&mut r, blocks).concat();
        let path = folder.file("journal", &input);
        let summary = sum(&path, &input).unwrap();
        assert_eq!(summary.len(), 2 * input.len());
        let mut ends: Vec<u64> = [0, 15, 16, 31, 32, 47, 48, 63, 64, 95, 96].to_vec();
        ends.retain(|&n| n <= blocks as u64);
        ends.push(blocks as u64 - 1);
        let pairs = ends.iter().flat_map(|&a| ends.iter().map(move |&b| (a, b)));
        let all: Vec<Question> = pairs
            .map(|(first, second)| Question {
                thread: r.pick(&[0, 63, 31, 32, 7, 40]),
                first,
                second,
            })
            .collect();
        let path = folder.file("summary", &summary);
        for questions in all.chunks(64) {
            let answers = put(&path, &summary, questions, &mut seen);
            let (last, answer) = (questions.last().unwrap(), *answers.last().unwrap());
            assert_eq!(ask_journal(&input, last), answer);
        }
    }
    println!("{seen:?}");
    assert!(seen[&check::usage::Sort::Ticks] > 100, "{seen:?}");
}

/// The first refusal is told, in whatever piece it is, and whatever is refused after it.
#[test]
fn refused_blocks() {
    let folder = Folder::new("usage-refused");
    let mut r = Rng::new(93);
    let blocks = long(&mut r, 70);
    let mut told = BTreeMap::<Vec<u8>, usize>::new();
    let mut run = |damaged: &[[u8; BLOCK]], tail: &[u8], wanted: u32| {
        let input = [damaged.as_flattened(), tail].concat();
        let path = folder.file("journal", &input);
        let found = summed(&path);
        assert_eq!(found, format!("{wanted}\n").as_bytes());
        assert_eq!(summary(&input), Err(wanted));
        *told.entry(found).or_default() += 1;
    };
    let places = [0, 1, 30, 31, 32, 33, 63, 64, 69];
    for (i, &first) in places.iter().enumerate() {
        // A bit in the middle, and a number that is not the place's.
        let ways: [fn(&mut [u8; BLOCK], usize); 2] = [
            |block, _| block[200] ^= 1,
            |block, place| *block = records::block(place as u32 + 1, &[]),
        ];
        for (way, wanted) in [(0, 18), (1, 19)] {
            let mut damaged = blocks.clone();
            ways[way](&mut damaged[first], first);
            run(&damaged, &[], wanted);
            run(&damaged, &[0; 100], wanted);
            for &second in &places[i + 1..] {
                let mut both = damaged.clone();
                ways[1 - way](&mut both[second], second);
                run(&both, &[], wanted);
            }
        }
    }
    for whole in [0, 1, 31, 32, 33, 63, 64, 65] {
        for part in [1, 14, 510, 511] {
            run(&blocks[..whole], &blocks[whole][..part], 17);
        }
    }
    println!("{told:?}");
    assert_eq!(told.len(), 3);
}

/// A summary may come through a pipe, in pieces of any length.
#[test]
fn odd_pieces() {
    let mut r = Rng::new(94);
    let mut seen = Sorts::new();
    for _ in 0..60 {
        let blocks = r.pick(&[1, 8, 15, 16, 17, 33]);
        let input = long(&mut r, blocks).concat();
        let counts = counts(&input).unwrap();
        let mut summary = summary(&input).unwrap();
        if r.chance(2, 3) {
            damage_summary(&mut r, &mut summary);
        }
        let pieces: Vec<usize> = (0..7).map(|_| r.edgy(1, 1500) as usize).collect();
        let questions = drawn(&mut r, &counts);
        let mut command = mtrask();
        command.arg("/dev/stdin").args(spelt(&questions));
        let found = fed(command, &summary, &pieces);
        let answers: Vec<_> = questions.iter().map(|q| ask(&summary, q)).collect();
        same(&summary, &found, &lines(&answers), &|| {
            format!("{pieces:?}")
        });
        for q in &questions {
            *seen.entry(sort_of(&summary, q)).or_default() += 1;
        }
    }
    println!("{seen:?}");
}
