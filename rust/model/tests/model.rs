//! The model on the worked examples of docs/RULE.md, its layout, and its ways to make a call and to read a journal beside one another.
//! That it gives the rule is compared elsewhere: `rust/check` asks it and the library the same.

use std::io::Cursor;
use std::mem::size_of;

use model::accounts::Entry;
use model::blocks::{read_block, Record, BLOCK};
use model::by_value;
use model::calls::{apply, recorded, run, Call};
use model::replay::{replay, replay_from, replay_from_with, replay_with};
use model::rule::{Group, Reply, Scheduler, Thread, METER_LIMIT, METER_MAX, NONE};
use model::table::{asked, given, standard, Line, Table};
use model::usage::{self, Question};
use model::why::{number, why, why_from, why_from_with};
use samples::examples::{self, Fact};
use samples::random::{any_record, blocking, call, journal, sound_state, Rng};
use samples::records::{self, admit, block, dispatch, report, start, wake, Drip};

#[test]
fn examples() {
    for example in examples::all() {
        let mut s = Scheduler::default();
        for (step, n) in example.steps.iter().zip(0..) {
            let reply = run(&mut s, &step.record);
            let [answer, thread, slice, before] =
                [reply.answer, reply.thread, reply.slice, reply.before];
            let printed = format!("{n} {answer} {thread} {slice} {before}");
            assert_eq!(printed, step.printed, "{}", example.name);
            assert!(s.sound());
            for fact in &step.facts {
                assert!(fact.holds(&s), "{} {n}: {fact:?}", example.name);
            }
        }
        let input = example.journal();
        assert_eq!(replay(&input), example.printed().as_bytes());
        for (n, answer) in example.questions() {
            assert_eq!(why(&input, n as u64), answer.as_bytes(), "{n}");
        }
    }
    let all = examples::all();
    let facts = all.iter().flat_map(|e| &e.steps).flat_map(|s| &s.facts);
    assert!(facts.filter(|f| matches!(f, Fact::Why(_))).count() > 10);
}

/// RULE 10.7, and that a table of no rows is none that is left out.
#[test]
fn tables() {
    let lines = examples::priorities();
    assert!(lines.len() > 20, "{}", lines.len());
    for (table, priority, line) in lines {
        assert_eq!(asked(&table, priority), line, "{priority} {table:?}");
    }
    for priority in 0..20 {
        assert_eq!(given(None, priority), asked(&standard(), priority));
    }
    let refused = Line {
        answer: 4,
        place: 0,
        reservation: 0,
    };
    assert_eq!(given(Some(&Table::default()), 5), refused);
}

#[test]
fn layout() {
    let sizes = [
        size_of::<Thread>(),
        size_of::<Group>(),
        size_of::<Scheduler>(),
        size_of::<Entry>(),
        size_of::<Record>(),
    ];
    let state = 64 * 48 + 64 + 16 * 4 + 8 + 8 + 8 + 4 + 4;
    assert_eq!(sizes, [48, 4, state, 24, 12]);
    let s = Scheduler::default();
    assert_eq!(s, Scheduler::start(100, 20_000, 0).unwrap());
    assert_eq!((s.threads, s.order), ([Thread::UNUSED; 64], [0; 64]));
    assert_eq!((s.meter, s.time, s.count, s.running), (0, 0, 0, NONE));
}

/// The meter's two limits, and arguments that fit only once cut.
#[test]
fn limits() {
    let mut s = records::with(100, 20_000, 0, &[10]);
    s.meter = METER_LIMIT;
    assert_eq!(s.dispatch().answer, 15);
    s.meter -= 1;
    assert_eq!(s.dispatch().thread, 1);
    assert_eq!(s.report(4, u64::MAX), 14);
    assert_eq!(s.report(0, records::BEYOND), 13);
    assert_eq!(Scheduler::start(records::BEYOND + 1, 1, 0), Err(1));
    s = Scheduler {
        meter: METER_MAX,
        ..Scheduler::default()
    };
    assert_eq!(s.dispatch().answer, 15);
    s.meter += 1;
    assert_eq!((s.dispatch().answer, s.lag(0)), (16, Err(16)));
    assert_eq!((s.share(0), s.roster(&mut [])), (Err(16), 16));
}

/// Records before any start, 20 after a damaged block, starts that end it, a block of another number, a short one.
#[test]
fn refused_blocks() {
    let mut input = block(0, &[admit(1, 0, 10), dispatch()]).to_vec();
    input.extend([1; BLOCK]);
    let after = [
        dispatch(),
        start(0, 1, 0),
        report(9, 9),
        start(1, 1, 0),
        dispatch(),
        wake(0),
    ];
    input.extend(block(2, &after));
    input.extend(block(2, &[dispatch()]));
    input.extend(&block(4, &[])[..BLOCK - 1]);
    assert_eq!(
        String::from_utf8(replay(&input)).unwrap(),
        "0 0 0 0 0\n1 0 1 1000 0\nblock 1 18\n62 20 0 0 0\n63 1 0 0 0\n64 20 0 0 0\n\
         65 0 0 0 0\n66 0 64 0 0\n67 7 0 0 0\nblock 3 19\nblock 4 17\n"
    );
    let asked = [1, 31, 62, 66, 93].map(|n| String::from_utf8(why(&input, n)).unwrap());
    assert_eq!(asked, ["0 1\n", "21\n", "21\n", "0 64\n", "21\n"]);
}

fn handed_over(s: Scheduler, call: Call) -> (Reply, Scheduler) {
    let (answer, s) = match call {
        Call::Open {
            number,
            parent,
            ceiling,
        } => by_value::open(s, number, parent, ceiling),
        Call::Close { number } => by_value::close(s, number),
        Call::Admit {
            number,
            group,
            reservation,
        } => by_value::admit(s, number, group, reservation),
        Call::Remove { number } => by_value::remove(s, number),
        Call::Wake { number } => by_value::wake(s, number),
        Call::Dispatch => return by_value::dispatch(s),
        Call::Report { reason, used } => by_value::report(s, reason, used),
        Call::Change {
            number,
            reservation,
        } => by_value::change(s, number, reservation),
        Call::AdmitBestEffort { number, weight } => by_value::admit_best_effort(s, number, weight),
    };
    (Reply::plain(answer), s)
}

/// In place, by value and by its record a call is the same.
#[test]
fn three_ways_to_make_a_call() {
    let mut r = Rng::new(2);
    for _ in 0..5_000 {
        let s = sound_state(&mut r);
        let call = call(&mut r, &s);
        let mut after = s;
        let reply = apply(&mut after, call);
        assert_eq!(handed_over(s, call), (reply, after));
        let rec = model::calls::record(call);
        if recorded(&rec) == Some(call) {
            let mut ran = s;
            assert_eq!((run(&mut ran, &rec), ran), (reply, after));
        }
    }
}

/// From the bytes, from a reader in odd pieces, and without the soundness test at each record a journal prints the same.
#[test]
fn ways_to_read_a_journal() {
    let mut r = Rng::new(8);
    let mut inputs: Vec<Vec<u8>> = (0..200).map(|_| journal(&mut r)).collect();
    inputs.extend((0..50).map(|_| blocking(&mut r)));
    // Longer than the reader's buffers, whole and cut.
    let records: Vec<Record> = (0..700 * 31).map(|_| any_record(&mut r)).collect();
    let long = records::journal(&records);
    assert_eq!(read_block(&long[..BLOCK], 0).unwrap(), &records[..31]);
    inputs.extend([0, 1, 511, 512].map(|cut| long[..long.len() - cut].to_vec()));
    for input in inputs {
        let printed = replay(&input);
        assert!(replay_with::<false>(&input) == printed);
        let mut streamed = [Vec::new(), Vec::new()];
        replay_from(Drip(&input, Rng::new(1)), &mut streamed[0]).unwrap();
        replay_from_with::<false, _, _>(&input[..], &mut streamed[1]).unwrap();
        assert!(streamed.iter().all(|some| *some == printed));
        let end = 31 * input.len().div_ceil(BLOCK) as u64 + 40;
        for asked in [r.below(end), r.below(end), u64::MAX] {
            let printed = why(&input, asked);
            assert_eq!(
                why_from(Drip(&input, Rng::new(asked)), asked).unwrap(),
                printed
            );
            let untested = why_from_with::<false, _>(&input[..], asked);
            assert_eq!(untested.unwrap(), printed);
        }
    }
}

/// Texts of 1 to 19 digits are numbers.
#[test]
fn numbers() {
    let good = ["0", "007", "9999999999999999999"];
    let values = good.map(|text| number(text.as_bytes()));
    assert_eq!(values, [Some(0), Some(7), Some(9_999_999_999_999_999_999)]);
    for text in [
        "",
        " 1",
        "1 ",
        "+1",
        "1\n",
        "1\0",
        "\u{661}",
        "00000000000000000007",
    ] {
        assert_eq!(number(text.as_bytes()), None, "{text:?}");
    }
}

/// The worked example of processor use: the counts, the summary and the answers, each in every way.
#[test]
fn use_of_the_processor() {
    let example = examples::usage();
    let journal = example.journal();
    assert_eq!(replay(&journal), example.printed().as_bytes());
    let charged: Vec<[u64; 64]> = example.blocks.iter().map(|b| b.charged).collect();
    assert_eq!(usage::counts(&journal), Ok(charged.clone()));
    let summary = usage::summary(&journal).unwrap();
    let halves: Vec<u64> = charged.concat();
    for (n, counts) in (0..).zip(halves.chunks(usage::COUNTS)) {
        let area = &summary[BLOCK * n as usize..][..BLOCK];
        assert_eq!(&usage::read(area, n).unwrap()[..], counts);
    }
    assert_eq!(summary.len(), 8 * BLOCK);
    let mut streamed = Vec::new();
    let refusal = usage::summary_from(Cursor::new(&journal), &mut streamed);
    assert_eq!((refusal.unwrap(), &streamed), (None, &summary));

    let questions: Vec<Question> = example.questions.iter().map(|(q, _)| *q).collect();
    let answers = usage::ask_from(&summary[..], &questions).unwrap();
    for (q, answer) in questions.iter().zip(&answers) {
        assert_eq!(usage::ask(&summary, q), *answer, "{q:?}");
        assert_eq!(usage::ask_journal(&journal, q), *answer, "{q:?}");
    }
    let printed = String::from_utf8(usage::lines(&answers)).unwrap();
    assert_eq!(printed, example.answers());
}

/// A summary block byte by byte, and what each wrong byte gives.
#[test]
fn summary_block() {
    let mut counts = [0; usage::COUNTS];
    (counts[0], counts[31]) = (0x0102, 1 << 63);
    let mut block = usage::write(1, &counts);
    // The number is 1; count 0 stands at 8, count 31 at 256. a = 1 + 1 + 2 + 1 + 128 and
    // b = 510 + 510 × 1 + 502 × 2 + 501 × 1 + 247 × 128, both mod 255.
    let mut bytes = [0; BLOCK];
    (bytes[0], bytes[8], bytes[9], bytes[263]) = (1, 2, 1, 128);
    (bytes[510], bytes[511]) = (133, 226);
    assert_eq!(block, bytes);
    assert_eq!(usage::read(&block, 1), Ok(counts));
    assert_eq!(usage::read(&block, 0), Err(19));
    assert_eq!(usage::read(&block[..511], 1), Err(17));
    block[511] ^= 1;
    assert_eq!(usage::read(&block, 0), Err(18));
    // 255 for 0 past the last count, which the check does not see.
    bytes[264] = 255;
    assert_eq!(usage::read(&bytes, 1), Err(19));
}
