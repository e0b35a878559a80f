//! Accepted cases of each call, cheap and dear ones, for callgrind.

use std::hint::black_box;

use check::compare::{to_library, to_library_record, to_library_table};
use model::rule::{Scheduler, BLOCK, EXIT, TICK, YIELD};
use mtr::numbers;

use crate::states::{
    above_groups, block_first, even_table, left_over, records, reservation, running, sloped,
    threads, tiered, weight, worn, Shape,
};

/// The calls by their exported names without `mtr_by_value_`.
pub const CALLS: [&str; 19] = [
    "start",
    "open",
    "close",
    "admit",
    "admit_best_effort",
    "remove",
    "wake",
    "dispatch",
    "report",
    "change",
    "sound",
    "priority",
    "subtree",
    "priority_under",
    "lag",
    "share",
    "roster",
    "write_block",
    "read_block",
];

/// A case: the number of threads or a dash, its name, and one call, which
/// answers 0.
struct Case {
    threads: String,
    name: String,
    call: Box<dyn Fn() -> u32>,
}

/// Entered before each case, so that callgrind can part its counts there.
#[no_mangle]
#[inline(never)]
pub extern "C" fn bench_case(case: u32) {
    black_box(case);
}

/// Makes each case of the call N times. Prints a line per case, threads and
/// name, after one call that does not count.
pub fn run(call: &str, n: u32) {
    for (i, case) in cases(call).into_iter().enumerate() {
        assert_eq!((case.call)(), 0, "{} {}", case.threads, case.name);
        println!("{} {}", case.threads, case.name);
        bench_case(i as u32);
        for _ in 0..n {
            black_box((case.call)());
        }
        bench_case(i as u32);
    }
}

fn case(threads: String, name: String, call: impl Fn() -> u32 + 'static) -> Case {
    Case {
        threads,
        name,
        call: Box::new(call),
    }
}

/// A case of a call on a state of this shape.
fn on(
    s: Scheduler,
    of: Shape,
    name: &str,
    call: impl Fn(numbers::Scheduler) -> u32 + 'static,
) -> Case {
    let state = to_library(&s);
    let tree = if of.deep { "16 groups" } else { "1 group" };
    let kinds = if of.mixed { ", both kinds" } else { "" };
    case(
        of.n.to_string(),
        format!("{name}, {tree}{kinds}"),
        move || call(*black_box(&state)),
    )
}

fn cases(call: &str) -> Vec<Case> {
    match call {
        "start" => vec![case("-".into(), "the defaults".into(), || {
            numbers::start(black_box(100), black_box(20_000), black_box(0)).answer
        })],
        "priority" => vec![case("-".into(), "normal".into(), || {
            numbers::priority(black_box(5)).answer
        })],
        "priority_under" => tables(),
        "write_block" => blocks(true),
        "read_block" => blocks(false),
        _ => {
            let mut cases = Vec::new();
            for of in shapes() {
                match call {
                    "open" => open(of, &mut cases),
                    "close" => close(of, &mut cases),
                    "admit" => admit(of, &mut cases),
                    "admit_best_effort" => admit_best_effort(of, &mut cases),
                    "remove" => remove(of, &mut cases),
                    "wake" => wake(of, &mut cases),
                    "dispatch" => dispatch(of, &mut cases),
                    "report" => report(of, &mut cases),
                    "change" => change(of, &mut cases),
                    "sound" => sound(of, &mut cases),
                    "subtree" => subtree(of, &mut cases),
                    "roster" => roster(of, &mut cases),
                    _ => account(of, call == "lag", &mut cases),
                }
            }
            cases
        }
    }
}

/// The states' shapes: half of 8 and of 64 threads are best-effort ones in some.
fn shapes() -> Vec<Shape> {
    let mut all = Vec::new();
    for deep in [false, true] {
        for n in [0, 1, 8, 64] {
            for mixed in [false, true] {
                if !mixed || n > 1 {
                    all.push(Shape { n, deep, mixed });
                }
            }
        }
    }
    all
}

/// A thread at each end of those of either kind, and what it is called.
fn ends(of: Shape) -> Vec<(&'static str, u64)> {
    let mut all = vec![("front", 0)];
    if of.reserved() > 1 {
        all.push(("rear", of.reserved() - 1));
    }
    if of.mixed {
        all.push(("first best-effort", of.reserved()));
        all.push(("last best-effort", of.n - 1));
    }
    all
}

/// Tables of rows of one size, asked for the priority of the first row and of
/// the last.
fn tables() -> Vec<Case> {
    let mut cases = Vec::new();
    for count in [1, 2, 5, 10] {
        for (order, down) in [("upwards", false), ("downwards", true)] {
            let table = to_library_table(&even_table(count, down));
            let ends = [
                ("first", table.rows[0].first),
                ("last", table.rows[count - 1].last),
            ];
            for (place, priority) in ends {
                let name = format!("rows: {count} {order}, the {place}");
                cases.push(case("-".into(), name, move || {
                    numbers::priority_under(*black_box(&table), black_box(priority)).answer
                }));
            }
        }
    }
    cases
}

fn open(of: Shape, cases: &mut Vec<Case>) {
    let parent = if of.deep { 14 } else { 0 };
    let s = above_groups(of, parent);
    cases.push(on(s, of, "the last group", move |s| {
        numbers::open(s, 15, parent, 1).answer
    }));
}

fn close(of: Shape, cases: &mut Vec<Case>) {
    let number = if of.deep { 15 } else { 1 };
    let s = above_groups(of, number);
    cases.push(on(s, of, "the last group", move |s| {
        numbers::close(s, number).answer
    }));
}

/// A state in which the last of n threads is not admitted, and its number.
fn before_last(of: Shape) -> Option<(Scheduler, u64)> {
    let last = of.n.checked_sub(1)?;
    let mut s = threads(of);
    assert_eq!(s.remove(last), 0);
    Some((s, last))
}

fn admit(of: Shape, cases: &mut Vec<Case>) {
    let Some((s, last)) = before_last(of) else {
        return;
    };
    let group = if of.deep && of.n > 1 { 15 } else { 0 };
    cases.push(on(s, of, "the last", move |s| {
        numbers::admit(s, last, group, reservation(of.n)).answer
    }));
}

fn admit_best_effort(of: Shape, cases: &mut Vec<Case>) {
    let Some((s, last)) = before_last(of) else {
        return;
    };
    cases.push(on(s, of, "the last", move |s| {
        numbers::admit_best_effort(s, last, weight(last)).answer
    }));
}

fn remove(of: Shape, cases: &mut Vec<Case>) {
    if of.n == 0 {
        return;
    }
    for (name, number) in ends(of) {
        cases.push(on(threads(of), of, name, move |s| {
            numbers::remove(s, number).answer
        }));
    }
}

fn wake(of: Shape, cases: &mut Vec<Case>) {
    if of.n == 0 {
        return;
    }
    let mut s = threads(of);
    block_first(&mut s, of.n);
    for (name, number) in ends(of) {
        cases.push(on(s, of, name, move |s| numbers::wake(s, number).answer));
    }
}

fn dispatch(of: Shape, cases: &mut Vec<Case>) {
    let mut take = |name: &str, s: Scheduler| {
        cases.push(on(s, of, name, |s| numbers::dispatch(s).answer));
    };
    let mut s = threads(of);
    if of.n > 0 {
        take("first runnable", s);
    }
    if of.n > 1 {
        block_first(&mut s, of.reserved() - 1);
        take("last runnable of the list", s);
    }
    if of.mixed {
        let mut s = threads(of);
        block_first(&mut s, of.reserved());
        take("the first of the best-effort ones", s);
        take("the last of the best-effort ones", left_over(of));
    }
    let mut s = threads(of);
    block_first(&mut s, of.n);
    take("idle", s);
}

fn report(of: Shape, cases: &mut Vec<Case>) {
    if of.n == 0 {
        return;
    }
    for (place, at) in ends(of) {
        let mut s = running(of, at);
        let quantum = reservation(of.n) as u32 * s.settings.thousandth as u32;
        // The whole quantum fits one slice.
        s.settings.interval = quantum;
        let whole = quantum as u64;
        for (name, reason, used) in [
            ("no ticks", TICK, 0),
            ("some ticks", TICK, 1),
            ("all ticks", TICK, whole),
            ("block", BLOCK, 1),
            ("block, all ticks", BLOCK, whole),
            ("yield", YIELD, 1),
            ("yield, all ticks", YIELD, whole),
            ("exit", EXIT, 1),
        ] {
            let name = format!("{name} of the {place}");
            cases.push(on(s, of, &name, move |s| {
                numbers::report(s, reason, used).answer
            }));
        }
        // Beyond the slice, with the greatest debt.
        let overrun = s.settings.thousandth - 1;
        s.settings.overrun = overrun;
        let most = whole + overrun as u64;
        for (name, reason) in [("in debt", TICK), ("block, in debt", BLOCK)] {
            let name = format!("{name} of the {place}");
            cases.push(on(s, of, &name, move |s| {
                numbers::report(s, reason, most).answer
            }));
        }
    }
}

/// A change to less cuts the allotment; one to the same amount keeps it.
fn change(of: Shape, cases: &mut Vec<Case>) {
    if of.n == 0 {
        return;
    }
    let own = reservation(of.n);
    for (place, number) in ends(of) {
        // A best-effort thread has no reservation.
        if number >= of.reserved() {
            continue;
        }
        for (name, amount) in [("less", own - 1), ("the same", own)] {
            let name = format!("{name} for the {place}");
            cases.push(on(threads(of), of, &name, move |s| {
                numbers::change(s, number, amount).answer
            }));
        }
    }
}

fn sound(of: Shape, cases: &mut Vec<Case>) {
    cases.push(on(threads(of), of, "all tested", |s| {
        !numbers::sound(s) as u32
    }));
}

fn subtree(of: Shape, cases: &mut Vec<Case>) {
    for group in if of.deep { vec![0, 15] } else { vec![0] } {
        let name = format!("group {group}");
        cases.push(on(threads(of), of, &name, move |s| {
            numbers::subtree(s, group).answer
        }));
    }
}

fn account(of: Shape, lag: bool, cases: &mut Vec<Case>) {
    if of.n == 0 {
        return;
    }
    for number in [of.reserved() - 1, of.n - 1] {
        let call = move |s| {
            if lag {
                numbers::lag(s, number).answer as u32
            } else {
                numbers::share(s, number).answer
            }
        };
        let kind = if number < of.reserved() {
            ""
        } else {
            ", best-effort"
        };
        cases.push(on(worn(of), of, &format!("after some runs{kind}"), call));
        let mut s = threads(of);
        block_first(&mut s, of.n);
        cases.push(on(s, of, &format!("blocked, no growth{kind}"), call));
        if !of.mixed {
            break;
        }
    }
}

fn roster(of: Shape, cases: &mut Vec<Case>) {
    let call = |s| numbers::roster(s, black_box(&mut [numbers::Entry::default(); 64]));
    cases.push(on(worn(of), of, "after some runs", call));
    cases.push(on(threads(of), of, "equal lags", call));
    cases.push(on(sloped(of, true), of, "falling lags", call));
    cases.push(on(sloped(of, false), of, "rising lags", call));
    cases.push(on(tiered(of, false), of, "rising reservations", call));
    cases.push(on(tiered(of, true), of, "falling reservations", call));
}

fn blocks(write: bool) -> Vec<Case> {
    let records = records();
    let mut cases = Vec::new();
    for count in [0, 1, 31] {
        let list: Vec<numbers::Record> = records[..count].iter().map(to_library_record).collect();
        let mut block = [0; 512];
        assert_eq!(
            model::blocks::write_block(&mut block, 7, &records[..count]),
            0
        );
        cases.push(case("-".into(), format!("{count} records"), move || {
            if write {
                numbers::write_block(black_box(&mut [1; 512]), 7, black_box(&list))
            } else {
                numbers::read_block(black_box(&block), 7).answer
            }
        }));
    }
    cases
}
