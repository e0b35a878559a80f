//! Times of the library, of the model in place and of the model by value.

use std::hint::black_box;

use check::compare::{to_library, to_library_record, to_library_table};
use model::accounts::Entry;
use model::blocks::{decode, write_block, Record, BLOCK as BLOCK_BYTES, RECORDS};
use model::by_value;
use model::rule::{Scheduler, BLOCK, BLOCKED, TICK};
use model::table::{asked, Table};
use mtr::{numbers, raw};

use crate::plain;
use crate::rounds::{measure, Side};
use crate::states::{
    block_first, even_table, records, reservation, sloped, threads, tiered, weight, worn, Shape,
};

fn line(name: &str, threads: &str, sides: Vec<Side>) {
    let by_value = sides.len() > 2;
    let times = measure(sides);
    let nanos = |k: usize| format!("{:.0} ns", times.nanos[k]);
    let ratio = |k: usize| format!("{:.2}", times.ratios[k]);
    println!(
        "{name:<30} {threads:>5} {:>9} {:>9} {:>9}   {:<10} {}",
        nanos(0),
        nanos(1),
        if by_value { nanos(2) } else { String::new() },
        ratio(0),
        if by_value { ratio(1) } else { String::new() }
    );
}

/// How many threads of a shape there are, reserved and best-effort ones.
fn counted(of: Shape) -> String {
    match of.mixed {
        true => format!("{}+{}", of.reserved(), of.n - of.reserved()),
        false => of.n.to_string(),
    }
}

/// Its reserved threads are blocked, so that the best-effort ones run.
fn left_over(of: Shape) -> Scheduler {
    let mut s = threads(of);
    block_first(&mut s, of.reserved());
    s
}

/// The three sides of a row of calls, each on a state of its own.
fn sides<'a>(
    s: &Scheduler,
    mut library: impl FnMut(&mut numbers::Scheduler) + 'a,
    mut in_place: impl FnMut(&mut Scheduler) + 'a,
    mut value: impl FnMut(&mut Scheduler) + 'a,
) -> Vec<Side<'a>> {
    let (mut a, mut b, mut c) = (to_library(s), *s, *s);
    vec![
        Box::new(move || library(black_box(&mut a))),
        Box::new(move || in_place(black_box(&mut b))),
        Box::new(move || value(black_box(&mut c))),
    ]
}

/// Each report uses the whole slice. A reserved thread's quantum ends with it,
/// and the thread moves to the rear (with 1 thread at every third).
fn pair(name: &str, of: Shape, s: &Scheduler) {
    let sides = sides(
        s,
        |s| {
            let reply = numbers::dispatch(*s);
            let used = reply.slice as u64;
            *s = numbers::report(reply.state, TICK, used).state;
        },
        |s| {
            let reply = s.dispatch();
            s.report(TICK, reply.slice as u64);
        },
        |s| {
            let (reply, next) = by_value::dispatch(*s);
            *s = by_value::report(next, TICK, reply.slice as u64).1;
        },
    );
    line(name, &counted(of), sides);
}

/// Reserved threads run.
fn dispatch_report(of: Shape) {
    pair("dispatch + report", of, &threads(of));
}

/// A reserved thread is dispatched and blocks, a best-effort one uses its slice,
/// and the first is woken. The other reserved ones are blocked.
fn in_turn(of: Shape) {
    let mut s = left_over(of);
    let front = s.order[0] as u64;
    assert_eq!(s.wake(front), 0);
    let sides = sides(
        &s,
        move |s| {
            let reply = numbers::dispatch(*s);
            let reply = numbers::report(reply.state, BLOCK, 1);
            let reply = numbers::dispatch(reply.state);
            let used = reply.slice as u64;
            let reply = numbers::report(reply.state, TICK, used);
            *s = numbers::wake(reply.state, front).state;
        },
        move |s| {
            s.dispatch();
            s.report(BLOCK, 1);
            let reply = s.dispatch();
            s.report(TICK, reply.slice as u64);
            s.wake(front);
        },
        move |s| {
            let (_, next) = by_value::dispatch(*s);
            let (_, next) = by_value::report(next, BLOCK, 1);
            let (reply, next) = by_value::dispatch(next);
            let (_, next) = by_value::report(next, TICK, reply.slice as u64);
            *s = by_value::wake(next, front).1;
        },
    );
    line("one of each kind in turn", &counted(of), sides);
}

/// The wake alone: before each the last thread is blocked by a write to its
/// status.
fn wake(of: Shape) {
    let number = of.n - 1;
    let k = number as usize;
    let sides = sides(
        &threads(of),
        move |s| {
            s.threads[k].status = BLOCKED;
            *s = numbers::wake(*s, number).state;
        },
        move |s| {
            s.threads[k].status = BLOCKED;
            s.wake(number);
        },
        move |s| {
            s.threads[k].status = BLOCKED;
            *s = by_value::wake(*s, number).1;
        },
    );
    line("wake", &counted(of), sides);
}

/// The first thread is dispatched, uses a tick, blocks and is woken: where there
/// are best-effort threads, one of them.
fn dispatch_block_wake(of: Shape) {
    let s = if of.mixed { left_over(of) } else { threads(of) };
    let sides = sides(
        &s,
        |s| {
            let reply = numbers::dispatch(*s);
            let thread = reply.thread as u64;
            let reply = numbers::report(reply.state, BLOCK, 1);
            *s = numbers::wake(reply.state, thread).state;
        },
        |s| {
            let thread = s.dispatch().thread as u64;
            s.report(BLOCK, 1);
            s.wake(thread);
        },
        |s| {
            let (reply, next) = by_value::dispatch(*s);
            let (_, next) = by_value::report(next, BLOCK, 1);
            *s = by_value::wake(next, reply.thread as u64).1;
        },
    );
    line("dispatch + block + wake", &counted(of), sides);
}

/// The last of n threads is admitted and removed.
fn admit_remove(of: Shape) {
    let number = of.n - 1;
    let mut s = threads(of);
    assert_eq!(s.remove(number), 0);
    let amount = reservation(of.n);
    let sides = sides(
        &s,
        move |s| {
            let reply = numbers::admit(*s, number, 0, amount);
            *s = numbers::remove(reply.state, number).state;
        },
        move |s| {
            s.admit(number, 0, amount);
            s.remove(number);
        },
        move |s| {
            let (_, next) = by_value::admit(*s, number, 0, amount);
            *s = by_value::remove(next, number).1;
        },
    );
    line("admit + remove", &counted(of), sides);
}

/// The last best-effort thread is admitted and removed.
fn admit_best_effort_remove(of: Shape) {
    let number = of.n - 1;
    let mut s = threads(of);
    assert_eq!(s.remove(number), 0);
    let weight = weight(number);
    let sides = sides(
        &s,
        move |s| {
            let reply = numbers::admit_best_effort(*s, number, weight);
            *s = numbers::remove(reply.state, number).state;
        },
        move |s| {
            s.admit_best_effort(number, weight);
            s.remove(number);
        },
        move |s| {
            let (_, next) = by_value::admit_best_effort(*s, number, weight);
            *s = by_value::remove(next, number).1;
        },
    );
    line("admit best-effort + remove", &counted(of), sides);
}

/// The last reserved thread is given one thousandth less and what it had.
fn change(of: Shape) {
    let number = of.reserved() - 1;
    let amount = reservation(of.n);
    let sides = sides(
        &threads(of),
        move |s| {
            let reply = numbers::change(*s, number, amount - 1);
            *s = numbers::change(reply.state, number, amount).state;
        },
        move |s| {
            s.change(number, amount - 1);
            s.change(number, amount);
        },
        move |s| {
            let (_, next) = by_value::change(*s, number, amount - 1);
            *s = by_value::change(next, number, amount).1;
        },
    );
    line("change + change back", &counted(of), sides);
}

#[inline(never)]
fn sound_by_value(s: Scheduler) -> bool {
    s.sound()
}

fn soundness(of: Shape) {
    let sides = sides(
        &threads(of),
        |s| {
            black_box(numbers::sound(*s));
        },
        |s| {
            black_box(s.sound());
        },
        |s| {
            black_box(sound_by_value(*s));
        },
    );
    line("soundness test", &counted(of), sides);
}

#[inline(never)]
fn under_by_value(table: Table, priority: u64) -> model::table::Line {
    plain::under(&table, priority)
}

/// A usable table of n rows, asked for the priority of the last.
fn priority_under(n: usize) {
    let own = even_table(n, false);
    for priority in 0..=11 {
        assert_eq!(plain::under(&own, priority), asked(&own, priority));
    }
    let table = to_library_table(&own);
    let sides: Vec<Side> = vec![
        Box::new(|| {
            black_box(numbers::priority_under(*black_box(&table), black_box(10)));
        }),
        Box::new(|| {
            black_box(plain::under(black_box(&own), black_box(10)));
        }),
        Box::new(|| {
            black_box(under_by_value(*black_box(&own), black_box(10)));
        }),
    ];
    line("priority under n rows", &n.to_string(), sides);
}

fn roster(name: &str, of: Shape, s: Scheduler) {
    let state = to_library(&s);
    let mut table = [numbers::Entry::default(); 64];
    let mut own = [Entry::default(); 64];
    let sides: Vec<Side> = vec![
        Box::new(|| {
            numbers::roster(*black_box(&state), black_box(&mut table));
        }),
        Box::new(|| {
            black_box(&s).roster(black_box(&mut own));
        }),
    ];
    line(name, &counted(of), sides);
}

/// A block of 31 records. The library takes them as an array by value; the
/// crate's function makes it from a slice.
fn blocks() {
    let records = records();
    let list = records.map(|record| to_library_record(&record));
    let array = numbers::Records { records: list };
    let mut area = [0u8; BLOCK_BYTES];
    let mut own = area;
    let sides: Vec<Side> = vec![
        Box::new(|| {
            let area = black_box(&mut area);
            // SAFETY: pointer and length are those of the area.
            unsafe {
                raw::mtr_by_value_write_block(
                    area.as_mut_ptr(),
                    area.len(),
                    7,
                    *black_box(&array),
                    RECORDS,
                );
            }
        }),
        Box::new(|| {
            write_block(black_box(&mut own), 7, black_box(&records));
        }),
    ];
    line("write a full block", "", sides);

    let sides: Vec<Side> = vec![
        Box::new(|| {
            numbers::write_block(black_box(&mut area), 7, black_box(&list));
        }),
        Box::new(|| {
            write_block(black_box(&mut own), 7, black_box(&records));
        }),
    ];
    line("write it from a slice", "", sides);

    assert_eq!(write_block(&mut own, 7, &records), 0);
    let block = own;
    let sides: Vec<Side> = vec![
        Box::new(|| {
            black_box(&numbers::read_block(black_box(&block), 7));
        }),
        Box::new(|| {
            let mut found = [Record::default(); RECORDS];
            let _ = black_box(decode(black_box(&block), 7, black_box(&mut found)));
        }),
    ];
    line("read a full block", "", sides);
}

pub fn print() {
    println!("{:>82}", "library against");
    println!(
        "{:<30} {:>5} {:>9} {:>9} {:>9}   {:<10} by value",
        "", "n", "library", "in place", "by value", "in place"
    );
    let rows = [
        dispatch_report,
        wake,
        dispatch_block_wake,
        admit_remove,
        change,
        soundness,
    ];
    for row in rows {
        for n in [1, 8, 64] {
            row(Shape::plain(n));
        }
    }
    let all = Shape::plain(64);
    let both = Shape { mixed: true, ..all };
    for row in rows {
        row(both);
    }
    pair("dispatch + report, best-effort", both, &left_over(both));
    in_turn(both);
    admit_best_effort_remove(both);
    for n in [1, 5, 10] {
        priority_under(n);
    }
    roster("roster", all, worn(all));
    roster("roster, lags falling", all, sloped(all, true));
    roster("roster, lags rising", all, sloped(all, false));
    roster("roster, lags equal", all, threads(all));
    roster("roster, reservations falling", all, tiered(all, true));
    roster("roster", both, worn(both));
    blocks();
}
