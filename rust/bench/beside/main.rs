//! Two versions of the static library in one program (`rust/bench/beside.sh`).
#![allow(dead_code)]

#[macro_use]
mod starts;
mod raw_new;
mod raw_old;
mod rounds;

use std::hint::black_box;

use rounds::measure;

type Side = rounds::Side<'static>;

fn row(name: &str, old: Side, new: Side) {
    let times = measure(vec![new, old]);
    let ([new, old], ratio) = ([times.nanos[0], times.nanos[1]], times.ratios[0]);
    println!("{name:<24} old {old:>6.0} ns   new {new:>6.0} ns   new / old {ratio:.2}");
}

/// The calls of one version that are timed.
macro_rules! version {
    (
        $name:ident, $raw:ident, $start:ident, $admit:ident, $dispatch:ident, $report:ident, $sound:ident,
        $write:ident, $read:ident, $priority:ident, $share:ident, $roster:ident
    ) => {
        mod $name {
            use super::*;

            fn threads(n: u64) -> $raw::Scheduler {
                let mut state = $start!().state;
                for k in 0..n {
                    let reply = $raw::$admit(state, k, 0, 960 / n);
                    assert_eq!(reply.answer, 0);
                    state = reply.state;
                }
                state
            }

            pub fn pair(n: u64) -> Side {
                let mut state = threads(n);
                Box::new(move || {
                    let state = black_box(&mut state);
                    let run = $raw::$dispatch(*state);
                    *state = $raw::$report(run.state, 0, u64::from(run.slice)).state;
                })
            }

            pub fn sound(n: u64) -> Side {
                let state = threads(n);
                Box::new(move || {
                    black_box($raw::$sound(*black_box(&state)));
                })
            }

            /// After some runs, so that every thread has a share.
            fn grown(n: u64) -> $raw::Scheduler {
                let mut state = threads(n);
                for used in 0..1000 {
                    let run = $raw::$dispatch(state);
                    let used = u64::from(run.slice).min(1000 + used);
                    state = $raw::$report(run.state, 0, used).state;
                }
                state
            }

            pub fn share(n: u64) -> Side {
                let state = grown(n);
                Box::new(move || {
                    black_box($raw::$share(*black_box(&state), black_box(n - 1)));
                })
            }

            pub fn roster(n: u64) -> Side {
                rosters(grown(n))
            }

            /// New threads, so that all lags are 0, and with the same reservation.
            pub fn equal(n: u64) -> Side {
                rosters(threads(n))
            }

            /// The same with reservations that fall with the number.
            pub fn falling(n: u64) -> Side {
                let mut state = threads(n);
                for (k, t) in (0..n).zip(&mut state.threads) {
                    t.reservation = (1 + (n - 1 - k) * (2 * (960 / n) - 1) / n) as u16;
                    t.allotment = 1;
                }
                assert_eq!($raw::$sound(state), 1);
                rosters(state)
            }

            fn rosters(state: $raw::Scheduler) -> Side {
                let mut table = [$raw::Entry::default(); 64];
                Box::new(move || {
                    let table = black_box(&mut table);
                    // SAFETY: the table is borrowed for the call and has this length.
                    black_box(unsafe {
                        $raw::$roster(*black_box(&state), table.as_mut_ptr(), table.len())
                    });
                })
            }

            /// 31 records of all kinds.
            fn records() -> $raw::Records {
                let mut list = $raw::Records::default();
                for (i, r) in (0u8..).zip(list.records.iter_mut()) {
                    r.kind = 1 + i % 8;
                    match r.kind {
                        1 | 3 => (r.subject, r.group, r.amount) = (i, i / 2, 20 * u16::from(i)),
                        2 | 4 | 5 => r.subject = i,
                        7 => (r.reason, r.ticks) = (i % 4, 20_000),
                        8 => (r.amount, r.ticks) = (100, 20_000),
                        _ => {}
                    }
                }
                list
            }

            pub fn write() -> Side {
                let list = records();
                let mut area = [0; 512];
                Box::new(move || {
                    let area = black_box(&mut area);
                    // SAFETY: the area is borrowed for the call and has this length.
                    black_box(unsafe {
                        $raw::$write(area.as_mut_ptr(), area.len(), 7, *black_box(&list), 31)
                    });
                })
            }

            pub fn read() -> Side {
                let mut area = [0; 512];
                // SAFETY: as above.
                assert_eq!(
                    unsafe { $raw::$write(area.as_mut_ptr(), area.len(), 7, records(), 31) },
                    0
                );
                Box::new(move || {
                    let area = black_box(&area);
                    // SAFETY: as above.
                    black_box(&unsafe { $raw::$read(area.as_ptr(), area.len(), 7) });
                })
            }

            /// Each priority of the table, and the one on either side of it.
            pub fn priorities() -> Side {
                Box::new(|| {
                    for priority in 0..12 {
                        black_box($raw::$priority(black_box(priority)));
                    }
                })
            }
        }
    };
}

version!(
    old,
    raw_old,
    start_old,
    old_by_value_admit,
    old_by_value_dispatch,
    old_by_value_report,
    old_by_value_sound,
    old_by_value_write_block,
    old_by_value_read_block,
    old_by_value_priority,
    old_by_value_share,
    old_by_value_roster
);
version!(
    new,
    raw_new,
    start_new,
    new_by_value_admit,
    new_by_value_dispatch,
    new_by_value_report,
    new_by_value_sound,
    new_by_value_write_block,
    new_by_value_read_block,
    new_by_value_priority,
    new_by_value_share,
    new_by_value_roster
);

fn main() {
    for n in [2, 16, 64] {
        row(
            &format!("dispatch + report, {n}"),
            old::pair(n),
            new::pair(n),
        );
    }
    for n in [2, 16, 64] {
        row(
            &format!("soundness test, {n}"),
            old::sound(n),
            new::sound(n),
        );
    }
    for n in [2, 16, 64] {
        row(&format!("share, {n}"), old::share(n), new::share(n));
    }
    for n in [2, 16, 64] {
        row(&format!("roster, {n}"), old::roster(n), new::roster(n));
    }
    for n in [2, 16, 64] {
        row(&format!("equal lags, {n}"), old::equal(n), new::equal(n));
    }
    for n in [2, 16, 64] {
        row(
            &format!("falling reservations, {n}"),
            old::falling(n),
            new::falling(n),
        );
    }
    row("write a full block", old::write(), new::write());
    row("read a full block", old::read(), new::read());
    row("twelve priorities", old::priorities(), new::priorities());
}
