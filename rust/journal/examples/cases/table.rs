//! The cases by the rule and by the broken one, as a table.

use std::fmt::Write;

use journal::engine::{bound, Engine, Proved};

use crate::broken::RefillOnWake;
use crate::controller::{play, EXPORTER, LENGTH, NAMES, RESERVATIONS, THREADS};
use crate::files::CASES;

pub fn table() -> String {
    let mut out = String::new();
    let most = bound(RESERVATIONS[0], Proved::default().settings());
    for case in CASES {
        let right = play::<Proved>(case.server, LENGTH);
        let broken = play::<RefillOnWake>(case.server, LENGTH);
        // Writing to a string does not fail.
        let _ = writeln!(
            out,
            "{}, {} s\n  thousandths of the core   reserved   by the rule   refill on wake",
            case.title,
            LENGTH / 1_000_000
        );
        for n in 0..THREADS {
            let _ = writeln!(
                out,
                "  {:<26}{:>8}{:>14}{:>17}",
                NAMES[n], RESERVATIONS[n], right.shares[n], broken.shares[n]
            );
        }
        // Lag counts thousandths of ticks.
        let ms = |lag: i64| lag as f64 / 1e6;
        let _ = writeln!(
            out,
            "  {:<26}{:>8}{:>14.1}{:>17.1}",
            "readout's largest lag, ms",
            format!("<= {:.1}", ms(most)),
            ms(right.largest[0]),
            ms(broken.largest[0])
        );
        let _ = writeln!(
            out,
            "  {:<26}{:>8}{:>14}{:>17}\n",
            "the exporter's wakes", "", right.wakes[EXPORTER], broken.wakes[EXPORTER]
        );
    }
    out
}
