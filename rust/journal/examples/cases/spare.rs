//! The case of spare time: a report printer and a log packer without reservations,
//! beside readout, pumps, viewer and an exporter that leave some of the core.

use journal::engine::{Engine, Settings};

use crate::controller::{control, Load, Outcome, RESERVATIONS};

/// Ticks on the clock that the shipped case lasts.
pub const LENGTH: u64 = 600_000;

/// An interval shorter than most of the spare time between two wakes, so that the
/// two take turns in it.
pub const SETTINGS: Settings = Settings {
    thousandth: 100,
    interval: 5_000,
    overrun: 0,
};

/// Behind the reserved threads.
pub const NAMES: [&str; 2] = ["printer", "packer"];
pub const WEIGHTS: [u64; 2] = [1, 3];

/// Ticks of work between two waits, and those of a wait.
const BURSTS: [u64; 6] = [10_000, 3_000, 8_000, 4_000, 25_000, 120_000];
const PAUSES: [u64; 6] = [20_000, 47_000, 32_000, 40_000, 80_000, 60_000];

/// Runs the case until the clock reaches a length.
pub fn play<E: Engine>(length: u64) -> Outcome {
    beside::<E>(&WEIGHTS, length)
}

/// The same with so many best-effort threads.
pub fn beside<E: Engine>(weights: &[u64], length: u64) -> Outcome {
    let threads = RESERVATIONS.len() + weights.len();
    let load = Load {
        settings: SETTINGS,
        reservations: &RESERVATIONS,
        weights,
        bursts: &BURSTS[..threads],
        changes: &[],
    };
    control::<E>(&load, length, |n| PAUSES[n], || 0)
}
