//! The case of a timer that fires late: readout, pumps and viewer with small
//! reservations, so that quanta are short and a debt shows.

use journal::engine::{Engine, Settings};
use samples::random::Rng;

use crate::controller::{control, Load, Outcome};

/// Ticks that the shipped case lasts.
pub const LENGTH: u64 = 30_000;

/// The timer fires up to O late.
pub const SETTINGS: Settings = Settings {
    thousandth: 100,
    interval: 1_000,
    overrun: 90,
};

pub const THREADS: usize = 3;
pub const RESERVATIONS: [u64; THREADS] = [50, 10, 20];

/// Ticks of work between two waits, readout never waits; and those of a wait.
const BURSTS: [u64; THREADS] = [u64::MAX, 2_500, 5_000];
const PAUSES: [u64; THREADS] = [0, 4_000, 6_000];

/// Runs the case until the meter reaches a length, with a timer that is late by
/// up to so many ticks.
pub fn play<E: Engine>(latest: u64, length: u64) -> Outcome {
    let mut timer = Rng::new(1997);
    let load = Load {
        settings: SETTINGS,
        reservations: &RESERVATIONS,
        weights: &[],
        bursts: &BURSTS,
        changes: &[],
    };
    control::<E>(&load, length, |n| PAUSES[n], || timer.range(0, latest))
}
