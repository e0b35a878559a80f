//! The case of a method change: readout needs more of the core for a while,
//! beside pumps, viewer and an exporter that have work at every moment too.

use journal::engine::{Engine, Settings};

use crate::controller::{control, Load, Outcome, RESERVATIONS, THREADS};

/// Ticks that the shipped case lasts.
pub const LENGTH: u64 = 800_000;

/// From when on readout reserves how much. The controller makes the change when
/// the run in hand is reported.
pub const CHANGES: [(u64, u8, u64); 2] = [(250_000, 0, 700), (550_000, 0, 500)];

/// Runs the case with the default settings until the meter reaches a length.
pub fn play<E: Engine>(length: u64) -> Outcome {
    let load = Load {
        settings: Settings::default(),
        reservations: &RESERVATIONS,
        weights: &[],
        bursts: &[u64::MAX; THREADS],
        changes: &CHANGES,
    };
    control::<E>(&load, length, |_| 0, || 0)
}
