//! Sides measured beside each other.
//!
//! A row is measured in rounds. In each round every side makes the same number
//! of calls, one side after the other; a ratio is the median of the rounds'
//! ratios, so that a disturbance of one round does not count.

use std::time::{Duration, Instant};

const ROUNDS: usize = 301;
/// Least time of a round's slowest side.
const ROUND: Duration = Duration::from_micros(300);

/// One side of a row: makes its calls once.
pub type Side<'a> = Box<dyn FnMut() + 'a>;

pub struct Times {
    /// Medians in nanoseconds per side.
    pub nanos: Vec<f64>,
    /// Median ratios of the first side to each other one.
    pub ratios: Vec<f64>,
}

fn run(side: &mut Side, times: u32) -> Duration {
    let begin = Instant::now();
    for _ in 0..times {
        side();
    }
    begin.elapsed()
}

fn median(mut values: Vec<f64>) -> f64 {
    values.sort_by(f64::total_cmp);
    values[values.len() / 2]
}

pub fn measure(mut sides: Vec<Side>) -> Times {
    let mut times = 1;
    while sides.iter_mut().map(|side| run(side, times)).max() < Some(ROUND) {
        times *= 2;
    }
    let mut rounds: Vec<Vec<f64>> = vec![Vec::new(); sides.len()];
    for round in 0..ROUNDS {
        for k in 0..sides.len() {
            // Each side comes first, second, .. in turn.
            let k = (k + round) % sides.len();
            let nanos = run(&mut sides[k], times).as_nanos() as f64;
            rounds[k].push(nanos / times as f64);
        }
    }
    let ratio = |side: &Vec<f64>| {
        let pairs = rounds[0].iter().zip(side);
        median(pairs.map(|(first, other)| first / other).collect())
    };
    Times {
        ratios: rounds[1..].iter().map(ratio).collect(),
        nanos: rounds.into_iter().map(median).collect(),
    }
}
