//! The hostile host of the tests for as long as one likes:
//!
//!     cargo run --release -p check --example hostile -- [SECONDS] [SEED] [ROUND]
//!
//! It ends with status 101 and the seed, round and call at the first difference from the model, and by a signal, with
//! the same line, at the first touch of memory that was not lent. With ROUND it makes that round alone.

use check::attack::{Attack, FUNCTIONS, ORIGINS, PROPERTIES};
use check::faults;
use std::time::{Duration, Instant, SystemTime};

const USAGE: &str = "usage: hostile [SECONDS] [SEED] [ROUND], whole numbers";

fn main() {
    let mut numbers = Vec::new();
    for word in std::env::args().skip(1) {
        match word.parse::<u64>() {
            Ok(number) if numbers.len() < 3 => numbers.push(number),
            _ => {
                eprintln!("{USAGE}");
                std::process::exit(2);
            }
        }
    }
    let seconds = numbers.first().copied().unwrap_or(10);
    let seed = numbers.get(1).copied().unwrap_or_else(|| {
        let now = SystemTime::now().duration_since(SystemTime::UNIX_EPOCH);
        now.map(|t| t.as_secs()).unwrap_or(1)
    });
    faults::watch();
    let mut attack = Attack::new(seed);
    println!("seed {seed}");
    let begun = Instant::now();
    match numbers.get(2) {
        Some(&round) => attack.round(round),
        None => {
            let mut round = 0;
            while begun.elapsed() < Duration::from_secs(seconds) {
                for _ in 0..1_000 {
                    attack.round(round);
                    round += 1;
                }
            }
            println!("rounds {round}");
        }
    }
    for ((name, _), counts) in FUNCTIONS.iter().zip(&attack.answers) {
        let seen = counts.iter().enumerate().filter(|(_, &n)| n > 0);
        let seen: Vec<String> = seen.map(|(a, n)| format!("{a} × {n}")).collect();
        println!("{name}: {}", seen.join(", "));
    }
    for (origin, [unsound, sound]) in ORIGINS.iter().zip(attack.states) {
        println!("states, {origin}: {sound} sound, {unsound} not");
    }
    for ((name, _, _), [unsound, sound]) in PROPERTIES.iter().zip(attack.properties) {
        println!("states, {name}: {sound} sound, {unsound} not");
    }
    println!("16 by what alone is broken: {:?}", attack.broken);
    println!("{:?}", attack.late);
    println!("{:?}", attack.changes);
    println!("{:?}", attack.best_effort);
    println!("{:?}", attack.shares);
    println!("{:?}", attack.ties);
    println!("{:?}", attack.tables);
    let spent = begun.elapsed().as_secs_f64();
    println!("idle dispatches {}", attack.idle);
    println!("{} calls in {spent:.1} s, no difference", attack.calls());
}
