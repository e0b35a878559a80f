//! Units, round steps and numbers of axes and tables.

use crate::engine::Settings;

/// A unit of time and its length in ticks.
#[derive(Clone, Copy, Debug, PartialEq)]
pub struct Unit {
    pub name: &'static str,
    pub ticks: f64,
}

const UNITS: [Unit; 5] = [
    Unit {
        name: "µs",
        ticks: 1.0,
    },
    Unit {
        name: "ms",
        ticks: 1e3,
    },
    Unit {
        name: "s",
        ticks: 1e6,
    },
    Unit {
        name: "min",
        ticks: 6e7,
    },
    Unit {
        name: "h",
        ticks: 3.6e9,
    },
];

/// The largest unit of which there are enough in the ticks: so many, but ten
/// minutes or hours.
fn unit_by(ticks: f64, least: f64) -> Unit {
    let enough = |unit: &&Unit| {
        let least = if unit.ticks > 1e6 { 10.0 } else { least };
        ticks >= least * unit.ticks
    };
    *UNITS.iter().rev().find(enough).unwrap_or(&UNITS[0])
}

/// The unit of an axis of so many ticks.
pub fn unit(ticks: f64) -> Unit {
    unit_by(ticks, 5.0)
}

/// The smallest 1, 2 or 5 times a power of ten that parts the range into at
/// most so many steps. The range is above 0.
pub fn step(range: f64, most: f64) -> f64 {
    let power = 10f64.powf((range / most).log10().floor());
    for factor in [1.0, 2.0, 5.0] {
        if range / (factor * power) <= most {
            return factor * power;
        }
    }
    10.0 * power
}

/// A number with so many decimals at most, thousands parted by commas.
pub fn number(value: f64, decimals: usize) -> String {
    let text = format!("{:.*}", decimals, value.abs());
    let (whole, part) = text.split_once('.').unwrap_or((&text, ""));
    let part = part.trim_end_matches('0');
    let mut out = String::new();
    if value < 0.0 && text.bytes().any(|b| (b'1'..=b'9').contains(&b)) {
        out.push('\u{2212}');
    }
    out.push_str(&grouped(whole));
    if !part.is_empty() {
        out.push('.');
        out.push_str(part);
    }
    out
}

fn grouped(digits: &str) -> String {
    let mut out = String::new();
    for (i, digit) in digits.chars().enumerate() {
        if i > 0 && (digits.len() - i).is_multiple_of(3) {
            out.push(',');
        }
        out.push(digit);
    }
    out
}

/// A count, thousands parted by commas.
pub fn count(value: u64) -> String {
    grouped(&value.to_string())
}

/// A count and its noun, with an s unless there is one.
pub fn counted(value: u64, noun: &str) -> String {
    let s = if value == 1 { "" } else { "s" };
    format!("{} {noun}{s}", count(value))
}

/// m and P, and O unless it is 0, each number in a form.
pub fn settings(settings: &Settings, form: fn(u64) -> String) -> String {
    let (m, p) = (settings.thousandth.into(), settings.interval.into());
    let mut text = format!("m {}, P {}", form(m), form(p));
    if settings.overrun > 0 {
        text.push_str(", O ");
        text.push_str(&form(settings.overrun.into()));
    }
    text
}

/// Ticks in the unit that suits them, with three digits or so.
pub fn duration(ticks: f64) -> String {
    if ticks == 0.0 {
        return "0".into();
    }
    let unit = unit_by(ticks.abs(), 1.0);
    let value = ticks / unit.ticks;
    let decimals = match value.abs() {
        v if v < 10.0 => 2,
        v if v < 100.0 => 1,
        _ => 0,
    };
    format!("{} {}", number(value, decimals), unit.name)
}

/// Ticks to the last one, in milliseconds, or from ten seconds on in seconds.
pub fn exact(ticks: u64) -> String {
    match ticks {
        0 => "0".into(),
        1..10_000_000 => format!("{} ms", number(ticks as f64 / 1e3, 3)),
        _ => format!("{} s", number(ticks as f64 / 1e6, 6)),
    }
}

#[cfg(test)]
mod tests {
    use super::*;

    #[test]
    fn numbers_are_short_and_parted() {
        assert_eq!(number(1234567.0, 0), "1,234,567");
        assert_eq!(number(-4.0, 2), "\u{2212}4");
        assert_eq!(number(-0.001, 2), "0");
        assert_eq!(number(0.25, 1), "0.2");
        assert_eq!(count(999), "999");
        assert_eq!(counted(1, "block"), "1 block");
        assert_eq!(counted(2000, "record"), "2,000 records");
    }

    #[test]
    fn steps_are_round() {
        assert_eq!(step(60.0, 10.0), 10.0);
        assert_eq!(step(100.0, 10.0), 10.0);
        assert_eq!(step(101.0, 10.0), 20.0);
        assert!((step(0.7, 10.0) - 0.1).abs() < 1e-12);
    }

    #[test]
    fn durations_take_the_unit_that_suits() {
        assert_eq!(duration(900.0), "900 µs");
        assert_eq!(duration(60_000.0), "60 ms");
        assert_eq!(duration(-1_243.0), "\u{2212}1.24 ms");
        assert_eq!(duration(2_000_000.0), "2 s");
        assert_eq!(duration(12_500_000.0), "12.5 s");
        assert_eq!(duration(300_000_000.0), "300 s");
        assert_eq!(duration(1_200_000_000.0), "20 min");
        assert_eq!(unit(60_000.0).name, "ms");
        assert_eq!(unit(2_006_000.0).name, "ms");
        assert_eq!(unit(9_000_000.0).name, "s");
        assert_eq!(duration(1e13), "2,778 h");
    }

    #[test]
    fn exact_times_keep_every_tick() {
        assert_eq!(exact(0), "0");
        assert_eq!(exact(32_000), "32 ms");
        assert_eq!(exact(1), "0.001 ms");
        assert_eq!(exact(9_999_999), "9,999.999 ms");
        assert_eq!(exact(512_345_678), "512.345678 s");
    }
}
