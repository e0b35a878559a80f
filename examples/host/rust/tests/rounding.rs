//! Readout's share under each reservation is rounded as the roster's shares are.

mod common;

use common::{c_source, compiled, run, scratch, thousandths};
use std::fs;

/// The rounding of the host in C, of every part of every whole up to 64, halves among them; that of the host in Rust is tested beside it.
#[test]
fn c_rounds_to_the_nearest() {
    let source = scratch("rounds.c");
    let text = format!(
        "#define main controller\n#include {:?}\n#undef main\nint main(void)\n{{\n\
        for (uint64_t whole = 0; whole <= 64; whole++)\n\
        for (uint64_t part = 0; part <= whole; part++)\n\
        printf(\"%\" PRIu64 \"\\n\", thousandths(part, whole));\n}}\n",
        c_source()
    );
    fs::write(&source, text).unwrap();
    let done = run(&compiled(&source, "rounds", "-O0"), &[]);
    let printed = String::from_utf8(done.stdout).unwrap();
    let mut shown = printed.lines().map(|line| line.parse().unwrap());
    for whole in 0..=64 {
        for part in 0..=whole {
            assert_eq!(
                shown.next(),
                Some(thousandths(part, whole)),
                "{part} of {whole}"
            );
        }
    }
    assert_eq!(shown.next(), None);
}
