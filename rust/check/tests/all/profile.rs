//! How the gate's tests are compiled: with overflow checked and with the assertions of a debug build.

use std::hint::black_box;

#[test]
#[should_panic(expected = "attempt to add with overflow")]
fn an_overflow_panics() {
    black_box(black_box(u64::MAX) + black_box(1));
}

#[test]
#[should_panic(expected = "attempt to multiply with overflow")]
fn so_does_a_product() {
    black_box(black_box(u32::MAX) * black_box(2));
}

#[test]
#[should_panic(expected = "asserted")]
fn an_assertion_of_a_debug_build_panics() {
    debug_assert!(black_box(false), "asserted");
}
