#!/bin/sh
# How much of the static library's compiled code the hostile host reaches in the gate: prints the edges reached and, by function, how many are
# not. After build.sh.
set -eu
cd "$(dirname "$0")/../../.."
out=$PWD/target/fuzz
[ -f "$out/abi.o" ] || rust/check/fuzz/build.sh
host=$(rustc -vV | sed -n 's/^host: //p')
RUSTFLAGS='--cfg fuzzing' CARGO_TARGET_DIR=$out/coverage cargo rustc --quiet --offline -j1 --release --target "$host" \
    -p check --lib --crate-type staticlib
# Only abi.o is instrumented. What the archive has for libFuzzer and mtrrun is not called, and left out.
cc -std=c11 -Wall -Wextra -O2 -no-pie -Wl,--gc-sections rust/check/fuzz/coverage.c "$out/abi.o" "$out/coverage/$host/release/libcheck.a" -o "$out/edges"
"$out/edges" >"$out/edges.missed"
addr2line -f -e "$out/edges" <"$out/edges.missed" | grep -v '^??' | sort | uniq -c
