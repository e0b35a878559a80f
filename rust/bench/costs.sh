#!/bin/sh
# Measures what each call costs and writes rust/boundary/costs.txt, from which the header has its table: bytes of stack on a painted stack, and
# the instructions of the dearest case by callgrind. Needs valgrind and target/staticlib/libabi.a. Afterwards: cargo run --release -p boundary.
set -eu
cd "$(dirname "$0")/../.."
work=$(mktemp -d)
trap 'rm -rf "$work"' EXIT
cargo run --quiet --offline --release -p check --example stack >"$work/stack"
rust/bench/callgrind.sh >"$work/instructions"
# A row of callgrind.sh: call, threads, cheapest, its case, dearest, its case, ratio.
awk '
    BEGIN { print "# call, bytes of stack, instructions of the dearest case; written by rust/bench/costs.sh" }
    FNR == 1 { file++ }
    file == 1 && FNR > 1 {
        split($0, column, /  +/)
        if (column[5] + 0 > most[column[1]]) most[column[1]] = column[5] + 0
    }
    file == 2 { print $1, $2, most[$1] }' "$work/instructions" "$work/stack" >"$work/costs"
mv "$work/costs" rust/boundary/costs.txt
cat rust/boundary/costs.txt
