#!/bin/sh
# Takes into rust/check/fuzz/corpus.hex the smallest set of recipes that covers what target/fuzz/corpus covers, one a line as hexadecimal digits.
# The gate runs them (tests/all/corpus.rs).
set -eu
cd "$(dirname "$0")/../../.."
out=target/fuzz
rm -rf "$out/merged"
mkdir "$out/merged"
# A copy, since a fuzzer that runs meanwhile replaces files by shorter ones; one that goes during the copy is left out.
rust/check/fuzz/unpack.sh "$out/snapshot"
cp "$out"/corpus/* "$out/snapshot/" 2>/dev/null || true
nice -n 19 "$out/replay" -set_cover_merge=1 "$out/merged" "$out/snapshot"
for f in "$out"/merged/*; do
    od -An -v -tx1 "$f" | tr -d ' \n'
    echo
done | LC_ALL=C sort >"$out/corpus.hex"
mv "$out/corpus.hex" rust/check/fuzz/corpus.hex
rm -rf "$out/snapshot"
