#!/bin/sh
# Fuzzes block reading and replay at low priority: run.sh [SECONDS], 600 if not given. What it learns stays in target/fuzz/corpus, from where
# the next run goes on; it begins with rust/check/fuzz/corpus.hex, the seeds and the shipped journals. A finding ends it with a status other than 0 and is kept in
# target/fuzz/findings. After a change of the code run build.sh first.
set -eu
cd "$(dirname "$0")/../../.."
out=target/fuzz
[ -x "$out/replay" ] || rust/check/fuzz/build.sh
mkdir -p "$out/corpus" "$out/findings" "$out/seeds"
rust/check/fuzz/unpack.sh "$out/known"
for f in examples/journals/*.blocks; do
    # Form 0, the journal itself, in pieces of 2041 bytes.
    { printf '\000\377\377' && cat "$f"; } >"$out/seeds/$(basename "$f")"
done
exec nice -n 19 "$out/replay" -max_total_time="${1:-600}" -max_len=1100 -timeout=10 -dict=rust/check/fuzz/dictionary -print_final_stats=1 \
    -artifact_prefix="$out/findings/" "$out/corpus" "$out/known" rust/check/fuzz/seeds "$out/seeds"
