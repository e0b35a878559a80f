#!/bin/sh
# Instructions within the library per accepted call: the cheapest and the dearest case of each call at each number of
# threads. Needs valgrind. An argument is the number of calls per case, 20 by default.
set -eu
calls=${1:-20}
cd "$(dirname "$0")/../.."
cargo build --quiet --offline --profile speed -p bench
bench=${CARGO_TARGET_DIR:-target/cargo}/speed/bench
work=$(mktemp -d)
trap 'rm -rf "$work"' EXIT

# Columns are parted by two spaces or more: costs.sh reads them.
printf '%-18s%7s%10s  %-64s%8s  %-64s  %s\n' call threads cheapest '' dearest '' ratio
for call in $("$bench" calls); do
    rm -f "$work"/*
    # Counts only within the exported function, and parts them where a case begins and where it ends.
    if ! valgrind --tool=callgrind --callgrind-out-file="$work/out" --toggle-collect="mtr_by_value_$call" \
        --dump-before=bench_case "$bench" one "$call" "$calls" >"$work/cases" 2>"$work/log"; then
        cat "$work/log" >&2
        exit 1
    fi
    dump=0
    while read -r threads name; do
        dump=$((dump + 2))
        total=$(sed -n 's/^totals: //p' "$work/out.$dump")
        echo "$threads $((total / calls)) $name"
    done <"$work/cases" | awk -v call="$call" '
        {
            threads = $1; count = $2; name = $0
            sub(/^[^ ]+ [0-9]+ /, "", name)
            if (!(threads in low)) order[++n] = threads
            if (!(threads in low) || count < low[threads]) { low[threads] = count; cheap[threads] = name }
            if (!(threads in high) || count > high[threads]) { high[threads] = count; dear[threads] = name }
        }
        END {
            for (i = 1; i <= n; i++) {
                t = order[i]
                printf "%-18s%7s%10d  %-64s%8d  %-64s  %.2f\n", call, t, low[t], cheap[t], high[t], dear[t], high[t] / low[t]
            }
        }'
done
