#!/bin/sh
# Times of this tree's static library beside those of an older version's, in one program: each call in 301 rounds, both sides in each,
# each first in turn. A ratio is the median of the rounds' ratios, new by old.
#   rust/bench/beside.sh TREE    a checkout of the older version; both trees have target/staticlib/libabi.a (make library)
set -eu
if [ $# -ne 1 ] || [ ! -f "$1/target/staticlib/libabi.a" ]; then
    echo "usage: beside.sh TREE, with TREE/target/staticlib/libabi.a" >&2
    exit 2
fi
older=$(cd "$1" && pwd)
cd "$(dirname "$0")/../.."
work=$PWD/target/beside
mkdir -p "$work/src" "$work/lib"

# A side: the library and its declarations under names of its own, and a start with the default settings.
side() { # NAME TREE
    nm "$2/target/staticlib/libabi.a" 2>/dev/null | sed -n 's/.* T mtr_\(.*\)$/mtr_\1 '"$1"'_\1/p' >"$work/lib/$1.names"
    objcopy --redefine-syms="$work/lib/$1.names" "$2/target/staticlib/libabi.a" "$work/lib/lib$1.a"
    sed "s/fn mtr_/fn $1_/; /^\/\/!/d" "$2/rust/mtr/src/raw.rs" >"$work/src/raw_$1.rs"
    count=$(tr -d '\n' <"$2/rust/mtr/src/raw.rs" | sed 's/.*fn mtr_by_value_start(\([^)]*\)).*/\1/' | tr -cd ':' | wc -c)
    settings="100, 20_000"
    while [ "$count" -gt 2 ]; do settings="$settings, 0" count=$((count - 1)); done
    echo "macro_rules! start_$1 { () => { raw_$1::$1_by_value_start($settings) } }" >>"$work/src/starts.rs"
}
rm -f "$work/src/starts.rs"
side old "$older"
side new "$PWD"

cp rust/bench/beside/main.rs rust/bench/src/rounds.rs "$work/src"
cat >"$work/Cargo.toml" <<'END'
[package]
name = "beside"
version = "0.1.0"
edition = "2024"
build = "build.rs"
[profile.release]
codegen-units = 1
[workspace]
END
cat >"$work/build.rs" <<'END'
fn main() {
    println!("cargo::rustc-link-search=native={}/lib", std::env::var("CARGO_MANIFEST_DIR").unwrap());
    println!("cargo::rustc-link-lib=static=old");
    println!("cargo::rustc-link-lib=static=new");
}
END
cargo build --quiet --offline --release --manifest-path "$work/Cargo.toml" --target-dir "$work/target"
exec "$work/target/release/beside"
