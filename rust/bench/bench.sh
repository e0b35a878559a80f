#!/bin/sh
# Times of the static library beside those of the model. On processors with the jump erratum a jump that crosses a 32-byte border is
# slow, so that a baseline's time would hang on where the linker puts it: the Rust code is compiled with no such jumps.
set -eu
cd "$(dirname "$0")/../.."
CARGO_TARGET_DIR=$PWD/target/cargo/bench
RUSTFLAGS='-C llvm-args=-x86-branches-within-32B-boundaries'
export CARGO_TARGET_DIR RUSTFLAGS
cargo build --quiet --offline --profile speed -p bench -p model
exec "$CARGO_TARGET_DIR/speed/bench" "$@"
