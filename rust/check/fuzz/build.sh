#!/bin/sh
# Builds the fuzzer target/fuzz/replay: libFuzzer over the static library and the four programs, each compiled with coverage from the very
# module that was proved, and over the model. Needs rt, cargo, and Debian's clang, libclang-rt-14-dev and binutils.
#
# rattle has its modules compiled by the clang of its toolchain folder. Here that clang is a script that compiles each module as always, and
# a second time with coverage to an object beside it. What rt makes is thereby the same as ever, which is checked.
set -eu
cd "$(dirname "$0")/../../.."
out=$PWD/target/fuzz
home=$(dirname "$(rt doc)")
flags=inline-8bit-counters,pc-table

# Beside the checkout, since rt ci refuses links and crates that stand in target/: a kit that is the installed one but for its clang, and a
# repository of its own, so that crates/*/out stay as they are.
room=$(mktemp -d)
trap 'rm -rf "$room"' EXIT
kit=$room/kit tree=$room/tree
link() { # FROM TO NAME..: links what is in a folder, but for these names
    from=$1 to=$2
    shift 2
    mkdir -p "$to"
    for f in "$from"/*; do
        case " $* " in *" $(basename "$f") "*) ;; *) ln -s "$f" "$to/$(basename "$f")" ;; esac
    done
}
link "$home" "$kit" bin toolchain
link "$home/bin" "$kit/bin" rt rtlib.py
# rt takes the kit that it stands in.
cp "$home/bin/rt" "$home/bin/rtlib.py" "$kit/bin/"
link "$home/toolchain" "$kit/toolchain" bin
link "$home/toolchain/bin" "$kit/toolchain/bin" clang
mkdir -p "$out"
cat >"$kit/toolchain/bin/clang" <<END
#!/bin/sh
"$home/toolchain/bin/clang" "\$@" || exit
case " \$* " in *" -O3 "*) "$home/toolchain/bin/clang" "\$@" -fsanitize-coverage=$flags -o "$out/coverage.o" ;; esac
END
chmod +x "$kit/toolchain/bin/clang"

# What earlier checks built of the libraries is not proved again.
mkdir -p "$tree/.git"
cp crates.txt "$tree/"
for crate in crates/*/; do
    mkdir -p "$tree/$crate/out"
    for part in src specs proofs; do [ ! -d "$crate$part" ] || cp -R "$crate$part" "$tree/$crate"; done
    [ ! -d "${crate}out/rlib" ] || cp -R "${crate}out/rlib" "$tree/${crate}out/"
done

quiet() { # CRATE VERB: that kit's rt there, shown only if it fails
    (cd "$tree/crates/$1" && "$kit/bin/rt" "$2" </dev/null) >"$out/log" 2>&1 || [ -f "$out/coverage.o" ] || { cat "$out/log" && exit 1; }
}
made() { # CRATE FILE OBJECT: keeps the object with coverage, and sees that what rt made is what it made in the checkout
    mv "$out/coverage.o" "$out/$3"
    [ ! -f "crates/$1/out/$2" ] || cmp "$tree/crates/$1/out/$2" "crates/$1/out/$2"
}
rm -f "$out/coverage.o"
quiet abi lib
made abi libabi.a abi.o
for name in mtrrun mtrwhy mtrsum mtrask; do
    quiet "$name" run
    made "$name" "$name.o" program.o
    # What a program has of the system is the fuzzer's, src/fuzzer.rs.
    objcopy --redefine-sym main="${name}_main" --redefine-sym read=fuzz_read --redefine-sym write=fuzz_write \
        --redefine-sym close=fuzz_close --redefine-sym lseek=fuzz_seek --redefine-sym rattle_arg=fuzz_arg --redefine-sym open=fuzz_open \
        "$out/program.o" "$out/$name.o"
done

# The harness and the model, with the same coverage and with overflow checked. A target that is named keeps the flags from build scripts.
host=$(rustc -vV | sed -n 's/^host: //p')
llvm() { printf ' -C llvm-args=-sanitizer-coverage-%s' "$@"; }
RUSTFLAGS="--cfg fuzzing -C overflow-checks -C passes=sancov-module$(llvm level=3 inline-8bit-counters pc-table)" \
    CARGO_TARGET_DIR=$out/cargo cargo rustc --quiet --offline -j1 --release --target "$host" -p check --lib --crate-type staticlib

# abi.o comes first, so that the archive's own copy of the library is not taken.
clang -fsanitize=fuzzer "$out/abi.o" "$out/mtrrun.o" "$out/mtrwhy.o" "$out/mtrsum.o" "$out/mtrask.o" "$out/cargo/$host/release/libcheck.a" \
    "$home/c/libos_c.a" "$home/c/liblibc_c.a" -o "$out/replay"
echo "target/fuzz/replay"
