#!/bin/sh
# Makes what is linked and run outside of crates/: the archive target/staticlib/libabi.a and the programs in target/bin. Each is made of
# what is proved: rt proves first what has changed since an earlier check, and makes nothing where that fails.
#   tools/build.sh            the archive and the programs
#   tools/build.sh NAME..     of these crates alone: abi, or a program
set -u
cd "$(dirname "$0")/.." || exit 2

fail() {
    echo "build.sh: $*" >&2
    exit 1
}

# Puts a file in its place in one step, unless the same stands there.
place() { # FROM TO
    cmp -s "$1" "$2" && return
    mkdir -p "$(dirname "$2")" && cp "$1" "$2.new" && mv -f "$2.new" "$2"
}

work=$(mktemp -d) || exit 2
trap 'rm -rf "$work"' EXIT
trap 'exit 1' HUP INT TERM

# A static library, as out/libNAME.a.
archive() { # NAME
    (cd "crates/$1" && rt lib </dev/null) || fail "$1 was not built"
    place "crates/$1/out/lib$1.a" "target/staticlib/lib$1.a" || fail "target/staticlib/lib$1.a can't be written"
}

# A program, as out/NAME. rt run also runs it, here on no arguments and no input; its status is then the program's own. That it was built
# is told by the line that comes before.
program() { # NAME
    (cd "crates/$1" && rt run </dev/null 2>&1) | tee "$work/log"
    grep -q "^rt: running out/$1;" "$work/log" || fail "$1 was not built"
    place "crates/$1/out/$1" "target/bin/$1" || fail "target/bin/$1 can't be written"
}

[ $# -gt 0 ] || set -- abi mtrrun mtrwhy mtrsum mtrask
for name in "$@"; do
    if [ -f "crates/$name/src/main.rt" ]; then
        program "$name"
    elif grep -q "^$name staticlib:" crates.txt; then
        archive "$name"
    else
        fail "$name is no program and no static library of crates.txt"
    fi
done
