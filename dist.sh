#!/bin/sh
# Fills a folder that a firmware project can vendor: the static library and its header, with files for pkg-config and CMake; the Rust crate;
# mtrrun, mtrwhy, mtrsum and mtrask, with their manual pages, and journal for the bench; the example hosts and a customer's table of
# priorities; what was proved; VERSION, KIT and SHA256SUMS.
#   ./dist.sh [--no-build] [FOLDER]     FOLDER is dist/ if none is given; an earlier one is replaced
# --no-build takes what stands in target/ as it is instead of proving and building it. PROVED.md cites the gate only for the commit and the
# files that it tested. The revision is git's, or $REVISION if it is set.
# After a failure FOLDER is as it was.
set -u

fail() {
    echo "dist.sh: $*" >&2
    exit 1
}

build=yes
if [ "${1-}" = --no-build ]; then
    build=no
    shift
fi
case $#:${1-} in
[01]:-* | [2-9]:* | [1-9][0-9]*:*)
    echo "usage: ./dist.sh [--no-build] [FOLDER]" >&2
    exit 2
    ;;
esac

root=$(cd "$(dirname "$0")" && pwd) || fail "no folder of its own"
folder=${1:-$root/dist}
case $folder in /*) ;; *) folder=$PWD/$folder ;; esac
folder=${folder%/}
if [ -e "$folder" ] && ! [ -f "$folder/VERSION" ]; then
    held=$(ls -A "$folder/") || fail "$folder is no folder"
    [ -z "$held" ] || fail "$folder has no VERSION: it is not replaced"
fi
cd "$root" || fail "can't enter $root"

if [ "$build" = yes ]; then
    CARGO_TARGET_DIR=$root/target/cargo
    export CARGO_TARGET_DIR
    rt all check || fail "rt all check failed"
    tools/build.sh || fail "tools/build.sh failed"
    cargo run --quiet --offline --release -p boundary -- --check || fail "the header or the Rust declarations are out of date"
    cargo build --quiet --offline --release -p journal || fail "journal can't be built"
fi
archive=target/staticlib/libabi.a
for file in "$archive" target/bin/mtrrun target/bin/mtrwhy target/bin/mtrsum target/bin/mtrask target/cargo/release/journal; do
    [ -f "$file" ] || fail "$file is missing: run ./dist.sh without --no-build"
done
needs=$(nm -u "$archive") || fail "nm can't read $archive"
needs=$(echo "$needs" | awk '$1 == "U" { printf "%s%s", gap, $2; gap = " " }')
for name in $needs; do
    case $name in
    memcpy | memset) ;;
    *) fail "$archive needs $name; of libc it may need memcpy and memset alone" ;;
    esac
done
version=$(sed -n 's/^version = "\([0-9][0-9.]*\)"$/\1/p' rust/mtr/Cargo.toml) || fail "can't read rust/mtr/Cargo.toml"
[ -n "$version" ] || fail "rust/mtr/Cargo.toml has no version"
revision=${REVISION-$(git describe --always --dirty --abbrev=40)} || fail "no revision: git describe failed; set REVISION"
[ -n "$revision" ] || fail "no revision: REVISION is empty"
kit=$(rt version) || fail "no kit's id: rt version failed"

mkdir -p "$(dirname "$folder")" || fail "can't make the folder above $folder"
new=$(mktemp -d "$folder.new.XXXXXX") || fail "can't make a folder beside $folder"
trap 'rm -rf "$new"' EXIT
trap 'exit 1' HUP INT TERM

# The crate goes without its tests, and its manifest without what they need.
package='/^\[/ { tests = /dev-dependencies/ || /^\[\[(test|example|bench)\]\]/ } !tests'
{
    chmod 755 "$new" &&
        mkdir -p "$new/bin" "$new/share/man/man1" "$new/lib/pkgconfig" "$new/lib/cmake/mtr" &&
        mkdir -p "$new/include" "$new/rust" "$new/examples/host/rust" &&
        cp "$archive" "$new/lib/libmtr.a" &&
        cp target/bin/mtrrun target/bin/mtrwhy target/bin/mtrsum target/bin/mtrask target/cargo/release/journal "$new/bin/" &&
        cp docs/mtrrun.1 docs/mtrwhy.1 docs/mtrsum.1 docs/mtrask.1 "$new/share/man/man1/" &&
        cp include/mtr.h "$new/include/mtr.h" &&
        cp docs/RULE.md "$new/RULE.md" &&
        cp -R rust/mtr/build.rs rust/mtr/src "$new/rust/" &&
        awk "$package" rust/mtr/Cargo.toml >"$new/rust/Cargo.toml" &&
        cp -R examples/host/c "$new/examples/host/" &&
        cp -R examples/host/rust/src "$new/examples/host/rust/" &&
        cp -R examples/priorities "$new/examples/" &&
        awk "$package" examples/host/rust/Cargo.toml | sed 's,"../../../rust/mtr","../../../rust",' >"$new/examples/host/rust/Cargo.toml" &&
        echo "$version" >"$new/VERSION" &&
        echo "$kit" >"$new/KIT"
} || fail "can't fill $new"
printf '\n[workspace]\n' >>"$new/examples/host/rust/Cargo.toml" || fail "can't write the example's manifest"

cat >"$new/lib/pkgconfig/mtr.pc" <<END || fail "can't write mtr.pc"
prefix=\${pcfiledir}/../..

Name: mtr
Description: The move-to-rear list scheduler
Version: $version
Cflags: -I\${prefix}/include
Libs: -L\${prefix}/lib -lmtr
END
cat >"$new/lib/cmake/mtr/mtrConfig.cmake" <<'END' || fail "can't write mtrConfig.cmake"
# find_package(mtr) gives the target mtr::mtr.
get_filename_component(mtr_prefix "${CMAKE_CURRENT_LIST_DIR}/../../.." ABSOLUTE)
if(NOT TARGET mtr::mtr)
    add_library(mtr::mtr STATIC IMPORTED)
    set_target_properties(mtr::mtr PROPERTIES
        IMPORTED_LOCATION "${mtr_prefix}/lib/libmtr.a"
        INTERFACE_INCLUDE_DIRECTORIES "${mtr_prefix}/include")
endif()
unset(mtr_prefix)
END
cat >"$new/lib/cmake/mtr/mtrConfigVersion.cmake" <<END || fail "can't write mtrConfigVersion.cmake"
set(PACKAGE_VERSION $version)
END
cat >>"$new/lib/cmake/mtr/mtrConfigVersion.cmake" <<'END' || fail "can't write mtrConfigVersion.cmake"
# The same major version, and no later one than this.
string(REGEX MATCH "^[0-9]+" mtr_major "${PACKAGE_VERSION}")
if(PACKAGE_FIND_VERSION VERSION_GREATER PACKAGE_VERSION OR NOT PACKAGE_FIND_VERSION_MAJOR EQUAL mtr_major)
    set(PACKAGE_VERSION_COMPATIBLE FALSE)
else()
    set(PACKAGE_VERSION_COMPATIBLE TRUE)
    if(PACKAGE_FIND_VERSION VERSION_EQUAL PACKAGE_VERSION)
        set(PACKAGE_VERSION_EXACT TRUE)
    endif()
endif()
END

# What is packed and the gate did not test: its file has no such sum of it.
untested() {
    for packed in lib/libmtr.a "$new"/bin/*; do
        packed=${packed#"$new"/}
        case $packed in
        lib/libmtr.a) file=$archive ;;
        bin/journal) file=target/cargo/release/journal ;;
        *) file=target/$packed ;;
        esac
        sum=$(sha256sum <"$new/$packed") || return
        grep -qxF "${sum%% *}  $file" target/gate.txt || printf ' %s' "$packed"
    done
}

# What the gate counted, if it saw the commit that stands here and nothing else, which is the second line of its file, and tested what is
# packed.
gate="was not run for this tree"
if [ -f target/gate.txt ]; then
    tree=$(git describe --always --dirty --abbrev=40 --exclude '*' 2>/dev/null) || tree=unknown
    saw=$(sed -n 2p target/gate.txt) || fail "can't read target/gate.txt"
    case $tree:$saw in
    :* | unknown:* | *-dirty:*) ;;
    "$tree:tree: $tree")
        gate=$(sed -n 1p target/gate.txt)
        others=$(untested) || fail "can't take the sums of what is packed"
        if [ -n "$others" ]; then
            gate="was not run for these files:$others"
            echo "dist.sh: the gate $gate; PROVED.md says so, without its count" >&2
        fi
        ;;
    esac
fi

# The page of what is proved, under what this folder was made of. Its own title goes.
{
    cat <<END && sed 1d docs/PROOFS.md
# What was proved of this library

| | |
|---|---|
| version | $version |
| commit | $revision |
| kit | $kit |
| gate | $gate |
| library | sha256 $(sha256sum <"$new/lib/libmtr.a" | cut -d ' ' -f 1) |

\`lib/libmtr.a\` is what the kit wrote after its checker had accepted every exported function and everything below it; \`bin/mtrrun\`,
\`bin/mtrwhy\`, \`bin/mtrsum\` and \`bin/mtrask\` are what it wrote of the programs. The gate checks all proofs from nothing, or takes
over what an earlier run of it on the same machine found of the same files; it tries edits that must be refused, and runs the tests. Its
last line counts what passed. What follows says what was proved, by the names of the definitions and theorems in the sources of
this commit, and what was not.
END
} >"$new/PROVED.md" || fail "can't write PROVED.md"

cat >"$new/README" <<END || fail "can't write the README"
The move-to-rear list scheduler (MTR-LS), version $version, for x86-64.
Commit $revision, $kit.

    lib/libmtr.a     the scheduler; of libc it needs these alone: $needs
    include/mtr.h    its functions for C11 and C++11 or later: what each does, refuses and leaves unchanged; stack, interrupts, locking
    lib/pkgconfig/   for pkg-config; lib/cmake/: for CMake
    rust/            the crate \`mtr\`: the same with Rust types (no_std), and the declarations in its module raw
    bin/mtrrun       replays a journal (share/man/man1/mtrrun.1)
    bin/mtrwhy       tells from a journal why a thread had the processor (share/man/man1/mtrwhy.1)
    bin/mtrsum       writes a journal's summary, bin/mtrask answers from it: processor use (share/man/man1/mtrsum.1, mtrask.1)
    bin/journal      journals as text, figures and pictures; a customer's table of priorities checked
    examples/        host/: a controller's main loop, in C and in Rust; priorities/: a customer's table of priorities
    RULE.md          the rule whole, in numbered sections
    PROVED.md        what was proved of it, by which theorem, and what is assumed

C, with this folder as vendor/mtr:

    cc -Ivendor/mtr/include prog.c -Lvendor/mtr/lib -lmtr
    cc prog.c \$(PKG_CONFIG_PATH=vendor/mtr/lib/pkgconfig pkg-config --cflags --libs mtr)

    #include <mtr.h>

    static mtr_scheduler state;
    mtr_answer answer = mtr_start(&state, MTR_DEFAULT_THOUSANDTH, MTR_DEFAULT_INTERVAL, MTR_DEFAULT_OVERRUN);
    if (answer == MTR_ACCEPTED)
        answer = mtr_admit(&state, 5, 0, 500);

The last setting is the overrun limit: the ticks that a report may use beyond its slice, where the timer that ends it fires late.

CMake, with -DCMAKE_PREFIX_PATH=vendor/mtr (a whole path):

    find_package(mtr $version REQUIRED)
    target_link_libraries(prog mtr::mtr)

Rust, in Cargo.toml (the build script finds ../lib/libmtr.a):

    [dependencies]
    mtr = { path = "vendor/mtr/rust" }

    use mtr::{Scheduler, Settings};

    let mut scheduler = Scheduler::new(Settings { overrun: 50, ..Settings::default() })?;
    scheduler.admit(5, 0, 500)?;

The example host, and its journal replayed:

    cc -std=c11 -O2 -Iinclude examples/host/c/controller.c -Llib -lmtr -o /tmp/controller
    /tmp/controller 1 /tmp/journal.blocks
    bin/mtrrun </tmp/journal.blocks

Why the thread of its dispatch at record N had the processor:

    bin/mtrwhy /tmp/journal.blocks N

The ticks that thread 0 was charged in its first two blocks:

    bin/mtrsum /tmp/journal.blocks >/tmp/journal.sum
    bin/mtrask /tmp/journal.sum 0 0 2

A customer's table of priorities: what each has under it, beside the standard, or what is wrong with it and in which line:

    bin/journal priorities examples/priorities/site.txt

The files are whole if this says OK of each:

    sha256sum -c SHA256SUMS
END
sums=$(cd "$new" && find . -type f -exec sha256sum {} +) || fail "can't take the check sums"
echo "$sums" | LC_ALL=C sort -k 2 >"$new/SHA256SUMS" || fail "can't write SHA256SUMS"

# The earlier folder goes only once the new one is in its place.
if [ -e "$folder" ]; then
    mv "$folder" "$new.old" || fail "can't move the earlier $folder"
    if ! mv "$new" "$folder"; then
        mv "$new.old" "$folder"
        fail "can't move the new folder to $folder"
    fi
    rm -rf "$new.old"
else
    mv "$new" "$folder" || fail "can't move the new folder to $folder"
fi
echo "$folder: version $version, $revision"
