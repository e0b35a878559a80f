#!/bin/sh
# Sets faults into a copy of the tree, one at a time, and sees that some test notices each: run.sh [--no-control] [NAME..], all if none is
# named. A name is model/NAME, journal/NAME or boundary/NAME, as the files below this folder. After tools/build.sh.
#
# model/*.edit and journal/*.edit are edits of the sources, in the form of crates/*/must-fail; lines `old:` or `new:` that follow one
# another are lines of one text. boundary/*.c define an exported function anew, over the library's own under the name proved_NAME. The
# first line of each says what is wrong, with its number in RULE 10.5.
#
# The copy is of the files that git knows, and is compiled in less time than the tree. It stands outside of the checkout, in the folder TREE,
# mtr-faults among the temporary files if not given: rt ci refuses crates that stand in target/. A fault's packages are tested one
# by one up to the first that fails. Beforehand all tests must pass without a fault, and where a boundary's is asked for also with the
# functions of passed_on.c, which do nothing wrong; --no-control leaves that out. target/faults/result.txt has a line for each fault: its
# name, the package and the test that noticed it, parted by tabs; target/faults/log the last test's output. One run has the copy at a time.
# LIMIT are the seconds after which the tests of a package are ended, 900 if not given; PACKAGES names those to test, if not all. The status
# is 0 only if every fault was noticed.
set -u
cd "$(dirname "$0")/../../.." || exit 2
root=$PWD out=$PWD/target/faults
tree=${TREE:-${TMPDIR:-/tmp}/mtr-faults} kept=$out/kept log=$out/log here=rust/check/faults
limit=${LIMIT:-900}

# In which order a place's faults are likeliest noticed. Packages that are not named follow in cargo's order.
order() { # PLACE
    case $1 in
    model) echo model check journal mtr ;;
    journal) echo journal ;;
    boundary) echo mtr check journal controller boundary ;;
    esac
}

# What a call takes of the stack is more where a function stands over the library's own: tests of check and boundary that see it.
deeper='stack::within_its_limit stack::as_stated stack'

# ---- what is said

began=$(date +%s)
quiet=
[ -t 2 ] || quiet=yes
doing() { [ -n "$quiet" ] || printf '\r\033[K%s' "$*" >&2; }
say() {
    doing ''
    echo "$*"
}
fail() {
    doing ''
    echo "faults: $*" >&2
    exit 2
}

# ---- the copy

export CARGO_PROFILE_RELEASE_OPT_LEVEL=1 CARGO_PROFILE_RELEASE_CODEGEN_UNITS=16 CARGO_PROFILE_RELEASE_INCREMENTAL=true
unset CARGO_TARGET_DIR

# Makes the copy what the tree is. Only a file that differs is written, so that cargo compiles no more than it has to.
copy() {
    doing 'copying the tree'
    mkdir -p "$tree/target" || return
    git -c core.quotePath=off ls-files | LC_ALL=C sort >"$out/files"
    [ -s "$out/files" ] || return
    (cd "$tree" && find . -path ./target -prune -o -type f -print) | sed 's|^\./||' | LC_ALL=C sort |
        LC_ALL=C comm -23 - "$out/files" | while IFS= read -r file; do rm "$tree/$file"; done
    while IFS= read -r file; do
        [ -f "$file" ] || rm -f "$tree/$file"
        [ ! -f "$file" ] || same "$file" || return
    done <"$out/files"
    mkdir -p "$tree/target/bin" "$tree/target/staticlib" || return
    for file in target/bin/* target/staticlib/libabi.a; do same "$file" || return; done
}

# Makes a file of the copy what it is in the tree.
same() { # FILE
    cmp -s "$1" "$tree/$1" || {
        mkdir -p "$tree/$(dirname "$1")"
        cp "$1" "$tree/$1"
    }
}

# ---- faults

# Sets an edit into the copy. The files that it changes are kept in $kept, with a list of their names.
edit() { # FILE
    perl -e '
        use File::Basename;
        use File::Copy;
        use File::Path;
        my ($edit, $tree, $kept) = @ARGV;
        my ($file, $last, @pairs, %texts) = ("", "");
        open(my $in, "<:raw", $edit) or die "$edit: $!\n";
        my $sentence = <$in>;
        while (my $line = <$in>) {
            chomp $line;
            if ($line =~ /^file: (.+)$/) {
                ($file, $last) = ($1, "");
            } elsif ($line =~ /^old:(?: (.*))?$/) {
                if ($last eq "old") { $pairs[-1]{old} .= "\n$1" } else { push @pairs, { file => $file, old => $1 } }
                $last = "old";
            } elsif ($line =~ /^new:(?: (.*))?$/ && $last ne "") {
                $pairs[-1]{new} = $last eq "new" ? "$pairs[-1]{new}\n$1" : $1 // "";
                $last = "new";
            } else {
                die "$edit, line $.: not a line of an edit\n";
            }
        }
        die "$edit: changes nothing\n" unless @pairs;
        for my $pair (@pairs) {
            my ($name, $old) = ($pair->{file}, $pair->{old} // "");
            die "$edit: no old text, no new text or no file\n" if $name eq "" || $old eq "" || !defined $pair->{new};
            if (!exists $texts{$name}) {
                open(my $source, "<:raw", "$tree/$name") or die "$edit: $name: $!\n";
                local $/;
                $texts{$name} = <$source>;
            }
            my $times = () = $texts{$name} =~ /\Q$old\E/g;
            die "$edit: stands $times times in $name:\n$old\n" if $times != 1;
            substr($texts{$name}, index($texts{$name}, $old), length $old, $pair->{new});
        }
        open(my $list, ">", "$kept/list") or die "$kept/list: $!\n";
        for my $name (sort keys %texts) {
            print $list "$name\n";
            File::Path::mkpath(dirname("$kept/$name"));
            copy("$tree/$name", "$kept/$name") or die "$name: $!\n";
        }
        close($list) or die "$kept/list: $!\n";
        for my $name (sort keys %texts) {
            open(my $source, ">:raw", "$tree/$name") or die "$name: $!\n";
            print $source $texts{$name};
            close($source) or die "$name: $!\n";
        }' "$1" "$tree" "$kept"
}

# Puts functions over those of the copy's library: these are renamed and seen no more, so that the archive exports what it did.
over() { # FILE
    names=$(sed -n 's/.*[^a-z_]proved_\(mtr_[a-z_]*\).*/\1/p' "$1" | sort -u)
    [ -n "$names" ] || {
        echo "$1: names no function of the library"
        return 1
    }
    archive=target/staticlib/libabi.a
    mkdir -p "$kept/target/staticlib" "$out/objects"
    cp "$tree/$archive" "$kept/$archive" && echo "$archive" >"$kept/list" || return
    for symbol in $names; do echo "$symbol proved_$symbol"; done >"$out/objects/names"
    cc -std=c11 -Wall -Wextra -Werror -O2 -fno-stack-protector -I include -c "$1" -o "$out/objects/over.o" &&
        objcopy --redefine-syms="$out/objects/names" "$archive" "$out/objects/proved.a" &&
        ld -r --whole-archive "$out/objects/proved.a" "$out/objects/over.o" -o "$out/objects/both.o" &&
        objcopy --wildcard --localize-symbol='proved_*' "$out/objects/both.o" "$out/objects/abi.o" &&
        rm -f "$tree/$archive" && ar rcs "$tree/$archive" "$out/objects/abi.o" || return
    for symbol in $names; do
        nm -g "$tree/$archive" | grep -q " T $symbol\$" || {
            echo "$1: does not define $symbol"
            return 1
        }
    done
}

# The sums of what a fault has changed. If they are others after the tests, these have not seen the fault.
sums() { (cd "$tree" && xargs cksum <"$kept/list"); }

# Takes the fault out again. A file that is put back is newer than what was compiled.
back() {
    [ ! -f "$kept/list" ] || while IFS= read -r was; do
        cp "$kept/$was" "$tree/$was" || fail "$was can't be put back"
    done <"$kept/list"
    rm -f "$kept/list"
}

# ---- tests

# The packages of the workspace, those of the place's order first.
packages() { # PLACE
    if [ -n "${PACKAGES-}" ]; then
        echo "$PACKAGES" | tr ' ' '\n'
        return
    fi
    {
        order "$1" | tr ' ' '\n'
        echo
        (cd "$tree" && cargo tree --offline --workspace --depth 0 --prefix none) | awk 'NF { print $1 }'
    } | awk '
        NF == 0 { named = 1; next }
        !named { wanted[++n] = $1; next }
        !seen[$1]++ { found[++m] = $1 }
        END {
            for (i = 1; i <= n; i++) if (wanted[i] in seen) { print wanted[i]; done[wanted[i]] = 1 }
            for (i = 1; i <= m; i++) if (!(found[i] in done)) print found[i]
        }'
}

# A command in the copy, which may be broken off; its status.
child=
broken() {
    [ -z "$child" ] || kill "$child" 2>/dev/null
    doing ''
    exit 130
}
trap broken HUP INT TERM
run() { # COMMAND..
    (cd "$tree" && exec "$@") >"$log" 2>&1 </dev/null &
    child=$!
    wait "$child"
    status=$?
    child=
    return "$status"
}

# Which test of $log failed first by name, and of how many; or that a program ended otherwise.
failing() {
    awk '
        $1 == "Running" { program = $2 == "unittests" ? $3 : $2 }
        $1 == "Doc-tests" { program = "doc" }
        /^test .* \.\.\. FAILED$/ { sub(/^test /, ""); sub(/ \.\.\. FAILED$/, ""); n++; if (first == "" || $0 < first) first = $0 }
        END {
            if (n == 0) print program ": ended without a result"
            else print program ": " first (n == 1 ? "" : " and " n - 1 " more")
        }' "$log"
}

# Tests a package. 0: passes. 1: fails, and $test says which test. 2: it can't be compiled, or cargo fails otherwise.
test_of() { # PACKAGE ARGUMENT..
    package=$1
    shift
    run cargo test --offline --locked --release -p "$package" --no-run || return 2
    run timeout -k 10 "$limit" cargo test --offline --locked --release -p "$package" "$@"
    case $status in
    0) return 0 ;;
    124 | 137)
        test="$(failing | sed 's/:.*//'): not ended after $limit s"
        return 1
        ;;
    esac
    grep -Eq '^error: (test|doctest) failed|^test result: FAILED' "$log" || return 2
    test=$(failing)
    return 1
}

# What a place's tests leave out.
left_out() { # PLACE
    [ "$1" != boundary ] || {
        printf '%s' --exact
        for deep in $deeper; do printf ' --skip %s' "$deep"; done
    }
}

# All packages of a place in turn: 0 if a test fails, with $package and $test; 1 if none does; 2 as in test_of.
noticed() { # NAME PLACE
    for package in $(packages "$2"); do
        doing "$1: $package ($(($(date +%s) - began)) s)"
        # shellcheck disable=SC2046
        test_of "$package" -- $(left_out "$2")
        case $? in 1) return 0 ;; 2) return 2 ;; esac
    done
    return 1
}

# The tests must pass where nothing is wrong.
control() { # NAME PLACE
    noticed "$1" "$2"
    case $? in
    0)
        cat "$log" >&2
        fail "$1: $package, $test: without a fault the tests must pass"
        ;;
    2)
        cat "$log" >&2
        fail "$1: the tests of $package can't be compiled or run"
        ;;
    esac
    say "$1: every test passes ($(($(date +%s) - began)) s)"
}

# ---- the run

controls=yes
if [ "${1-}" = --no-control ]; then
    controls=
    shift
fi
if [ $# -eq 0 ]; then
    set --
    for file in "$here"/model/*.edit "$here"/journal/*.edit "$here"/boundary/*.c; do
        [ ! -f "$file" ] || set -- "$@" "$file"
    done
else
    count=$#
    while [ "$count" -gt 0 ]; do
        name=${1#"$here/"}
        name=${name%.edit} name=${name%.c}
        case $name in boundary/*) file=$here/$name.c ;; *) file=$here/$name.edit ;; esac
        [ -f "$file" ] || fail "no fault $1: $file is not there"
        shift
        set -- "$@" "$file"
        count=$((count - 1))
    done
fi
[ $# -gt 0 ] || fail "no faults"
for file in target/staticlib/libabi.a target/bin/mtrrun target/bin/mtrwhy target/bin/mtrsum target/bin/mtrask; do
    [ -f "$file" ] || fail "$file is missing: tools/build.sh"
done
mkdir -p "$out" || fail "$out can't be written"
mkdir "$tree.lock" 2>/dev/null || fail "another run has the copy; if there is none, remove $tree.lock"
trap 'rmdir "$tree.lock"' EXIT
copy || fail "the tree can't be copied to $tree"
rm -rf "$kept"
mkdir -p "$kept" || fail "$kept can't be written"

if [ -n "$controls" ]; then
    control 'no fault' none
    case " $* " in *" $here/boundary/"*)
        over "$here/passed_on.c" >"$log" 2>&1 || {
            cat "$log" >&2
            fail "passed_on can't be set"
        }
        control 'passed on' boundary
        back
        ;;
    esac
fi

: >"$out/result.txt"
faults=0 found=0 missed=0 errors=0
for file in "$@"; do
    name=${file#"$here/"} at=$(date +%s)
    name=${name%.*}
    place=${name%%/*}
    faults=$((faults + 1))
    doing "$name"
    case $file in *.c) set_in=over ;; *) set_in=edit ;; esac
    if ! "$set_in" "$root/$file" >"$log" 2>&1; then
        cat "$log" >&2
        say "$name: ERROR: can't be set"
        printf '%s\tERROR\tnot set\n' "$name" >>"$out/result.txt"
        errors=$((errors + 1))
        back
        continue
    fi
    sums >"$out/sums"
    noticed "$name" "$place"
    seen=$?
    if ! sums | cmp -s - "$out/sums"; then
        errors=$((errors + 1))
        say "$name: ERROR: the copy was changed meanwhile"
        printf '%s\tERROR\tthe copy was changed meanwhile\n' "$name" >>"$out/result.txt"
        back
        continue
    fi
    case $seen in
    0)
        found=$((found + 1))
        say "$name: $package, $test ($(($(date +%s) - at)) s)"
        printf '%s\t%s\t%s\n' "$name" "$package" "$test" >>"$out/result.txt"
        ;;
    1)
        missed=$((missed + 1))
        say "$name: NOT NOTICED ($(($(date +%s) - at)) s)"
        printf '%s\tNOT NOTICED\t\n' "$name" >>"$out/result.txt"
        ;;
    2)
        tail -n 30 "$log" >&2
        errors=$((errors + 1))
        say "$name: ERROR: $package can't be compiled or run"
        printf '%s\tERROR\t%s\n' "$name" "$package" >>"$out/result.txt"
        ;;
    esac
    back
done
[ "$errors" -eq 0 ] || echo "$errors could not be set or compiled"
echo "$faults faults, $found noticed, $missed not noticed ($(($(date +%s) - began)) s)"
[ "$found" -eq "$faults" ]
