#!/bin/sh
# Copies in the static library's machine code, function by function: each call of memcpy or memmove with a length that is not a
# constant below 512, each `rep movs`, each loop of moves alone that stores, and the functions that are called. The state has
# 3232 bytes, a reply 3248. An argument is the archive, target/staticlib/libabi.a by default.
set -eu
archive=${1:-$(dirname "$0")/../../target/staticlib/libabi.a}
objdump -dr --no-show-raw-insn --demangle "$archive" | awk '
    function number(hex,   i, value) {
        value = 0
        for (i = 1; i <= length(hex); i++) value = 16 * value + index("0123456789abcdef", substr(hex, i, 1)) - 1
        return value
    }
    # The constant that an instruction moves into the register, or -1.
    function constant(text) {
        if (text !~ /^mov +\$0x[0-9a-f]+,/) return -1
        sub(/^mov +\$0x/, "", text)
        sub(/,.*/, "", text)
        return number(text)
    }
    function note(text) { found = found "\n    " text }
    function called(target) {
        if (target ~ /^(memset|memcmp|bcmp)$/) return
        if (target !~ /^mem(cpy|move)$/) { calls = calls " " target; return }
        if (size < 0) note(target " of a length that varies")
        else if (size >= 512) note(target " of " size " bytes")
    }
    # A loop of moves, counting and jumps alone, from the address `first` to the newest line.
    function copy_loop(first,   i, stores) {
        stores = 0
        for (i = lines; i > 0 && address[i] >= first; i--) {
            if (code[i] !~ /^(mov|lea|add|sub|inc|dec|cmp|test|nop|xchg|data16|cs|j)/) return
            if (code[i] ~ /^mov[a-z]* +%.*,[-0-9a-fx]*\(%/) stores++
        }
        if (stores) note(sprintf("loop of moves at %x, stores %d", first, stores))
    }
    function settle() {
        if (pending != "") called(pending)
        pending = ""
    }
    function finish() {
        settle()
        if (name != "" && found calls != "") print name found (calls == "" ? "" : "\n    calls" calls)
        found = calls = ""
        lines = 0
        size = count = -1
    }
    /^[0-9a-f]+ <.*>:$/ {
        finish()
        name = $0
        sub(/^[0-9a-f]+ </, "", name)
        sub(/>:$/, "", name)
        next
    }
    # The relocation of a call names its target; a call without one does so itself.
    /: R_X86_64_/ {
        if (pending != "") {
            pending = $0
            sub(/^.*R_X86_64_[A-Z0-9_]+[ \t]+/, "", pending)
            sub(/[-+]0x[0-9a-f]+$/, "", pending)
            sub(/^\.text\./, "", pending)
        }
        next
    }
    /^ *[0-9a-f]+:/ {
        text = $0
        sub(/^ *[0-9a-f]+:[ \t]*/, "", text)
        sub(/:$/, "", $1)
        address[++lines] = number($1)
        code[lines] = text
        settle()
        if (text ~ /,%[er]dx$/) size = constant(text)
        if (text ~ /,%[er]cx$/) count = constant(text)
        if (text ~ /^rep movs/) note("rep movs, count " count ": " text)
        if (text ~ /^call/) {
            pending = text
            sub(/^.*</, "", pending)
            sub(/>$/, "", pending)
        }
        # A jump back.
        if (text ~ /^j[a-z]+ +[0-9a-f]+ </) {
            sub(/^j[a-z]+ +/, "", text)
            sub(/ .*/, "", text)
            if (number(text) <= address[lines]) copy_loop(number(text))
        }
    }
    END { finish() }'
