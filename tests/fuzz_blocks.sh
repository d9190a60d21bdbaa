#!/usr/bin/env bash
# The addresses, in PROGRAM, at which the blocks of the functions of ARCHIVE begin: where a jump goes to, and what follows a jump that
# may not be taken. For fuzz.c.   fuzz_blocks.sh PROGRAM ARCHIVE
set -eu -o pipefail
{ nm "$2" | awk 'NF == 3 && $2 ~ /^[tT]$/ { print $3 }'; echo; objdump -d --no-show-raw-insn "$1"; } | awk '
    NF == 0 { listed = 1 }
    !listed { ours[$1] = 1; next }
    /^[0-9a-f]+ <.*>:$/ { inside = substr($2, 2, length($2) - 3) in ours; after = 0; next }
    inside && /^ *[0-9a-f]+:/ {
        address = $1
        sub(":", "", address)
        if (after) print address
        after = $2 ~ /^j/ && $2 != "jmp"
        if ($2 ~ /^j/ && $3 ~ /^[0-9a-f]+$/) print $3
    }' | sed 's/^0*//' | awk '{ printf "%016s\n", $0 }' | tr ' ' 0 | sort -u
