#!/usr/bin/env bash
# .ci/run with stand-ins for rt and make: what passes, what fails, and the last line of each. Usage: tests/gate.sh (make check-gate)
set -u
cd "$(dirname "$0")/.." || exit 1
folder=$(mktemp -d)
trap 'rm -rf "$folder"' EXIT
fail() { echo "FAILED: $1"; exit 1; }
unset CI MAKEFLAGS MAKELEVEL

printf '#!/bin/sh\necho "rt $*"\necho words >&2\n[ -z "$OK" ] || echo "$OK"\necho "$LAST"\nexit "$RT"\n' > "$folder/rt"
printf '#!/bin/sh\necho "make $* ${CI:+in CI}"\nexit "$MAKE"\n' > "$folder/make"
chmod 755 "$folder/rt" "$folder/make"

expect() { # STATUS LINES RT OK LAST MAKE
    local status=0
    RT=$3 OK=$4 LAST=$5 MAKE=$6 PATH=$folder:$PATH bash .ci/run > "$folder/out" 2> "$folder/err" || status=$?
    [ $status = "$1" ] || fail "exit status $status, not $1, where rt exits with $3 and make with $6"
    [ "$(cat "$folder/out")" = "$(printf "$2")" ] || fail "other lines where rt exits with $3 and make with $6: $(cat "$folder/out")"
    [ "$(cat "$folder/err")" = words ] || fail "standard error is $(cat "$folder/err")"
}
start='rt: ok; handles allowed: none'
end='; every proof and must-fail edit was done in this run'
ok="$start; must-fail edits: 3 refused$end"
limit="$start; must-fail edits: 3 refused, 2 of them only by a limit$end"
bad="$start; must-fail edits: 1 refused, 2 bad$end"
bad_too="$start; must-fail edits: 3 refused, 1 of them only by a limit, 12 bad$end"
expect 0 "rt ci\n$ok\n12 passed, 0 failed\nmake check in CI\n12 passed, 0 failed" 0 "$ok" '12 passed, 0 failed' 0
expect 0 "rt ci\n$limit\n12 passed, 0 failed\nmake check in CI\n12 passed, 0 failed" 0 "$limit" '12 passed, 0 failed' 0
expect 0 "rt ci\n$start$end\n9 passed, 0 failed\nmake check in CI\n9 passed, 0 failed" 0 "$start$end" '9 passed, 0 failed' 0
expect 1 'rt ci\nrt: FAILED: two\n11 passed, 1 failed' 1 'rt: FAILED: two' '11 passed, 1 failed' 0
expect 3 'rt ci\nthe prover could not tell' 3 '' 'the prover could not tell' 0
expect 1 "rt ci\n$ok\n12 passed, 0 failed\nmake check in CI\nthe gate FAILED: make check failed" 0 "$ok" '12 passed, 0 failed' 2
for text in "$bad" "$bad_too"; do
    expect 1 "rt ci\n$text\n12 passed, 0 failed\nthe gate FAILED: some must-fail edits are bad" 0 "$text" '12 passed, 0 failed' 0
done
expect 1 'rt ci\n12 passed, 0 failed\nthe gate FAILED: rt ci did not say what it did' 0 '' '12 passed, 0 failed' 0
expect 1 'rt ci\n\nthe gate FAILED: rt ci did not end with its counts' 0 '' '' 0
expect 1 "rt ci\n$ok\n11 passed, 1 failed\nthe gate FAILED: rt ci did not end with its counts" 0 "$ok" '11 passed, 1 failed' 0
some="$start$end\n11 passed, 0 failed (two and the crates below alone: not the gate)"
expect 1 "rt ci\n$some\nthe gate FAILED: rt ci did not end with its counts" 0 "$start$end" "${some#*\\n}" 0

# If CI is set and something is missing, it is installed; if installing fails, nothing changes.
mkdir "$folder/ci"
for name in bash sh dirname cat env grep id mktemp rm tee tail; do ln -s "$(command -v $name)" "$folder/ci/$name"; done
cp "$folder/rt" "$folder/make" "$folder/ci"
printf '#!/bin/sh\nshift\nexec "$@"\n' > "$folder/ci/sudo"
printf '#!/bin/sh\necho "$*" >> "$0.log"\necho apt\necho apt >&2\nexit "$APT"\n' > "$folder/ci/apt-get"
chmod 755 "$folder/ci/sudo" "$folder/ci/apt-get"
asked="-q update
-q -y --no-install-recommends install pari-gp libpari-dev parallel man-db pkg-config"
for APT in 0 100; do
    export APT
    rm -f "$folder/ci/apt-get.log"
    (
        export CI=true PATH="$folder/ci"
        expect 0 "rt ci\n$ok\n1 passed, 0 failed\nmake check in CI\n1 passed, 0 failed" 0 "$ok" '1 passed, 0 failed' 0
    ) || exit 1
    [ "$(cat "$folder/ci/apt-get.log")" = "$(printf '%s\n' "$asked" | head -n $((APT ? 1 : 2)))" ] ||
        fail "apt-get was asked: $(cat "$folder/ci/apt-get.log")"
done

# without the kit, in words, from .ci/run and from make
mkdir "$folder/bin"
for name in bash sh dirname cat env make gcc mkdir; do ln -s "$(command -v $name)" "$folder/bin/$name"; done
for call in "bash .ci/run" "make -s -W crates.txt crates/desk/out/desk" \
    "make -s -W ../crates.txt -C examples ../crates/engine/out/libengine.a"; do
    # shellcheck disable=SC2086
    if PATH=$folder/bin $call > "$folder/out" 2> "$folder/err"; then fail "$call passes without the kit"; fi
    grep -q '^The Rattle kit is needed here' "$folder/err" && grep -qF "for on PATH, which is $folder/bin" "$folder/err" ||
        fail "$call without the kit says: $(cat "$folder/out" "$folder/err")"
done
echo "the gate: the ways in which it can end, what it installs, and what is said without the kit, are as expected"
