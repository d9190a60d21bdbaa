#!/usr/bin/env bash
# tools/clauses.py on the sources, and on a copy of them in which something is wrong, which it must find.
# Usage: tests/clauses.sh (make check-clauses)
set -u
cd "$(dirname "$0")/.." || exit 1
folder=$(mktemp -d)
trap 'rm -rf "$folder"' EXIT
fail() { echo "FAILED: $1"; exit 1; }

python3 tools/clauses.py || exit 1
tar -cf - --exclude='./crates/*/out' --exclude=./build --exclude=./.git . | tar -xf - -C "$folder" || exit 1

expect() { # WHAT FILE SENTENCE: the copy is wrong, and the sentence is said; then the file is put right
    if python3 tools/clauses.py "$folder" > "$folder/out"; then fail "$1: it is not found"; fi
    grep -qxF "FAILED: $3" "$folder/out" || fail "$1: $(cat "$folder/out")"
    cp "$2" "$folder/$2"
}
none=S$((4000))         # no clause has this number; written so, it is not cited here
laws=docs/LAWS.md
specification=docs/SPECIFICATION.md
answers=crates/refusals/specs/Refusals.antt
echo "$none" >> "$folder/$laws"
expect "a citation of no clause" $laws "$laws:$(($(wc -l < $laws) + 1)): there is no clause $none"
echo "-- $none: no such clause" >> "$folder/$answers"
expect "a citation of no clause in a comment" $answers "$answers:$(($(wc -l < $answers) + 1)): there is no clause $none"
printf "\n**$none.** A clause that nothing cites.\n" >> "$folder/$specification"
expect "a clause that no file cites" $specification "$specification: no other file cites $none"
printf "\n**S$((1)).** The first once more.\n" >> "$folder/$specification"
expect "a number that two clauses have" $specification "$specification: two clauses have the number S$((1))"
echo "S$((3)) to S$((2))" >> "$folder/$laws"
expect "a range that runs backwards" $laws "$laws:$(($(wc -l < $laws) + 1)): S$((2)) comes before S$((3))"
echo "$none : a name in code" >> "$folder/$answers"
python3 tools/clauses.py "$folder" > "$folder/out" || fail "a name in code is taken for a citation: $(cat "$folder/out")"
echo "clauses: five wrong copies are found"
