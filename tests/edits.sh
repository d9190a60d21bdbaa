#!/usr/bin/env bash
# The wrong versions of crates/*/must-fail, by tools/edits.py: their texts and their names in documents, and where their refusals are known.
# First the script itself, on a crate of three functions with a stand-in for rt. Usage: tests/edits.sh (make check-edits)
set -u
shopt -s lastpipe # `expect` at the end of a pipe ends this script, not a subshell
cd "$(dirname "$0")/.." || exit 1
folder=$(mktemp -d)
trap 'rm -rf "$folder"' EXIT
fail() { echo "FAILED: $1"; exit 1; }

crate=$folder/crates/two
mkdir -p "$folder/tools" "$folder/bin" "$folder/crates/other/src" "$crate/src" "$crate/proofs/first" "$crate/must-fail"
cp tools/edits.py "$folder/tools"
echo 'two:' > "$folder/crates.txt"
source() { # what the third function calls
    printf '%s\n' 'pub fn first(x: u32) -> u32 {' '    x + 1' '}' 'fn second(x: u32) -> u32 {' '    x + 2' '}' 'fn third() -> u32 {' \
        "    $1(3)" '}'
}
source other::first > "$crate/src/lib.rt"
versions() { # the second version: OLD NEW
    printf '%s\n' 'version: one' '# wrong' 'file: src/lib.rt' 'old: x + 1' 'new: x + 3' '' 'version: other' '# wrong' 'file: src/lib.rt' \
        "old: $1" "new: $2"
}
versions 'x + 2' 'x + 4' > "$crate/must-fail/both.edit"
# what rt check says stands in the file `said`; the copy that it is called in has the edited text
cat > "$folder/bin/rt" << END
#!/bin/sh
[ "\$*" = check ] && grep -q 'x + 3' src/lib.rt && [ ! -e must-fail ] && cat ../../crates.txt > "$folder/known" && cat "$folder/said"
END
chmod 755 "$folder/bin/rt"
PATH=$folder/bin:$PATH

expect() { # STATUS COMMAND LAST-LINE, what rt check says on standard input
    local status=0
    cat > "$folder/said"
    [ "$2" = check ] || rm -rf "$folder/build"
    "$folder/tools/edits.py" $2 > "$folder/out" || status=$?
    [ "$status" = "$1" ] || fail "edits.py $2 exits with $status, not $1: $(cat "$folder/out")"
    [ "$(tail -n 1 "$folder/out")" = "$3" ] || fail "edits.py $2 ends with: $(tail -n 1 "$folder/out")"
}
not_known='edits: 2 wrong versions in 1 edits: each text stands once, and no version of a file hides another'
error='./proofs/first/Proof.antt:3:4: error: `first_spec`: `search`: no proof of `x`'
first='fn two::first: not proved'
second='fn two::second: no proof: expected answers in ./proofs/second/Answers.antt; `search` did not prove `returns`'
good='edits: 2 wrong versions tried, 0 not refused in what they change'
bad='edits: 2 wrong versions tried, 1 not refused in what they change'
echo | expect 0 check "$not_known"
skipped='SKIPPED: that each version is refused which shares a file with others: 1 of 1 files have not been tried so (tools/edits.py each)'
[ "$(head -n 1 "$folder/out")" = "$skipped" ] ||
    fail "edits.py check says: $(cat "$folder/out")"
printf '%s\n' "$error" "$first" "$second" | expect 0 each "$good"
[ "$(cat "$folder/known")" = two: ] || fail "the copy is of: $(cat "$folder/known")"
echo | expect 0 check "$not_known; each is refused in what it changes"
printf '%s\n' "$error" "$first" 'fn two::second: proved' | expect 1 each "$bad"
echo | expect 1 check 'edits: FAILED: 1 of 2 wrong versions are not refused in what they change'
printf '%s\n' "$second" 'fn two::first: proved' | expect 1 each "$bad"
# a function that is refused only because it calls one that is, and a proof whose text no longer fits
printf '%s\n' "$error" "$first" 'fn two::second: not proved; it calls `two::first`, which is not proved' | expect 1 each "$bad"
printf '%s\n' './proofs/first/Proof.antt:3:4: error: `first_spec`: `c.f` is not in scope' "$first" "$second" | expect 1 each "$bad"
# what was found of other files counts no longer
source other::second > "$crate/src/lib.rt"
echo | expect 0 check "$not_known"
rm -r "$folder/build"
# two versions of which one hides the other: of one function, or of two of which one calls the other
wrong='edits: FAILED: 1 texts or pairs of versions are not as they must be'
source first > "$crate/src/lib.rt"
versions '(3)' '(4)' > "$crate/must-fail/both.edit"
echo | expect 1 check "$wrong"
source other::first > "$crate/src/lib.rt"
echo | expect 0 check "$not_known"
versions 'u32) -> u32 {' 'u32) -> u32 { ' > "$crate/must-fail/both.edit"
echo | expect 1 check "$wrong"
versions 'x + 2' 'x + 4' > "$crate/must-fail/both.edit"
# names of versions in documents
printf '%s\n' 'stopped by `two/one` and `…/other`, `two/src`' > "$folder/README.md"
echo | expect 0 check "$not_known"
printf '%s\n' 'stopped by `two/third`' > "$folder/README.md"
echo | expect 1 check 'edits: FAILED: documents name 1 wrong versions that are not there'
rm "$folder/README.md"
# texts that stand nowhere, or in no file
for text in 'old: x + 7' 'file: proofs/first/Proof.antt
old: x'; do
    printf '%s\nnew: x\n' "$text" | cat "$crate/must-fail/both.edit" - > "$crate/must-fail/none.edit"
    echo | expect 1 check "$wrong"
done

exec tools/edits.py check
