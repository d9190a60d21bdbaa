#!/usr/bin/env bash
# tools/twins.py on the sources, and on a copy of them in which one proof of 64 bits differs, which it must find.
# Usage: tests/twins.sh (make check-twins)
set -u
cd "$(dirname "$0")/.." || exit 1
folder=$(mktemp -d)
trap 'rm -rf "$folder"' EXIT
fail() { echo "FAILED: $1"; exit 1; }

python3 tools/twins.py --shared || exit 1
mkdir "$folder/tools" && cp tools/twins.py "$folder/tools" || exit 1
tar -cf - crates/*/proofs | tar -xf - -C "$folder" || exit 1
python3 "$folder/tools/twins.py" --shared > /dev/null || fail "the copy is not like the sources"
# one answer of a pair whose proofs are the same, which an allowance of 0 says
for pair in $(python3 tools/twins.py --same); do
    changed=$(grep -l search "$folder/crates/${pair}64"/proofs/*/*.antt 2> /dev/null | head -n 1)
    [ -n "$changed" ] && break
done
[ -n "$changed" ] || fail "no pair has a proof that may not differ"
sed -i '0,/search/s//find/' "$changed"
if python3 "$folder/tools/twins.py" --shared > "$folder/out"; then fail "a proof that differs is not found"; fi
grep -q "FAILED: the proofs of $pair and ${pair}64 differ" "$folder/out" || fail "$(cat "$folder/out")"
echo "twins: a proof that differs is found"
