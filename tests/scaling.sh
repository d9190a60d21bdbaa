#!/usr/bin/env bash
# Many jobs (docs/SCALING.md): 200,000 frames whole, cut by GNU parallel on the way, and cut into parts, one worker of which is killed;
# the answers must be the same, line for line. Nothing here depends on the clock: the worker that is killed kills itself, at a fixed line.
# Usage: tests/scaling.sh (make check-scaling)
set -eu
cd "$(dirname "$0")/.."
export DESK=$PWD/build/jingcobu-desk PARTS=$PWD/build/jingcobu-parts
unset JINGCOBU_DESK
folder=$(mktemp -d)
trap 'rm -rf "$folder"' EXIT
fail() { echo "FAILED: $1"; exit 1; }

python3 tools/draw_frames.py 200000 > "$folder/frames"
"$DESK" < "$folder/frames" > "$folder/whole"
[ "$(wc -l < "$folder/whole")" = 200000 ] || fail "200000 frames do not have 200000 answers"

# cut on the way; the order is kept
parallel --will-cite --pipe --keep-order --block 1M "$DESK" < "$folder/frames" > "$folder/piped"
cmp "$folder/whole" "$folder/piped" || fail "parallel --pipe answers something else"
parallel --will-cite --pipe-part -a "$folder/frames" --block -1 --keep-order "$DESK" > "$folder/piped"
cmp "$folder/whole" "$folder/piped" || fail "parallel --pipe-part answers something else"

# a worker that dies on the way makes parallel fail: the loss is not silent
export KILLED="$folder/killed"
dying() { if mkdir "$KILLED" 2> /dev/null; then head -n 100 | "$DESK"; kill -9 $BASHPID; else "$DESK"; fi; }
export -f dying
export PARALLEL_SHELL=$BASH
if parallel --will-cite --pipe --keep-order --block 1M --halt now,fail=1 dying < "$folder/frames" > "$folder/piped" 2> /dev/null; then
    fail "parallel --pipe does not tell that a worker died"
fi
[ -d "$KILLED" ] || fail "no worker died"
rm -r "$KILLED"

# cut into parts beforehand, with a log of what is done: the frame program of one part kills the worker when it has answered 2000 lines, so
# that the worker leaves a cut file and no more; the next run brings the part back
"$PARTS" cut "$folder/frames" "$folder/parts" 40
cat "$folder"/parts/*.frames | cmp "$folder/frames" - || fail "the parts are not the input"
export VICTIM="$folder/parts/000017.frames" KILLING="$folder/killing"
printf '#!/bin/sh\nhead -n 2000 | "$DESK"\nkill -9 $PPID\n' > "$KILLING"
chmod +x "$KILLING"
killed_once() {
    if [ "$1" = "$VICTIM" ] && mkdir "$KILLED" 2> /dev/null; then export JINGCOBU_DESK=$KILLING; fi
    "$PARTS" work "$1"
}
export -f killed_once
if parallel --will-cite --jobs 1 --joblog "$folder/log" --halt soon,fail=1 killed_once ::: "$folder"/parts/*.frames 2> /dev/null; then
    fail "parallel does not tell that a worker was killed"
fi
[ -d "$KILLED" ] || fail "no worker was killed"
[ "$(find "$folder/parts" -name '000017.new.*' -size +25k | wc -l)" = 1 ] || fail "the worker was not killed in the middle of its part"
[ ! -e "$folder/parts/000017.answers" ] || fail "the answers of the part that was killed are in place"
[ "$("$PARTS" status "$folder/parts")" = "17 of 40 parts are done" ] || fail "status: $("$PARTS" status "$folder/parts")"
if "$PARTS" join "$folder/parts" > /dev/null 2> "$folder/said"; then fail "a part that is not done is not detected"; fi
[ "$(grep -c 'is not done' "$folder/said")" = 23 ] || fail "join does not name the 23 parts that are not done"
parallel --will-cite --bar --joblog "$folder/log" --resume-failed killed_once ::: "$folder"/parts/*.frames 2> /dev/null
[ "$("$PARTS" status "$folder/parts")" = "40 of 40 parts are done" ] || fail "status: $("$PARTS" status "$folder/parts")"
"$PARTS" join "$folder/parts" > "$folder/joined"
cmp "$folder/whole" "$folder/joined" || fail "the parts answer something else"
echo "200000 frames: whole, by parallel --pipe, and in 40 parts, one of them killed and 17 done before the resume: the same answers"
