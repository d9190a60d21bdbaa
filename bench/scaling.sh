#!/usr/bin/env bash
# Frames per second through the frame program: alone, and by GNU parallel with one and two workers, in one run. make -C bench scaling
set -eu
cd "$(dirname "$0")/.."
desk=$PWD/crates/desk/out/desk
folder=$(mktemp -d)
trap 'rm -rf "$folder"' EXIT
# the microseconds of the best of nine passes
best_time() {
    local best=1000000000 t pass
    for pass in 1 2 3 4 5 6 7 8 9; do
        t=$(date +%s%N)
        "$@" > "$folder/out"
        t=$((($(date +%s%N) - t) / 1000))
        [ $t -lt $best ] && best=$t
    done
    echo $best
}
alone() { "$desk" < "$folder/frames"; }
workers() { parallel --will-cite --pipe-part -a "$folder/frames" --block -1 --jobs "$1" --keep-order "$desk"; }
echo "$(nproc) cores, load $(cut -d' ' -f1 /proc/loadavg) before the run; the best of nine passes"
for job in "200000 8" "40000 48"; do
    set -- $job
    python3 tools/draw_frames.py "$1" "$2" > "$folder/drawn"
    for copy in 1 2 3 4 5; do cat "$folder/drawn"; done > "$folder/frames"
    set -- $((5 * $1)) "$2"
    for way in alone "workers 1" "workers 2"; do
        t=$(best_time $way)
        [ "$way" = alone ] && cp "$folder/out" "$folder/right"
        cmp "$folder/out" "$folder/right" || exit 1
        echo "$1 frames of degree $2, $way: $((t / 1000)) ms, $(($1 * 1000000 / t)) frames a second"
    done
done
