#!/usr/bin/env bash
# What the hosts must detect: each wrong version of tests/wrong.c and tests/wrong64.c, and files of pairs that are not whole.
# make -C tests wrong
set -u
cd "$(dirname "$0")"
folder=$(mktemp -d)
trap 'rm -rf "$folder"' EXIT
wrong=0
say() { echo "NOT FOUND OUT: $1"; wrong=1; }

# versions HOST PAIRS FIRST STEP: every STEP-th version from FIRST on; the host stops at the first failure
versions() {
    local version=$3 output="$folder/output.$3" status
    while true; do
        WRONG=$version ../build/${1}_wrong $2 1 > "$output"
        status=$?
        [ $status = 99 ] && break
        if [ $status = 1 ] && grep -q '^FAILED' "$output"; then echo $version >> "$folder/found"
        else echo "$1: version $version (status $status)" >> "$folder/missed"; fi
        version=$((version + $4))
    done
}

# all_versions HOST PAIRS EXPECTED
all_versions() {
    WRONG=0 ../build/${1}_wrong $2 > "$folder/output" || { echo "the library itself does not pass"; exit 1; }
    diff -u $3 "$folder/output" || exit 1
    : > "$folder/found"
    : > "$folder/missed"
    local step=$(nproc)
    for first in $(seq "$step"); do versions $1 $2 "$first" "$step" & done
    wait
    while read -r missed; do say "$missed"; done < "$folder/missed"
    echo "$1: $(cat "$folder/found" "$folder/missed" | wc -l) wrong versions tried, $(wc -l < "$folder/found") detected"
}

# try NAME: the pairs in $folder/stdin and $folder/stdout
try() { ./$host "$folder" 1 > "$folder/output"; if [ $? != 1 ] || ! grep -q '^FAILED' "$folder/output"; then say "$host: $1"; fi; }
fresh() { cp $pairs/stdin $pairs/stdout "$folder"; }
# files HOST PAIRS
files() {
    host=$1 pairs=$2
    rm -f "$folder/stdin" "$folder/stdout"; try "no files"
    fresh; : > "$folder/stdin"; : > "$folder/stdout"; try "empty files"
    fresh; head -n 100 $pairs/stdin > "$folder/stdin"; head -n 100 $pairs/stdout > "$folder/stdout"; try "only 100 pairs"
    fresh; head -n 100 $pairs/stdout > "$folder/stdout"; try "fewer numbers than pairs"
    fresh; head -n 100 $pairs/stdin > "$folder/stdin"; try "fewer pairs than numbers"
    fresh; sed '200s/ .*/ --------/' $pairs/stdout > "$folder/stdout"; try "a D left out"
    fresh; sed '300s/.$//' $pairs/stdin > "$folder/stdin"; try "a line cut short"
    fresh; sed '12s/^......../01234567/' $pairs/stdout > "$folder/stdout"; try "another resultant"
    echo "$host: 8 wrong files tried"
}

all_versions host ../crates/test_vectors expected
all_versions host64 ../crates/test_vectors64 expected64
files host ../crates/test_vectors
files host64 ../crates/test_vectors64
exit $wrong
