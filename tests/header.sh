#!/usr/bin/env bash
# The header under C99, C11 and, if g++ is installed, C++, in a program of two files without a warning; its version is that of the Makefile
# and of the Python package. Usage: tests/header.sh VERSION (make check-header)
set -eu
cd "$(dirname "$0")/.."
version=$1
folder=$(mktemp -d)
trap 'rm -rf "$folder"' EXIT
fail() { echo "FAILED: $1"; exit 1; }
tried() { # COMPILER OPTIONS...
    "$@" -c -DHEADER_ELSEWHERE -o "$folder/elsewhere.o" tests/header.c
    "$@" -c -o "$folder/header.o" tests/header.c
    "$1" -o "$folder/header" "$folder/header.o" "$folder/elsewhere.o" build/libjingcobu.a
    local said
    said=$("$folder/header") || fail "$*: $said"
    [ "$said" = "$version" ] || fail "$*: the header's version is $said, and the Makefile's is $version"
}
languages="C99, C11"
warnings="-O2 -Wall -Wextra -Wpedantic -Werror -Iinclude"
# shellcheck disable=SC2086
{
    tried gcc -std=c99 $warnings
    tried gcc -std=c11 $warnings
    if command -v g++ > /dev/null; then
        tried g++ -x c++ $warnings
        languages="$languages, C++"
    else
        echo "SKIPPED: g++ is not installed, for the header under C++"
    fi
}
grep -qx "version = \"$version\"" python/pyproject.toml || fail "the version of python/pyproject.toml is not $version"
nm build/libjingcobu.a | grep -E ' T jingcobu_(version|status_text)$' && fail "the library has names of the header alone"
echo "header: version $version, a text for each status, const buffers that overlap; $languages"
