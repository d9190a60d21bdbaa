#!/usr/bin/env bash
# What make install puts in place, tried in a scratch prefix whose name has a blank, with a umask of 077: what is there and who can read it,
# the names that the shared library exports, C programs that are built with pkg-config alone and with CMake's find_package, the tree moved
# elsewhere, DESTDIR, the frame program and its parts, Python, GP, the manual pages, and that nothing is left.
# Usage: tests/install.sh VERSION (make check-install)
set -eu
cd "$(dirname "$0")/.."
version=$1
umask 022
scratch=$(mktemp -d)
trap 'rm -rf "$scratch"' EXIT
fail() { echo "FAILED: $1"; exit 1; }
lacks() { tests/missing | grep -qx "$1"; }
folder="$scratch/a prefix & more"

# A foreign file in a folder that make install makes, and an empty folder that was there before.
mkdir -p "$folder/share/jingcobu" "$folder/share/man/man1"
echo foreign > "$folder/share/jingcobu/foreign"
(umask 077 && make -s install PREFIX="$folder" > "$scratch/said") || fail "make install"
for file in include/jingcobu.h lib/libjingcobu.a lib/libjingcobu.so lib/pkgconfig/jingcobu.pc bin/jingcobu-desk libexec/jingcobu/desk \
    lib/cmake/jingcobu/jingcobu-config.cmake lib/cmake/jingcobu/jingcobu-config-version.cmake share/man/man3/jingcobu_resultant.3 \
    bin/jingcobu-parts share/man/man1/jingcobu-desk.1 share/man/man1/jingcobu-parts.1 share/man/man3/jingcobu.3 \
    share/jingcobu/python/jingcobu/__init__.py share/jingcobu/python/pyproject.toml share/jingcobu/python/setup.py \
    share/jingcobu/python/LICENSE share/jingcobu/frames.sbatch; do
    [ -s "$folder/$file" ] || fail "$file is not installed"
done
for file in bin/jingcobu-desk libexec/jingcobu/desk bin/jingcobu-parts; do [ -x "$folder/$file" ] || fail "$file cannot be run"; done
closed=$(find "$folder" -mindepth 1 \( -type f -not -perm -444 -o -type d -not -perm -555 -o -not -type l -perm /022 \) -print)
[ -z "$closed" ] || fail "not everyone can read, or others can write: $closed"
grep -q "PYTHONPATH='$folder/share/jingcobu/python'" "$scratch/said" || fail "make install does not say how Python finds the package"
(umask 077 && make -s install PREFIX="$folder" > /dev/null) || fail "make install for the second time"
cmp include/jingcobu.h "$folder/include/jingcobu.h"

# The names that can be seen are those of the header.
grep -oE '^[a-z0-9_]+ jingcobu(64)?_[a-z_]+\(' include/jingcobu.h | grep -oE '[a-z0-9_]+\(' | tr -d '(' | sort > "$scratch/header"
nm -D --defined-only "$folder/lib/libjingcobu.so" | awk '{ print $3 }' | sort > "$scratch/shown"
missing=$(comm -23 "$scratch/header" "$scratch/shown" | tr '\n' ' ')
more=$(comm -13 "$scratch/header" "$scratch/shown" | tr '\n' ' ')
[ -z "$more" ] || fail "the shared library shows more than the header: $more"
if [ -n "$missing" ]; then
    [ "${JINGCOBU_ALL:-1}" = 0 ] || fail "the shared library lacks: $missing"
    echo "SKIPPED: the library lacks: $missing"
fi
readelf -d "$folder/lib/libjingcobu.so" | grep -q "soname: \[libjingcobu.so.${version%%.*}\]" || fail "the soname"
readelf -d "$folder/lib/libjingcobu.so" | grep -q TEXTREL && fail "the shared library has text relocations"
[ "$(readlink -f "$folder/lib/libjingcobu.so.${version%%.*}")" = "$folder/lib/libjingcobu.so.$version" ] || fail "the links"

# A C program, built by what pkg-config says alone, shared and static; then the same with the tree moved elsewhere.
cat > "$scratch/small.c" << 'END'
#include <stdio.h>
#include <jingcobu.h>
int main(void)
{
    static uint32_t work[JINGCOBU_WORK];
    const uint32_t f[] = { 3, 2 }, g[] = { 1, 4 };
    jingcobu_answer r = jingcobu_resultant(12, f, 2, g, 2, work, JINGCOBU_WORK);
    printf("%u %u\n", r.value, r.status);
    return 0;
}
END
# pkg-config sets a backslash before a blank: the shell has to read its words
built() { # PROGRAM SOURCE OPTIONS...: with the library in the folder of PKG_CONFIG_PATH
    local program=$1 source=$2
    shift 2
    eval "gcc -Wall -Wextra $1 -o \"\$program\" \"\$source\" $(pkg-config $2 --cflags --libs jingcobu)"
}
if lacks pkg-config; then
    echo "SKIPPED: pkg-config is not installed, for the programs that it builds"
else
    export PKG_CONFIG_PATH="$folder/lib/pkgconfig"
    [ "$(pkg-config --modversion jingcobu)" = "$version" ] || fail "the version that pkg-config says"
    [ "$(pkg-config --variable=prefix jingcobu)" = "$folder" ] || fail "the prefix that pkg-config says"
    built "$scratch/shared" "$scratch/small.c" "" ""
    [ "$(LD_LIBRARY_PATH="$folder/lib" "$scratch/shared")" = "2 0" ] || fail "the program with the shared library"
    readelf -d "$scratch/shared" | grep -q "libjingcobu.so.${version%%.*}" || fail "the program does not use the shared library"
    built "$scratch/static" "$scratch/small.c" -static --static
    [ "$("$scratch/static")" = "2 0" ] || fail "the program with the static library"
    mv "$folder" "$scratch/moved"
    export PKG_CONFIG_PATH="$scratch/moved/lib/pkgconfig"
    [ "$(pkg-config --define-prefix --variable=libdir jingcobu)" = "$scratch/moved/lib" ] || fail "pkg-config --define-prefix"
    built "$scratch/relocated" "$scratch/small.c" "" --define-prefix
    [ "$(LD_LIBRARY_PATH="$scratch/moved/lib" "$scratch/relocated")" = "2 0" ] || fail "the program with the tree moved elsewhere"
    mv "$scratch/moved" "$folder"
    export PKG_CONFIG_PATH="$folder/lib/pkgconfig"
fi

# The same by CMake's find_package, shared and static, then with the tree moved elsewhere; versions that are served and that are not.
found() { # PREFIX VERSION [LANGUAGE LINES]: a project in a new folder
    rm -rf "$scratch/cmake"
    mkdir "$scratch/cmake"
    cp "$scratch/small.c" "$scratch/cmake"
    cat > "$scratch/cmake/CMakeLists.txt" << END
cmake_minimum_required(VERSION 3.13)
project(small ${3:-NONE})
find_package(jingcobu $2 CONFIG REQUIRED)
find_package(jingcobu $2 CONFIG REQUIRED)
file(WRITE version "\${jingcobu_VERSION}")
${4-}
END
    (cd "$scratch/cmake" && cmake -DCMAKE_PREFIX_PATH="$1" . && cmake --build .) > "$scratch/cmake.log" 2>&1
}
programs='add_executable(shared small.c)
target_link_libraries(shared jingcobu::jingcobu)
add_executable(static small.c)
target_link_libraries(static jingcobu::static)'
cmake_works() { # PREFIX
    found "$1" "${version%%.*}" C "$programs" || { cat "$scratch/cmake.log"; fail "find_package(jingcobu) with the tree in $1"; }
    [ "$("$scratch/cmake/shared") $("$scratch/cmake/static")" = "2 0 2 0" ] || fail "the programs of CMake, with the tree in $1"
    readelf -d "$scratch/cmake/shared" | grep -q "NEEDED.*\[libjingcobu.so.${version%%.*}\]" || fail "CMake: not the shared library"
    readelf -d "$scratch/cmake/static" | grep -q "libjingcobu" && fail "CMake: jingcobu::static uses the shared library"
    [ "$(cat "$scratch/cmake/version")" = "$version" ] || fail "the version that CMake says"
}
if lacks cmake; then
    echo "SKIPPED: cmake is not installed, for the programs that it builds"
else
    cmake_works "$folder"
    mv "$folder" "$scratch/moved"
    cmake_works "$scratch/moved"
    for ask in "" "$version EXACT" "${version%.*}" "${version%%.*}...<$((${version%%.*} + 1))"; do
        found "$scratch/moved" "$ask" || fail "find_package(jingcobu $ask) finds nothing"
    done
    for ask in "$((${version%%.*} + 1))" "${version%%.*}.99" "$((${version%%.*} - 1)).9" "0.1...0.9" "0.1...<$version"; do
        if found "$scratch/moved" "$ask"; then fail "find_package(jingcobu $ask) takes $version"; fi
    done
    mv "$scratch/moved/include" "$scratch/include"
    if found "$scratch/moved" ""; then fail "find_package(jingcobu) finds a tree without a header"; fi
    grep -q "jingcobu.h is not there" "$scratch/cmake.log" || fail "find_package(jingcobu) does not say what is not there"
    mv "$scratch/include" "$scratch/moved"
    mv "$scratch/moved" "$folder"
fi

# The Python package finds the library of its own installation; a copy beside no library and outside the sources finds it by the loader.
python_says() { # FOLDER
    (unset JINGCOBU_LIBRARY && cd / && PYTHONDONTWRITEBYTECODE=1 PYTHONPATH="$1" python3 -m jingcobu resultant 12 "2*x+3" "4*x+1")
}
[ "$(python_says "$folder/share/jingcobu/python")" = 2 ] || fail "the Python package as it is installed"
mkdir "$scratch/elsewhere"
cp -r python/jingcobu "$scratch/elsewhere"
[ "$(LD_LIBRARY_PATH="$folder/lib" python_says "$scratch/elsewhere")" = 2 ] || fail "the Python package with the installed library"

# The GP functions
if lacks libpari-dev || lacks pari-gp; then
    echo "SKIPPED: pari-gp or libpari-dev is not installed, for the GP functions as they are installed"
else
    # from another folder, by the line that make install says
    read=$(sed -n 's/^GP: //p' "$scratch/said")
    [ "$read" = "read(\"$folder/share/jingcobu/jingcobu.gp\")" ] || fail "make install does not say how GP finds the functions: $read"
    said=$(printf '%s;\njingcobu_resultant(2^62, 2*x + 3, 4*x + 1)\n' "$read" | (cd / && env -u JINGCOBU_GP gp -q -f 2>&1))
    [ "$said" = "Mod(4611686018427387894, 4611686018427387904)" ] || fail "the GP functions as they are installed: $said"
fi

# The manual pages: no warnings, every service and every refusal, and the examples.
if lacks man-db; then
    echo "SKIPPED: man-db is not installed, for the warnings of the manual pages"
else
    for page in man1/jingcobu-desk.1 man1/jingcobu-parts.1 man3/jingcobu.3; do
        warnings=$(MANWIDTH=100 man --warnings -l "$folder/share/man/$page" 2>&1 > "$scratch/page" || echo failed)
        [ -z "$warnings" ] || fail "$page: $warnings"
    done
    # man finds the page by the name of each function
    for name in $(cat "$scratch/header") jingcobu_version jingcobu_status_text; do
        place=$(man -M "$folder/share/man" -w "$name") || fail "man $name finds no page"
        [ "$(readlink -f "$place")" = "$folder/share/man/man3/jingcobu.3" ] || fail "man $name finds $place"
    done
    man -M "$folder/share/man" jingcobu_resultant | grep -q "Sylvester" || fail "man jingcobu_resultant shows another page"
fi
for page in man/*; do grep -A1 '^\.SH LICENSE' "$page" | grep -q "^MIT; the Jingcobu authors" || fail "$page says no license"; done
grep -q '^# .*License: MIT' "$folder/lib/pkgconfig/jingcobu.pc" || fail "jingcobu.pc says no license"
for name in jingcobu_version jingcobu_status_text $(cat "$scratch/header"); do grep -q "$name" man/jingcobu.3 || fail "jingcobu.3 does not name $name"; done
for name in $(grep -oE '^    JINGCOBU_[A-Z_]+ = ' include/jingcobu.h | tr -d ' ='); do
    grep -q "$name" man/jingcobu.3 || fail "jingcobu.3 does not name $name"
done
# the blocks of a page, one file each: .EX to .EE
blocks() {
    awk -v to="$2" '/^\.EE/ { inside = 0; close(to n) } inside { gsub(/\\-/, "-"); gsub(/\\e/, "\\"); print > (to n) }
        /^\.EX/ { inside = 1; n++ }' "$1"
}
blocks man/jingcobu-desk.1 "$scratch/desk."
(cd "$scratch" && PATH="$folder/bin:$PATH" bash desk.2 > desk.out) || fail "the example of jingcobu-desk.1"
diff -u "$scratch/desk.3" "$scratch/desk.out" || fail "the example of jingcobu-desk.1 answers something else"
cp examples/frames "$scratch/frames"
blocks man/jingcobu-parts.1 "$scratch/parts."
if lacks parallel; then
    echo "SKIPPED: parallel is not installed, for the example of jingcobu-parts.1"
else
    (cd "$scratch" && PATH="$folder/bin:$PATH" bash -e parts.1 > parts.out 2> /dev/null) || fail "the example of jingcobu-parts.1"
    "$folder/bin/jingcobu-desk" "$scratch/frames" | diff - "$scratch/answers" ||
        fail "the example of jingcobu-parts.1 answers something else"
fi
blocks man/jingcobu.3 "$scratch/lib."
mv "$scratch/lib.2" "$scratch/example.c"
if ! lacks pkg-config; then
    built "$scratch/example" "$scratch/example.c" "" ""
    LD_LIBRARY_PATH="$folder/lib" "$scratch/example" > "$scratch/lib.out" || fail "the example of jingcobu.3"
    diff -u "$scratch/lib.3" "$scratch/lib.out" || fail "the example of jingcobu.3 prints something else"
fi

# The frame program, by its name, by a link, and in parts.
printf '010000000002\n020000000001\nff0800000000\nff0800000000\n' > "$scratch/right"
"$folder/bin/jingcobu-desk" < examples/frames | cmp - "$scratch/right" || fail "jingcobu-desk"
ln -s "$folder/bin/jingcobu-desk" "$scratch/link"
"$scratch/link" examples/frames | cmp - "$scratch/right" || fail "jingcobu-desk by a link"
[ "$("$folder/bin/jingcobu-desk" --version)" = "jingcobu-desk $version" ] || fail "jingcobu-desk --version"
"$folder/bin/jingcobu-parts" cut examples/frames "$scratch/cut" 2
(cd / && SLURM_ARRAY_TASK_ID=0 PATH="$folder/bin:$PATH" bash "$folder/share/jingcobu/frames.sbatch" "$scratch/cut") || fail "frames.sbatch"
(cd "$scratch/cut" && "$folder/bin/jingcobu-parts" work 000001.frames) || fail "jingcobu-parts"
"$folder/bin/jingcobu-parts" join "$scratch/cut" | cmp - "$scratch/right" || fail "jingcobu-parts"

# Nothing is left but what was there before: the foreign file, and the folders above it; nor is another version's link removed.
PYTHONPATH="$folder/share/jingcobu/python" python3 -c 'import jingcobu'
make -s uninstall PREFIX="$folder"
left=$(cd "$folder" && find . -mindepth 1 | sort | tr '\n' ' ')
[ "$left" = "./share ./share/jingcobu ./share/jingcobu/foreign ./share/man ./share/man/man1 " ] ||
    fail "uninstall leaves, or removes too much: $left"
rm -rf "$folder"
make -s install PREFIX="$folder" > /dev/null
ln -sfn libjingcobu.so."${version%%.*}".99.0 "$folder/lib/libjingcobu.so.${version%%.*}"
make -s uninstall PREFIX="$folder"
left=$(cd "$folder" && find . -mindepth 1 -not -type d)
[ "$left" = "./lib/libjingcobu.so.${version%%.*}" ] || fail "uninstall removes the link of another version, or leaves: $left"

# DESTDIR: everything is under it, nothing that is put in place names it, and nothing is left.
make -s install DESTDIR="$scratch/dest dir" PREFIX=/opt/jingcobu > "$scratch/said"
[ "$(ls "$scratch/dest dir") $(ls "$scratch/dest dir/opt")" = "opt jingcobu" ] || fail "DESTDIR"
if grep -rlF "$scratch" "$scratch/dest dir" "$scratch/said"; then fail "what is put in place names DESTDIR"; fi
grep -q "^installed='/opt/jingcobu/libexec/jingcobu/desk'" "$scratch/dest dir/opt/jingcobu/bin/jingcobu-desk" ||
    fail "the path of the proved program"
make -s uninstall DESTDIR="$scratch/dest dir" PREFIX=/opt/jingcobu
[ -z "$(ls -A "$scratch/dest dir")" ] || fail "uninstall leaves something under DESTDIR"
# If root installs into a folder that the loader knows, the loader's list is renewed, and after the removal again; not with DESTDIR.
mkdir "$scratch/fake"
cat > "$scratch/fake/ldconfig" << 'END'
#!/bin/sh
if [ $# = 0 ]; then echo renewed >> "$0.log"; else printf '%s: (from a file)\n' /lib "$KNOWN" /usr/local/lib; fi
END
chmod 755 "$scratch/fake/ldconfig"
renewals() { # DESTDIR KNOWN: how often the list is renewed, by install and uninstall
    : > "$scratch/fake/ldconfig.log"
    for action in install uninstall; do
        PATH="$scratch/fake:$PATH" KNOWN=$2 make -s $action DESTDIR="$1" PREFIX="$folder" > "$scratch/said.$action"
    done
    wc -l < "$scratch/fake/ldconfig.log"
}
if [ "$(id -u)" = 0 ]; then
    [ "$(renewals "" "$folder/lib")" = 2 ] || fail "the loader's list is not renewed"
    grep -q "the loader knows the shared library" "$scratch/said.install" || fail "make install does not say that the loader's list is new"
    [ "$(renewals "" "$folder/lib64")" = 0 ] || fail "the loader's list is renewed for a folder that it does not know"
    grep -q "ldconfig, as root" "$scratch/said.install" || fail "make install does not say how the loader gets to know the library"
    [ "$(renewals "$scratch/dest" "$folder/lib")" = 0 ] || fail "the loader's list is renewed with DESTDIR"
fi
if make -s install PREFIX=relative > /dev/null 2>&1 || [ -e relative ]; then fail "a PREFIX that is not an absolute path is not refused"; fi
echo "installation: header, libraries, pkg-config, CMake, jingcobu-desk, jingcobu-parts, Python, GP and manual pages are in place and work"
