#!/usr/bin/env bash
# The frame program as users call it, build/jingcobu-desk: what passes through it, its options, files and exit statuses, and input and
# output that fail. The proved program inside is tried by itself by tests/desk.py. Usage: tests/desk.sh VERSION (make check-desk)
set -u
cd "$(dirname "$0")/.." || exit 1
root=$PWD
desk=$root/build/jingcobu-desk
version=$1
folder=$(mktemp -d)
trap 'rm -rf "$folder"' EXIT
fail() { echo "FAILED: $1"; exit 1; }
tried=0

# Runs a command with its output in out and its messages in err, and compares its exit status with the one that is expected.
expect() { # STATUS WHAT COMMAND...
    local want=$1 what=$2 status=0
    shift 2
    "$@" > "$folder/out" 2> "$folder/err" || status=$?
    [ $status = "$want" ] || fail "$what: exit status $status, not $want: $(head -c 300 "$folder/err")"
    tried=$((tried + 1))
}
said() { grep -qE "$1" "$folder/err" || fail "$2: standard error is '$(head -c 300 "$folder/err")'"; }
silent() { [ ! -s "$folder/err" ] || fail "$1: standard error is '$(head -c 300 "$folder/err")'"; }
nothing() { [ ! -s "$folder/out" ] || fail "$1: there is output"; }
answers() { cmp -s "$1" "$folder/out" || fail "$2: other answers"; }

frames=$root/crates/desk/stdin
right=$root/crates/desk/stdout
printf '010000000c010100000003000000020000000100000004\n' > "$folder/one"
printf 'zz' > "$folder/two"
printf '010000000002\n' > "$folder/answer one"
printf '010000000002\nff0800000000\n' > "$folder/answer both"
printf 'ff0800000000\n010000000002\nff0800000000\n' > "$folder/answer three"

# standard input and files, under each shell that is there; in some it could wait for itself where input is closed, so there is a limit
# where no gate is run
limit='timeout 300'
[ -z "${CI:-}" ] || limit=
for shell in sh dash bash 'busybox sh'; do
    command -v ${shell%% *} > /dev/null || continue
    $shell -c : 2> /dev/null || continue
    run() { $limit $shell "$desk" "$@"; }
    expect 0 "$shell: standard input" run < "$frames" && silent "$shell" && answers "$right" "$shell: standard input"
    expect 0 "$shell: -" run - < "$frames" && answers "$right" "$shell: -"
    expect 0 "$shell: empty input" run < /dev/null && silent "$shell" && nothing "$shell: empty input"
    expect 0 "$shell: two files" run "$folder/one" "$folder/two" < /dev/null && silent "$shell" && answers "$folder/answer both" "two files"
    expect 0 "$shell: a file, input, a file" run "$folder/two" - "$folder/two" < "$folder/one"
    answers "$folder/answer three" "$shell: a file, input, a file"
    expect 1 "$shell: closed input" run <&- && said 'desk: standard input' "closed input" && nothing "$shell: closed input"
    expect 1 "$shell: closed output" bash -c "exec $shell \"\$0\" >&-" "$desk" < "$folder/one"
    said 'desk: standard output' "closed output"
    expect 1 "$shell: both closed" bash -c "exec $shell \"\$0\" >&- <&-" "$desk" && said 'desk: standard input' "both closed"
    expect 1 "$shell: all closed" bash -c "exec $shell \"\$0\" >&- <&- 2>&-" "$desk"
    expect 1 "$shell: closed output and error" bash -c "exec $shell \"\$0\" >&- 2>&-" "$desk" < "$folder/one"
    expect 1 "$shell: a directory" run < / && said 'desk: standard input' "a directory" && nothing "$shell: a directory"
    expect 1 "$shell: /dev/full" bash -c "$shell \"\$0\" > /dev/full" "$desk" < "$frames" && said 'desk: standard output' "/dev/full"
    expect 1 "$shell: /dev/full, one answer" bash -c "$shell \"\$0\" > /dev/full" "$desk" < "$folder/one"
    said 'desk: standard output' "/dev/full, one answer"
done

# options and names of files
expect 0 "--help" "$desk" --help && silent "--help"
grep -q 'Usage: jingcobu-desk \[FILE\]' "$folder/out" || fail "--help does not say the usage"
expect 0 "--version" "$desk" --version
[ "$(cat "$folder/out")" = "jingcobu-desk $version" ] || fail "--version says $(cat "$folder/out")"
for option in -x --answer -help; do
    expect 2 "$option" "$desk" "$option" < "$frames" && nothing "$option" && said "^jingcobu-desk: unknown option $option" "$option"
done
expect 2 "an unknown option after a file" "$desk" "$folder/one" --no && nothing "an unknown option after a file"
cd "$folder" || exit 1
cp one -- --help
expect 0 "a file with the name of an option" "$desk" -- --help && answers "answer one" "a file with the name of an option"
cp one "a  b'\"\$c"
expect 0 "a file with blanks and quotes" "$desk" "a  b'\"\$c" && answers "answer one" "a file with blanks and quotes"
expect 1 "no such file" "$desk" one none two && answers "answer one" "no such file" && said '^jingcobu-desk: none: ' "no such file"
expect 1 "a directory as a file" "$desk" "$folder" && nothing "a directory as a file"
said "^jingcobu-desk: $folder: is a directory" "a directory as a file"
mkdir bin && cp "$desk" "$desk.proved" bin && chmod 755 "$folder" bin bin/* && chmod 644 one && chmod 0 two
other=
[ "$(id -u)" != 0 ] || other='setpriv --reuid 65534 --regid 65534 --clear-groups'
if $other true 2> /dev/null; then
    expect 1 "a file that cannot be read" $other bin/jingcobu-desk one two && answers "answer one" "a file that cannot be read"
    said '^jingcobu-desk: two: cannot be read' "a file that cannot be read"
else
    echo "SKIPPED: a file that cannot be read: setpriv is not installed, or root cannot become another user"
fi
mkdir alone && cp "$desk" alone
expect 1 "without the proved program" alone/jingcobu-desk < one && nothing "alone" && said '^jingcobu-desk: the proved program' "alone"

# The wrapper alone, around programs that are not the proved one: bytes pass untouched both ways, words make the status 1, and the status of
# a program that was killed is passed on.
fake() { # TEXT
    mkdir -p fake && cp "$desk" fake
    printf '#!/bin/sh\n%s\n' "$1" > fake/jingcobu-desk.proved
    chmod 755 fake/jingcobu-desk.proved
}
python3 -c 'import sys; sys.stdout.buffer.write(bytes(range(256)) * 1000 + b"\n\n\0")' > bytes
fake 'exec cat'
expect 0 "bytes" fake/jingcobu-desk < bytes && silent "bytes" && answers bytes "bytes"
fake 'cat; echo "a warning, and 50% more" >&2'
expect 1 "words" fake/jingcobu-desk < bytes && answers bytes "words"
[ "$(cat err)" = "a warning, and 50% more" ] || fail "words: $(cat err)"
expect 1 "words at the first of two files" fake/jingcobu-desk bytes bytes && answers bytes "words at the first of two files"
fake 'cat; kill -9 $$'
expect 137 "killed" fake/jingcobu-desk < bytes && answers bytes "killed"
fake 'exec cat /proc/self/fd/3'
expect 1 "no more than three descriptors" fake/jingcobu-desk < bytes && nothing "no more than three descriptors"

# A reader that has gone away: with the signal, and where the caller ignores it. A limit of the file's size: the same.
gone='import os, subprocess, sys
r, w = os.pipe()
os.close(r)
sys.exit(subprocess.run(sys.argv[2:], stdout=w, restore_signals=sys.argv[1] == "signal").returncode)'
expect 141 "a reader that has gone away" python3 -c "$gone" signal "$desk" "$frames"
expect 1 "a reader that has gone away, signal ignored" python3 -c "$gone" ignored "$desk" "$frames" && said 'desk: standard output' "gone"
"$desk" "$frames" "$frames" "$frames" > three
limited() { (ulimit -f 4; exec "$desk" "$frames" "$frames" "$frames" > short); }
expect 153 "a limit of the file's size" limited
prefix() {
    [ "$(wc -c < short)" -lt "$(wc -c < three)" ] && head -c "$(wc -c < short)" three | cmp -s - short || fail "$1: not the first answers"
}
prefix "a limit of the file's size"
ignored() { (trap '' XFSZ; ulimit -f 4; exec "$desk" "$frames" "$frames" "$frames" > short); }
expect 1 "a limit of the file's size, signal ignored" ignored && said 'desk: standard output' "a limit" && prefix "a limit, signal ignored"

# A reader and a writer of single bytes, with more output than a pipe holds, and a line of 1 GB between two frames.
head -n 200 "$frames" > few
"$desk" few > few.right
expect 0 "one byte at a time" bash -o pipefail -c 'dd bs=1 status=none < few | "$0"' "$desk" && silent "one byte at a time"
answers few.right "one byte at a time"
yes "$(cat one)" | head -n 6000 > many
expect 0 "a reader of one byte at a time" bash -o pipefail -c '"$0" many | dd bs=1 status=none' "$desk"
yes "$(cat "answer one")" | head -n 6000 | cmp -s - out || fail "a reader of one byte at a time: other answers"
long() { (cat one; head -c 1073741824 /dev/zero | tr '\0' 0; echo; cat one) | "$desk"; }
expect 0 "a line of 1 GB" long && silent "a line of 1 GB"
printf '010000000002\nff0800000000\n010000000002\n' | cmp -s - out || fail "a line of 1 GB: other answers"

# A terminal: each line is answered before the next is sent, and the end is a ^D.
cat > terminal.py << 'END'
import os, pty, subprocess, sys, termios
ours, theirs = pty.openpty()
mode = termios.tcgetattr(theirs)
mode[1] &= ~termios.OPOST
mode[3] &= ~termios.ECHO
termios.tcsetattr(theirs, termios.TCSANOW, mode)
run = subprocess.Popen(sys.argv[1:], stdin=theirs, stdout=theirs)
for line, answer in ((open("one", "rb").read(), b"010000000002\n"), (b"zz\n", b"ff0800000000\n"), (b"\n", b"ff0800000000\n")) * 3:
    os.write(ours, line)
    got = b""
    while len(got) < 13:
        got += os.read(ours, 13 - len(got))
    assert got == answer, got
os.write(ours, b"\x04")
sys.exit(run.wait())
END
expect 0 "a terminal" python3 terminal.py "$desk" && silent "a terminal"

echo "jingcobu-desk: $tried calls, with their exit statuses, answers and words, are as expected"
