#!/usr/bin/env bash
# Frames in parts, build/jingcobu-parts: what it refuses, and that parts that are missing, cut, damaged or of another input are detected
# and answered again. Usage: tests/parts.sh (make check-parts)
set -u
cd "$(dirname "$0")/.." || exit 1
root=$PWD
parts=$root/build/jingcobu-parts
folder=$(mktemp -d)
trap 'rm -rf "$folder"' EXIT
fail() { echo "FAILED: $1"; exit 1; }
tried=0
unset JINGCOBU_DESK

# Runs jingcobu-parts with its output in out and its messages in err, and compares its exit status with the one that is expected.
expect() { # STATUS WHAT WORDS...
    local want=$1 what=$2 status=0
    shift 2
    "$parts" "$@" > "$folder/out" 2> "$folder/err" || status=$?
    [ $status = "$want" ] || fail "$what: exit status $status, not $want: $(head -c 300 "$folder/err")"
    tried=$((tried + 1))
}
said() { grep -qE "$1" "$folder/err" || fail "$2: standard error is '$(head -c 300 "$folder/err")'"; }
nothing() { [ ! -s "$folder/out" ] || fail "$1: there is output"; }
says() { [ "$(cat "$folder/out")" = "$1" ] || fail "$2: $(cat "$folder/out")"; }
work_all() { for part in "$1"/*.frames; do expect 0 "work $part" work "$part"; done; }

cd "$folder" || exit 1
python3 "$root/tools/draw_frames.py" 3000 > frames            # the last line has no newline
"$root/build/jingcobu-desk" frames > right
tail -n 2000 frames > frames.other
"$root/build/jingcobu-desk" frames.other > right.other

# usage
for call in "" "cut" "cut frames" "cut frames x" "cut frames x 2 3" "work" "work frames" "join" "join a b" "status" "other x"; do
    # shellcheck disable=SC2086
    expect 2 "the call '$call'" $call && nothing "the call '$call'"
    said '^Usage: jingcobu-parts cut FILE FOLDER COUNT' "the call '$call'"
done
expect 0 "--help" --help
grep -q 'status FOLDER' out || fail "--help"

# cut, status, work, join, from folders of other names and from elsewhere
expect 0 "cut" cut frames parts 7
cat parts/*.frames | cmp -s frames - || fail "the parts are not the input"
[ "$(ls parts | wc -l)" = 14 ] || fail "cut leaves something beside 7 parts and 7 sums"
expect 0 "status" status parts && says "0 of 7 parts are done" "status"
expect 1 "join before work" join parts && nothing "join before work" && said 'parts/000003.frames is not done' "join before work"
expect 0 "work" work parts/000000.frames && nothing "work"
head -c "$(wc -c < parts/000000.answers)" right | cmp -s - parts/000000.answers || fail "work answers something else"
expect 0 "work of two parts" work parts/000001.frames parts/000002.frames
expect 0 "status" status parts && says "3 of 7 parts are done" "status"
(cd / && JINGCOBU_DESK=$root/build/jingcobu-desk "$parts" work "$folder/parts/000003.frames") || fail "work from elsewhere"
(cd parts && "$parts" work 000004.frames ./000005.frames && "$parts" work ../parts/000006.frames) || fail "work in the folder"
expect 0 "status" status parts/ && says "7 of 7 parts are done" "status"
expect 0 "join" join parts && cmp right out || fail "join answers something else"
(cd parts && "$parts" join . | cmp -s - ../right) || fail "join in the folder"
mkdir "an empty folder"
expect 0 "a folder with blanks" cut frames "an empty folder" 3 && work_all "an empty folder"
expect 0 "a folder with blanks" join "an empty folder" && cmp -s right out || fail "a folder with blanks"
cp frames -- -f
expect 0 "names with a dash" cut -f -d 2 && expect 0 "names with a dash" work -d/000000.frames -d/000001.frames
expect 0 "names with a dash" join -d && cmp -s right out || fail "names with a dash"

# more parts than lines, an empty input, a single part, a last line with and without a newline
printf 'zz\nzz\n\nzz' > three
for case in "three 9" "three 1" "/dev/null 2"; do
    # shellcheck disable=SC2086
    set -- $case
    rm -rf small input
    cat "$1" > input
    expect 0 "cut $case" cut input small "$2" && work_all small && expect 0 "join $case" join small
    "$root/build/jingcobu-desk" < "$1" | cmp -s - out || fail "$case: other answers"
done

# cut refuses a folder that is not empty, and what is not a number of parts or not an input; a cut that fails leaves nothing behind
expect 1 "cut into parts of another input" cut frames.other parts 7 && said 'parts is not empty' "cut into parts of another input"
mkdir full && touch full/.hidden
expect 1 "cut into a folder with a hidden file" cut frames full 7
for count in 0 -1 x "" 1000001 01 1e3; do expect 1 "cut into '$count' parts" cut frames new "$count"; done
expect 1 "cut of nothing" cut none new 3
expect 1 "cut of a folder" cut parts new 3
expect 1 "cut into a file" cut frames three 3
[ ! -e new ] || [ -z "$(ls -A new)" ] || fail "a cut that was refused leaves files"
(ulimit -f 8 && trap '' XFSZ && "$parts" cut frames short 2 2> err) && fail "a cut that cannot be written does not fail"
[ ! -e short ] || [ -z "$(ls -A short)" ] || fail "a cut that failed leaves files"

# answers that were cut, changed, or are of another input are detected, and the part is answered again
cut_short() { head -c -20 "$1" > cut.tmp && cat cut.tmp > "$1"; }
unfinished() { head -c -1 "$1" > cut.tmp && cat cut.tmp > "$1"; }
changed() { sed -i '2s/^0100/0101/; 2s/^0200/0201/; 2s/^ff08/ff09/' "$1"; }
of_another() { cp other/000002.answers "$1"; }
removed() { rm "$1"; }
expect 0 "cut of another input" cut frames.other other 7 && work_all other
for damage in cut_short unfinished changed of_another removed; do
    $damage parts/000002.answers
    expect 1 "join with answers $damage" join parts && nothing "join with answers $damage"
    said 'parts/000002' "join with answers $damage"
    expect 0 "work after answers $damage" work parts/000002.frames
    expect 0 "join after answers $damage" join parts && cmp -s right out || fail "answers $damage: not worked again"
done
unfinished parts/000002.answers
expect 0 "status" status parts && says "6 of 7 parts are done" "status with answers unfinished"
expect 0 "work" work parts/000002.frames
cp other/000002.done parts/000002.done
expect 0 "status" status parts && says "6 of 7 parts are done" "status with the word of another input"
rm parts/000002.done
expect 1 "join without the word that a part is done" join parts && said 'parts/000002' "join without done"
expect 0 "work" work parts/000002.frames
inode() { stat -c %i "$1"; }
before=$(inode parts/000002.answers)
expect 0 "work of a part that is done" work parts/000002.frames
[ "$(inode parts/000002.answers)" = "$before" ] || fail "a part that is done is worked again"

# frames that were changed, or are of another input, are refused by work and join
cp -r parts kept
again() { rm -rf parts && cp -r kept parts; }
for name in frames sum; do
    for damage in cut_short removed; do
        $damage parts/000004.$name
        expect 1 "work with $name $damage" work parts/000004.frames && said 'parts/000004' "work with $name $damage"
        expect 1 "join with $name $damage" join parts && nothing "join with $name $damage" && said 'parts/000004' "join with $name $damage"
        again
    done
done
sed -i '5s/.$/x/' parts/000004.frames
expect 1 "work with a changed frame" work parts/000004.frames && said 'damaged, or of another input' "work with a changed frame"
expect 1 "join with a changed frame" join parts && nothing "join with a changed frame"
again
cp other/000004.frames parts
expect 1 "work with frames of another input" work parts/000004.frames && said 'another input' "work with frames of another input"
expect 1 "join with frames of another input" join parts && nothing "join with frames of another input"
again
cp other/000004.* parts
expect 1 "join with a part of another input" join parts && nothing "join with a part of another input"
said 'another input' "join with a part of another input"
expect 1 "status with a part of another input" status parts && nothing "status with a part of another input"
said 'another input' "status with a part of another input"
again
rm parts/000006.*
expect 1 "join without the last part" join parts && nothing "join without the last part"
said 'parts/000006.frames is missing' "join without the last part"
again
for ending in frames sum answers "done"; do cp parts/000005.$ending parts/000004.$ending; done
expect 1 "join with a part twice" join parts && nothing "join with a part twice"
said 'parts/000004.sum is damaged' "join with a part twice"
again
# a part that is consistent and names this input, with another line in it
sed -i '5s/.*/zz/' parts/000004.frames
sum() { sha256sum < "$1" | cut -c 1-64; }
sed -i "s/frames .*/frames $(sum parts/000004.frames)/" parts/000004.sum
rm parts/000004.answers
expect 0 "work of a forged part" work parts/000004.frames
expect 1 "join with a forged part" join parts && nothing "join with a forged part"
said 'not the input that was cut' "join with a forged part"
again
mkdir nothing
expect 1 "join of an empty folder" join nothing && expect 1 "status of an empty folder" status nothing
expect 1 "join of no folder" join nowhere && expect 1 "status of no folder" status nowhere

# a frame program that fails, says nothing for some lines, or is not there
fake() { printf '#!/bin/sh\n%s\n' "$1" > fake && chmod 755 fake; }
rm parts/000001.answers
for text in 'cat > /dev/null; head -c 13000 /dev/zero; exit 1' 'head -n 5 > /dev/null; echo 010000000002' \
    "'$root/build/jingcobu-desk' | head -c -1" "'$root/build/jingcobu-desk'; echo 010000000002" 'kill -9 $$'; do
    fake "$text"
    JINGCOBU_DESK=$folder/fake expect 1 "a frame program that does: $text" work parts/000001.frames
    [ ! -e parts/000001.answers ] || fail "a frame program that does: $text: its answers are put in place"
    [ -z "$(find parts -name '*.new.*')" ] || fail "a frame program that does: $text: something is left"
done
JINGCOBU_DESK=$folder/none expect 1 "no frame program" work parts/000001.frames && said 'there is no frame program' "no frame program"
mkdir bin && cp "$parts" bin
status=0
PATH=$PATH:$root/build bin/jingcobu-parts work parts/000001.frames || fail "the frame program on the path"
again

# A full disk, where one can be mounted: 1500 empty lines have 19500 bytes of answers.
cat > disk.sh << 'END'
set -u
mkdir -p disk && mount -t tmpfs -o size=20k none disk || exit 77
yes "" | head -n 1500 > lines
mkdir disk/parts
"$1" cut lines disk/parts 1 || exit 1
if "$1" work disk/parts/000000.frames 2> err; then echo "a part is worked on a full disk"; exit 1; fi
grep -q 'frame program failed' err || { cat err; exit 1; }
[ "$(ls disk/parts)" = "$(printf '000000.frames\n000000.sum')" ] || { ls -l disk/parts; exit 1; }
if "$1" join disk/parts > /dev/null 2>&1; then echo "a part that is not done is joined"; exit 1; fi
mount -o remount,size=1m disk || exit 77
"$1" work disk/parts/000000.frames || exit 1
"$1" join disk/parts > joined || exit 1
[ "$(sort -u joined) $(wc -l < joined)" = "ff0800000000 1500" ] || exit 1
END
mounted=0
unshare -m true 2> /dev/null && [ "$(id -u)" = 0 ] && unshare="unshare -m" || unshare="unshare -rm"
$unshare bash disk.sh "$parts" > out 2> err || mounted=$?
if grep -q 'unshare:\|mount:' err || [ $mounted = 77 ]; then
    echo "SKIPPED: a full disk: no tmpfs can be mounted"
elif [ $mounted != 0 ]; then
    fail "a full disk: $(cat out err)"
else
    tried=$((tried + 1))
fi
echo "jingcobu-parts: $tried calls, with their exit statuses, answers and words, are as expected"
