#!/bin/sh
# Runs the built program with real streams, and asks for each status, its note and what was written: a
# broken pipe, a full disk, a stream that can't be read, a word that isn't text and memory that runs out
# among them. It prints one line, and ends with 0 where all is as it should be.
cd "$(dirname "$0")/.." || exit 1
NAME=statuses
. tools/built_program.sh

# expect NAME STATUS WANTED_STATUS NOTE: the status, and the one line of the note, or none.
expect() {
    [ "$2" = "$3" ] || fail "$1 ends with $2 in place of $3"
    if [ -n "$4" ]; then echo "$4"; fi > "$work/note.wanted"
    cmp -s "$work/note.wanted" "$work/note" || fail "$1 has another note"
}

# written NAME FILE: what was written is the file.
written() {
    cmp -s "$work/out" "$2" || fail "$1 writes something else"
}

# A view of 4,096 by 4,096 pixels and its frame, 64 MiB.
printf 'WRT1T\015\000\000\000\000\001\001\000\012\000\020\000\020\001\002\003\004Z' > "$work/large.wrt"
printf 'WRF1' > "$work/magic"
: > "$work/nothing"

"$program" replay < examples/half_red.wrt > "$work/out" 2> "$work/note"
expect "a whole file" $? 0 ""
written "a whole file" examples/half_red.wrf

"$program" replay < examples/window.wrt > "$work/out" 2> "$work/note"
expect "a window" $? 0 ""
if command -v python3 > /dev/null; then
    python3 tools/frames_to_png.py "$work/out" "$work/window" > /dev/null || fail "a window's frames aren't read"
    for frame in 1 2 3; do
        cmp -s "$work/window-$frame.png" "examples/window-$frame.png" || fail "frame $frame of a window differs"
    done
fi

"$program" < examples/half_red.wrt > "$work/out" 2> "$work/note"
expect "no word" $? 1 "usage: wrreplay replay [--stats] | paint | load NUMBER COUNT"
written "no word" "$work/nothing"

"$program" replay "$(printf '\377')" < examples/half_red.wrt > "$work/out" 2> "$work/note"
expect "a word that isn't text" $? 1 "usage: wrreplay replay [--stats] | paint | load NUMBER COUNT"
written "a word that isn't text" "$work/nothing"

head -c 30 examples/half_red.wrt | "$program" replay > "$work/out" 2> "$work/note"
expect "a cut file" $? 2 "wrreplay: broken input"
written "a cut file" "$work/magic"

"$program" replay < examples > "$work/out" 2> "$work/note"
expect "a folder as the input" $? 3 "wrreplay: read failed"
written "a folder as the input" "$work/nothing"

"$program" replay < examples/half_red.wrt > /dev/full 2> "$work/note"
expect "a full disk" $? 4 "wrreplay: write failed"

{ "$program" replay < "$work/large.wrt" 2> "$work/note"; echo $? > "$work/status"; } | head -c 4 > "$work/out"
expect "a broken pipe" "$(cat "$work/status")" 4 "wrreplay: write failed"
written "a broken pipe" "$work/magic"

(ulimit -v 60000 && "$program" replay < "$work/large.wrt") > "$work/out" 2> "$work/note"
expect "memory that runs out" $? 5 "wrreplay: out of memory"
written "memory that runs out" "$work/magic"

"$program" replay < examples/half_red.wrt > "$work/out" 2> /dev/full
[ $? = 0 ] || fail "a note that can't be written changes status 0"
"$program" replay < examples > "$work/out" 2> /dev/full
[ $? = 3 ] || fail "a note that can't be written changes status 3"
echo "statuses: ok"
