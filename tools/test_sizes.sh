#!/bin/sh
# Runs the built program at the largest sizes that must work: a payload of 64 MiB, a list of 5 MiB and a
# frame of 4,096 by 4,096 pixels. A program that gives up above some size ends with status 5 there. It prints
# one line, and ends with 0 where all is as it should be.
cd "$(dirname "$0")/.." || exit 1
NAME=sizes
. tools/built_program.sh

# replay NAME: the program answers all of the input.
replay() {
    "$program" replay < "$work/in" > "$work/out" 2> "$work/note" || fail "$1 ends with $?: $(cat "$work/note")"
}

# written NAME: what was written is the wanted file.
written() {
    cmp -s "$work/wanted" "$work/out" || fail "$1 writes something else"
}

# A payload of 64 MiB, one operation that sets a list of all its other bytes. The list ends with its first byte,
# so the second is refused: code 14, at byte 14 of the payload.
{ printf 'WRT1T\000\000\000\004\000\000\001\000\001\001\000\000\000\363\377\377\003'; head -c 67108851 /dev/zero; printf Z; } > "$work/in"
printf 'WRF1X\016\016\000\000\000Z' > "$work/wanted"
replay "a payload of 64 MiB"
written "a payload of 64 MiB"

# A list of 5 MiB, 209,715 solids. It has no fault, but a scene has at most 65,536 items: code 15, at the payload's
# length, 5,242,889.
printf '\006\000\000\377\377\000\000\000\000\000\000\000\000\001\000\000\000\001\000\000\000\000\000\377\377' > "$work/solids"
for _ in 1 2 3 4 5 6 7 8 9 10 11 12 13 14 15 16 17 18; do
    cat "$work/solids" "$work/solids" > "$work/twice" && mv "$work/twice" "$work/solids"
done
{ printf 'WRT1T\011\000\120\000\000\000\001\000\001\001\000\000\000\374\377\117\000'; head -c 5242875 "$work/solids"; printf '\000Z'; } > "$work/in"
printf 'WRF1X\017\011\000\120\000Z' > "$work/wanted"
replay "a list of 5 MiB"
written "a list of 5 MiB"

# A view of 4,096 by 4,096 pixels without a list, and its frame.
printf 'WRT1T\015\000\000\000\000\001\001\000\012\000\020\000\020\001\002\003\004Z' > "$work/in"
printf '\001\002\003\004' > "$work/pixels"
for _ in 1 2 3 4 5 6 7 8 9 10 11 12 13 14 15 16 17 18 19 20 21 22 23 24; do
    cat "$work/pixels" "$work/pixels" > "$work/twice" && mv "$work/twice" "$work/pixels"
done
{ printf 'WRF1F\000\020\000\020\000'; cat "$work/pixels"; printf Z; } > "$work/wanted"
replay "a frame of 4,096 by 4,096 pixels"
written "a frame of 4,096 by 4,096 pixels"
echo "sizes: ok"
