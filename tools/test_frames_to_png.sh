#!/bin/sh
# Tries frames_to_png.py on the stored examples. It prints one line, and ends with 0 where all is as it
# should be, or where there is no Python.
cd "$(dirname "$0")/.." || exit 1
if ! command -v python3 > /dev/null; then
    echo "frames_to_png: skipped, no python3"
    exit 0
fi
work=$(mktemp -d) || exit 1
trap 'rm -rf "$work"' EXIT

fail() {
    echo "frames_to_png: FAILED: $1"
    exit 1
}

for name in half_red panes; do
    python3 tools/frames_to_png.py "examples/$name.wrf" "$work/$name" > "$work/$name.txt" || fail "$name is refused"
    cmp -s "$work/$name-1.png" "examples/$name-1.png" || fail "the first picture of $name differs"
done
cmp -s "$work/panes-2.png" examples/panes-2.png || fail "the second picture of panes differs"
printf 'frame: 96x64, pipeline 0 epoch 1: %s\nrefused: code 3, place 5\naccepted\nframe: 96x64, pipeline 0 epoch 2: %s\n' \
    "$work/panes-1.png" "$work/panes-2.png" | cmp -s - "$work/panes.txt" || fail "the lines for panes differ"

# Each file that breaks off is refused.
for count in 0 3 4 5 9 20 31; do
    head -c "$count" examples/half_red.wrf > "$work/cut.wrf"
    python3 tools/frames_to_png.py "$work/cut.wrf" > /dev/null 2> "$work/cut.txt" && fail "a file cut to $count bytes is taken"
    [ -s "$work/cut.txt" ] || fail "a file cut to $count bytes is refused without a word"
done
printf 'WRF1Q' > "$work/other.wrf"
python3 tools/frames_to_png.py "$work/other.wrf" > /dev/null 2>&1 && fail "an unknown record is taken"
echo "frames_to_png: ok"
