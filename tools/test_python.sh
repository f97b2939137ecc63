#!/bin/sh
# Tries the tools in Python, and then compares the examples by the built program. It prints one line for each, and
# ends with 0 where all is as it should be, or where there is no Python.
cd "$(dirname "$0")/.." || exit 1
if ! command -v python3 > /dev/null; then
    echo "python: skipped, no python3"
    exit 0
fi
words=$(python3 tools/test_tools.py 2>&1) || { echo "python: FAILED: $words"; exit 1; }
echo "python: ok"
NAME=reftest
. tools/built_program.sh
words=$(python3 tools/reftest.py --program "$program" --out "$work/pictures" examples/reftest.list) || fail "$words"
echo "reftest: ok, $(echo "$words" | tail -n 1)"
NAME=pictures
for name in dialog modes words nested; do
    "$program" replay < "examples/$name.wrt" > "$work/$name.wrf" || fail "$name isn't answered"
    python3 tools/frames_to_png.py "$work/$name.wrf" "$work/$name" > /dev/null || fail "the frames of $name aren't read"
    for picture in examples/"$name"-*.png; do
        cmp -s "$picture" "$work/${picture#examples/}" || fail "$picture differs"
    done
done
echo "pictures: ok"
NAME=loads
words=$(python3 tools/test_loads.py "$program") || fail "$words"
echo "loads: ok"
