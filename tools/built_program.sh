# Read by the tests of the built program. NAME is the test's: it is told, and the test ends with 0, where the
# program isn't built. Sets `program` and `work`, a folder that is removed at the end.
program=crates/wrreplay/out/wrreplay
if [ ! -x "$program" ]; then
    echo "$NAME: skipped, the program isn't built"
    exit 0
fi
work=$(mktemp -d) || exit 1
trap 'rm -rf "$work"' EXIT

fail() {
    echo "$NAME: FAILED: $1"
    exit 1
}
