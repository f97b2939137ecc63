#!/usr/bin/env python3
"""Runs kernel_bench and its peers in turns, and prints medians and ratios.

Needs gcc and pixman's headers. Build crates/kernel_bench first, then: python3 tools/bench/compare_kernels.py [TURNS]
"""
import collections
import pathlib
import statistics
import subprocess
import sys
import tempfile

ROOT = pathlib.Path(__file__).resolve().parent.parent.parent
MODES = ["multiply", "screen", "overlay", "darken", "lighten", "hard_light", "difference", "exclusion"]


def build(folder):
    flags = subprocess.run(["pkg-config", "--cflags", "--libs", "pixman-1"], capture_output=True, text=True, check=True)
    peer = str(pathlib.Path(folder) / "peers")
    source = str(ROOT / "tools/bench/kernel_peers.c")
    subprocess.run(["gcc", "-O3", "-march=x86-64-v2", source, "-o", peer, *flags.stdout.split()], check=True)
    return peer


def times(*command):
    lines = subprocess.run(command, capture_output=True, text=True, check=True).stdout.splitlines()
    return {line.split()[0]: float(line.split()[1]) / 10 for line in lines}


def compared(turn):
    """Each kernel with its own time, its peer's and the peer's name, for one turn."""
    own, peer = turn
    rows = [("over_row, four planes", 4 * own["over_row"], peer["pixman_over"], "pixman OVER")]
    rows += [("over_solid, four planes", 4 * own["over_solid"], peer["pixman_over_solid"], "pixman OVER, solid")]
    whole = own["over_row"] + 3 * own["normal"]
    rows += [("blend_row normal, and alpha", whole, peer["pixman_over"], "pixman OVER")]
    for mode in MODES:
        rows += [(f"blend_row {mode}, and alpha", own["over_row"] + 3 * own[mode], peer[mode], "pixman")]
    for loop in ["over_row", "over_solid", "scale_by", "scale_row", "weave_row"]:
        rows += [(loop, own[loop], peer[loop], "gcc -O3")]
    rows += [("fill", own["fill"], peer["fill"], "memset"), ("copy", own["copy"], peer["copy"], "memcpy")]
    return rows


def main():
    turns = int(sys.argv[1]) if len(sys.argv) > 1 else 201
    found = collections.defaultdict(list)
    with tempfile.TemporaryDirectory() as folder:
        peer = build(folder)
        for _ in range(turns):
            turn = times(str(ROOT / "crates/kernel_bench/out/kernel_bench"), "now"), times(peer)
            for name, own, other, who in compared(turn):
                found[name, who].append((own, other))
    for (name, who), pairs in found.items():
        own = statistics.median(own for own, _ in pairs)
        other = statistics.median(other for _, other in pairs)
        ratio = statistics.median(other / own for own, other in pairs)
        least = min(other for _, other in pairs) / min(own for own, _ in pairs)
        print(f"| {name} | {who} | {own:.0f} | {other:.0f} | {ratio:.2f} | {least:.2f} |")


main()
