#!/usr/bin/env python3
"""Tells what frames from kept tiles cost, in turns, by processor time for each frame.

    tools/bench/compare_tiles.py [WIDTH HEIGHT COUNT FRAMES TURNS] [--against PROGRAM]

COUNT solids, half of them translucent, stand on a page of eight views' height in a scroll frame. Each file begins with
the same frame, and then has FRAMES frames more: in `still` nothing changes, in `scroll` the page scrolls by 30 pixels
each time, and in `anew` all tiles are dropped each time. `weave` is a program in C that weaves as many bytes and writes
them. With --against, another build of wrreplay draws `anew` too. Build crates/wrreplay first. Needs gcc.
"""
import argparse
import pathlib
import random
import statistics
import subprocess
import sys
import tempfile

ROOT = pathlib.Path(__file__).resolve().parent.parent.parent
sys.path.insert(0, str(ROOT / "tools"))
sys.path.insert(0, str(ROOT / "tools" / "bench"))
import scene  # noqa: E402
from compare_frames import seconds  # noqa: E402
from solids import solid  # noqa: E402


def page(width, height, count):
    """A list of solids on a page that scrolls."""
    rolls, shown = random.Random(1), scene.DisplayList()
    node = shown.scroll_frame(1, (width, height), (width, 8 * height))
    shown.solid((0, 0, width, 8 * height), scene.rgb(240, 240, 240), node=node)
    for k in range(count):
        rect, colour = solid(rolls, width, height, k % 2 == 1)
        shown.solid(rect, tuple(colour), node=node)
    return shown


def write_file(path, sides, count, frames, change):
    file = scene.File()
    first = file.transaction()
    first.set_view(*sides, scene.rgb(255, 255, 255))
    first.set_list(1, page(*sides, count))
    for number in range(frames):
        change(file.transaction(), number + 1)
    file.write(path)


CHANGES = {
    "still": lambda frame, number: None,
    "scroll": lambda frame, number: frame.scroll(1, 0, 30 * number),
    "anew": lambda frame, number: frame.drop_tiles(),
}


def main():
    words = argparse.ArgumentParser(description="Tells what frames from kept tiles cost.")
    words.add_argument("numbers", nargs="*", type=int, default=[1280, 800, 200, 20, 11])
    words.add_argument("--against")
    given = words.parse_args()
    width, height, count, frames, turns = given.numbers
    own = str(ROOT / "crates" / "wrreplay" / "out" / "wrreplay")
    with tempfile.TemporaryDirectory() as folder:
        weave = f"{folder}/weave"
        subprocess.run(["gcc", "-O3", str(ROOT / "tools" / "bench" / "weave.c"), "-o", weave], check=True)
        runs = {"weave": (lambda many: ([weave, str(width), str(height), str(many)], None))}
        for name, change in CHANGES.items():
            for many in (0, frames):
                write_file(f"{folder}/{name}{many}.wrt", (width, height), count, many, change)
            runs[name] = lambda many, name=name: ([own, "replay"], f"{folder}/{name}{many}.wrt")
        if given.against:
            runs["anew, against"] = lambda many: ([given.against, "replay"], f"{folder}/anew{many}.wrt")
        times = {name: [] for name in runs}
        for _ in range(turns):
            for name, command in runs.items():
                times[name].append((seconds(*command(frames)) - seconds(*command(0))) / frames)
    base = statistics.median(times["weave"])
    for name, each in times.items():
        middle = statistics.median(each)
        print(f"{name:14} {1000 * middle:7.2f} ms a frame, {middle / base:6.2f} of weave")


if __name__ == "__main__":
    main()
