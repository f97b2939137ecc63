#!/usr/bin/env python3
"""Runs wrreplay, cairo and tiny-skia in turns over the same frames of solids, and prints processor times and ratios.

    tools/bench/compare_frames.py WIDTH HEIGHT COUNT FRAMES [TURNS]

Build crates/wrreplay first. Needs gcc, cairo's headers (apt-get install libcairo2-dev), cargo, and tiny-skia's source
(apt-get install librust-tiny-skia-dev). Each writes every pixel of every frame to /dev/null.
"""
import os
import pathlib
import statistics
import subprocess
import sys
import tempfile

ROOT = pathlib.Path(__file__).resolve().parent.parent.parent
HERE = ROOT / "tools" / "bench"
REGISTRY = "/usr/share/cargo/registry"


def build_cairo(folder):
    flags = subprocess.run(["pkg-config", "--cflags", "--libs", "cairo"], capture_output=True, text=True, check=True)
    peer = f"{folder}/cairo_solids"
    subprocess.run(["gcc", "-O3", str(HERE / "cairo_solids.c"), "-o", peer, *flags.stdout.split()], check=True)
    return peer


def build_tiny_skia(folder):
    config = ["--config", 'source.crates-io.replace-with="debian"', "--config", f'source.debian.directory="{REGISTRY}"']
    command = ["cargo", "build", "--release", "--offline", "--quiet", *config, "--target-dir", f"{folder}/target"]
    subprocess.run([*command, "--manifest-path", str(HERE / "tiny_skia_solids" / "Cargo.toml")], check=True)
    return f"{folder}/target/release/tiny_skia_solids"


def seconds(command, source=None):
    """The processor time of one run."""
    with open(os.devnull, "wb") as sink, open(source or os.devnull, "rb") as given:
        child = subprocess.Popen(command, stdin=given, stdout=sink)
        _, status, usage = os.wait4(child.pid, 0)
        child.returncode = status
        if status != 0:
            raise SystemExit(f"{command[0]} ended with {status}")
        return usage.ru_utime + usage.ru_stime


def main():
    sides = sys.argv[1:5]
    turns = int(sys.argv[5]) if len(sys.argv) > 5 else 11
    with tempfile.TemporaryDirectory() as folder:
        cairo, tiny_skia = build_cairo(folder), build_tiny_skia(folder)
        made = f"{folder}/frames"
        subprocess.run([sys.executable, str(HERE / "solids.py"), *sides, made], check=True)
        own = str(ROOT / "crates" / "wrreplay" / "out" / "wrreplay")
        times = {"wrreplay": [], "cairo": [], "tiny-skia": []}
        for _ in range(turns):
            times["wrreplay"].append(seconds([own, "replay"], made + ".wrt"))
            times["cairo"].append(seconds([cairo, made + ".solids"]))
            times["tiny-skia"].append(seconds([tiny_skia, made + ".solids"]))
    ours = statistics.median(times["wrreplay"])
    for name, all_turns in times.items():
        middle = statistics.median(all_turns)
        print(f"{name}: {1000 * middle / int(sides[3]):.2f} ms a frame, {middle / ours:.2f} times wrreplay's")


if __name__ == "__main__":
    main()
