#!/usr/bin/env python3
"""Runs reference tests: scenes that have to draw the same, or not the same.

usage: reftest.py [--program PATH] [--out FOLDER] LIST

LIST is a text file with a test on each line, as browsers' reference tests have it:

    == left.wrt right.wrt                 the frames are equal
    != left.wrt right.wrt                 they aren't
    == left.wrt wanted.wrf                the frames are those of a stored file of answers
    fuzzy(2,30) == left.wrt right.wrt     equal, but for at most 30 pixels of a frame, whose channels differ by at most 2

A name is relative to the list's folder and has no space. What follows a # is a comment. A .wrt file is replayed by
the program; frames are compared in order, and there have to be as many on both sides. A file that isn't answered up
to its end, or has no frame, fails its test.

A line is printed for each test, with the first frame that differs, and a summary at the end. Of a test that fails,
FOLDER (reftest-out where none is given) gets the pictures of the frame on both sides, and of where it differs: what
differs is red, the more the brighter. The status is 0 where every test passes, and else 1. It needs Python's
standard library alone.
"""

import argparse
import os
import re
import subprocess
import sys

from frames_to_png import BrokenFile, Reader, png, read_frame

HERE = os.path.dirname(os.path.abspath(__file__))
PROGRAM = os.path.join(HERE, "..", "crates", "wrreplay", "out", "wrreplay")
LINE = re.compile(r"(?:fuzzy\((\d+),\s*(\d+)\)\s+)?(==|!=)\s+(\S+)\s+(\S+)")


class Unusable(Exception):
    """A list or a file with which no test can be made."""


class Test:
    """A line of a list."""

    def __init__(self, line):
        found = LINE.fullmatch(line)
        if not found:
            raise Unusable(f"no test: {line}")
        difference, pixels, self.kind, self.left, self.right = found.groups()
        self.difference = int(difference or 0)
        self.pixels = int(pixels or 0)
        self.name = line


def read_list(path):
    with open(path, encoding="utf-8") as file:
        lines = [line.split("#", 1)[0].strip() for line in file]
    return [Test(line) for line in lines if line]


def frames_of(answers, name):
    """The frames (width, height, pixels) of a file of answers."""
    reader, frames = Reader(answers), []
    try:
        if reader.take(min(4, len(answers)), "the magic") != b"WRF1":
            raise BrokenFile("it doesn't begin with WRF1")
        while (kind := reader.take(1, "a record's place: no closing byte")) != b"Z":
            if kind == b"F":
                width, height, _, pixels = read_frame(reader)
                frames.append((width, height, pixels))
            elif kind == b"X":
                reader.take(5, "a refusal")
            elif kind == b"S":
                reader.take(12, "statistics")
            elif kind != b"A":
                raise BrokenFile(f"no record begins with byte {kind[0]}")
    except BrokenFile as error:
        raise Unusable(f"{name}: {error}") from error
    if not frames:
        raise Unusable(f"{name}: it has no frame")
    return frames


def replayed(program, path):
    """The answers of the program to a file."""
    with open(path, "rb") as source:
        done = subprocess.run([program, "replay"], stdin=source, stdout=subprocess.PIPE, stderr=subprocess.PIPE, check=False)
    if done.returncode != 0:
        raise Unusable(f"{path}: status {done.returncode}: {done.stderr.decode(errors='replace').strip()}")
    return done.stdout


def load(program, folder, name):
    path = os.path.join(folder, name)
    if name.endswith(".wrf"):
        with open(path, "rb") as file:
            return frames_of(file.read(), name)
    return frames_of(replayed(program, path), name)


def differing(left, right):
    """For each pixel that differs, its number and the greatest difference of a channel."""
    if left == right:
        return {}
    found = {}
    for i in range(0, len(left), 4):
        if left[i : i + 4] != right[i : i + 4]:
            found[i // 4] = max(abs(a - b) for a, b in zip(left[i : i + 4], right[i : i + 4]))
    return found


def first_difference(test, left, right):
    """The number of the first frame that differs by more than the test allows, from 0, with the words for it; or None."""
    for i, (one, other) in enumerate(zip(left, right)):
        if one[:2] != other[:2]:
            return i, f"frame {i + 1} is {one[0]}x{one[1]} and {other[0]}x{other[1]}"
        found = differing(one[2], other[2])
        greatest = max(found.values(), default=0)
        if greatest > test.difference or len(found) > test.pixels and greatest > 0:
            return i, f"frame {i + 1}: {len(found)} pixels differ, by at most {greatest}"
    if len(left) != len(right):
        return min(len(left), len(right)), f"{len(left)} frames and {len(right)}"
    return None


def write_picture(folder, name, frame):
    width, height, pixels = frame
    path = os.path.join(folder, name)
    with open(path, "wb") as out:
        out.write(png(width, height, pixels))
    return path


def difference_picture(one, other):
    """Opaque: black where both are the same, red where they differ."""
    found = differing(one[2], other[2])
    pixels = bytearray(b"\x00\x00\x00\xff" * (one[0] * one[1]))
    for i, difference in found.items():
        pixels[4 * i + 2] = 128 + difference // 2
    return one[0], one[1], bytes(pixels)


def write_pictures(folder, number, at, left, right):
    """The pictures of a frame on both sides, and of their difference where they have the same sides."""
    os.makedirs(folder, exist_ok=True)
    frames = [(side, frames[at]) for side, frames in (("left", left), ("right", right)) if at < len(frames)]
    if len(frames) == 2 and frames[0][1][:2] == frames[1][1][:2]:
        frames.append(("difference", difference_picture(frames[0][1], frames[1][1])))
    return [write_picture(folder, f"test{number}-frame{at + 1}-{side}.png", frame) for side, frame in frames]


def run(test, number, program, folder, out):
    """Whether a test passes. Its line is printed."""
    try:
        left, right = load(program, folder, test.left), load(program, folder, test.right)
    except (OSError, Unusable) as error:
        print(f"FAIL {test.name}: {error}")
        return False
    difference = first_difference(test, left, right)
    if (difference is None) == (test.kind == "=="):
        print(f"PASS {test.name}")
        return True
    at, words = difference or (0, "no frame differs")
    print(f"FAIL {test.name}: {words}: {' '.join(write_pictures(out, number, at, left, right))}")
    return False


def main(words):
    parser = argparse.ArgumentParser(description="Runs the reference tests of a list.")
    parser.add_argument("--program", default=PROGRAM, help="the program that replays, wrreplay as it was built where none is given")
    parser.add_argument("--out", default="reftest-out", help="the folder for the pictures of tests that fail")
    parser.add_argument("list", help="the list of tests")
    given = parser.parse_args(words)
    try:
        tests = read_list(given.list)
    except (OSError, UnicodeDecodeError, Unusable) as error:
        print(f"reftest: {given.list}: {error}", file=sys.stderr)
        return 1
    folder = os.path.dirname(os.path.abspath(given.list))
    passed = sum(run(test, number, given.program, folder, given.out) for number, test in enumerate(tests, 1))
    print(f"{passed} passed, {len(tests) - passed} failed")
    return 0 if passed == len(tests) else 1


if __name__ == "__main__":
    sys.exit(main(sys.argv[1:]))
