#!/usr/bin/env python3
"""Compares the summaries of `load` with the frames of the same files, made by make_generated.py and replayed.

usage: tools/test_loads.py PROGRAM
"""

import os
import struct
import subprocess
import sys

sys.path.insert(0, os.path.dirname(os.path.abspath(__file__)))

import make_generated
import reftest


def output(program, words, data=b""):
    return subprocess.run([program, *words], input=data, stdout=subprocess.PIPE, check=True).stdout


def without_statistics(told, answers):
    """How many pixels frames drew, by a file of answers with statistics; None where its other records aren't these answers."""
    drawn, at, plain = 0, 4, told[:4]
    while told[at : at + 1] == b"F":
        width, height, lists = struct.unpack_from("<HHB", told, at + 1)
        end = at + 6 + 5 * lists + 4 * width * height
        kind, _, pixels = struct.unpack_from("<cIQ", told, end)
        if kind != b"S":
            return None
        plain += told[at:end]
        drawn, at = drawn + pixels, end + 13
    return drawn if plain + told[at:] == answers else None


def summary_of(answers, told, count):
    """The summary of a file of answers in which each transaction has a frame, with and without statistics."""
    frames = reftest.frames_of(answers, "a generated file")
    total = sum(sum(pixels) for _, _, pixels in frames)
    drawn = without_statistics(told, answers)
    return f"transactions {count}\nframes {len(frames)}\nrefused 0\nsum {total}\ndrawn {drawn}\n".encode()


def main(words):
    program, failed = words[0], 0
    for number, count in ((1, 5), (2, 20), (9999999999, 8), (0, 1)):
        data = make_generated.generated(number, count).encode()
        answers = output(program, ["replay"], data)
        told = output(program, ["replay", "--stats"], data)
        good = output(program, ["paint"], data) == answers
        good = good and output(program, ["load", f"{number:010}", str(count)]) == summary_of(answers, told, count)
        failed += not good
        if not good:
            print(f"load {number} {count} differs from the replayed file")
    return 1 if failed else 0


if __name__ == "__main__":
    sys.exit(main(sys.argv[1:]))
