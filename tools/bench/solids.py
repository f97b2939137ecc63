#!/usr/bin/env python3
"""Makes frames of solids for wrreplay and for what it is compared with.

    tools/bench/solids.py WIDTH HEIGHT COUNT FRAMES OUT

writes OUT.wrt, in which each frame has a list of its own of COUNT solids, every second one of them translucent, and
OUT.solids with the same rectangles and colours as plain numbers, little-endian: width, height, count and frames in
32 bits each, and for each solid its edges x0, y0, x1, y1 in 32 bits each and its colour as blue, green, red, alpha.
"""
import pathlib
import random
import struct
import sys

sys.path.insert(0, str(pathlib.Path(__file__).resolve().parent.parent))
import scene  # noqa: E402


def solid(rolls, width, height, translucent):
    x, y = rolls.randrange(width), rolls.randrange(height)
    across, down = rolls.randrange(8, max(9, width // 4)), rolls.randrange(8, max(9, height // 4))
    alpha = rolls.randrange(1, 255) if translucent else 255
    colour = [rolls.randrange(alpha + 1) for _ in range(3)] + [alpha]
    return (x, y, min(width, x + across), min(height, y + down)), colour


def main():
    width, height, count, frames = map(int, sys.argv[1:5])
    out = sys.argv[5]
    rolls = random.Random(1)
    file, plain = scene.File(), struct.pack("<4I", width, height, count, frames)
    for number in range(frames):
        shown = scene.DisplayList()
        for k in range(count):
            rect, colour = solid(rolls, width, height, k % 2 == 1)
            shown.solid(rect, tuple(colour))
            plain += struct.pack("<4i4B", *rect, *colour)
        frame = file.transaction()
        if number == 0:
            frame.set_view(width, height, scene.rgb(255, 255, 255))
        frame.set_list(number, shown)
    file.write(out + ".wrt")
    pathlib.Path(out + ".solids").write_bytes(plain)


if __name__ == "__main__":
    main()
