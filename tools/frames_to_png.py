#!/usr/bin/env python3
"""Turns a frame file of wrreplay into one PNG picture for each frame.

usage: frames_to_png.py FRAMES [PREFIX]

The pictures are named PREFIX-1.png, PREFIX-2.png and so on; PREFIX is the name of the frame file without
its ending where none is given. Every other record is printed, a line each. A file that isn't a frame file,
or breaks off, is refused with a message and status 1; the pictures before the break are kept.
It needs Python's standard library alone.
"""

import os
import struct
import sys
import zlib


class BrokenFile(Exception):
    """The bytes are no frame file."""


class Reader:
    """Reads numbers and pieces from the front of some bytes."""

    def __init__(self, data):
        self.data = data
        self.at = 0

    def take(self, count, what):
        if len(self.data) - self.at < count:
            raise BrokenFile(f"the file ends inside {what}, at byte {self.at}")
        piece = self.data[self.at : self.at + count]
        self.at += count
        return piece

    def numbers(self, layout, what):
        return struct.unpack("<" + layout, self.take(struct.calcsize("<" + layout), what))


def straight(pixel):
    """A premultiplied B G R A pixel as straight R G B A."""
    blue, green, red, alpha = pixel
    if alpha == 0:
        return bytes(4)
    return bytes([min(255, (channel * 255 + alpha // 2) // alpha) for channel in (red, green, blue)] + [alpha])


def chunk(kind, body):
    return struct.pack(">I", len(body)) + kind + body + struct.pack(">I", zlib.crc32(kind + body))


def png(width, height, pixels):
    """The PNG file of premultiplied B G R A pixels, row by row from the top."""
    known = {}
    rows = bytearray()
    for y in range(height):
        rows.append(0)
        for x in range(y * width, (y + 1) * width):
            pixel = pixels[4 * x : 4 * x + 4]
            if pixel not in known:
                known[pixel] = straight(pixel)
            rows += known[pixel]
    header = struct.pack(">IIBBBBB", width, height, 8, 6, 0, 0, 0)
    return b"\x89PNG\r\n\x1a\n" + chunk(b"IHDR", header) + chunk(b"IDAT", zlib.compress(bytes(rows), 9)) + chunk(b"IEND", b"")


def read_frame(reader):
    """The sides, the drawn pipelines with their epochs, and the pixels of a frame record."""
    width, height, count = reader.numbers("HHB", "a frame's head")
    drawn = [reader.numbers("BI", "a frame's pipelines") for _ in range(count)]
    return width, height, drawn, reader.take(4 * width * height, "a frame's pixels")


def convert(data, prefix):
    """Writes a picture for each frame, and prints a line for each record. Answers how many pictures."""
    reader = Reader(data)
    if reader.take(min(4, len(data)), "the magic") != b"WRF1":
        raise BrokenFile("the file doesn't begin with WRF1")
    pictures = 0
    while True:
        kind = reader.take(1, "a record's place: no closing byte")
        if kind == b"Z":
            break
        if kind == b"A":
            print("accepted")
        elif kind == b"X":
            print("refused: code {}, place {}".format(*reader.numbers("BI", "a refusal")))
        elif kind == b"S":
            print("statistics: tiles {}, drawn {}".format(*reader.numbers("IQ", "statistics")))
        elif kind == b"F":
            width, height, drawn, pixels = read_frame(reader)
            pictures += 1
            name = f"{prefix}-{pictures}.png"
            with open(name, "wb") as out:
                out.write(png(width, height, pixels))
            lists = ", ".join(f"pipeline {pipeline} epoch {epoch}" for pipeline, epoch in drawn) or "no list"
            print(f"frame: {width}x{height}, {lists}: {name}")
        else:
            raise BrokenFile(f"no record begins with byte {kind[0]}, at byte {reader.at - 1}")
    if reader.at != len(data):
        raise BrokenFile(f"bytes after the closing byte, at byte {reader.at}")
    return pictures


def main(words):
    if len(words) not in (1, 2):
        print("usage: frames_to_png.py FRAMES [PREFIX]", file=sys.stderr)
        return 2
    prefix = words[1] if len(words) == 2 else os.path.splitext(words[0])[0]
    try:
        with open(words[0], "rb") as file:
            data = file.read()
        convert(data, prefix)
    except (OSError, BrokenFile) as error:
        print(f"frames_to_png: {words[0]}: {error}", file=sys.stderr)
        return 1
    return 0


if __name__ == "__main__":
    sys.exit(main(sys.argv[1:]))
