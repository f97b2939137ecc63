#!/usr/bin/env python3
"""Writes files of transactions for wrreplay, and prints them readably.

As a module it builds a file from views, nodes, clips, chains, items, groups, images and glyphs:

    import scene
    file = scene.File()
    shown = scene.DisplayList()
    shown.solid((10, 10, 90, 60), scene.rgb(46, 204, 113))
    frame = file.transaction()
    frame.set_view(100, 70, scene.rgb(255, 255, 255))
    frame.set_list(1, shown)
    file.write("green.wrt")

As a program it prints a file, a line for each operation and each part of a list:

    tools/scene.py --dump green.wrt

Rectangles are (x0, y0, x1, y1) in whole pixels, and hold the points with x0 <= x < x1 and y0 <= y < y1. What a
file can't say, or wrreplay would refuse for what stands in one transaction alone, is a SceneError. The bytes stand
in docs/FORMATS.md. It needs Python's standard library alone.
"""

import contextlib
import struct
import sys

NONE = 65535
MAX_COORDINATE = 1048576
MAX_SIDE = 4096
MODES = ("normal", "multiply", "screen", "overlay", "darken", "lighten", "hard-light", "difference", "exclusion")


class SceneError(Exception):
    """What can't stand in a file, or what is no file."""


def check(holds, text):
    if not holds:
        raise SceneError(text)


# ---- numbers and fields


def number(value, bits, what):
    check(isinstance(value, int) and 0 <= value < 1 << bits, f"{what} is {value}, and not a number of {bits} bits")
    return value.to_bytes(bits // 8, "little")


def u8(value, what):
    return number(value, 8, what)


def u16(value, what):
    return number(value, 16, what)


def u32(value, what):
    return number(value, 32, what)


def coordinate(value, what):
    check(isinstance(value, int) and -MAX_COORDINATE <= value <= MAX_COORDINATE, f"{what} is {value}, further than {MAX_COORDINATE} from 0")
    return struct.pack("<i", value)


def optional(value, what):
    if value is None:
        return u16(NONE, what)
    check(value != NONE, f"{what} is 65535, which stands for none")
    return u16(value, what)


def property_number(value):
    check(value != NONE, "no property has the number 65535")
    return u16(value, "a property's number")


def rgb(red, green, blue, alpha=255):
    """The colour of straight red, green and blue under an alpha, all 0 to 255, as premultiplied (B, G, R, A)."""
    return tuple((channel * alpha + 127) // 255 for channel in (blue, green, red)) + (alpha,)


def colour(px, what="a colour"):
    check(len(px) == 4 and all(isinstance(byte, int) and 0 <= byte < 256 for byte in px), f"{what} is {px}, and not B, G, R and A")
    check(max(px[:3]) <= px[3], f"{what} is {px}, which isn't premultiplied")
    return bytes(px)


def rectangle(rect):
    check(len(rect) == 4, f"a rectangle is x0, y0, x1 and y1, and not {rect}")
    x0, y0, x1, y1 = rect
    check(x0 <= x1 and y0 <= y1, f"the rectangle {rect} isn't in order")
    return b"".join(coordinate(edge, "an edge") for edge in rect)


def side(value, least, most, what):
    check(isinstance(value, int) and least <= value <= most, f"{what} is {value}, and not {least} to {most}")
    return value


def corner_radii(radii, rect):
    """One radius for all corners, or four corners (width, height): top left, top right, bottom right, bottom left."""
    corners = [(radii, radii)] * 4 if isinstance(radii, int) else [tuple(corner) for corner in radii]
    check(len(corners) == 4 and all(len(corner) == 2 for corner in corners), f"radii are one number or four pairs, and not {radii}")
    for corner in corners:
        for radius in corner:
            side(radius, 0, MAX_SIDE, "a radius")
    (tl, tr, br, bl), (x0, y0, x1, y1) = corners, rect
    check(max(tl[0] + tr[0], bl[0] + br[0]) <= x1 - x0 and max(tl[1] + bl[1], tr[1] + br[1]) <= y1 - y0, f"the radii {radii} exceed a side of {rect}")
    return b"".join(u16(radius, "a radius") for corner in corners for radius in corner)


def side_widths(widths, rect):
    """One width for all sides, or top, right, bottom and left."""
    sides = [widths] * 4 if isinstance(widths, int) else list(widths)
    check(len(sides) == 4, f"widths are one number or four, and not {widths}")
    for width in sides:
        side(width, 0, MAX_SIDE, "a border's width")
    check(sides[1] + sides[3] <= rect[2] - rect[0] and sides[0] + sides[2] <= rect[3] - rect[1], f"the widths {widths} exceed a side of {rect}")
    return b"".join(u16(width, "a border's width") for width in sides)


def mode_number(mode):
    check(mode in MODES, f"there is no mode {mode!r}: they are {', '.join(MODES)}")
    return MODES.index(mode)


# ---- display lists


class DisplayList:
    """A display list. Definitions answer the number by which items and later definitions name them; node 0 is the
    root. Items are drawn in the order in which they are added, back to front."""

    def __init__(self):
        self.levels = [0]
        self.scroll_numbers = set()
        self.nodes = []
        self.clips = []
        self.chains = []
        self.chain_lengths = []
        self.items = []
        self.open_groups = 0

    def add(self, section, part, what):
        check(len(section) < 4096, f"more than 4,096 {what}")
        section.append(part)
        return len(section) - 1

    def known_node(self, node):
        check(isinstance(node, int) and 0 <= node < len(self.levels), f"there is no node {node}")
        return u16(node, "a node")

    def known_chain(self, chain):
        check(chain is None or 0 <= chain < len(self.chains), f"there is no chain {chain}")
        return optional(chain, "a chain")

    def node(self, parent, part):
        check(self.levels[parent] < 64, f"node {parent} is at level 64, the deepest")
        self.add(self.nodes, part, "nodes")
        self.levels.append(self.levels[parent] + 1)
        return len(self.nodes)

    def reference_frame(self, x=0, y=0, parent=0, prop=None):
        """A node moved by x and y, and by the offset property with the number `prop` where that is set."""
        place = self.known_node(parent) + coordinate(x, "x") + coordinate(y, "y")
        return self.node(parent, b"\x01" + place + optional(prop, "a property's number"))

    def scroll_frame(self, scroll, viewport, content, parent=0):
        """A node that Scroll operations with its number move; viewport and content are (width, height)."""
        check(scroll not in self.scroll_numbers, f"scroll number {scroll} is taken")
        sides = [side(value, 0, MAX_COORDINATE, "a side") for value in (*viewport, *content)]
        part = b"\x02" + self.known_node(parent) + u16(scroll, "a scroll number") + b"".join(u32(value, "a side") for value in sides)
        self.scroll_numbers.add(scroll)
        return self.node(parent, part)

    def rect_clip(self, rect, node=0):
        return self.add(self.clips, b"\x03" + self.known_node(node) + rectangle(rect), "clips")

    def round_clip(self, rect, radii, node=0, out=False):
        """Keeps the inside of a rounded rectangle, or its outside where `out` is set."""
        part = b"\x04" + self.known_node(node) + bytes([bool(out)]) + rectangle(rect) + corner_radii(radii, rect)
        return self.add(self.clips, part, "clips")

    def chain(self, clips, parent=None):
        """The clips of the parent chain, and then these."""
        for clip in clips:
            check(isinstance(clip, int) and 0 <= clip < len(self.clips), f"there is no clip {clip}")
        head = b"\x05" + self.known_chain(parent)
        length = len(clips) + (0 if parent is None else self.chain_lengths[parent])
        check(length <= 255, f"a chain of {length} clips, more than 255")
        self.chain_lengths.append(length)
        return self.add(self.chains, head + bytes([len(clips)]) + b"".join(u16(clip, "a clip") for clip in clips), "chains")

    def spot(self, node, chain, rect):
        return self.known_node(node) + self.known_chain(chain) + rectangle(rect)

    def solid(self, rect, px, node=0, chain=None):
        self.items.append(b"\x06" + self.spot(node, chain, rect) + colour(px))

    def image(self, rect, key, u=0, v=0, node=0, chain=None):
        """An image repeated over a rectangle; its texel (u, v) lies in the first corner."""
        self.items.append(b"\x07" + self.spot(node, chain, rect) + u32(key, "a key") + u16(u, "u") + u16(v, "v"))

    def border(self, rect, widths, colours, radii=0, node=0, chain=None):
        """Sides of one colour, or of four: top, right, bottom, left."""
        sides = [colours] * 4 if isinstance(colours[0], int) else list(colours)
        check(len(sides) == 4, f"a border has one colour or four, and not {len(sides)}")
        part = self.spot(node, chain, rect) + side_widths(widths, rect) + b"".join(colour(px) for px in sides)
        self.items.append(b"\x08" + part + corner_radii(radii, rect))

    def text(self, rect, font, px, glyphs, node=0, chain=None):
        """Glyphs (number, x, y) of a font, relative to the node."""
        placed = b"".join(u16(glyph, "a glyph") + coordinate(x, "x") + coordinate(y, "y") for glyph, x, y in glyphs)
        part = self.spot(node, chain, rect) + u16(font, "a font") + colour(px) + u16(len(glyphs), "the number of glyphs")
        self.items.append(b"\x09" + part + placed)

    @contextlib.contextmanager
    def group(self, opacity=255, mode="normal", isolate=False, prop=None, node=0, chain=None):
        """A stacking context round the items that are added within the `with` block."""
        check(self.open_groups < 64, "more than 64 groups are open")
        head = b"\x0a" + self.known_node(node) + self.known_chain(chain) + u8(opacity, "an opacity")
        self.items.append(head + optional(prop, "a property's number") + bytes([mode_number(mode), bool(isolate)]))
        self.open_groups += 1
        yield
        self.open_groups -= 1
        self.items.append(b"\x0b")

    def iframe(self, rect, pipeline, node=0, chain=None):
        """The list of another pipeline, of a greater number, whose root is in the rectangle's first corner."""
        self.items.append(b"\x0c" + self.spot(node, chain, rect) + u8(side(pipeline, 0, 63, "a pipeline"), "a pipeline"))

    def hit_area(self, rect, tag, node=0, chain=None):
        self.items.append(b"\x0d" + self.spot(node, chain, rect) + u32(tag, "a tag"))

    def encode(self):
        check(self.open_groups == 0, "a group is still open")
        return b"".join(self.nodes + self.clips + self.chains + self.items) + b"\x00"


# ---- transactions


class Transaction:
    """The operations of one pipeline, applied together or not at all, with or without a frame after them."""

    def __init__(self, pipeline=0, frame=True):
        self.pipeline = side(pipeline, 0, 63, "a pipeline")
        self.frame = bool(frame)
        self.operations = []

    def add(self, tag, fields):
        check(len(self.operations) < 65535, "more than 65,535 operations")
        self.operations.append(bytes([tag]) + fields)

    def for_root(self, what):
        check(self.pipeline == 0, f"{what} is for pipeline 0 alone")

    def set_list(self, epoch, shown):
        """Replaces the pipeline's list by a DisplayList, or by bytes as they are."""
        listed = shown.encode() if isinstance(shown, DisplayList) else bytes(shown)
        self.add(1, u32(epoch, "an epoch") + u32(len(listed), "a list's length") + listed)

    def remove_pipeline(self):
        self.add(2, b"")

    def scroll(self, scroll, x, y):
        self.add(3, u16(scroll, "a scroll number") + coordinate(x, "x") + coordinate(y, "y"))

    def set_offset(self, prop, x, y):
        self.add(4, b"\x00" + property_number(prop) + coordinate(x, "x") + coordinate(y, "y"))

    def set_opacity(self, prop, opacity):
        self.add(4, b"\x01" + property_number(prop) + u8(opacity, "an opacity"))

    def sides(self, width, height, most=MAX_SIDE):
        return u16(side(width, 1, most, "a width"), "a width") + u16(side(height, 1, most, "a height"), "a height")

    def texels(self, width, height, texels):
        check(len(texels) == width * height, f"{len(texels)} texels for {width} by {height}")
        return b"".join(colour(px, "a texel") for px in texels)

    def add_image(self, key, width, height, texels):
        """Texels row by row from the top, each (B, G, R, A), premultiplied."""
        self.add(5, u32(key, "a key") + self.sides(width, height) + self.texels(width, height, texels))

    def update_image(self, key, x, y, width, height, texels):
        place = u32(key, "a key") + u16(x, "x") + u16(y, "y")
        self.add(6, place + self.sides(width, height) + self.texels(width, height, texels))

    def delete_image(self, key):
        self.add(7, u32(key, "a key"))

    def add_glyph(self, font, glyph, width, height, mask):
        """Coverage row by row from the top, 0 to 255."""
        check(len(mask) == width * height, f"{len(mask)} bytes for {width} by {height}")
        self.add(8, u16(font, "a font") + u16(glyph, "a glyph") + self.sides(width, height) + bytes(mask))

    def delete_font(self, font):
        self.add(9, u16(font, "a font"))

    def set_view(self, width, height, clear):
        self.for_root("a view")
        self.add(10, self.sides(width, height) + colour(clear))

    def tile_policy(self, width, height, budget):
        self.for_root("a tile policy")
        sides = u16(side(width, 64, 1024, "a tile's width"), "a width") + u16(side(height, 64, 1024, "a tile's height"), "a height")
        check(width * height * side(budget, 1, 65536, "a budget") <= 1 << 28, "the tiles have more than 2^28 pixels")
        self.add(11, sides + u32(budget, "a budget"))

    def drop_tiles(self):
        self.for_root("dropping tiles")
        self.add(12, b"")

    def encode(self):
        return bytes([self.pipeline, self.frame]) + u16(len(self.operations), "the number of operations") + b"".join(self.operations)


class File:
    """A file of transactions."""

    def __init__(self):
        self.transactions = []

    def transaction(self, pipeline=0, frame=True):
        """Adds a transaction, to which operations are added then."""
        self.transactions.append(Transaction(pipeline, frame))
        return self.transactions[-1]

    def encode(self):
        payloads = [transaction.encode() for transaction in self.transactions]
        for payload in payloads:
            check(len(payload) <= 1 << 26, f"a payload of {len(payload)} bytes, more than 64 MiB")
        return b"WRT1" + b"".join(b"T" + u32(len(payload), "a length") + payload for payload in payloads) + b"Z"

    def write(self, path):
        data = self.encode()
        with open(path, "wb") as out:
            out.write(data)


# ---- printing


class Reader:
    """Reads fields from the front of some bytes."""

    def __init__(self, data):
        self.data = data
        self.at = 0

    def take(self, count, what):
        check(len(self.data) - self.at >= count, f"the bytes end inside {what}, at byte {self.at}")
        self.at += count
        return self.data[self.at - count : self.at]

    def fields(self, layout, what):
        return struct.unpack("<" + layout, self.take(struct.calcsize("<" + layout), what))

    def one(self, layout, what):
        return self.fields(layout, what)[0]


def named(value):
    return "-" if value == NONE else str(value)


def pixel(reader):
    return " ".join(map(str, reader.fields("4B", "a colour")))


def rect_text(reader):
    return "[{} {} {} {}]".format(*reader.fields("4i", "a rectangle"))


def spot_text(reader):
    node, chain = reader.fields("HH", "a node and a chain")
    return f"node {node} chain {named(chain)} {rect_text(reader)}"


def radii_text(reader):
    return "radii {},{} {},{} {},{} {},{}".format(*reader.fields("8H", "radii"))


def dump_reference(reader):
    parent, x, y, prop = reader.fields("HiiH", "a reference frame")
    return f"reference_frame parent {parent} at {x} {y} prop {named(prop)}"


def dump_scroll(reader):
    parent, scroll, *sides = reader.fields("HH4I", "a scroll frame")
    return "scroll_frame parent {} number {} viewport {} {} content {} {}".format(parent, scroll, *sides)


def dump_rect_clip(reader):
    return f"rect_clip node {reader.one('H', 'a node')} {rect_text(reader)}"


def dump_round_clip(reader):
    node, out = reader.fields("HB", "a rounded clip")
    return f"round_clip node {node} {'out' if out else 'in'} {rect_text(reader)} {radii_text(reader)}"


def dump_chain(reader):
    parent, count = reader.fields("HB", "a chain")
    return f"chain parent {named(parent)} clips {' '.join(map(str, reader.fields(f'{count}H', 'clips')))}".rstrip()


def dump_solid(reader):
    return f"solid {spot_text(reader)} colour {pixel(reader)}"


def dump_image(reader):
    return "image {} key {} u {} v {}".format(spot_text(reader), *reader.fields("IHH", "an image"))


def dump_border(reader):
    spot = spot_text(reader)
    widths = "{} {} {} {}".format(*reader.fields("4H", "widths"))
    colours = ", ".join(pixel(reader) for _ in range(4))
    return f"border {spot} widths {widths} colours {colours} {radii_text(reader)}"


def dump_text(reader):
    spot = spot_text(reader)
    font = reader.one("H", "a font")
    px = pixel(reader)
    glyphs = " ".join("{}@{},{}".format(*reader.fields("Hii", "a glyph")) for _ in range(reader.one("H", "a count")))
    return f"text {spot} font {font} colour {px} glyphs {glyphs}".rstrip()


def dump_push(reader):
    node, chain, opacity, prop, mode, isolate = reader.fields("HHBHBB", "a context")
    name = MODES[mode] if mode < len(MODES) else f"unknown ({mode})"
    return f"push node {node} chain {named(chain)} opacity {opacity} prop {named(prop)} mode {name}{' isolate' if isolate else ''}"


def dump_iframe(reader):
    return f"iframe {spot_text(reader)} pipeline {reader.one('B', 'a pipeline')}"


def dump_hit_area(reader):
    return f"hit_area {spot_text(reader)} tag {reader.one('I', 'a tag')}"


PARTS = {
    1: dump_reference,
    2: dump_scroll,
    3: dump_rect_clip,
    4: dump_round_clip,
    5: dump_chain,
    6: dump_solid,
    7: dump_image,
    8: dump_border,
    9: dump_text,
    10: dump_push,
    11: lambda reader: "pop",
    12: dump_iframe,
    13: dump_hit_area,
}


def dump_list(data):
    """The lines of a list. Definitions are numbered as items name them."""
    reader, depth = Reader(data), 0
    numbers = {"node": 1, "clip": 0, "chain": 0}
    while True:
        tag = reader.one("B", "a list: no End")
        if tag == 0:
            break
        check(tag in PARTS, f"no part of a list begins with byte {tag}")
        line = PARTS[tag](reader)
        depth -= tag == 11 and depth > 0
        kind = {1: "node", 2: "node", 3: "clip", 4: "clip", 5: "chain"}.get(tag)
        if kind:
            line = f"{kind} {numbers[kind]}: {line}"
            numbers[kind] += 1
        yield "  " * depth + line
        depth += tag == 10
    yield "end"
    check(reader.at == len(data), "bytes after the list's End")


def dump_texels(reader, width, height):
    return f"{width}x{height}, {len(reader.take(4 * width * height, 'texels'))} bytes"


def dump_operation(reader):
    """The lines of one operation."""
    tag = reader.one("B", "an operation")
    if tag == 1:
        epoch, length = reader.fields("II", "a list's head")
        yield f"set_list epoch {epoch}"
        for line in dump_list(reader.take(length, "a list")):
            yield "  " + line
    elif tag == 2:
        yield "remove_pipeline"
    elif tag == 3:
        yield "scroll {} to {} {}".format(*reader.fields("Hii", "a scroll"))
    elif tag == 4:
        kind, prop = reader.fields("BH", "a property")
        check(kind < 2, f"there is no property of kind {kind}")
        values = reader.fields("ii", "an offset") if kind == 0 else reader.fields("B", "an opacity")
        yield f"set_{('offset', 'opacity')[kind]} {prop} to {' '.join(map(str, values))}"
    elif tag == 5:
        key, width, height = reader.fields("IHH", "an image")
        yield f"add_image {key} of {dump_texels(reader, width, height)}"
    elif tag == 6:
        key, x, y, width, height = reader.fields("IHHHH", "an update")
        yield f"update_image {key} at {x} {y} of {dump_texels(reader, width, height)}"
    elif tag == 7:
        yield f"delete_image {reader.one('I', 'a key')}"
    elif tag == 8:
        font, glyph, width, height = reader.fields("HHHH", "a glyph")
        yield f"add_glyph font {font} glyph {glyph} of {width}x{height}, {len(reader.take(width * height, 'a mask'))} bytes"
    elif tag == 9:
        yield f"delete_font {reader.one('H', 'a font')}"
    elif tag == 10:
        width, height = reader.fields("HH", "a view")
        yield f"set_view {width}x{height} clear {pixel(reader)}"
    elif tag == 11:
        yield "tile_policy {}x{} budget {}".format(*reader.fields("HHI", "a tile policy"))
    elif tag == 12:
        yield "drop_tiles"
    else:
        raise SceneError(f"no operation begins with byte {tag}")


def dump_payload(payload):
    """The lines of a transaction."""
    reader = Reader(payload)
    pipeline, flags, count = reader.fields("BBH", "a transaction's head")
    yield f"transaction of pipeline {pipeline}{' with a frame' if flags == 1 else ''}"
    for _ in range(count):
        for line in dump_operation(reader):
            yield "  " + line
    check(reader.at == len(payload), "bytes after a transaction's operations")


def dump(data):
    """The lines of a file. A SceneError ends them where the bytes are no file, or break off."""
    reader = Reader(data)
    check(reader.take(min(4, len(data)), "the magic") == b"WRT1", "the file doesn't begin with WRT1")
    while True:
        tag = reader.take(1, "the file: no closing byte")
        if tag == b"Z":
            break
        check(tag == b"T", f"no record begins with byte {tag[0]}, at byte {reader.at - 1}")
        yield from dump_payload(reader.take(reader.one("I", "a length"), "a payload"))
    check(reader.at == len(data), f"bytes after the closing byte, at byte {reader.at}")


def main(words):
    if len(words) != 2 or words[0] != "--dump":
        print("usage: scene.py --dump FILE", file=sys.stderr)
        return 2
    try:
        with open(words[1], "rb") as file:
            data = file.read()
        for line in dump(data):
            print(line)
    except (OSError, SceneError) as error:
        print(f"scene: {words[1]}: {error}", file=sys.stderr)
        return 1
    return 0


if __name__ == "__main__":
    sys.exit(main(sys.argv[1:]))
