#!/usr/bin/env python3
"""Writes the example scenes: examples/window.wrt, dialog.wrt, modes.wrt, words.wrt and nested.wrt, and the scenes that
examples/reftest.list compares with them.

usage: tools/make_examples.py [FOLDER]

Each function is one scene, and shows how a test writer builds one with tools/scene.py.
"""

import os
import sys

import scene
from scene import rgb

WHITE = rgb(255, 255, 255)
PAPER = rgb(250, 250, 250)
SILVER = rgb(189, 195, 199)
GREY = rgb(127, 140, 141)
SLATE = rgb(44, 62, 80)
STEEL = rgb(52, 73, 94)
SUN = rgb(241, 196, 15)
RED = rgb(231, 76, 60)
BLUE = rgb(52, 152, 219)
GREEN = rgb(46, 204, 113)
VIOLET = rgb(155, 89, 182)

LETTERS = {
    "A": [".###.", "#...#", "#...#", "#####", "#...#", "#...#", "#...#"],
    "C": [".####", "#....", "#....", "#....", "#....", "#....", ".####"],
    "D": ["####.", "#...#", "#...#", "#...#", "#...#", "#...#", "####."],
    "E": ["#####", "#....", "#....", "####.", "#....", "#....", "#####"],
    "L": ["#....", "#....", "#....", "#....", "#....", "#....", "#####"],
    "N": ["#...#", "##..#", "#.#.#", "#..##", "#...#", "#...#", "#...#"],
    "O": [".###.", "#...#", "#...#", "#...#", "#...#", "#...#", ".###."],
    "P": ["####.", "#...#", "#...#", "####.", "#....", "#....", "#...."],
    "R": ["####.", "#...#", "#...#", "####.", "#.#..", "#..#.", "#...#"],
    "S": [".####", "#....", "#....", ".###.", "....#", "....#", "####."],
    "T": ["#####", "..#..", "..#..", "..#..", "..#..", "..#..", "..#.."],
    "V": ["#...#", "#...#", "#...#", "#...#", "#...#", ".#.#.", "..#.."],
    "W": ["#...#", "#...#", "#...#", "#.#.#", "#.#.#", "##.##", "#...#"],
    "Y": ["#...#", "#...#", ".#.#.", "..#..", "..#..", "..#..", "..#.."],
}


def add_font(transaction, letters, font=1):
    """A mask for each letter, five by seven dots; a dot covers all or nothing."""
    for letter in letters:
        rows = LETTERS[letter]
        transaction.add_glyph(font, ord(letter), 5, 7, [255 if dot == "#" else 0 for row in rows for dot in row])


def add_word(shown, rect, px, word, x, y, **place):
    shown.text(rect, 1, px, [(ord(letter), x + 7 * i, y) for i, letter in enumerate(word)], **place)


def checks(size, light, dark):
    return [light if (x // 2 + y // 2) % 2 == 0 else dark for y in range(size) for x in range(size)]


def round_chain(shown, rect, radius):
    """A chain of one rounded clip."""
    return shown.chain([shown.round_clip(rect, radius)])


# ---- a browser window with a page that scrolls


def shell():
    shown = scene.DisplayList()
    rounded = round_chain(shown, (8, 36, 232, 152), 12)
    shown.solid((0, 0, 240, 28), STEEL)
    add_word(shown, (0, 0, 240, 28), rgb(236, 240, 241), "WRREPLAY", 10, 10)
    shown.border((150, 6, 230, 22), 2, rgb(149, 165, 166), 8)
    shown.hit_area((150, 6, 230, 22), 1)
    shown.iframe((8, 36, 232, 152), 1, chain=rounded)
    with shown.group(opacity=200, prop=7):
        shown.solid((60, 132, 180, 148), SLATE)
    return shown


def add_card(shown, page, rounded, top, shade, mode):
    shown.border((12, top, 212, top + 76), 3, [SILVER, GREY] * 2, 10, node=page)
    with shown.group(isolate=True, node=page):
        shown.solid((24, top + 12, 84, top + 52), shade, node=page)
        with shown.group(mode=mode, node=page):
            shown.solid((56, top + 24, 116, top + 64), SUN, node=page)
    shown.image((136, top + 14, 196, top + 62), 3, node=page, chain=rounded)


def cards():
    shown = scene.DisplayList()
    page = shown.scroll_frame(5, (224, 116), (224, 340))
    rounded = shown.chain([shown.round_clip((136, 0, 196, 340), 6, node=page)])
    shown.solid((0, 0, 224, 340), PAPER, node=page)
    for i, (shade, mode) in enumerate([(RED, "multiply"), (BLUE, "screen"), (GREEN, "overlay"), (VIOLET, "difference")]):
        add_card(shown, page, rounded, 8 + 84 * i, shade, mode)
    return shown


def window():
    """The page stands in pipeline 1, which scrolls by itself; then the banner fades."""
    file = scene.File()
    page = file.transaction(pipeline=1, frame=False)
    page.add_image(3, 8, 8, checks(8, WHITE, rgb(26, 188, 156)))
    page.set_list(1, cards())
    start = file.transaction()
    start.set_view(240, 160, SILVER)
    add_font(start, "WREPLAY")
    start.set_list(1, shell())
    file.transaction(pipeline=1).scroll(5, 0, 90)
    file.transaction().set_opacity(7, 90)
    return file


# ---- a dialog with round corners and a shadow


def dialog(layers=8):
    """The shadow is some solids of little opacity, each two pixels smaller all round than the one before."""
    shown = scene.DisplayList()
    body = round_chain(shown, (40, 24, 200, 120), 10)
    for layer in range(layers):
        spread = 2 * (layers - layer)
        rect = (40 - spread, 30 - spread, 200 + spread, 126 + spread)
        shown.solid(rect, rgb(0, 0, 0, 16), chain=round_chain(shown, rect, 10 + spread))
    shown.solid((40, 24, 200, 120), PAPER, chain=body)
    shown.solid((40, 24, 200, 44), STEEL, chain=body)
    add_word(shown, (40, 24, 200, 44), WHITE, "CLOSE", 50, 31)
    shown.border((60, 92, 116, 110), 1, GREY, 4)
    shown.solid((124, 92, 180, 110), BLUE, chain=round_chain(shown, (124, 92, 180, 110), 4))
    add_word(shown, (60, 92, 116, 110), SLATE, "NO", 81, 98)
    add_word(shown, (124, 92, 180, 110), WHITE, "YES", 142, 98)
    file = scene.File()
    start = file.transaction()
    start.set_view(240, 150, rgb(214, 219, 223))
    add_font(start, "CLOSENY")
    start.set_list(1, shown)
    return file


# ---- all nine modes


def modes(isolate=True):
    """In each cell a disc of one colour, and over it, in one of the modes, a square of another. Where the cells aren't
    isolated, the squares blend with the paper as well."""
    shown = scene.DisplayList()
    shown.solid((0, 0, 200, 200), rgb(236, 240, 241))
    for i, mode in enumerate(scene.MODES):
        x, y = 8 + 64 * (i % 3), 8 + 64 * (i // 3)
        disc = round_chain(shown, (x, y, x + 40, y + 40), 20)
        with shown.group(isolate=isolate):
            shown.solid((x, y, x + 40, y + 40), rgb(230, 126, 34), chain=disc)
            with shown.group(mode=mode):
                shown.solid((x + 16, y + 16, x + 56, y + 56), rgb(41, 128, 185, 220))
    file = scene.File()
    start = file.transaction()
    start.set_view(200, 200, WHITE)
    start.set_list(1, shown)
    return file


# ---- words and borders


def words():
    """Borders of even and of uneven widths, and a word that is half outside of its rectangle."""
    shown = scene.DisplayList()
    shown.border((8, 8, 104, 40), 2, BLUE, 0)
    shown.border((112, 8, 208, 40), (8, 4, 2, 12), [RED, GREEN, BLUE, VIOLET], 0)
    shown.border((8, 48, 104, 96), 6, [RED, GREEN, BLUE, VIOLET], 20)
    shown.border((112, 48, 208, 96), (2, 10, 2, 10), SLATE, [(24, 12), (8, 8), (24, 12), (8, 8)])
    add_word(shown, (8, 8, 104, 40), SLATE, "SOLD", 42, 21)
    add_word(shown, (112, 8, 208, 40), SLATE, "WORDS", 146, 21)
    add_word(shown, (8, 48, 104, 96), rgb(44, 62, 80, 128), "PALE", 42, 69)
    add_word(shown, (112, 48, 160, 96), SLATE, "CLAPPED", 137, 69)
    file = scene.File()
    start = file.transaction()
    start.set_view(216, 104, PAPER)
    add_font(start, "SOLDWRPACE")
    start.set_list(1, shown)
    return file


# ---- Iframes within Iframes


def nested(inner_scroll=20):
    """Each pipeline draws a frame, a scrolled page of stripes, and the next pipeline in a smaller Iframe."""
    file = scene.File()
    depth = 4
    for pipeline in range(depth - 1, -1, -1):
        last = pipeline == 0
        transaction = file.transaction(pipeline=pipeline, frame=False)
        side = 192 - 40 * pipeline
        shown = scene.DisplayList()
        page = shown.scroll_frame(1, (side, side), (side, 2 * side))
        for i in range(0, 2 * side, 32):
            shown.solid((0, i, side, i + 16), [RED, GREEN, BLUE, VIOLET][pipeline], node=page)
        if pipeline + 1 < depth:
            clipped = round_chain(shown, (20, 20, side - 20, side - 20), 16)
            shown.iframe((20, 20, side - 20, side - 20), pipeline + 1, chain=clipped)
        shown.border((0, 0, side, side), 2, SLATE)
        if last:
            transaction.set_view(192, 192, WHITE)
        transaction.set_list(pipeline + 1, shown)
        transaction.frame = last
    file.transaction(pipeline=3).scroll(1, 0, inner_scroll)
    return file


SCENES = {
    "window": window,
    "dialog": dialog,
    "modes": modes,
    "words": words,
    "nested": nested,
    "dialog_without_shadow": lambda: dialog(layers=0),
    "modes_not_isolated": lambda: modes(isolate=False),
    "nested_scrolled_further": lambda: nested(inner_scroll=21),
    "nested_at_end": lambda: nested(inner_scroll=72),
    "nested_beyond_end": lambda: nested(inner_scroll=5000),
}


def main(words_given):
    folder = words_given[0] if words_given else os.path.join(os.path.dirname(os.path.abspath(__file__)), "..", "examples")
    for name, make in SCENES.items():
        make().write(os.path.join(folder, f"{name}.wrt"))
    return 0


if __name__ == "__main__":
    sys.exit(main(sys.argv[1:]))
