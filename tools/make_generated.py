#!/usr/bin/env python3
"""Writes the file that `wrreplay load NUMBER COUNT` answers, made a second time and by other code.

usage: tools/make_generated.py NUMBER COUNT > FILE

What is rolled stands in docs/FORMATS.md, "Generated files".
"""

import sys

import scene


class Die:
    """The rolls of a number."""

    def __init__(self, number):
        self.state = number

    def roll(self, n):
        self.state = (self.state * 6364136223846793005 + 1442695040888963407) % 2**64
        return self.state // 2**33 % n

    def colour(self):
        alpha = self.roll(256)
        return tuple(self.roll(alpha + 1) for _ in range(3)) + (alpha,)

    def grey(self):
        value = self.roll(256)
        return (value, value, value, 255)


def add_square(shown, die, page, rounded):
    kind, x, y = die.roll(4), die.roll(224), die.roll(672)
    rect = (x, y, x + 32, y + 32)
    if kind == 2:
        shown.image(rect, 1, node=page)
    elif kind == 3:
        shown.border(rect, 2, [die.colour() for _ in range(4)], 4, node=page)
    else:
        shown.solid(rect, die.colour(), node=page, chain=rounded if kind == 1 else None)


def rolled_list(die):
    shown = scene.DisplayList()
    page = shown.scroll_frame(1, (256, 192), (256, 704))
    rounded = shown.chain([shown.round_clip((16, 16, 240, 176), 8, node=page)])
    shown.solid((0, 0, 256, 704), (240, 240, 240, 255), node=page)
    for _ in range(16):
        add_square(shown, die, page, rounded)
    with shown.group(prop=1, mode=scene.MODES[die.roll(9)], node=page):
        for _ in range(4):
            x, y = die.roll(192), die.roll(640)
            shown.solid((x, y, x + 64, y + 64), die.colour(), node=page)
    shown.solid((0, 176, 256, 192), (0, 0, 0, 128))
    return shown


def add_change(transaction, die, k):
    kind = die.roll(4)
    if kind == 0:
        transaction.set_list(k, rolled_list(die))
    elif kind == 1:
        transaction.scroll(1, 0, die.roll(512))
    elif kind == 2:
        transaction.update_image(1, die.roll(4), die.roll(4), 1, 1, [die.grey()])
    else:
        transaction.set_opacity(1, die.roll(256))


def generated(number, count):
    die, file = Die(number), scene.File()
    start = file.transaction()
    start.set_view(256, 192, (255, 255, 255, 255))
    start.tile_policy(64, 64, 256)
    start.add_image(1, 4, 4, [die.grey() for _ in range(16)])
    start.set_list(0, rolled_list(die))
    for k in range(1, count):
        add_change(file.transaction(), die, k)
    return file


def main(words):
    if len(words) != 2 or not all(word.isdecimal() for word in words):
        print("usage: make_generated.py NUMBER COUNT", file=sys.stderr)
        return 2
    sys.stdout.buffer.write(generated(int(words[0]), int(words[1])).encode())
    return 0


if __name__ == "__main__":
    sys.exit(main(sys.argv[1:]))
