#!/usr/bin/env python3
"""Tries scene.py, make_examples.py and reftest.py on good and on broken files.

Where wrreplay isn't built, a stand-in that copies its input takes its place in the tests of reftest.py.
"""

import contextlib
import io
import os
import stat
import struct
import sys
import tempfile
import unittest

sys.path.insert(0, os.path.dirname(os.path.abspath(__file__)))

import make_examples
import reftest
import scene

EXAMPLES = os.path.join(os.path.dirname(os.path.abspath(__file__)), "..", "examples")
RED = scene.rgb(255, 0, 0)


def captured(call, *arguments):
    """The result of a call, and what it printed."""
    out, err = io.StringIO(), io.StringIO()
    with contextlib.redirect_stdout(out), contextlib.redirect_stderr(err):
        result = call(*arguments)
    return result, out.getvalue(), err.getvalue()


class Scenes(unittest.TestCase):
    def refused(self, call, words):
        with self.assertRaisesRegex(scene.SceneError, words):
            call()

    def test_a_small_file_has_the_stored_bytes(self):
        shown = scene.DisplayList()
        shown.solid((0, 0, 1, 2), (0, 0, 128, 128))
        file = scene.File()
        start = file.transaction()
        start.set_view(2, 2, scene.rgb(255, 255, 255))
        start.set_list(1, shown)
        with open(os.path.join(EXAMPLES, "half_red.wrt"), "rb") as stored:
            self.assertEqual(file.encode(), stored.read())

    def test_the_examples_are_what_is_stored(self):
        for name, make in make_examples.SCENES.items():
            with self.subTest(name), open(os.path.join(EXAMPLES, f"{name}.wrt"), "rb") as stored:
                self.assertEqual(make().encode(), stored.read())

    def test_every_form_is_printed(self):
        shown = scene.DisplayList()
        moved = shown.reference_frame(3, 4, prop=2)
        page = shown.scroll_frame(9, (10, 20), (10, 40), parent=moved)
        rect, hole = shown.rect_clip((0, 0, 5, 5), node=page), shown.round_clip((0, 0, 8, 8), 2, out=True)
        outer = shown.chain([rect])
        inner = shown.chain([hole], parent=outer)
        with shown.group(opacity=9, mode="screen", isolate=True, prop=1, node=moved, chain=inner):
            shown.solid((0, 0, 1, 1), RED, node=page, chain=inner)
            shown.image((0, 0, 4, 4), 7, 1, 2)
            shown.border((0, 0, 9, 9), (1, 2, 3, 4), [RED] * 4, [(1, 2), (2, 1), (1, 1), (2, 2)])
            shown.text((0, 0, 9, 9), 3, RED, [(65, 1, -2)])
        shown.iframe((0, 0, 3, 3), 5)
        shown.hit_area((0, 0, 3, 3), 6)
        file = scene.File()
        first = file.transaction(frame=False)
        first.set_view(3, 3, RED)
        first.tile_policy(64, 128, 5)
        first.drop_tiles()
        first.add_image(7, 1, 1, [RED])
        first.update_image(7, 0, 0, 1, 1, [RED])
        first.add_glyph(3, 65, 2, 1, [0, 255])
        first.set_list(8, shown)
        second = file.transaction(pipeline=5)
        second.scroll(9, 0, -3)
        second.set_offset(2, -1, 1)
        second.set_opacity(1, 200)
        second.delete_image(7)
        second.delete_font(3)
        second.remove_pipeline()
        lines = list(scene.dump(file.encode()))
        self.assertEqual(
            lines,
            [
                "transaction of pipeline 0",
                "  set_view 3x3 clear 0 0 255 255",
                "  tile_policy 64x128 budget 5",
                "  drop_tiles",
                "  add_image 7 of 1x1, 4 bytes",
                "  update_image 7 at 0 0 of 1x1, 4 bytes",
                "  add_glyph font 3 glyph 65 of 2x1, 2 bytes",
                "  set_list epoch 8",
                "    node 1: reference_frame parent 0 at 3 4 prop 2",
                "    node 2: scroll_frame parent 1 number 9 viewport 10 20 content 10 40",
                "    clip 0: rect_clip node 2 [0 0 5 5]",
                "    clip 1: round_clip node 0 out [0 0 8 8] radii 2,2 2,2 2,2 2,2",
                "    chain 0: chain parent - clips 0",
                "    chain 1: chain parent 0 clips 1",
                "    push node 1 chain 1 opacity 9 prop 1 mode screen isolate",
                "      solid node 2 chain 1 [0 0 1 1] colour 0 0 255 255",
                "      image node 0 chain - [0 0 4 4] key 7 u 1 v 2",
                "      border node 0 chain - [0 0 9 9] widths 1 2 3 4 colours 0 0 255 255, 0 0 255 255, 0 0 255 255, 0 0 255 255 radii 1,2 2,1 1,1 2,2",
                "      text node 0 chain - [0 0 9 9] font 3 colour 0 0 255 255 glyphs 65@1,-2",
                "    pop",
                "    iframe node 0 chain - [0 0 3 3] pipeline 5",
                "    hit_area node 0 chain - [0 0 3 3] tag 6",
                "    end",
                "transaction of pipeline 5 with a frame",
                "  scroll 9 to 0 -3",
                "  set_offset 2 to -1 1",
                "  set_opacity 1 to 200",
                "  delete_image 7",
                "  delete_font 3",
                "  remove_pipeline",
            ],
        )

    def test_what_cannot_stand_is_refused(self):
        shown = scene.DisplayList()
        transaction = scene.Transaction(pipeline=1)
        self.refused(lambda: shown.solid((1, 0, 0, 1), RED), "isn't in order")
        self.refused(lambda: shown.solid((0, 0, 1048577, 1), RED), "further than")
        self.refused(lambda: shown.solid((0, 0, 1, 1), (9, 0, 0, 8)), "isn't premultiplied")
        self.refused(lambda: shown.solid((0, 0, 1, 1), RED, node=1), "no node 1")
        self.refused(lambda: shown.solid((0, 0, 1, 1), RED, chain=0), "no chain 0")
        self.refused(lambda: shown.chain([0]), "no clip 0")
        self.refused(lambda: shown.round_clip((0, 0, 4, 4), 3), "exceed a side")
        self.refused(lambda: shown.border((0, 0, 4, 4), 3, RED), "exceed a side")
        self.refused(lambda: shown.iframe((0, 0, 1, 1), 64), "0 to 63")
        self.refused(lambda: shown.group(mode="burn").__enter__(), "no mode 'burn'")
        self.refused(lambda: transaction.set_view(1, 1, RED), "for pipeline 0 alone")
        self.refused(lambda: transaction.set_opacity(65535, 1), "65535")
        self.refused(lambda: transaction.add_image(1, 2, 2, [RED]), "1 texels for 2 by 2")
        self.refused(lambda: transaction.add_glyph(1, 1, 0, 1, []), "a width is 0")

    def test_a_broken_file_is_refused_with_a_message(self):
        with open(os.path.join(EXAMPLES, "window.wrt"), "rb") as stored:
            whole = stored.read()
        with tempfile.TemporaryDirectory() as folder:
            path = os.path.join(folder, "cut.wrt")
            for count in (0, 3, 4, 5, 20, 300, len(whole) - 1):
                with open(path, "wb") as cut:
                    cut.write(whole[:count])
                status, _, message = captured(scene.main, ["--dump", path])
                self.assertEqual(status, 1)
                self.assertIn("scene: ", message)
        self.assertEqual(captured(scene.main, ["--dump", "no-such-file"])[0], 1)
        self.assertEqual(captured(scene.main, [])[0], 2)


def answers(*frames):
    """A file of answers of frames one pixel high."""
    records = [b"F" + struct.pack("<HHB", len(pixels), 1, 0) + b"".join(bytes(pixel) for pixel in pixels) for pixels in frames]
    return b"WRF1" + b"".join(records) + b"Z"


class ReferenceTests(unittest.TestCase):
    def setUp(self):
        self.folder = tempfile.TemporaryDirectory()
        self.addCleanup(self.folder.cleanup)
        self.out = self.path("out")
        # A stand-in for the program: a .wrt file here holds the answers to it.
        self.write("copy", b"#!/bin/sh\ncat\n")
        os.chmod(self.path("copy"), stat.S_IRWXU)

    def path(self, name):
        return os.path.join(self.folder.name, name)

    def write(self, name, data):
        with open(self.path(name), "wb") as file:
            file.write(data)

    def run_list(self, *lines):
        self.write("list", "\n".join(lines).encode())
        return captured(reftest.main, ["--program", self.path("copy"), "--out", self.out, self.path("list")])

    def test_equal_and_different_frames(self):
        self.write("a.wrt", answers([(0, 0, 0, 255)]))
        self.write("b.wrt", answers([(0, 2, 0, 255)]))
        status, told, _ = self.run_list("# a comment", "", "== a.wrt a.wrt", "!= a.wrt b.wrt", "fuzzy(2,1) == a.wrt b.wrt  # nearly")
        self.assertEqual((status, told.splitlines()[-1]), (0, "3 passed, 0 failed"))
        status, told, _ = self.run_list("== a.wrt b.wrt", "!= a.wrt a.wrt", "fuzzy(1,1) == a.wrt b.wrt", "fuzzy(2,0) == a.wrt b.wrt")
        self.assertEqual((status, told.splitlines()[-1]), (1, "0 passed, 4 failed"))
        self.assertIn("frame 1: 1 pixels differ, by at most 2", told)
        self.assertTrue(os.path.exists(os.path.join(self.out, "test1-frame1-difference.png")))

    def test_later_frames_counts_and_sides(self):
        self.write("a.wrt", answers([RED], [RED]))
        self.write("b.wrt", answers([RED], [(0, 0, 0, 255)]))
        self.write("c.wrf", answers([RED]))
        self.write("d.wrf", answers([RED, RED]))
        _, told, _ = self.run_list("== a.wrt b.wrt", "== a.wrt c.wrf", "== c.wrf d.wrf")
        self.assertIn("frame 2: 1 pixels differ", told)
        self.assertIn("2 frames and 1", told)
        self.assertIn("frame 1 is 1x1 and 2x1", told)

    def test_files_without_frames_and_broken_ones_fail(self):
        self.write("empty.wrf", b"WRF1Z")
        self.write("cut.wrf", answers([RED])[:-1])
        self.write("other.wrf", b"GIF8")
        self.write("good.wrf", answers([RED]))
        for name in ("empty.wrf", "cut.wrf", "other.wrf", "missing.wrf"):
            status, told, _ = self.run_list(f"!= good.wrf {name}")
            self.assertEqual(status, 1, name)
            self.assertIn("FAIL", told)
        status, _, message = self.run_list("=== a b")
        self.assertEqual(status, 1)
        self.assertIn("no test", message)


if __name__ == "__main__":
    unittest.main()
