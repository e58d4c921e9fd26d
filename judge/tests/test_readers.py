"""Readers: numbers, words, joined texts, layers and leaves, where the worked rows say nothing."""

import unittest

from judging.contours import check_contours, read_contours
from judging.csg import read_tree
from judging.layers import read_layers
from judging.requests import read_given, request_of
from judging.texts import Refusal, Stop, lines_of, number_word, parts_of
from judging.trees import Leaf, Node, depths, holds, leaf_words, short_form


class TextTest(unittest.TestCase):
    """Lines, numbers and parts."""

    def test_numbers(self) -> None:
        for word, value in ((b"+4.", 4), (b"1.000", 1), (b"-0", 0), (b"01", 1), (b"-.0", 0), (b"9" * 40, 1 << 62)):
            self.assertEqual(number_word(word), value)
        self.assertEqual(number_word(b".5"), "NotWhole")
        for word in (b".", b"1e3", b"+", b"", b"1 "):
            self.assertEqual(number_word(word), "BadWord")

    def test_lines(self) -> None:
        self.assertEqual(lines_of(b"a\n\nb"), [b"a", b"", b"b"])
        self.assertEqual(lines_of(b"a\n"), [b"a"])
        self.assertEqual(lines_of(b""), [])

    def test_parts(self) -> None:
        self.assertEqual(parts_of(b"a\n====\r\nb\n====\n"), (b"a\n", b"b\n====\n"))
        self.assertEqual(parts_of(b"===="), (b"", b""))
        with self.assertRaises(Refusal):
            parts_of(b"=====\n ====\n")


class ReaderTest(unittest.TestCase):
    """Boundaries and trees."""

    def test_spellings_of_one_contour(self) -> None:
        plain = read_contours(b"G01 X4 Y0\nG01 X4 Y4\nG01 X0 Y0\n")
        self.assertEqual(len(plain), 3)
        for text in (b"g1x4y0\nY4.\n(;)X+0Y-0;G91\n", b"G01 X4\n%G9\nN5 T1 Y4 (a) F9\n\tX00 Y0\r\nM30\n?"):
            self.assertEqual(read_contours(text), plain)

    def test_a_full_circle_of_an_earlier_mode(self) -> None:
        self.assertEqual(len(check_contours(read_contours(b"G0 X5\nG3 I-5\nG0 X9\nX7 Y0\nG2 J3"))), 2)

    def test_sections_are_slices(self) -> None:
        sections = read_layers(b" \n  LAYER 1 2 # a\nG00\n\nLAYER 2. +3\r\nX")
        self.assertEqual([section.text for section in sections], [b"G00\n\n", b"X"])
        for text in (b"#\nx\nLAYER 0 1", b"LAYER", b"LAYER 0 1 2", b"LAYER 0 1024"):
            with self.assertRaises(Refusal):
                read_layers(text)

    def test_usage(self) -> None:
        for words in ("side off 1 2 3 0", "ask +1 0 0 1", "ask 0 0 0 1.", "trial off 0", "trial contour 011"):
            with self.assertRaises(Stop) as caught:
                request_of(words.split())
            self.assertEqual(caught.exception.status, 3)
        self.assertEqual(request_of("trial off 0018".split()).steps, 18)
        self.assertEqual(request_of("ask -00 -0 07 01".split()).point, (0, 0, 7, 1))

    def test_order_of_faults(self) -> None:
        with self.assertRaises(Refusal) as caught:
            read_given("side contour 9999999999999999999999 0 1 1".split(), b"?")
        self.assertEqual(caught.exception.why, "PointTooFine")


class TreeTest(unittest.TestCase):
    """Leaves: spellings and sets."""

    def test_spellings_say_one_leaf(self) -> None:
        slabs = [Leaf("slab", (0, -5, 3, 0, -1, 0)), Leaf("slab", (1, 2, 3, 0, 2, -3))]
        for leaf in (Leaf("strip", (10, 0, 0, 1)), *slabs):
            for long in (True, False):
                self.assertEqual(read_tree(leaf_words(leaf, long).encode() + b";"), leaf)
        self.assertEqual(short_form(Leaf("strip", (10, 0, 0, 1))), (-8182, -8192, 8192, 16384))

    def test_a_slab_by_its_directions(self) -> None:
        slab = Leaf("slab", (1, 2, 3, 2, -1, 2))
        u, v, n = (-1, -2, 0), (2, 0, -2), (2, -1, 2)
        for s, t, k, wanted in ((8192, -8192, 0, True), (8193, 0, 1, False), (0, 5, 8192, True), (0, 0, -1, False)):
            p = tuple(o + s * a + t * b + k * c for o, a, b, c in zip((1, 2, 3), u, v, n)) + (1,)
            self.assertEqual(min(depths(slab, p)) >= 0, wanted)
            self.assertEqual(min(depths(slab, p)) == 0, wanted)

    def test_operators(self) -> None:
        one, other = Leaf("tile", (0, 0, 2, 2)), Leaf("disc", (0, 0, 1))
        self.assertTrue(holds(Node("difference", (one, other)), (3, 3, 2)))
        self.assertFalse(holds(Node("difference", (one, other)), (1, 1, 2)))
        self.assertFalse(holds(Node("union", ()), (0, 0, 1)))


if __name__ == "__main__":
    unittest.main()
