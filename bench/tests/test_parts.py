"""The parts with arcs are closed and within the limits of a conversion, and nearly all that is kept of them has a point:
python3 -m unittest discover bench/tests"""
import sys
import unittest
from pathlib import Path

sys.dont_write_bytecode = True
sys.path.insert(0, str(Path(__file__).resolve().parent.parent))
import inputs
import masks
import parts


def square(p, q):
    return (p[0] - q[0]) ** 2 + (p[1] - q[1]) ** 2


class Parts(unittest.TestCase):
    def test_there_are_24_of_different_names(self):
        self.assertEqual(len({name for name, _ in parts.texts()}), 24)

    def test_contours_are_closed_and_their_arcs_have_one_radius(self):
        for name, text in parts.texts():
            for contour in inputs.Boundary("contour", text).contours():
                with self.subTest(name):
                    self.assertEqual([e[1] for e in contour], [e[0] for e in contour[1:] + contour[:1]])
                    self.assertEqual([square(e[0], e[2]) for e in contour if e[2]], [square(e[1], e[2]) for e in contour if e[2]])

    def test_they_have_arcs_and_are_within_the_limits(self):
        for name, text in parts.texts():
            contours = inputs.Boundary("contour", text).contours()
            lines, circles = masks.curves_of(contours)
            with self.subTest(name):
                self.assertLessEqual(len(lines), 40)
                self.assertIn(len(circles), range(1, 11))
                self.assertLessEqual(max(abs(x) for contour in contours for start, _, _, _ in contour for x in start), 1023)

    def test_no_mask_with_a_free_point_is_lost_and_few_others_are_kept(self):
        same = 0
        for name, boundary in inputs.part_cases():
            kept, free = boundary.masks
            with self.subTest(name):
                self.assertLessEqual(free, kept)
            same += kept == free
        self.assertEqual(same, 22)


if __name__ == "__main__":
    unittest.main()
