"""The second reading of contours and texts, on cases that are known by hand and on the stored examples:
python3 -m unittest discover hostile/tests"""
import random
import sys
import unittest
from pathlib import Path

sys.dont_write_bytecode = True
TOP = Path(__file__).resolve().parent.parent.parent
sys.path[:0] = [str(TOP / "hostile"), str(TOP / "examples")]
import exact
from boundaries import contours

UPPER_HALF = [((5, 0), (-5, 0), (0, 0), 1), ((-5, 0), (5, 0), None, 0)]
TURNED = [((-5, 0), (5, 0), (0, 0), -1), ((5, 0), (-5, 0), None, 0)]
MAJOR = [((3, -4), (3, 4), (0, 0), -1), ((3, 4), (3, -4), None, 0)]


class Odd(unittest.TestCase):
    def test_half_a_disc(self):
        for name, elements in (("anticlockwise", UPPER_HALF), ("clockwise", TURNED)):
            for point, odd in [((0, 1, 1), True), ((0, -1, 1), False), ((0, 6, 1), False), ((-5, 1, 1), False), ((-9, 1, 2), True), ((5, 1, 1), False)]:
                with self.subTest(name, point=point):
                    self.assertEqual(exact.is_odd(elements, point), odd)

    def test_more_than_half_a_disc(self):
        for point, odd in [((0, 0, 1), True), ((-5, 1, 1), False), ((4, 0, 1), False), ((0, 9, 2), True), ((3, 9, 1), False), ((5, 5, 2), True)]:
            with self.subTest(point=point):
                self.assertEqual(exact.is_odd(MAJOR, point), odd)

    def test_above_the_ends_of_elements(self):
        square = [(p, q, None, 0) for p, q in zip([(0, 0), (4, 0), (4, 4), (0, 4)], [(4, 0), (4, 4), (0, 4), (0, 0)])]
        for point, odd in [((2, 2, 1), True), ((2, 6, 1), False), ((0, 6, 1), False), ((4, 6, 1), False)]:
            self.assertEqual(exact.is_odd(square, point), odd)


class Texts(unittest.TestCase):
    def test_operators_and_leaves(self):
        tile, disc = "translate([0,0,0]) square([4,4]);", "translate([4,4,0]) circle(r=sqrt(4)); // a disc"
        points = [(1, 1, 1), (7, 7, 2), (5, 5, 1), (9, 9, 1)]
        for operator, bits in [("union", 0b0111), ("intersection", 0b0010), ("difference", 0b0001)]:
            self.assertEqual(exact.Formula(f"{operator}() {{ {tile} {disc}\n }}", points).bits, bits)
        self.assertEqual(exact.Formula("union() { }", points).bits, 0)

    def test_a_strip(self):
        rows = "[4,-3,0,1],[3,4,0,2],[0,0,1,0],[0,0,0,1]"
        text = f"multmatrix([{rows}]) translate([-8192,0,0]) square([16384,8192]);"
        self.assertEqual(exact.Formula(text, [(1, 2, 1), (0, 4, 1), (5, 4, 1), (0, 2, 1)]).bits, 0b1011)

    def test_stored_texts_hold_where_the_contours_are_odd(self):
        for boundary in sorted(Path(TOP, "examples").glob("*.ngc")):
            elements = [element for contour in contours(boundary.read_text()) for element in contour]
            chance = random.Random(3)
            # (few points have so large a denominator and are on an edge)
            points = [(chance.randint(-99 * 997, 99 * 997), chance.randint(-99 * 991, 99 * 991), 997) for _ in range(2000)]
            bits = exact.Formula(boundary.with_suffix(".scad").read_text(), points).bits
            with self.subTest(boundary.name):
                self.assertEqual(bits, exact.packed(exact.is_odd(elements, point) for point in points))


if __name__ == "__main__":
    unittest.main()
