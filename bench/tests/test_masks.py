"""Counts of masks against numbers that are known by hand, and against points: python3 -m unittest discover bench/tests"""
import random
import sys
import unittest
from pathlib import Path

sys.dont_write_bytecode = True
sys.path.insert(0, str(Path(__file__).resolve().parent.parent))
import counts
import masks


def circle(x, y, radius):
    return [((x + radius, y), (x + radius, y), (x, y), 1)]


def path(*places):
    return [(p, q, None, 0) for p, q in zip(places, [*places[1:], places[0]])]


def square(half):
    return path((-half, -half), (half, -half), (half, half), (-half, half))


def half_disc(radius):
    return [((radius, 0), (-radius, 0), (0, 0), 1), ((-radius, 0), (radius, 0), None, 0)]


# contours, and how many masks their free points have
KNOWN = [
    ("nothing", [], 1),
    ("one disc", [circle(0, 0, 5)], 2),
    ("the same disc twice", [circle(0, 0, 5), circle(0, 0, 5)], 2),
    ("two discs apart", [circle(0, 0, 5), circle(20, 0, 5)], 3),
    ("two discs that touch", [circle(0, 0, 5), circle(10, 0, 5)], 3),
    ("two discs that cross", [circle(0, 0, 5), circle(6, 0, 5)], 4),
    ("two discs with one centre", [circle(0, 0, 5), circle(0, 0, 7)], 3),
    ("a disc in another that it touches", [circle(0, 0, 5), circle(2, 0, 3)], 3),
    ("three discs with one common point of their circles, on all sides of it", [circle(5, 0, 5), circle(-5, 0, 5), circle(0, 5, 5)], 6),
    ("three discs that each cross the others", [circle(0, 0, 5), circle(6, 0, 5), circle(3, 4, 5)], 8),
    ("half a disc", [half_disc(5)], 4),
    ("a triangle", [path((0, 0), (9, 0), (0, 9))], 7),
    ("a square", [square(5)], 9),
    ("a square round a disc", [square(9), circle(0, 0, 5)], 10),
    ("a square round a disc that touches its sides", [square(5), circle(0, 0, 5)], 10),
    ("a square in a disc", [square(3), circle(0, 0, 5)], 17),
    ("a square whose corners are on a circle", [path((3, 4), (-4, 3), (-3, -4), (4, -3)), circle(0, 0, 5)], 13),
    # below the line, above it and in no disc, and in the last one, two or three of the discs
    ("discs that touch a line at one point", [path((-9, 0), (9, 0)), circle(0, 1, 1), circle(0, 2, 2), circle(0, 3, 3)], 5),
    ("discs that touch a line at one point from both sides", [path((-9, 0), (9, 0)), circle(0, 2, 2), circle(0, -2, 2)], 4),
    # the cells between the circles at their common point are cusps, on both sides of the line that is across them
    ("discs that touch one another at a point of a line", [path((0, -9), (0, 9)), circle(0, 1, 1), circle(0, 2, 2)], 6),
]


def masks_at(contours, places):
    """The masks of those of these places (x, y, w) that are free."""
    lines, circles = masks.curves_of(contours)
    found = set()
    for x, y, w in places:
        place = (masks.Surd(x), masks.Surd(y), w)
        signs = [masks.value(curve, place).sign() for curve in lines + circles]
        if 0 not in signs and all(masks.value(side, place).sign() > 0 for side in masks.sides_of(contours)):
            found.add(sum(1 << i for i, s in enumerate(signs) if s > 0))
    return found


def random_contours(chance):
    places = [(chance.randint(-9, 9), chance.randint(-9, 9)) for _ in range(chance.randint(2, 5))]
    discs = [circle(chance.randint(-9, 9), chance.randint(-9, 9), chance.randint(1, 9)) for _ in range(chance.randint(0, 4))]
    return [[element for element in path(*places) if element[0] != element[1]], *discs]


class Masks(unittest.TestCase):
    def test_known_counts(self):
        for name, contours, count in KNOWN:
            with self.subTest(name):
                self.assertEqual(len(masks.free_masks(contours)), count)

    def test_surds(self):
        for p, q, n, sign in [(0, 0, 0, 0), (-3, 2, 2, -1), (3, -2, 2, 1), (-7, 5, 2, 1), (7, -5, 2, -1), (-6, 3, 4, 0), (-1, -1, 3, -1)]:
            self.assertEqual(masks.Surd(p, q, n).sign(), sign)
        self.assertEqual((masks.Surd(1, 1, 2) * masks.Surd(-1, 1, 2) - masks.Surd(1)).sign(), 0)

    def test_points_of_a_fine_grid_have_these_masks_and_no_others(self):
        grid = [(x, y, 4) for x in range(-40, 41) for y in range(-40, 41)]
        contours = [path((-7, -5), (8, -6), (1, 9)), circle(0, 0, 6), circle(5, 1, 5)]
        self.assertEqual(masks.free_masks(contours), masks_at(contours, grid))

    def test_random_points_and_the_kept_candidates(self):
        chance = random.Random(5)
        for _ in range(60):
            contours = random_contours(chance)
            free = masks.free_masks(contours)
            places = [(chance.randint(-300, 300), chance.randint(-300, 300), chance.randint(10, 30)) for _ in range(300)]
            self.assertLessEqual(masks_at(contours, places), free)
            self.assertLessEqual(free, counts.kept_of(counts.lines_of(contours), counts.discs_of(contours), counts.tile_of(contours)))


class Kept(unittest.TestCase):
    def test_without_discs_all_candidates_are_kept(self):
        lines, tile = [(1, 0, 0), (0, 1, 0)], [[-5, 5], [-5, 5]]
        self.assertEqual((counts.candidates_of(lines, [], tile), len(counts.kept_of(lines, [], tile))), (4, 4))

    def test_a_region_whose_corner_is_the_nearest_place_to_a_disc(self):
        # the disc is above neither line, but no line cuts it off from the quarter above both
        lines, discs, tile = [(1, 0, 0), (0, 1, 0)], [(-4, -4, 25)], [[-20, 20], [-20, 20]]
        self.assertEqual((counts.candidates_of(lines, discs, tile), len(counts.kept_of(lines, discs, tile))), (8, 7))

    def test_a_region_beyond_the_crossings_of_two_circles(self):
        # right of the line each place in the left disc is in the right one
        lines, discs, tile = [(1, 0, 1)], [(-3, 0, 25), (3, 0, 25)], [[-20, 20], [-20, 20]]
        self.assertEqual((counts.candidates_of(lines, discs, tile), len(counts.kept_of(lines, discs, tile))), (8, 7))


if __name__ == "__main__":
    unittest.main()
