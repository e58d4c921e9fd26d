"""Cells, exact masks of arcs, candidates and parities, against counting and against many points."""

import random
import unittest

from judging.cells import cells_of, inner
from judging.requests import read_boundary
from judging.setting import Setting
from judging.sweep import Root, compare
from judging.tables import row_at
from judging.trials import plate, stair
from judging.vectors import Numbers, dot, leading


def contours(text: bytes) -> Setting:
    """The setting of some contours."""
    return Setting((read_boundary("contour", text),))


class CellTest(unittest.TestCase):
    """Cells by vertices and signs."""

    def test_planes_in_general_position(self) -> None:
        dice = random.Random(4)
        rows = [row_at(leading((dice.randint(1, 90), dice.randint(-90, 90), 97)), (1, 2, 3 + k)) for k in range(7)]
        far = 100_000
        cells = cells_of(((-far,) * 3, (far,) * 3), rows)
        self.assertEqual(len(cells), 1 + 7 + 21 + 35)

    def test_planes_through_one_point(self) -> None:
        rows: list[Numbers] = [(1, 0, 0, 0), (0, 1, 0, 0), (1, 1, 0, 0), (0, 0, 1, 0), (1, 1, 1, 0), (1, -1, 2, 0)]
        cells = cells_of(((-5,) * 3, (5,) * 3), rows)
        found = set()
        for x in range(-9, 10):
            for y in range(-9, 10):
                for z in range(-9, 10):
                    values = [dot(row, (4 * x + 1, 4 * y + 2, 8 * z + 1, 9)) for row in rows]
                    if all(values):
                        found.add(sum((side > 0) << at for at, side in enumerate(values)))
        self.assertEqual(set(cells), found)

    def test_each_inner_point_has_its_mask(self) -> None:
        setting = Setting((read_boundary("off", stair(6)),))
        for mask, corners in setting.regions.items():
            self.assertTrue(setting.is_free(inner(corners)))
            self.assertEqual(setting.table.mask(inner(corners)), mask)

    def test_counts_of_trials(self) -> None:
        steps = Setting((read_boundary("off", stair(10)),))
        self.assertEqual((len(steps.free), sum(steps.free.values())), (432, 55))
        holes = contours(plate(4))
        self.assertEqual((len(holes.every), sum(holes.every.values())), (13, 1))


class SweepTest(unittest.TestCase):
    """Exact masks of lines and discs."""

    def test_roots_in_order(self) -> None:
        ordered = [Root(0, -1, 8, 2), Root(-1, 0, 0, 1), Root(0, 0, 0, 7), Root(3, -1, 2, 1)]
        ordered += [Root(0, 1, 3, 1), Root(3, 1, 2, 1)]
        for i, one in enumerate(ordered):
            for j, other in enumerate(ordered):
                self.assertEqual(compare(one, other), (i > j) - (i < j))
        self.assertEqual(compare(Root(0, 1, 8, 2), Root(0, 1, 2, 1)), 0)
        self.assertEqual(compare(Root(1, 1, 0, 1), Root(2, 0, 0, 2)), 0)

    def test_masks_of_random_contours(self) -> None:
        for seed in range(12):
            dice = random.Random(seed)
            circles = [(dice.randint(-9, 9), dice.randint(-9, 9), dice.randint(1, 8)) for _ in range(4)]
            text = "".join(f"G0 X{x + r} Y{y}\nG3 I-{r}\n" for x, y, r in circles)
            setting = contours(f"{text}G0 X0 Y0\nG1 X9 Y3\nX{dice.randint(-9, 9)} Y9\nX0 Y0".encode())
            for mask, p in setting.points.items():
                self.assertTrue(setting.is_free(p) and setting.table.mask(p) == mask)
                self.assertEqual(setting.lean[mask], setting.is_odd(p))
            self.assertLessEqual(set(setting.free), set(setting.lean))
            self.assertLessEqual(set(setting.lean), set(setting.every))
            self.assertLessEqual(set(setting.sampled), set(setting.free))
            for _ in range(3000):
                p = (dice.randint(-2000, 2000), dice.randint(-2000, 2000), 113)
                if setting.is_free(p):
                    self.assertEqual(setting.free[setting.table.mask(p)], setting.is_odd(p))

    def test_discs_that_touch(self) -> None:
        outside = contours(b"G0 X5 Y0\nG3 I-5\nG0 X11 Y0\nG3 I-3\n")
        self.assertEqual(sorted(outside.free), [0, 1, 2])
        within = contours(b"G0 X5 Y0\nG3 I-5\nG0 X5 Y0\nG1 X5 Y0\nG3 I-2\n")
        self.assertEqual(sorted(within.free), [0, 1, 3])
        line = contours(b"G0 X5 Y0\nG3 I-5\nG0 X-9 Y5\nG1 X9 Y5\nY8\nX-9\nY5")
        self.assertNotIn(1 | 1 << len(line.table.flat), line.free)


if __name__ == "__main__":
    unittest.main()
