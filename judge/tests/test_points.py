"""Random points find what a text says wrongly, whatever is known of masks."""

import random
import unittest

from judging.formulas import Wrong, check_points, tree_of
from judging.requests import read_boundary
from judging.setting import Setting
from judging.trees import Node, Tree
from judging.answers import formula


class PointsTest(unittest.TestCase):
    """The points at which texts of a square are tried."""

    def setUp(self) -> None:
        self.setting = Setting((read_boundary("contour", b"G1 X40\nY40\nX0\nY0\n"),))
        self.right = tree_of(formula(self.setting)[0], self.setting)

    def fault(self, tree: Tree, count: int) -> str:
        """What a number of random points shows."""
        try:
            check_points(tree, self.setting, count, random.Random(7))
        except Wrong as wrong:
            return str(wrong)
        return ""

    def test_points_of_masks_and_random_ones(self) -> None:
        self.assertEqual(self.fault(self.right, 300), "")
        self.assertIn("text and boundary differ", self.fault(Node("union", ()), 300))
        self.setting.points.clear()
        self.assertIn("text and boundary differ", self.fault(Node("union", ()), 300))
        self.assertIn("outside the box", self.fault(Node("union", (self.right, self.setting.leaves[0])), 300))


if __name__ == "__main__":
    unittest.main()
