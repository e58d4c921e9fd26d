"""Meshes: one factor for each axis, moves, planes that stay plane, and what is mended."""

from __future__ import annotations

import math
import unittest
from fractions import Fraction

from common import Case, Wishes
from making import Faces, back, box, mapped, plate_with_hole, prism, ring, stl_bytes, stl_text, triangles, turned


class FactorTest(Case):
    """Which factor and which move an axis has."""

    def test_whole_coordinates_stay_as_they_are(self) -> None:
        result = self.mesh(box(40, 30, 20, (-7, 3, 0)))
        self.assertEqual((result.scales, result.moves, result.moved), ([1, 1, 1], [0, 0, 0], 0))

    def test_fractions_have_one_factor_where_one_serves(self) -> None:
        result = self.mesh(box(40.5, 30.25, 20))
        self.assertEqual((result.scales, result.moved), ([4, 4, 4], 0))

    def test_inches_in_millimetres(self) -> None:
        result = self.mesh(box(25.4, 3.81, 12.7))
        self.assertEqual(result.moved, 0)
        self.assertEqual(result.scales[0].denominator % 127, 0)

    def test_each_axis_has_its_own_factor_where_one_does_not_serve(self) -> None:
        result = self.mesh(box(1.001, 33, 700))
        self.assertEqual(result.moved, 0)
        self.assertGreater(len(set(result.scales)), 1)

    def test_two_values_in_the_noise_have_the_simplest_factor(self) -> None:
        result = self.mesh(box(0.0200000001, 0.02, 0.0199999999), form="{:.10f}")
        self.assertEqual(len(set(result.scales)), 1)
        self.assertEqual(result.scales[0] % 50, 0)
        self.assertLess(result.moved, 1e-7)

    def test_long_parts_are_moved_to_the_middle(self) -> None:
        result = self.mesh(box(1500, 40, 30))
        self.assertEqual((result.scales[0], result.moves[0]), (1, -750))

    def test_parts_past_the_reach_are_made_smaller(self) -> None:
        result = self.mesh(box(5000, 2500, 50))
        self.assertLess(result.scales[0], 1)
        self.assertEqual(result.moved, 0)

    def test_a_part_far_from_the_origin_is_moved(self) -> None:
        result = self.mesh(box(40, 30, 20, (100_000, -50_000, 7)))
        self.assertEqual((result.scales[0], result.moves[0]), (1, -100_000))

    def test_singles_far_from_the_origin_have_coarse_steps(self) -> None:
        part = box(40.1, 30.3, 20.7, (100_000.3, -50_000.1, 0.2))
        result = self.given("far.stl", stl_bytes(part))
        self.same_mesh(part, result, 40)

    def test_singles_are_the_decimals_that_were_meant(self) -> None:
        result = self.given("a.stl", stl_bytes(box(0.1, 0.3, 0.7)))
        self.assertEqual((result.moved, set(result.scales)), (0, {Fraction(result.scales[0])}))

    def test_tiny_parts_are_enlarged(self) -> None:
        result = self.mesh(box(1, 1, 1))
        self.assertGreaterEqual(result.scales[0], 10)

    def test_six_digits_are_noise(self) -> None:
        part = mapped(box(1 / 3, 2 / 3, 1), (10, 10, 10))
        result = self.mesh(part, form="{:.6g}")
        self.assertEqual(len(set(result.scales)), 1)
        self.assertEqual((result.scales[0] * 10 / 3).denominator, 1)
        self.assertLess(result.moved, 1e-5)


class GivenFactorTest(Case):
    """--factor is used as it is."""

    def factor(self, *values: str) -> Wishes:
        return Wishes(factors=[Fraction(it) for it in values])

    def test_a_factor_is_used_as_it_is(self) -> None:
        result = self.mesh(box(40, 30.5, 20), self.factor("6", "6", "6"))
        self.assertEqual((result.scales, result.moved), ([6, 6, 6], 0))
        result = self.mesh(box(40, 30.5, 20), self.factor("3", "10", "1/2"))
        self.assertEqual(result.scales, [3, 10, Fraction(1, 2)])

    def test_a_factor_that_moves_corners_too_far_is_refused(self) -> None:
        why = self.refused("a.stl", stl_text(box(40, 30.3, 20)), self.factor("1"))
        self.assertIn("would move by 0.15", why)
        self.assertIn("--coarse", why)
        coarse = Wishes(factors=[Fraction(1)] * 3, is_coarse=True)
        self.assertAlmostEqual(self.given("a.stl", stl_text(box(40, 30.3, 20)), coarse).moved, 0.15, 2)

    def test_a_factor_past_the_reach_is_refused(self) -> None:
        self.assertIn("4000 long in x", self.refused("a.stl", stl_text(box(40, 30, 20)), self.factor("100")))


class PlaneTest(Case):
    """Planes stay plane, and are as many as they were."""

    def planes(self, faces: Faces, count: int) -> None:
        self.assertEqual(self.mesh(faces).counts, f"planes {count}")

    def test_triangles_of_one_plane_are_one_face(self) -> None:
        result = self.mesh(triangles(plate_with_hole(8)))
        self.assertEqual(result.counts, "planes 14")
        # (a hole in a face is one more face)
        self.assertEqual(result.text.splitlines()[1].split()[:2], ["24", "16"])

    def test_round_holes_and_shafts(self) -> None:
        self.planes(plate_with_hole(24, 4.3), 30)
        self.planes(prism(ring(10, 36), 0, 5), 38)

    def test_prisms_along_each_axis(self) -> None:
        for axis in (0, 1, 2):
            self.planes(turned(prism(ring(10, 7, 0.2), 0, 31.7), 90, axis), 9)

    def test_a_roof_at_30_degrees(self) -> None:
        ridge = 10 + 15 * math.tan(math.radians(30))
        self.planes(turned(prism([(0, 0), (30, 0), (30, 10), (15, ridge), (0, 10)], 0, 50), 90, 0), 7)

    def test_a_box_turned_about_one_axis_and_about_three(self) -> None:
        self.planes(turned(box(40, 30, 5), 30, 0), 6)
        result = self.mesh(turned(turned(turned(box(40, 30, 5), 30, 0), 20, 1), 10, 2))
        self.assertLessEqual(int(result.counts.split()[1]), 12)

    def test_frustums_bend_and_are_cut_into_pieces(self) -> None:
        low, high = ring(10, 16), ring(4.2, 16)
        sides = [[(*low[k - 1], 0.0), (*low[k], 0.0), (*high[k], 15.0), (*high[k - 1], 15.0)] for k in range(16)]
        part = [[(x, y, 0.0) for x, y in reversed(low)], [(x, y, 15.0) for x, y in high], *sides]
        result = self.mesh(part)
        self.assertLessEqual(int(result.counts.split()[1]), 34)

    def test_corners_on_straight_edges_and_within_faces_vanish(self) -> None:
        fine = [
            [(x, y, z) if axis == 2 else (x, z, y) if axis == 1 else (z, x, y) for x, y, z in face]
            for axis in range(3)
            for z in (0.0, 8.0)
            for i in range(8)
            for j in range(8)
            for face in [[(i, j, z), (i + 1, j, z), (i + 1, j + 1, z)], [(i, j, z), (i + 1, j + 1, z), (i, j + 1, z)]]
        ]
        result = self.given("a.stl", stl_text(fine))
        self.assertEqual(result.text.splitlines()[1], "8 6 12")

    def test_too_many_planes_are_refused(self) -> None:
        self.assertIn("more than 40 planes", self.refused("a.stl", stl_text(prism(ring(10, 64), 0, 5))))


class MendTest(Case):
    """What is mended, and what is refused."""

    def test_corners_within_the_noise_are_one(self) -> None:
        text = stl_text(box(40, 30, 20)).replace(b"vertex 40 30 20", b"vertex 40.000001 30 19.999999", 2)
        result = self.given("a.stl", text)
        self.assertEqual(result.counts, "planes 6")
        self.assertIn("joined", " ".join(result.notes))
        self.assertGreater(result.moved, 0)

    def test_join_closes_gaps(self) -> None:
        text = stl_text(box(40, 30, 20)).replace(b"vertex 40 30 20", b"vertex 40.01 30 20", 2)
        self.assertIn("open", self.refused("a.stl", text))
        result = self.given("a.stl", text, Wishes(join=Fraction("0.02")))
        self.assertEqual(result.counts, "planes 6")
        self.assertGreaterEqual(result.moved, 0.0099)

    def test_triangles_with_two_equal_corners_are_dropped(self) -> None:
        thin = [[(0.0, 0.0, 0.0), (0.0, 0.0, 0.0), (40.0, 0.0, 0.0)]]
        result = self.mesh(triangles(box(40, 30, 20)) + thin)
        self.assertIn("1 faces with fewer than three corners apart were left out", result.notes)

    def test_corners_on_edges_are_put_into_them(self) -> None:
        faces = box(40, 30, 20)
        front = next(it for it in faces if all(y == 0 for _, y, _ in it))
        faces.remove(front)
        faces += [[(0, 0, 0), (17, 0, 0), (17, 0, 20), (0, 0, 20)], [(17, 0, 0), (40, 0, 0), (40, 0, 20), (17, 0, 20)]]
        self.assertEqual(self.mesh(faces).counts, "planes 6")

    def test_triangles_without_width_are_edges(self) -> None:
        faces = box(40, 30, 20)
        front = next(it for it in faces if all(y == 0 for _, y, _ in it))
        faces.remove(front)
        faces += [[(0, 0, 0), (17, 0, 0), (17, 0, 20), (0, 0, 20)], [(17, 0, 0), (40, 0, 0), (40, 0, 20), (17, 0, 20)]]
        faces += [[(0, 0, 0), (40, 0, 0), (17, 0, 0)], [(0, 0, 20), (17, 0, 20), (40, 0, 20)]]
        self.assertEqual(self.mesh(faces).counts, "planes 6")

    def test_a_solid_that_is_written_twice_is_taken_once(self) -> None:
        part = box(40, 30, 20)
        result = self.given("a.stl", stl_text(part + part))
        self.same_mesh(part, result, 40)
        self.assertIn("drawn twice", " ".join(result.notes))


class OverlapTest(Case):
    """A warning where solids overlap, and none elsewhere."""

    def warned(self, faces: Faces) -> bool:
        return "overlap" in " ".join(self.mesh(faces).notes)

    def test_solids_that_overlap(self) -> None:
        self.assertTrue(self.warned(box(10, 10, 10) + box(10, 10, 10, (5, 5, 5))))
        self.assertTrue(self.warned(box(10, 10, 10) + box(10, 10, 10, (5, 0, 0))))
        self.assertTrue(self.warned(box(30, 4, 4, (0, 13, 0)) + box(4, 30, 4, (13, 0, 0))))
        self.assertTrue(self.warned(box(30, 4, 4, (0, 13, 0)) + box(4, 30, 4, (13, 0, 2))))
        self.assertTrue(self.warned(box(20, 20, 20) + box(5, 5, 5, (7, 7, 7))))
        self.assertTrue(self.warned(turned(box(30, 4, 4), 20, 2) + turned(box(30, 3, 3, (0, -1, 1)), -15, 2)))

    def test_solids_that_do_not(self) -> None:
        self.assertFalse(self.warned(box(20, 20, 20) + back(box(5, 5, 5, (7, 7, 7)))))
        self.assertFalse(self.warned(box(10, 10, 10) + box(10, 10, 10, (10, 0, 0))))
        self.assertFalse(self.warned(box(10, 10, 10) + box(10, 10, 10, (10, 10, 0))))
        self.assertFalse(self.warned(prism([(0, 0), (20, 0), (20, 5), (5, 5), (5, 20), (0, 20)], 0, 10) + box(10, 10, 10, (7, 7, 0))))
        self.assertFalse(self.warned(back(box(10, 10, 10)) + back(box(10, 10, 10, (20, 0, 0)))))


class SectionTest(Case):
    """--plane cuts a mesh."""

    def test_a_section_is_outlines(self) -> None:
        result = self.given("a.stl", stl_text(plate_with_hole(8)), Wishes(plane=Fraction("2.5")))
        self.assertEqual((len(result.scales), result.counts), (2, "lines 12 discs 0"))

    def test_at_the_height_of_corners_it_is_the_section_above(self) -> None:
        part = box(40, 30, 20) + box(10, 10, 10, (5, 5, 20))
        result = self.given("a.stl", stl_text(part), Wishes(plane=Fraction(20)))
        self.assertIn("G01 X15 Y15", result.text)
        self.assertIn("just above", " ".join(result.notes))

    def test_a_plane_past_the_mesh_is_refused(self) -> None:
        self.assertIn("from 0 to 20", self.refused("a.stl", stl_text(box(40, 30, 20)), Wishes(plane=Fraction(20))))


if __name__ == "__main__":
    unittest.main()
