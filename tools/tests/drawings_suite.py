"""Drawings: entities, blocks, layers, gaps, pieces drawn twice, and arcs. They are made by ezdxf, which has to be there."""

from __future__ import annotations

import math
import unittest
from fractions import Fraction
from importlib import import_module
from typing import Any, Sequence

from common import Case, Made, Wishes, circle, line, polygon
from crossings import Element, Spot

PLATE: list[Spot] = [(0.0, 0.0), (30.0, 0.0), (30.0, 20.0), (0.0, 20.0)]
QUARTER = math.tan(math.pi / 8)


def rounded(x: float, y: float, wide: float, high: float, radius: float) -> list[tuple[float, float, float]]:
    """The corners of a rectangle with round corners, with bulges."""
    return [
        (x + radius, y, 0), (x + wide - radius, y, QUARTER), (x + wide, y + radius, 0), (x + wide, y + high - radius, QUARTER),
        (x + wide - radius, y + high, 0), (x + radius, y + high, QUARTER), (x, y + high - radius, 0), (x, y + radius, QUARTER),
    ]  # fmt: skip


def arc(centre: Spot, radius: float, first: float, last: float) -> Element:
    """An arc to the left between two angles."""
    ends = [(centre[0] + radius * math.cos(math.radians(it)), centre[1] + radius * math.sin(math.radians(it))) for it in (first, last)]
    return (ends[0], ends[1], centre, 1)


def rounded_elements(x: float, y: float, wide: float, high: float, radius: float) -> list[Element]:
    """The same rectangle as lines and arcs."""
    spots = [(it[0], it[1]) for it in rounded(x, y, wide, high, radius)]
    lines = [line(a, b) for a, b in zip(spots[::2], spots[1::2])]
    a, b, c, d = x + radius, y + radius, x + wide - radius, y + high - radius
    return [*lines, arc((c, b), radius, -90, 0), arc((c, d), radius, 0, 90), arc((a, d), radius, 90, 180), arc((a, b), radius, 180, 270)]


def slot(centre: Spot, length: float, radius: float, degrees: float) -> list[Element]:
    """A slot of two lines and two half circles, at an angle."""
    u, v = math.cos(math.radians(degrees)), math.sin(math.radians(degrees))
    a, b = ((centre[0] + sign * u * length / 2, centre[1] + sign * v * length / 2) for sign in (-1, 1))
    one = line((a[0] + v * radius, a[1] - u * radius), (b[0] + v * radius, b[1] - u * radius))
    other = line((b[0] - v * radius, b[1] + u * radius), (a[0] - v * radius, a[1] + u * radius))
    return [one, other, arc(b, radius, degrees - 90, degrees + 90), arc(a, radius, degrees + 90, degrees + 270)]


def round_triangle(corners: Sequence[Spot], radius: float) -> list[Element]:
    """A triangle that runs to the left, with round corners."""
    arcs, spots = [], []
    for k, at in enumerate(corners):
        ways = []
        for other in (corners[k - 1], corners[(k + 1) % 3]):
            far = math.dist(at, other)
            ways.append(((other[0] - at[0]) / far, (other[1] - at[1]) / far))
        (ux, uy), (vx, vy) = ways
        half = math.acos(ux * vx + uy * vy) / 2
        back = radius / math.tan(half)
        middle = math.hypot(ux + vx, uy + vy)
        centre = (at[0] + (ux + vx) / middle * radius / math.sin(half), at[1] + (uy + vy) / middle * radius / math.sin(half))
        start, end = (at[0] + ux * back, at[1] + uy * back), (at[0] + vx * back, at[1] + vy * back)
        arcs.append((start, end, centre, 1))
        spots.append((start, end))
    lines = [line(spots[k - 1][1], spots[k][0]) for k in range(3)]
    return [*arcs, *lines]


class DrawingCase(Case):
    """A drawing is made, and what becomes of it is compared."""

    def setUp(self) -> None:
        super().setUp()
        self.document: Any = import_module("ezdxf").new("R2010")
        self.document.header["$INSUNITS"] = 0
        self.space: Any = self.document.modelspace()

    def plate(self, spots: Sequence[Spot] = PLATE, layer: str = "0") -> None:
        self.space.add_lwpolyline(spots, close=True, dxfattribs={"layer": layer})

    def draw(self, elements: list[Element], layer: str = "0") -> None:
        """Draws elements as LINE, ARC and CIRCLE."""
        for start, end, centre, _ in elements:
            if centre is None:
                self.space.add_line(start, end, dxfattribs={"layer": layer})
                continue
            radius = math.dist(start, centre)
            first, last = (math.degrees(math.atan2(it[1] - centre[1], it[0] - centre[0])) for it in (start, end))
            if start == end:
                self.space.add_circle(centre, radius, dxfattribs={"layer": layer})
            else:
                self.space.add_arc(centre, radius, first, last, dxfattribs={"layer": layer})

    def saved(self) -> bytes:
        path = self.folder / "saved.dxf"
        self.document.saveas(path)
        return path.read_bytes()

    def result(self, wishes: Wishes = Wishes()) -> Made:
        return self.given("part.dxf", self.saved(), wishes)

    def same(self, elements: list[Element], wishes: Wishes = Wishes()) -> Made:
        """The drawing says what these elements say."""
        result = self.result(wishes)
        spots = [spot for it in elements for spot in it[:2]]
        self.same_outlines(elements, result, max(max(it[k] for it in spots) - min(it[k] for it in spots) for k in (0, 1)))
        return result

    def why(self, *words: str, wishes: Wishes = Wishes()) -> str:
        why = self.refused("part.dxf", self.saved(), wishes)
        for it in words:
            self.assertIn(it, why)
        return why


class EntityTest(DrawingCase):
    """The entities that are read, skipped and refused."""

    def test_lines_arcs_circles_and_polylines(self) -> None:
        self.plate()
        self.draw([circle((8, 10), 3.5), *slot((20, 10), 8, 3, 0)])
        result = self.same([*polygon(PLATE), circle((8, 10), 3.5), *slot((20, 10), 8, 3, 0)])
        self.assertEqual((result.scales, result.moved, result.counts), ([2, 2], 0, "lines 8 discs 3"))

    def test_bulges_of_both_kinds_of_polylines(self) -> None:
        self.space.add_lwpolyline(rounded(0, 0, 30, 20, 4), format="xyb", close=True)
        self.space.add_polyline2d(rounded(5, 5, 10, 10, 2), format="xyb", close=True)
        result = self.same(rounded_elements(0, 0, 30, 20, 4) + rounded_elements(5, 5, 10, 10, 2))
        self.assertEqual((result.moved < 1e-6, result.counts), (True, "lines 16 discs 8"))

    def test_a_circle_of_two_bulges_is_one_disc(self) -> None:
        self.space.add_lwpolyline([(0, 0, 1), (20, 0, 1)], format="xyb", close=True)
        self.assertEqual(self.same([circle((10, 0), 10)]).counts, "lines 0 discs 1")

    def test_a_polyline_that_ends_where_it_began_is_closed(self) -> None:
        self.space.add_lwpolyline([*PLATE, PLATE[0]], close=False)
        self.same(polygon(PLATE))

    def test_polylines_in_space_that_lie_flat(self) -> None:
        self.space.add_polyline3d([(x, y, 7) for x, y in PLATE], close=True)
        self.same(polygon(PLATE))

    def test_what_is_no_outline_is_counted(self) -> None:
        self.plate()
        self.space.add_text("a word")
        self.space.add_point((1, 1))
        self.space.add_point((2, 1))
        self.assertIn("left out: 2 POINT, 1 TEXT", self.same(polygon(PLATE)).notes)

    def test_curves_and_bodies_are_refused_with_handle_and_layer(self) -> None:
        for kind, name, words in [
            ("SPLINE", "add_spline", [[(0, 0), (5, 5), (10, 0)]]),
            ("ELLIPSE", "add_ellipse", [(0, 0), (5, 0), 0.5]),
            ("3DFACE", "add_3dface", [[(0, 0), (1, 0), (1, 1)]]),
        ]:
            self.setUp()
            self.plate()
            made = getattr(self.space, name)(*words, dxfattribs={"layer": "curves"})
            self.why(kind, str(made.dxf.handle), "'curves'")
            # (on a layer that is not read they do not matter)
            self.result(Wishes(layer="0"))

    def test_lines_between_two_heights_are_refused(self) -> None:
        self.space.add_line((0, 0, 0), (10, 0, 5))
        self.why("LINE", "heights 0 and 5")

    def test_a_common_height_is_fine(self) -> None:
        for (ax, ay), (bx, by) in zip(PLATE, [*PLATE[1:], PLATE[0]]):
            self.space.add_line((ax, ay, 3), (bx, by, 3))
        self.same(polygon(PLATE))

    def test_an_empty_drawing_is_refused(self) -> None:
        self.space.add_text("a word")
        self.why("no lines, arcs, circles or polylines", "1 TEXT")

    def test_paper_space_is_not_read(self) -> None:
        self.plate()
        self.document.layout("Layout1").add_line((0, 0), (1, 1))
        self.same(polygon(PLATE))

    def test_units_are_told_and_change_nothing(self) -> None:
        self.plate()
        self.document.header["$INSUNITS"] = 1
        result = self.same(polygon(PLATE))
        self.assertEqual(result.scales, [1, 1])
        self.assertIn("inches", " ".join(result.notes))

    def test_damaged_files(self) -> None:
        data = self.saved()
        self.assertIn("missing", self.refused("a.dxf", data[: data.rfind(b"ENDSEC")]))
        for broken in (b"", b"solid words\n", b"\0\1\2" * 99, data[:100], data.replace(b"SECTION", b"SECTOIN"), b"0\nSECTION\n2\nENTITIES\n0\nLINE\n8\n0\n10\nx\n0\nENDSEC\n0\nEOF\n"):
            self.assertNotEqual(self.refused("a.dxf", broken), "")

    def test_old_drawings(self) -> None:
        self.document = import_module("ezdxf").new("R12")
        self.space = self.document.modelspace()
        self.space.add_polyline2d(rounded(0, 0, 30, 20, 4), format="xyb", close=True)
        self.same(rounded_elements(0, 0, 30, 20, 4))


class BlockTest(DrawingCase):
    """Blocks: nested, turned, mirrored, scaled, in rows and columns."""

    def block(self) -> None:
        """A block of a circle beside its origin, and an L that shows which way it lies."""
        block = self.document.blocks.new("hole", base_point=(1, 0))
        block.add_circle((3, 0), 1)
        block.add_lwpolyline([(1, 1), (3, 1), (3, 2), (2, 2), (2, 4), (1, 4)], close=True)

    def elements(self, a: float, b: float, c: float, d: float, x: float, y: float) -> list[Element]:
        """The block under a map."""

        def one(spot: Spot) -> Spot:
            u, v = spot[0] - 1, spot[1]
            return (a * u + b * v + x, c * u + d * v + y)

        spots = [(1, 1), (3, 1), (3, 2), (2, 2), (2, 4), (1, 4)]
        return [circle(one((3, 0)), math.hypot(a, c)), *polygon([one(it) for it in spots])]

    def test_turned_mirrored_scaled_and_from_below(self) -> None:
        self.block()
        around = [(-30.0, -30.0), (60.0, -30.0), (60.0, 60.0), (-30.0, 60.0)]
        self.plate(around)
        self.space.add_blockref("hole", (10, 5), dxfattribs={"rotation": 90})
        self.space.add_blockref("hole", (30, 5), dxfattribs={"xscale": -2, "yscale": 2, "zscale": 2})
        self.space.add_blockref("hole", (-40, 40), dxfattribs={"extrusion": (0, 0, -1)})
        parts = self.elements(0, -1, 1, 0, 10, 5) + self.elements(-2, 0, 0, 2, 30, 5) + self.elements(-1, 0, 0, 1, 40, 40)
        self.assertEqual(self.same(polygon(around) + parts).moved, 0)

    def test_rows_and_columns_of_a_turned_insert(self) -> None:
        block = self.document.blocks.new("hole")
        block.add_circle((0, 0), 2)
        self.plate([(-50, -50), (50, -50), (50, 50), (-50, 50)])
        rows = {"column_count": 3, "row_count": 2, "column_spacing": 10, "row_spacing": 20, "rotation": 90}
        self.space.add_blockref("hole", (0, 0), dxfattribs=rows)
        holes = [circle((-20 * row, 10 * column), 2) for row in range(2) for column in range(3)]
        self.same(polygon([(-50, -50), (50, -50), (50, 50), (-50, 50)]) + holes)

    def test_nested_blocks_and_layers(self) -> None:
        hole = self.document.blocks.new("hole")
        hole.add_circle((0, 0), 2)
        hole.add_circle((0, 5), 1, dxfattribs={"layer": "marks"})
        pair = self.document.blocks.new("pair")
        pair.add_blockref("hole", (5, 5))
        pair.add_blockref("hole", (20, 5), dxfattribs={"layer": "other"})
        self.plate(layer="cut")
        self.space.add_blockref("pair", (0, 3), dxfattribs={"layer": "cut"})
        self.same([*polygon(PLATE), circle((5, 8), 2)], Wishes(layer="CUT"))
        self.same([circle((20, 8), 2)], Wishes(layer="other"))
        self.same([circle((5, 13), 1), circle((20, 13), 1)], Wishes(layer="marks"))

    def test_a_stretched_circle_is_refused(self) -> None:
        self.document.blocks.new("hole").add_circle((0, 0), 2)
        self.plate()
        self.space.add_blockref("hole", (8, 8), dxfattribs={"xscale": 2})
        self.why("CIRCLE", "stretches")

    def test_stretched_lines_are_fine(self) -> None:
        self.document.blocks.new("hole").add_lwpolyline([(0, 0), (2, 0), (2, 2), (0, 2)], close=True)
        self.plate()
        self.space.add_blockref("hole", (8, 8), dxfattribs={"xscale": 3})
        self.same(polygon(PLATE) + polygon([(8, 8), (14, 8), (14, 10), (8, 10)]))

    def test_a_block_in_itself_is_refused(self) -> None:
        block = self.document.blocks.new("loop")
        block.add_blockref("loop", (1, 0))
        self.space.add_blockref("loop", (0, 0))
        self.why("nested")

    def test_entities_from_below(self) -> None:
        below = {"extrusion": (0, 0, -1)}
        self.space.add_lwpolyline(rounded(-30, 0, 30, 20, 4), format="xyb", close=True, dxfattribs=below)
        self.space.add_circle((-8, 10), 3, dxfattribs=below)
        self.space.add_arc((-20, 10), 4, 0, 90, dxfattribs=below)
        self.space.add_line((20, 10), (16, 10))
        self.space.add_line((20, 10), (20, 14))
        wedge = [arc((20, 10), 4, 90, 180), line((16, 10), (20, 10)), line((20, 10), (20, 14))]
        self.same([*rounded_elements(0, 0, 30, 20, 4), circle((8, 10), 3), *wedge])

    def test_a_tilted_entity_is_refused(self) -> None:
        self.space.add_circle((0, 0), 2, dxfattribs={"extrusion": (0, 1, 1)})
        self.why("CIRCLE", "does not lie flat")


class LayerTest(DrawingCase):
    """Layers."""

    def test_construction_lines_make_an_outline_open(self) -> None:
        self.plate(layer="cut")
        self.space.add_line((-5, 10), (35, 10), dxfattribs={"layer": "centre"})
        self.why("open at (-5, 10)", "LINE", "'centre'", "'cut'", "--layer")
        self.same(polygon(PLATE), Wishes(layer="cut"))

    def test_a_layer_without_an_outline_is_refused(self) -> None:
        self.plate(layer="cut")
        self.why("'fold' has no outline", "'cut'", wishes=Wishes(layer="fold"))


class JoinTest(DrawingCase):
    """Ends, gaps, and what is drawn twice."""

    def test_ends_within_the_noise_are_one(self) -> None:
        self.space.add_line((0, 0), (30, 0.000001))
        for a, b in zip(PLATE[1:], [*PLATE[2:], PLATE[0]]):
            self.space.add_line(a, b)
        self.assertEqual(self.same(polygon(PLATE)).counts, "lines 4 discs 0")

    def test_gaps_are_told_and_joined_where_asked(self) -> None:
        self.space.add_line((0, 0), (29.95, 0))
        for a, b in zip(PLATE[1:], [*PLATE[2:], PLATE[0]]):
            self.space.add_line(a, b)
        self.why("open at (29.95, 0)", "0.0501 away")
        result = self.result(Wishes(join=Fraction("0.06")))
        self.assertIn("1 open ends were joined", " ".join(result.notes))
        self.assertGreaterEqual(result.moved, 0.05)

    def test_pieces_drawn_twice_are_taken_once(self) -> None:
        self.draw([*polygon(PLATE), *polygon(PLATE[::-1]), circle((8, 8), 3), circle((8, 8), 3), *slot((20, 10), 6, 3, 90)])
        result = self.same([*polygon(PLATE), circle((8, 8), 3), *slot((20, 10), 6, 3, 90)])
        self.assertIn("drawn twice", " ".join(result.notes))

    def test_outlines_drawn_twice_from_another_start(self) -> None:
        self.plate()
        self.plate(PLATE[2:] + PLATE[:2])
        self.plate(PLATE[::-1])
        result = self.same(polygon(PLATE))
        self.assertIn("drawn twice", " ".join(result.notes))

    def test_a_side_of_two_outlines_is_none(self) -> None:
        other = [(30.0, 0.0), (50.0, 0.0), (50.0, 20.0), (30.0, 20.0)]
        self.plate()
        self.plate(other)
        both = [(0.0, 0.0), (50.0, 0.0), (50.0, 20.0), (0.0, 20.0)]
        self.assertNotIn("drawn twice", " ".join(self.same(polygon(both)).notes))
        self.setUp()
        self.draw(polygon(PLATE) + polygon(other))
        self.assertNotIn("drawn twice", " ".join(self.same(polygon(both)).notes))

    def test_two_half_circles_are_no_duplicates(self) -> None:
        self.draw([arc((10, 10), 5, 0, 180), arc((10, 10), 5, 180, 360)])
        self.assertEqual(self.same([circle((10, 10), 5)]).counts, "lines 0 discs 1")

    def test_lines_without_length_are_dropped(self) -> None:
        self.plate()
        self.space.add_line((3, 3), (3, 3))
        self.same(polygon(PLATE))

    def test_an_outline_in_several_steps_has_few_lines(self) -> None:
        self.plate([(0, 0), (7.1, 0), (19.33, 0), (30, 0), (30, 20), (0, 20)])
        self.assertEqual(self.same(polygon(PLATE)).counts, "lines 4 discs 0")


class ArcTest(DrawingCase):
    """Arcs whose ends have to be equally far from a whole centre."""

    def test_slots_at_angles(self) -> None:
        around = [(0.0, 0.0), (80.0, 0.0), (80.0, 60.0), (0.0, 60.0)]
        for degrees in (17, 30, 45):
            self.setUp()
            self.plate(around)
            self.draw(slot((40, 30), 30, 6, degrees))
            self.assertEqual(self.same(polygon(around) + slot((40, 30), 30, 6, degrees)).counts, "lines 8 discs 2")

    def test_odd_numbers(self) -> None:
        self.space.add_lwpolyline(rounded(1.234, 5.678, 61.3, 41.77, 5.13), format="xyb", close=True)
        self.space.add_circle((30.17, 20.4), 8.333)
        self.same([*rounded_elements(1.234, 5.678, 61.3, 41.77, 5.13), circle((30.17, 20.4), 8.333)])

    def test_arcs_whose_ends_mirror_each_other(self) -> None:
        x, y = 10 * math.cos(math.radians(-70)), 10 * math.sin(math.radians(-70))
        key = [arc((0, 0), 10, -70, 250), line((x, y), (x, -30)), line((x, -30), (-x, -30)), line((-x, -30), (-x, y))]
        self.draw(key)
        self.same(key)

    def test_round_corners_of_a_triangle(self) -> None:
        part = round_triangle([(0, 0), (50, 0), (20, 40)], 5)
        self.draw(part)
        self.same(part)

    def test_a_link_at_an_angle(self) -> None:
        far, one, other, turn = 50, 12, 7, math.radians(33)
        lean = math.acos((one - other) / far)
        end = (far * math.cos(turn), far * math.sin(turn))
        up, down = math.degrees(turn + lean), math.degrees(turn - lean)
        first, second = arc((0, 0), one, up, down), arc(end, other, down, up)
        part = [first, second, line(first[0], second[1]), line(first[1], second[0]), circle((0, 0), 6), circle(end, 3.5)]
        self.draw(part)
        self.same(part)

    def test_arcs_of_one_circle_stay_on_one(self) -> None:
        ring = [arc((0, 0), 25, 20 + 90 * k, 70 + 90 * k) for k in range(4)]
        spots = [spot for it in ring for spot in it[:2]]
        ring += [line(spots[2 * k + 1], spots[(2 * k + 2) % 8]) for k in range(4)]
        self.draw(ring)
        self.assertTrue(self.same(ring).counts.endswith("discs 1"))

    def test_given_factors(self) -> None:
        self.plate()
        self.draw([circle((8, 8), 3)])
        result = self.same([*polygon(PLATE), circle((8, 8), 3)], Wishes(factors=[Fraction(7), Fraction(7)]))
        self.assertEqual(result.scales, [7, 7])
        self.why("one factor", wishes=Wishes(factors=[Fraction(7), Fraction(8)]))
        self.why("long in x", wishes=Wishes(factors=[Fraction(100), Fraction(100)]))

    def test_lines_alone_have_a_factor_for_each_axis(self) -> None:
        spots = [(0.0, 0.0), (1000.0, 0.0), (1000.0, 0.75), (0.0, 1.5)]
        self.plate(spots)
        result = self.same(polygon(spots))
        self.assertEqual(result.moved, 0)

    def test_too_much_is_refused(self) -> None:
        self.draw([circle((10 * k, 0), 2) for k in range(11)])
        self.why("11 different circles")
        self.setUp()
        self.plate([(math.cos(math.tau * k / 50), math.sin(math.tau * k / 50)) for k in range(50)])
        self.why("50 different lines")


if __name__ == "__main__":
    unittest.main()
