"""Each format, as programs write it, and what is refused in it."""

from __future__ import annotations

import struct
import unittest

from common import Case
from making import back, box, mapped, obj_text, off_text, plate_with_hole, ply_bytes, ply_text, stl_bytes, stl_text

PART = box(40, 30, 20)
# the corners that the text has to have
WHOLE = {(x, y, z) for x in (0, 40) for y in (0, 30) for z in (0, 20)}


class FormatCase(Case):
    """A box in each format gives the same box."""

    def is_the_box(self, name: str, data: bytes) -> None:
        """The text has the corners of the box, unmoved."""
        result = self.given(name, data)
        rows = result.text.splitlines()
        count = int(rows[1].split()[0])
        self.assertEqual({tuple(map(int, row.split())) for row in rows[2 : 2 + count]}, WHOLE)
        self.assertEqual((result.moved, result.counts), (0.0, "planes 6"))

    def why(self, name: str, data: bytes, *words: str) -> None:
        """The file is refused, with these words in the sentence."""
        why = self.refused(name, data)
        for it in words:
            self.assertIn(it, why)


class StlTest(FormatCase):
    """STL, as text and as bytes."""

    def test_text_and_bytes(self) -> None:
        self.is_the_box("a.stl", stl_text(PART))
        self.is_the_box("b.STL", stl_bytes(PART))

    def test_a_binary_head_may_begin_with_solid(self) -> None:
        self.is_the_box("a.stl", stl_bytes(PART, b"solid made by a program"))

    def test_names_with_words_other_line_ends_and_capitals(self) -> None:
        self.is_the_box("a.stl", stl_text(PART, name="my part, facet 7").replace(b"\n", b"\r\n"))
        self.is_the_box("b.stl", stl_text(PART, name="P").upper())

    def test_several_solids_in_one_file(self) -> None:
        result = self.given("a.stl", stl_text(PART) + stl_text(mapped(PART, move=(100, 0, 0)), name="other"))
        self.assertEqual(result.counts, "planes 8")

    def test_numbers_with_exponents(self) -> None:
        self.is_the_box("a.stl", stl_text(PART, "{:.6e}"))

    def test_normals_are_not_read(self) -> None:
        self.is_the_box("a.stl", stl_text(PART).replace(b"normal 0 0 0", b"normal nan nan nan"))

    def test_what_is_refused(self) -> None:
        text, data = stl_text(PART), stl_bytes(PART)
        self.why("a.stl", b"", "empty")
        self.why("a.stl", b" \n", "empty")
        self.why("a.stl", text[: len(text) // 2], "cut off")
        self.why("a.stl", text[: text.rfind(b"endsolid")], "cut off", "endsolid")
        self.why("a.stl", data[:-30], "cut off", "12 facets")
        self.why("a.stl", data + b"12345", "5 bytes more")
        self.why("a.stl", data[:60], "cut off")
        self.why("a.stl", b"some words that are no mesh\n" * 9, "line 1", "solid")
        self.why("a.stl", text.replace(b"vertex 40 30 20", b"vertex nan 30 20", 1), "line ", "'nan'", "finite")
        self.why("a.stl", text.replace(b"vertex 40 30 20", b"vertex 40 30 x1", 1), "line ", "'x1'")
        self.why("a.stl", text.replace(b"vertex 40 30 20", b"vertex 40 30", 1), "line ", "three coordinates")
        self.why("a.stl", text.replace(b"  endloop\n", b"  vertex 1 2 3\n  endloop\n", 1), "line 9", "three vertices")
        self.why("a.stl", text.replace(b"outer", b"inner", 1), "line 3", "'inner'")
        bad = bytearray(data)
        bad[84 + 12 : 84 + 16] = struct.pack("<f", float("nan"))
        self.why("a.stl", bytes(bad), "facet 1", "finite")
        self.why("a.stl", b"solid x\nendsolid x\n", "no faces")

    def test_a_million_facets_are_refused_unread(self) -> None:
        data = b"head".ljust(80) + struct.pack("<I", 1_000_000)
        with open(self.folder / "a.stl", "wb") as file:
            file.write(data)
            file.truncate(84 + 50 * 1_000_000)
        self.why("b.stl", (self.folder / "a.stl").read_bytes(), "1,000,000 facets", "150,000")


class OffTest(FormatCase):
    """OFF with numbers of any kind."""

    def test_heads_comments_and_colours(self) -> None:
        self.is_the_box("a.off", off_text(PART))
        self.is_the_box("b.Off", off_text(PART, "OFF ", " 255 0 0"))
        self.is_the_box("c.off", b"# made\n" + off_text(PART, "COFF # colours\n\n"))
        self.is_the_box("d.off", off_text(PART, ""))

    def test_vertices_with_colours_behind(self) -> None:
        self.is_the_box("a.off", off_text(PART, "COFF\n").replace(b"40 30 20\n", b"40 30 20 255 0 0 255\n"))

    def test_faces_with_fewer_than_three_corners_are_left_out(self) -> None:
        data = off_text(PART).replace(b"8 6 0", b"8 7 0") + b"2 0 1\n"
        self.assertIn("1 faces of fewer than three corners were left out", self.given("a.off", data).notes)

    def test_what_is_refused(self) -> None:
        text = off_text(PART)
        self.why("a.off", b"", "empty")
        self.why("a.off", text[:-8], "cut off")
        self.why("a.off", text + b"3 0 1 2\n", "line 17", "after the last face")
        self.why("a.off", b"PLY\n" + text, "line 1", "OFF")
        self.why("a.off", b"4OFF\n8 6 0\n", "4OFF", "three coordinates")
        self.why("a.off", b"OFF BINARY\n\0\0", "binary")
        self.why("a.off", text.replace(b"40 30 20", b"40 inf 20"), "line ", "'inf'")
        self.why("a.off", text.replace(b"40 30 20", b"40 30"), "line ", "three coordinates")
        before = text[: text.rstrip().rfind(b"\n") + 1]
        self.why("a.off", before + b"4 0 1 2 88\n", "line 16", "no vertex 88")
        self.why("a.off", before + b"5 0 1 2 3\n", "line 16", "5 corners")
        self.why("a.off", b"OFF\n8 many 0\n", "line 2", "'many'")
        self.why("a.off", b"OFF\n8 500000 0\n", "500,000 faces")
        self.why("a.off", b"OFF\n", "cut off")


class ObjTest(FormatCase):
    """OBJ: vertices and faces."""

    def test_corners_as_programs_write_them(self) -> None:
        for corner in ("{}", "{}/1", "{}//1", "{}/1/1"):
            self.is_the_box("a.obj", obj_text(PART, corner))

    def test_indices_that_count_back(self) -> None:
        self.is_the_box("a.obj", obj_text(PART, count_back=True))

    def test_colours_weights_groups_and_long_lines(self) -> None:
        data = obj_text(PART).replace(b"v 40 30 20\n", b"v 40 30 20 0.5 0.5 0.5\n").replace(b"o part", b"mtllib a.mtl\ng one\nusemtl red\ns off")
        self.is_the_box("a.obj", data.replace(b"f 1 2", b"f 1 \\\n 2"))

    def test_lines_and_points_are_left_out(self) -> None:
        self.assertIn("2 lines and points were left out", self.given("a.obj", obj_text(PART) + b"l 1 2\np 1\n").notes)

    def test_what_is_refused(self) -> None:
        text = obj_text(PART)
        self.why("a.obj", b"", "empty")
        self.why("a.obj", text + b"f 1 2\n", "line ", "three corners")
        self.why("a.obj", text + b"f 1 2 9\n", "line ", "no vertex 9")
        self.why("a.obj", text + b"f 1 2 0\n", "'0'")
        self.why("a.obj", text + b"f 1 2 -9\n", "'-9'")
        self.why("a.obj", text + b"f 1 2 x\n", "'x'")
        self.why("a.obj", text + b"v 1 nan 2\n", "'nan'")
        self.why("a.obj", text + b"v 1 2\n", "three coordinates")
        self.why("a.obj", text + b"surf 0 1 0 1 1 2\n", "curved")
        self.why("a.obj", text + b"words of another kind\n", "'words'")
        self.why("a.obj", b"\0\1\2", "text")
        self.why("a.obj", b"v 1 2 3\n", "no faces")


class PlyTest(FormatCase):
    """PLY: text, and bytes in both orders."""

    def test_text_and_bytes(self) -> None:
        self.is_the_box("a.ply", ply_text(PART))
        self.is_the_box("b.ply", ply_text(PART, "vertex_index"))
        for order in "<>":
            for kind in "fd":
                self.is_the_box("c.ply", ply_bytes(PART, order, kind))

    def test_properties_in_any_order(self) -> None:
        self.is_the_box("a.ply", ply_text(PART, before="nx", values="n {z} {y} n {x}".replace("n", "7")).replace(b"float nx", b"float q"))

    def test_a_head_with_other_line_ends(self) -> None:
        self.is_the_box("a.ply", ply_text(PART).replace(b"\n", b"\r\n"))

    def test_what_is_refused(self) -> None:
        text, data = ply_text(PART), ply_bytes(PART, "<")
        self.why("a.ply", b"", "empty")
        self.why("a.ply", text[:-6], "cut off in line 24")
        self.why("a.ply", text[: text.rstrip().rfind(b"\n") + 1], "cut off", "5 of 6")
        self.why("a.ply", data[:-3], "cut off", "5 of 6")
        self.why("a.ply", data + b"123", "3 bytes more")
        self.why("a.ply", text[:40], "cut off", "end_header")
        self.why("a.ply", b"solid\n", "line 1", "ply")
        self.why("a.ply", text.replace(b"ascii", b"latin"), "'latin'")
        self.why("a.ply", text.replace(b"float z", b"float w"), "property x or y or z")
        self.why("a.ply", text.replace(b"vertex_indices", b"corners"), "vertex_index or vertex_indices")
        self.why("a.ply", text.replace(b"element face 6", b"element edge 6"), "'face'")
        self.why("a.ply", text.replace(b"40 30 20", b"40 -inf 20"), "line ", "'-inf'")
        self.why("a.ply", text.replace(b"element face 6", b"element face 999999999"), "999,999,999 faces")
        self.why("a.ply", text.replace(b"element vertex 8", b"element vertex 99999999"), "cut off")
        self.why("a.ply", data.replace(struct.pack("<3f", 40, 30, 20), struct.pack("<3f", 40, float("inf"), 20)), "vertex ", "finite")


class OpenTest(FormatCase):
    """What is not closed, or nothing."""

    def test_an_open_mesh_names_the_edge(self) -> None:
        self.why("a.stl", stl_text(PART[1:]), "open", "(0, 0, 0) to (", "3 other edges")
        self.why("a.off", off_text(PART[1:]), "open")

    def test_a_flat_mesh_and_one_that_cancels(self) -> None:
        self.why("a.stl", stl_text(PART[:1]), "same z", "flat")
        self.why("a.stl", stl_text(PART + back(PART)), "nothing is left")

    def test_quads_and_triangles_say_the_same(self) -> None:
        part = plate_with_hole()
        self.assertEqual(self.given("a.obj", obj_text(part)).counts, self.given("b.ply", ply_text(part)).counts)


if __name__ == "__main__":
    unittest.main()
