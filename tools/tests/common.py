"""What the tests of tools/from share: calls of it, and the check that a text says what a file says."""

from __future__ import annotations

import random
import subprocess
import sys
import tempfile
import unittest
from fractions import Fraction
from pathlib import Path
from typing import Sequence

HERE = Path(__file__).resolve().parent
sys.path[:0] = [str(HERE.parent), str(HERE.parent.parent / "judge")]

from boundaries.command import made  # noqa: E402
from boundaries.faults import Refused  # noqa: E402
from boundaries.made import Made, Wishes  # noqa: E402
from crossings import Element, Near, Spot, Vector, contour_elements, in_mesh, in_outlines, off_faces, steps_of  # noqa: E402
from judging.requests import read_given  # noqa: E402
from judging.texts import Stop  # noqa: E402
from making import Faces, stl_text  # noqa: E402

FROM = HERE.parent / "from"
POINTS = 60


def call(*words: str | Path) -> subprocess.CompletedProcess[str]:
    """Runs tools/from."""
    return subprocess.run([sys.executable, "-B", str(FROM), *map(str, words)], capture_output=True, text=True, check=False)


def map_of(result: Made, point: Sequence[float]) -> list[float]:
    """Where a point of the file goes."""
    return [it * float(scale) + float(move) for it, scale, move in zip(point, result.scales, result.moves)]


class Case(unittest.TestCase):
    """A test with a folder of its own."""

    def setUp(self) -> None:
        folder = tempfile.TemporaryDirectory()
        self.addCleanup(folder.cleanup)
        self.folder = Path(folder.name)

    def file(self, name: str, data: bytes) -> Path:
        """A file in the folder."""
        path = self.folder / name
        path.write_bytes(data)
        return path

    def given(self, name: str, data: bytes, wishes: Wishes = Wishes()) -> Made:
        """What is made of a file; bcsg has to take it."""
        result = made(str(self.file(name, data)), wishes)
        self.taken(result)
        return result

    def taken(self, result: Made) -> None:
        """The text is one that bcsg takes, by the judge."""
        kind = "off" if len(result.scales) == 3 else "contour"
        try:
            read_given(["convert", kind], result.text.encode())
        except Stop as stop:
            self.fail(f"bcsg refuses the text: {stop.line}")
        for scale in result.scales:
            self.assertGreater(scale, 0)

    def refused(self, name: str, data: bytes, wishes: Wishes = Wishes()) -> str:
        """Why a file is refused."""
        with self.assertRaises(Refused) as caught:
            made(str(self.file(name, data)), wishes)
        return str(caught.exception)

    def same_mesh(self, faces: Faces, result: Made, size: float) -> None:
        """Points are inside the faces exactly where they are inside the text, after the printed scale and move."""
        self.assertLessEqual(result.moved, size / 2000)
        text = off_faces(result.text)
        draw = random.Random(1)
        low, high = ([pick(it[k] for face in faces for it in face) for k in range(3)] for pick in (min, max))
        seen = set()
        for _ in range(POINTS):
            x, y, z = (draw.uniform(low[k] - size / 50, high[k] + size / 50) for k in range(3))
            x2, y2, z2 = map_of(result, (x, y, z))
            gap = (2 * result.moved + size * 1e-4) * min(map(float, result.scales))
            try:
                ours, theirs = in_mesh((x2, y2, z2), text, gap), in_mesh((x, y, z), faces, size * 1e-9)
            except Near:
                continue
            seen.add(theirs)
            self.assertEqual(ours, theirs, (x, y, z))
        self.assertIn(True, seen)

    def same_outlines(self, elements: list[Element], result: Made, size: float) -> None:
        """The same for outlines."""
        self.assertLessEqual(result.moved, size / 2000 * 1.0000001)
        text, drawn = steps_of(contour_elements(result.text)), steps_of(elements)
        spots = [spot for step in drawn for spot in step]
        draw = random.Random(1)
        seen = set()
        for _ in range(POINTS):
            x, y = (draw.uniform(min(it[k] for it in spots), max(it[k] for it in spots)) for k in (0, 1))
            x2, y2 = map_of(result, (x, y))
            try:
                theirs = in_outlines((x, y), drawn, 2 * result.moved + size * 1e-4)
                ours = in_outlines((x2, y2), text, 0.0)
            except Near:
                continue
            seen.add(theirs)
            self.assertEqual(ours, theirs, (x, y))
        self.assertIn(True, seen)

    def mesh(self, faces: Faces, wishes: Wishes = Wishes(), form: str = "{:.9g}") -> Made:
        """What is made of faces, written as an STL text; it says the same."""
        result = self.given("part.stl", stl_text(faces, form), wishes)
        size = max(max(it[k] for face in faces for it in face) - min(it[k] for face in faces for it in face) for k in range(3))
        self.same_mesh(faces, result, size)
        return result


def line(a: Spot, b: Spot) -> Element:
    """A line as an element of an outline."""
    return (a, b, None, 0)


def polygon(spots: Sequence[Spot]) -> list[Element]:
    """A closed polygon."""
    return [line(a, b) for a, b in zip(spots, [*spots[1:], spots[0]])]


def circle(centre: Spot, radius: float) -> Element:
    """A full circle."""
    start = (centre[0] + radius, centre[1])
    return (start, start, centre, 1)


def fractions(*values: str) -> list[Fraction]:
    """Fractions from words."""
    return [Fraction(it) for it in values]


__all__ = ["Case", "Made", "Refused", "Vector", "Wishes", "call", "circle", "fractions", "line", "polygon"]
