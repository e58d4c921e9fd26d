"""What bcsg takes: the checks of its formats, made here before anything is printed, by code that shares nothing with the rest."""

from __future__ import annotations

import math
from collections import Counter
from dataclasses import dataclass

Whole = tuple[int, int, int]

REACH = 1023
MOST_VERTICES = 1024
MOST_FACES = 2048
MOST_CORNERS = 64
MOST_PLANES = 40
MOST_LINES = 40
MOST_DISCS = 10
MOST_ELEMENTS = 512
MOST_BYTES = 1_048_576


def minus(a: Whole, b: Whole) -> Whole:
    """The difference of two points."""
    return (a[0] - b[0], a[1] - b[1], a[2] - b[2])


def cross(a: Whole, b: Whole) -> Whole:
    """The cross product."""
    return (a[1] * b[2] - a[2] * b[1], a[2] * b[0] - a[0] * b[2], a[0] * b[1] - a[1] * b[0])


def dot(a: Whole, b: Whole) -> int:
    """The dot product."""
    return a[0] * b[0] + a[1] * b[1] + a[2] * b[2]


def plane(face: list[Whole]) -> tuple[int, int, int, int] | None:
    """The plane of a face as the one row of whole numbers that says it, or None where all corners are on one line."""
    for k in range(2, len(face)):
        normal = cross(minus(face[1], face[0]), minus(face[k], face[0]))
        if normal != (0, 0, 0):
            row = (*normal, -dot(normal, face[0]))
            shared = math.gcd(*row)
            sign = 1 if next(it for it in row if it) > 0 else -1
            return (sign * row[0] // shared, sign * row[1] // shared, sign * row[2] // shared, sign * row[3] // shared)
    return None


def mesh_fault(faces: list[list[Whole]]) -> str | None:
    """What bcsg would refuse in these faces, or None."""
    if any(abs(it) > REACH for face in faces for corner in face for it in corner):
        return f"a coordinate is past {REACH}"
    vertices = len({corner for face in faces for corner in face})
    if vertices > MOST_VERTICES:
        return f"made whole the mesh has {vertices:,} corners, and bcsg takes at most {MOST_VERTICES:,}"
    if len(faces) > MOST_FACES:
        return f"made whole the mesh has {len(faces):,} faces, and bcsg takes at most {MOST_FACES:,}"
    planes = set()
    for face in faces:
        if not 3 <= len(face) <= MOST_CORNERS:
            return f"a face has {len(face)} corners"
        if any(a == b for a, b in zip(face, face[1:] + face[:1])):
            return "a face has the same corner twice in a row"
        row = plane(face)
        if row is None:
            return "a face has all its corners on one line"
        if any(row[0] * x + row[1] * y + row[2] * z + row[3] for x, y, z in face):
            return "a face is bent"
        planes.add(row)
    edges = Counter(tuple(sorted(it)) for face in faces for it in zip(face, face[1:] + face[:1]))
    if any(count % 2 for count in edges.values()):
        return "an edge belongs to an odd number of faces"
    if len(planes) > MOST_PLANES:
        return f"made whole the mesh has {len(planes)} planes, and bcsg takes at most {MOST_PLANES}"
    return None


def count_planes(faces: list[list[Whole]]) -> int:
    """The number of distinct planes."""
    return len({plane(it) for it in faces})


@dataclass(frozen=True)
class Element:
    """A piece of an outline: a line, or an arc with a centre, to the left (1) or to the right (-1)."""

    start: tuple[int, int]
    end: tuple[int, int]
    centre: tuple[int, int] | None = None
    turn: int = 0


def line(a: tuple[int, int], b: tuple[int, int]) -> tuple[int, int, int]:
    """The line through two points as the one row of whole numbers that says it."""
    x, y = b[1] - a[1], a[0] - b[0]
    row = (x, y, -x * a[0] - y * a[1])
    shared = math.gcd(*row)
    sign = 1 if (x, y) > (0, 0) else -1
    return (sign * row[0] // shared, sign * row[1] // shared, sign * row[2] // shared)


def lines_and_discs(contours: list[list[Element]]) -> tuple[int, int]:
    """How many distinct lines, of edges and chords, and distinct discs there are."""
    elements = [it for contour in contours for it in contour]
    lines = {line(it.start, it.end) for it in elements if it.start != it.end}
    discs = {(it.centre, square(it.start, it.centre)) for it in elements if it.centre is not None}
    return len(lines), len(discs)


def outline_fault(contours: list[list[Element]]) -> str | None:
    """What bcsg would refuse in these contours, or None."""
    for contour in contours:
        for it, after in zip(contour, contour[1:] + contour[:1]):
            points = [it.start, it.end, *([it.centre] if it.centre is not None else [])]
            if any(abs(value) > REACH for point in points for value in point):
                return f"a coordinate is past {REACH}"
            if it.end != after.start:
                return "an outline is open"
            if it.centre is None and it.start == it.end:
                return "a line has no length"
            if it.centre is not None and square(it.start, it.centre) != square(it.end, it.centre):
                return "the ends of an arc are not equally far from its centre"
            if it.centre == it.start:
                return "an arc has the radius 0"
    count = sum(map(len, contours))
    if count > MOST_ELEMENTS:
        return f"the outlines have {count} lines and arcs, and bcsg takes at most {MOST_ELEMENTS}"
    lines, discs = lines_and_discs(contours)
    if lines > MOST_LINES:
        return f"made whole the outlines have {lines} lines, chords of arcs counted, and bcsg takes at most {MOST_LINES}"
    if discs > MOST_DISCS:
        return f"made whole the outlines have {discs} circles, and bcsg takes at most {MOST_DISCS}"
    return None


def square(a: tuple[int, int], b: tuple[int, int]) -> int:
    """The square of the distance of two points."""
    return (a[0] - b[0]) ** 2 + (a[1] - b[1]) ** 2
