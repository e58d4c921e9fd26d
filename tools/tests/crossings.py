"""Whether points are inside a mesh or inside outlines, by counting crossings in floats: code of its own, for the tests."""

from __future__ import annotations

import math
import re
from typing import Iterable, Sequence

Vector = tuple[float, float, float]
Spot = tuple[float, float]
# a direction that no face of a part lies along
WAY = (0.137, 0.259, 0.956)


class Near(Exception):
    """A point is too near to the boundary, or its way goes through an edge."""


def minus(a: Sequence[float], b: Sequence[float]) -> Vector:
    """The difference of two points."""
    return (a[0] - b[0], a[1] - b[1], a[2] - b[2])


def cross(a: Vector, b: Vector) -> Vector:
    """The cross product."""
    return (a[1] * b[2] - a[2] * b[1], a[2] * b[0] - a[0] * b[2], a[0] * b[1] - a[1] * b[0])


def dot(a: Vector, b: Vector) -> float:
    """The dot product."""
    return a[0] * b[0] + a[1] * b[1] + a[2] * b[2]


def crosses(point: Vector, face: Sequence[Vector], gap: float) -> bool:
    """Whether the way from a point goes through a flat face of any form."""
    normal: Vector = (0.0, 0.0, 0.0)
    for a, b in zip(face[1:], face[2:]):
        part = cross(minus(a, face[0]), minus(b, face[0]))
        normal = (normal[0] + part[0], normal[1] + part[1], normal[2] + part[2])
    size = math.sqrt(dot(normal, normal))
    if size == 0:
        return False
    # (from a corner that is as near as any, so that a face that bends a little is met where it is)
    lean = dot(normal, WAY) / size
    middle = [sum(it[k] for it in face) / len(face) for k in range(3)]
    far = dot(normal, minus(middle, point)) / size
    if abs(lean) < 1e-12:
        return False
    t = far / lean
    drop = max(range(3), key=lambda k: abs(normal[k]))
    i, j = [k for k in range(3) if k != drop]
    place = [point[k] + t * WAY[k] for k in range(3)]
    inside, flat = False, [(it[i], it[j]) for it in face]
    for p, q in zip(flat, flat[1:] + flat[:1]):
        if segment_distance((place[i], place[j]), p, q) < gap:
            raise Near
        if (p[1] > place[j]) != (q[1] > place[j]) and place[i] < p[0] + (place[j] - p[1]) / (q[1] - p[1]) * (q[0] - p[0]):
            inside = not inside
    if inside and abs(far) < 3 * gap:
        raise Near
    return inside and t > 0


def segment_distance(p: Spot, a: Spot, b: Spot) -> float:
    """The distance of a point from a way."""
    x, y = b[0] - a[0], b[1] - a[1]
    square = x * x + y * y
    t = max(0.0, min(1.0, ((p[0] - a[0]) * x + (p[1] - a[1]) * y) / square)) if square else 0.0
    return math.hypot(p[0] - a[0] - t * x, p[1] - a[1] - t * y)


def in_mesh(point: Vector, faces: Iterable[Sequence[Vector]], gap: float) -> bool:
    """Whether a point is inside a mesh: its way crosses an odd number of faces."""
    return sum(crosses(point, it, gap) for it in faces) % 2 == 1


def off_faces(text: str) -> list[list[Vector]]:
    """The faces of an OFF text."""
    rows = [row.split() for row in text.splitlines()[1:]]
    vertices, faces = int(rows[0][0]), int(rows[0][1])
    points = [(float(x), float(y), float(z)) for x, y, z in rows[1 : 1 + vertices]]
    return [[points[int(it)] for it in row[1:]] for row in rows[1 + vertices : 1 + vertices + faces]]


# a line, or an arc: start, end, centre or None, and 1 for an arc to the left, -1 to the right
Element = tuple[Spot, Spot, "Spot | None", int]


def contour_elements(text: str) -> list[Element]:
    """The lines and arcs of contour blocks."""
    found: list[Element] = []
    at = (0.0, 0.0)
    for row in text.splitlines():
        words = {it[0]: float(it[1]) for it in re.findall(r"([A-Z])(-?[0-9.]+)", row)}
        if words.get("G") not in (0, 1, 2, 3):
            continue
        to = (words["X"], words["Y"])
        if words["G"] == 1:
            found.append((at, to, None, 0))
        elif words["G"] > 1:
            found.append((at, to, (at[0] + words["I"], at[1] + words["J"]), 1 if words["G"] == 3 else -1))
        at = to
    return found


def arc_angles(element: Element) -> tuple[float, float, float]:
    """Radius, first angle and turn of an arc."""
    start, end, centre, turn = element
    assert centre is not None
    first = math.atan2(start[1] - centre[1], start[0] - centre[0])
    last = math.atan2(end[1] - centre[1], end[0] - centre[0])
    sweep = turn * (last - first) % math.tau if start != end else math.tau
    return math.dist(start, centre), first, turn * (sweep or math.tau)


def polyline(element: Element) -> list[Spot]:
    """Points along an element, so close that an arc is hardly off."""
    start, end, centre, _ = element
    if centre is None:
        return [start, end]
    radius, first, sweep = arc_angles(element)
    steps = max(8, math.ceil(abs(sweep) * 60))
    inner = (first + sweep * k / steps for k in range(1, steps))
    return [start, *((centre[0] + radius * math.cos(it), centre[1] + radius * math.sin(it)) for it in inner), end]


def steps_of(elements: Iterable[Element]) -> list[tuple[Spot, Spot]]:
    """The elements as short ways."""
    ways = (polyline(it) for it in elements)
    return [step for way in ways for step in zip(way, way[1:])]


def in_outlines(point: Spot, steps: Iterable[tuple[Spot, Spot]], gap: float) -> bool:
    """Whether a point is inside outlines, which come as short ways."""
    inside = False
    x, y = point
    for a, b in steps:
        if min(a[1], b[1]) - gap <= y <= max(a[1], b[1]) + gap:
            if segment_distance(point, a, b) < gap:
                raise Near
            if (a[1] > y) != (b[1] > y) and x < a[0] + (y - a[1]) / (b[1] - a[1]) * (b[0] - a[0]):
                inside = not inside
    return inside
