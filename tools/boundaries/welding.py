"""Joins what is one point in the part, though the file gives it several times, each a little different.

Values of an axis within the noise are one value, and corners with equal values are one corner.
"""

from __future__ import annotations

import math
from collections import Counter
from dataclasses import dataclass
from fractions import Fraction
from itertools import product

from .faults import Refused
from .mesh import Mesh, Point
from .polygons import Vector

# what real files are exact to, in parts of the size
NOISE = Fraction(1, 10**6)
# and the most that is taken for noise where the numbers of the file are coarse
MOST_NOISE = Fraction(1, 4000)


@dataclass
class Welded:
    """Corners that differ, and the faces on them. `exact` are the places in the file, `near` the same as floats, moved near 0.
    `members` are all points of the file that faces use, each with its corner."""

    exact: list[Point]
    near: list[Vector]
    faces: list[list[int]]
    noise: Fraction
    size: Fraction
    members: list[tuple[Point, int]]
    notes: list[str]


def spans(points: list[Point]) -> list[Fraction]:
    """The lengths of the box of points along the axes."""
    return [max(it[k] for it in points) - min(it[k] for it in points) for k in range(3)]


def weld(mesh: Mesh, join: Fraction | None) -> Welded:
    """The mesh with one corner for each point."""
    used = sorted({it for face in mesh.faces for it in face})
    if not used:
        raise Refused("the file has no faces")
    points = [mesh.points[it] for it in used]
    sides = spans(points)
    size = max(sides)
    for name, side in zip("xyz", sides):
        if side == 0:
            raise Refused(f"all corners have the same {name}: a flat mesh has no inside")
    noise = min(max(size * NOISE, mesh.step), size * MOST_NOISE)
    places = joined(points, usage(mesh, used), join) if join else points
    columns = [one_value([it[k] for it in places], noise) for k in range(3)]
    found: dict[Point, int] = {}
    index = {}
    for k, old in enumerate(used):
        index[old] = found.setdefault((columns[0][k], columns[1][k], columns[2][k]), len(found))
    exact = list(found)
    low = [min(it[k] for it in exact) for k in range(3)]
    near = [(float(x - low[0]), float(y - low[1]), float(z - low[2])) for x, y, z in exact]
    faces, dropped = clean_faces([[index[it] for it in face] for face in mesh.faces])
    faces, twice = once(faces)
    members = [(mesh.points[old], new) for old, new in index.items()]
    notes = list(mesh.notes)
    if len(exact) < len(set(points)):
        notes.append(f"{len(set(points)) - len(exact)} corners were joined with corners beside them")
    if dropped:
        notes.append(f"{dropped} faces with fewer than three corners apart were left out")
    if twice:
        notes.append(f"{twice} faces that enclose a solid are drawn twice, and are taken once")
    return Welded(exact, near, faces, noise, size, members, notes)


def one_value(values: list[Fraction], noise: Fraction) -> list[Fraction]:
    """For each value the one that stands for all within the noise: that with the least denominator."""
    reach = float(noise)
    order = sorted((float(it), it) for it in set(values))
    stands: dict[Fraction, Fraction] = {}
    group: list[Fraction] = []
    first = last = -math.inf
    for near, value in [*order, (math.inf, Fraction(0))]:
        if near - last > reach / 2 or near - first > 2 * reach:
            middle = group[len(group) // 2] if group else value
            best = min(group, key=lambda it: (it.denominator, abs(it - middle)), default=value)
            stands.update((it, best) for it in group)
            group, first = [], near
        group.append(value)
        last = near
    return [stands[it] for it in values]


def usage(mesh: Mesh, used: list[int]) -> list[int]:
    """How many faces have each corner."""
    counts = Counter(it for face in mesh.faces for it in face)
    return [counts[it] for it in used]


def joined(points: list[Point], counts: list[int], reach: Fraction) -> list[Point]:
    """For each point one within reach that stands for it and others: that of the most faces."""
    total: Counter[Point] = Counter()
    for point, count in zip(points, counts):
        total[point] += count
    cells: dict[tuple[int, int, int], list[Point]] = {}
    known: dict[Point, Point] = {}
    for point, _ in total.most_common():
        x, y, z = (math.floor(it / reach) for it in point)
        near = (it for i, j, k in product((-1, 0, 1), repeat=3) for it in cells.get((x + i, y + j, z + k), ()))
        known[point] = next((it for it in near if square_distance(it, point) <= reach * reach), point)
        if known[point] is point:
            cells.setdefault((x, y, z), []).append(point)
    return [known[it] for it in points]


def square_distance(a: Point, b: Point) -> Fraction:
    """The square of the distance of two points."""
    return (a[0] - b[0]) ** 2 + (a[1] - b[1]) ** 2 + (a[2] - b[2]) ** 2


def clean_faces(faces: list[list[int]]) -> tuple[list[list[int]], int]:
    """The faces without repeated corners, and how many have too few corners left."""
    cleaned = ([it for k, it in enumerate(face) if it != face[k - 1]] for face in faces)
    kept = [it for it in cleaned if len(set(it)) >= 3]
    return kept, len(faces) - len(kept)


def once(faces: list[list[int]]) -> tuple[list[list[int]], int]:
    """The faces, those that occur twice with one orientation once, where these enclose a solid: then it was written twice. Two
    solids that overlap may share single faces; these stay."""
    seen: set[tuple[int, ...]] = set()
    first: list[list[int]] = []
    again: list[list[int]] = []
    for face in faces:
        start = face.index(min(face))
        key = (*face[start:], *face[:start])
        (again if key in seen else first).append(face)
        seen.add(key)
    edges = Counter((min(a, b), max(a, b)) for face in again for a, b in zip(face, face[1:] + face[:1]))
    if again and all(count % 2 == 0 for count in edges.values()):
        return first, len(again)
    return faces, 0
