"""Whether solids of a file overlap: bcsg counts crossings, so where two overlap the result is hollow.

A vertical way through the part crosses faces up or down; the crossings so far are the winding number. Where it is 2 or more, or
-2 or less, solids overlap. Ways are laid between the values of the corners on the axes, and near places where edges go through
faces. A hollow in a block has the other orientation, and is none.
"""

from __future__ import annotations

import random
from collections import defaultdict
from itertools import product
from typing import Iterable, Sequence

from .polygons import Vector, cross, dot, minus

# how many ways are laid at most, and how many tests of ways with triangles
MOST_WAYS = 600
MOST_TESTS = 1_500_000

Triangle = tuple[Vector, Vector, Vector]


def triangles_of(faces: list[list[int]], points: Sequence[Vector]) -> list[Triangle]:
    """The faces as triangles; a fan is enough, since only signed crossings count."""
    return [(points[face[0]], points[a], points[b]) for face in faces for a, b in zip(face[1:], face[2:])]


def shells(faces: list[list[int]]) -> list[list[list[int]]]:
    """The faces in groups that hang together by corners."""
    root: dict[int, int] = {}

    def find(it: int) -> int:
        while root.setdefault(it, it) != it:
            root[it] = root[root[it]]
            it = root[it]
        return it

    for face in faces:
        for it in face[1:]:
            root[find(it)] = find(face[0])
    groups: dict[int, list[list[int]]] = defaultdict(list)
    for face in faces:
        groups[find(face[0])].append(face)
    return list(groups.values())


def box(faces: list[list[int]], points: Sequence[Vector]) -> tuple[Vector, Vector]:
    """The least and the greatest coordinates of faces."""
    used = [points[it] for face in faces for it in face]
    low, high = (tuple(pick(it[k] for it in used) for k in range(3)) for pick in (min, max))
    return (low[0], low[1], low[2]), (high[0], high[1], high[2])


def shared_boxes(groups: list[list[list[int]]], points: Sequence[Vector], noise: float) -> list[tuple[Vector, Vector]]:
    """The boxes in which two shells may overlap."""
    boxes = sorted(box(it, points) for it in groups)
    found = []
    for at, (low, high) in enumerate(boxes):
        for other_low, other_high in boxes[at + 1 :]:
            if other_low[0] > high[0]:
                break
            a = (max(low[0], other_low[0]), max(low[1], other_low[1]), max(low[2], other_low[2]))
            b = (min(high[0], other_high[0]), min(high[1], other_high[1]), min(high[2], other_high[2]))
            if all(b[k] - a[k] > 2 * noise for k in range(3)):
                found.append((a, b))
    return found


def crossings(x: float, y: float, triangles: list[Triangle]) -> list[tuple[float, int]] | None:
    """The heights at which the vertical way at (x, y) crosses triangles, each with 1 where it leaves upwards through a face that
    looks up, else -1; None where the way comes too near to an edge."""
    found = []
    for (ax, ay, az), (bx, by, bz), (cx, cy, cz) in triangles:
        if (ax > x and bx > x and cx > x) or (ax < x and bx < x and cx < x):
            continue
        u = (bx - x) * (cy - y) - (by - y) * (cx - x)
        v = (cx - x) * (ay - y) - (cy - y) * (ax - x)
        w = (ax - x) * (by - y) - (ay - y) * (bx - x)
        total = u + v + w
        if (u > 0 and v > 0 and w > 0) or (u < 0 and v < 0 and w < 0):
            found.append(((u * az + v * bz + w * cz) / total, 1 if total > 0 else -1))
        elif total != 0 and min(abs(u), abs(v), abs(w)) < 1e-9 * abs(total) and not (min(u, v, w) < 0 < max(u, v, w)):
            return None
    return sorted(found)


def deep(found: list[tuple[float, int]], noise: float) -> float | None:
    """A height on a way at which the winding number is past 1, in a stretch that is longer than the noise."""
    winding = 0
    for (low, sign), (high, _) in zip(found, found[1:]):
        winding -= sign
        if abs(winding) >= 2 and high - low > 4 * noise:
            return (low + high) / 2
    return None


def between(values: Iterable[float], low: float, high: float, share: float) -> list[float]:
    """The points at a share of the way between neighbouring values, and the ends, within a stretch."""
    inner = sorted({low, high, *(it for it in values if low < it < high)})
    return [a + share * (b - a) for a, b in zip(inner, inner[1:]) if b - a > 1e-9 * (high - low)]


def ways_in(low: Vector, high: Vector, points: Sequence[Vector], count: int) -> list[tuple[float, float]]:
    """Where ways are laid in a box: between the values of corners there, or as many at random."""
    # (shares that differ, so that no way is laid along the diagonal of a square)
    xs = between((it[0] for it in points), low[0], high[0], 0.5137)
    ys = between((it[1] for it in points), low[1], high[1], 0.4619)
    draw = random.Random(3)
    ways = list(product(xs, ys)) if len(xs) * len(ys) <= 4 * count else []
    if len(ways) > count or not ways:
        drawn = [(draw.uniform(low[0], high[0]), draw.uniform(low[1], high[1])) for _ in range(count // 2)]
        ways = draw.sample(ways, min(len(ways), count - len(drawn))) + drawn
    return ways


def pierced(groups: list[list[list[int]]], points: Sequence[Vector], noise: float) -> list[tuple[float, float]]:
    """Where edges of one shell go through triangles of another: beside such a place the two overlap."""
    parts = [triangles_of(it, points) for it in groups]
    edges = [{(min(a, b), max(a, b)) for face in it for a, b in zip(face, face[1:] + face[:1])} for it in groups]
    found = []
    tests = 0
    for k, triangles in enumerate(parts):
        for j, ends in enumerate(edges):
            tests += len(ends) * len(triangles) if j != k else 0
            if j == k or tests > MOST_TESTS // 5:
                continue
            for a, b in ends:
                place = next((it for it in (pierce(points[a], points[b], one) for one in triangles) if it), None)
                if place:
                    found += [(place[0] + i * noise * 20, place[1] + h * noise * 20) for i, h in product((-1.03, 1), (-0.97, 1.01))]
                    if len(found) > 100:
                        return found
    return found


def pierce(a: Vector, b: Vector, triangle: Triangle) -> Vector | None:
    """Where a way goes through the inside of a triangle."""
    p, q, r = triangle
    normal = cross(minus(q, p), minus(r, p))
    before, after = dot(normal, minus(a, p)), dot(normal, minus(b, p))
    if before * after >= 0 or before == after:
        return None
    t = before / (before - after)
    place = (a[0] + t * (b[0] - a[0]), a[1] + t * (b[1] - a[1]), a[2] + t * (b[2] - a[2]))
    for u, v in ((p, q), (q, r), (r, p)):
        if dot(normal, cross(minus(v, u), minus(place, u))) < -1e-7 * dot(normal, normal):
            return None
    return place


def overlap(faces: list[list[int]], points: Sequence[Vector], noise: float) -> Vector | None:
    """A point in which solids overlap, or None where none was found."""
    triangles = triangles_of(faces, points)
    groups = shells(faces)
    count = min(MOST_WAYS, max(20, MOST_TESTS // max(1, len(triangles))))
    if len(groups) > 1:
        boxes = shared_boxes(groups, points, noise)
        ways = pierced(groups, points, noise) if boxes and len(groups) < 30 else []
        for low, high in boxes[:20]:
            ways += ways_in(low, high, points, max(10, count // len(boxes[:20])))
    else:
        low, high = box(faces, points)
        ways = ways_in(low, high, points, count // 4)
    for x, y in ways:
        found = crossings(x, y, triangles)
        height = deep(found, noise) if found else None
        if height is not None:
            return (x, y, height)
    return None
