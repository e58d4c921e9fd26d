"""The borders of planes: edges that stay when those inside a plane cancel, mended where a corner stands on an edge, as loops.

An edge that occurs twice in a plane is no border. What is left is one edge for each plane that ends there, so over all planes
each edge has to be there an even number of times; else the mesh is open.
"""

from __future__ import annotations

import math
from collections import Counter, defaultdict
from dataclasses import dataclass
from typing import Iterable, Sequence

from .planes import THIN, Plane
from .polygons import Loop, Vector, cross, dot, flattened, length, minus

Edge = tuple[int, int]


@dataclass
class Side:
    """A plane, and its borders as loops of corners."""

    normal: Vector
    loops: list[Loop]


def edge(a: int, b: int) -> Edge:
    """The edge between two corners, in either direction."""
    return (a, b) if a < b else (b, a)


def odd_edges(edges: Iterable[Edge]) -> set[Edge]:
    """The edges that occur an odd number of times."""
    return {it for it, count in Counter(edges).items() if count % 2}


def borders(planes: list[Plane], faces: list[list[int]]) -> list[set[Edge]]:
    """The border of each plane."""
    found = []
    for plane in planes:
        corners = (faces[it] for it in plane.faces)
        found.append(odd_edges(edge(a, b) for it in corners for a, b in zip(it, it[1:] + it[:1])))
    return found


class Corners:
    """The corners of borders, in boxes, so that those near an edge are found without looking at all."""

    def __init__(self, used: Iterable[int], points: Sequence[Vector], reach: float) -> None:
        self.points = points
        self.reach = reach
        used = list(used)
        widest = max((max(points[it][k] for it in used) - min(points[it][k] for it in used) for k in range(3)))
        self.width = max(widest / 16, 4 * reach) or 1.0
        self.boxes: dict[tuple[int, int, int], list[int]] = defaultdict(list)
        for it in used:
            self.boxes[self.box(points[it])].append(it)

    def box(self, point: Vector) -> tuple[int, int, int]:
        """The box of a point."""
        return (math.floor(point[0] / self.width), math.floor(point[1] / self.width), math.floor(point[2] / self.width))

    def near(self, a: Vector, b: Vector) -> Iterable[int]:
        """The corners in the boxes round the way from a to b."""
        steps = max(1, math.ceil(2 * math.dist(a, b) / self.width))
        seen: set[tuple[int, int, int]] = set()
        for k in range(steps + 1):
            t = k / steps
            x, y, z = self.box((a[0] + t * (b[0] - a[0]), a[1] + t * (b[1] - a[1]), a[2] + t * (b[2] - a[2])))
            seen.update((x + i, y + j, z + h) for i in (-1, 0, 1) for j in (-1, 0, 1) for h in (-1, 0, 1))
        for it in seen:
            yield from self.boxes.get(it, ())

    def on(self, ends: Edge) -> list[int]:
        """The corners on an edge, apart from its ends, in order."""
        a, b = self.points[ends[0]], self.points[ends[1]]
        along = minus(b, a)
        size = length(along)
        found = []
        for it in self.near(a, b):
            if it in ends:
                continue
            way = minus(self.points[it], a)
            share = dot(way, along) / size
            if self.reach < share < size - self.reach and length(cross(along, way)) <= self.reach * size:
                found.append((share, it))
        return [it for _, it in sorted(found)]


def mended(found: list[set[Edge]], points: Sequence[Vector], noise: float) -> tuple[list[set[Edge]], int]:
    """The borders, cut at each corner that stands on one of their edges, and how many edges were cut."""
    all_edges = set().union(*found) if found else set[Edge]()
    if not all_edges:
        return found, 0
    corners = Corners({it for ends in all_edges for it in ends}, points, (THIN + 1) * noise)
    parts = {}
    for ends in all_edges:
        on = corners.on(ends)
        if on:
            way = [ends[0], *on, ends[1]]
            parts[ends] = [edge(a, b) for a, b in zip(way, way[1:])]
    if not parts:
        return found, 0
    return [odd_edges(part for ends in border for part in parts.get(ends, [ends])) for border in found], len(parts)


def open_edges(found: list[set[Edge]]) -> list[Edge]:
    """The edges that an odd number of planes have."""
    return sorted(odd_edges(ends for border in found for ends in border))


def straight_corners(found: list[set[Edge]], points: Sequence[Vector], noise: float) -> set[int]:
    """The corners that are none: all edges there are on one line, and go on to the other side."""
    ways: dict[int, set[int]] = defaultdict(set)
    for border in found:
        for a, b in border:
            ways[a].add(b)
            ways[b].add(a)
    straight = set()
    for corner, others in ways.items():
        if len(others) != 2:
            continue
        back, on = (minus(points[it], points[corner]) for it in others)
        if dot(back, on) < 0 and length(cross(back, on)) <= 2 * noise * (length(back) + length(on)):
            straight.add(corner)
    return straight


def traced(border: set[Edge], normal: Vector, points: Sequence[Vector]) -> list[Loop]:
    """The loops of a border. Where more than two edges meet, the way goes on by the sharpest turn to the left, so that loops
    which touch in a corner are not one."""
    if not border:
        return []
    flat = flattened([[it for ends in border for it in ends]], points, normal)
    ways: dict[int, set[int]] = defaultdict(set)
    for a, b in border:
        ways[a].add(b)
        ways[b].add(a)
    loops = []
    for start in sorted(ways):
        while ways[start]:
            loop = [start]
            last, at = start, min(ways[start])
            take(ways, last, at)
            while at != start:
                loop.append(at)
                last, at = at, next_corner(last, at, ways[at], flat)
                take(ways, last, at)
            loops += parted(loop)
    return loops


def take(ways: dict[int, set[int]], a: int, b: int) -> None:
    """Takes an edge away."""
    ways[a].discard(b)
    ways[b].discard(a)


def next_corner(last: int, at: int, ways: set[int], flat: dict[int, tuple[float, float]]) -> int:
    """The way on from a corner that was reached from the last one."""
    if len(ways) == 1:
        return next(iter(ways))
    back = math.atan2(flat[last][1] - flat[at][1], flat[last][0] - flat[at][0])

    def angle(it: int) -> float:
        return (back - math.atan2(flat[it][1] - flat[at][1], flat[it][0] - flat[at][0])) % math.tau

    return min(ways, key=angle)


def parted(loop: Loop) -> list[Loop]:
    """The same loop as loops that have no corner twice."""
    found: list[Loop] = []
    way: Loop = []
    for it in loop:
        if it in way:
            at = way.index(it)
            found.append(way[at:])
            way = way[:at]
        way.append(it)
    return [it for it in [*found, way] if len(it) >= 3]


def sides(planes: list[Plane], found: list[set[Edge]], points: Sequence[Vector], noise: float) -> list[Side]:
    """The planes with their loops, without corners that are straight."""
    straight = straight_corners(found, points, noise)
    made = []
    for plane, border in zip(planes, found):
        loops = [[it for it in loop if it not in straight] for loop in traced(border, plane.normal, points)]
        made.append(Side(plane.normal, [it for it in loops if len(it) >= 3]))
    return [it for it in made if it.loops]
