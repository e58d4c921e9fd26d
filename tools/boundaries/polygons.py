"""Polygons in space: their planes, how loops lie in one another, and how a bent one is cut into flat pieces.

The coordinates are floats, or whole numbers, which stay exact.
"""

from __future__ import annotations

import math
from typing import Callable, Sequence

Vector = tuple[float, float, float]
Loop = list[int]


def minus(a: Vector, b: Vector) -> Vector:
    """The difference of two points."""
    return (a[0] - b[0], a[1] - b[1], a[2] - b[2])


def cross(a: Vector, b: Vector) -> Vector:
    """The cross product."""
    return (a[1] * b[2] - a[2] * b[1], a[2] * b[0] - a[0] * b[2], a[0] * b[1] - a[1] * b[0])


def dot(a: Vector, b: Vector) -> float:
    """The dot product."""
    return a[0] * b[0] + a[1] * b[1] + a[2] * b[2]


def length(a: Vector) -> float:
    """The length of a vector."""
    return math.sqrt(dot(a, a))


def area_vector(corners: Sequence[Vector]) -> Vector:
    """Twice the area of a polygon, as a vector across it (Newell); it is right for bent polygons as well."""
    x = y = z = 0.0
    origin = corners[0]
    for k in range(1, len(corners) - 1):
        part = cross(minus(corners[k], origin), minus(corners[k + 1], origin))
        x, y, z = x + part[0], y + part[1], z + part[2]
    return (x, y, z)


def kept_axes(normal: Vector) -> tuple[int, int]:
    """The two axes that remain where a plane with this normal is looked at along its steepest axis."""
    drop = max(range(3), key=lambda k: abs(normal[k]))
    # (in this order a loop that runs to the left about the normal runs to the left in the plane)
    first, second = ((1, 2), (2, 0), (0, 1))[drop]
    return (first, second) if normal[drop] > 0 else (second, first)


Flat = dict[int, tuple[float, float]]


def flattened(loops: list[Loop], points: Sequence[Vector], normal: Vector) -> Flat:
    """The corners of loops in the plane."""
    first, second = kept_axes(normal)
    return {it: (points[it][first], points[it][second]) for loop in loops for it in loop}


def turn(a: tuple[float, float], b: tuple[float, float], c: tuple[float, float]) -> float:
    """Above 0 where the way from a over b to c turns left."""
    return (b[0] - a[0]) * (c[1] - a[1]) - (b[1] - a[1]) * (c[0] - a[0])


def area(loop: Loop, flat: Flat) -> float:
    """Twice the area of a loop; above 0 where it runs to the left."""
    return sum(turn(flat[loop[0]], flat[a], flat[b]) for a, b in zip(loop[1:], loop[2:]))


def is_within(point: tuple[float, float], loop: Loop, flat: Flat) -> bool:
    """Whether a point is within a loop."""
    inside = False
    for a, b in zip(loop, loop[1:] + loop[:1]):
        (ax, ay), (bx, by) = flat[a], flat[b]
        if (ay > point[1]) != (by > point[1]):
            inside ^= (turn((ax, ay), (bx, by), point) > 0) == (by > ay)
    return inside


def lies_in(loop: Loop, other: Loop, flat: Flat) -> bool:
    """Whether a loop lies within another one, by the middle of its first edge that is no edge of the other."""
    edges = {frozenset(it) for it in zip(other, other[1:] + other[:1])}
    for a, b in zip(loop, loop[1:] + loop[:1]):
        if frozenset((a, b)) not in edges:
            middle = ((flat[a][0] + flat[b][0]) / 2, (flat[a][1] + flat[b][1]) / 2)
            return is_within(middle, other, flat)
    return False


def nested(loops: list[Loop], flat: Flat) -> list[tuple[Loop, list[Loop]]]:
    """Outer loops, which run to the left, each with the holes that lie in it, which run to the right."""
    inside = [[k for k, other in enumerate(loops) if k != at and lies_in(loop, other, flat)] for at, loop in enumerate(loops)]
    turned = [it if (area(it, flat) > 0) == (len(inside[k]) % 2 == 0) else it[::-1] for k, it in enumerate(loops)]
    found = []
    for at, outer in enumerate(turned):
        if len(inside[at]) % 2 == 0:
            holes = [turned[k] for k in range(len(loops)) if at in inside[k] and len(inside[k]) == len(inside[at]) + 1]
            found.append((outer, holes))
    return found


def meets(a: int, b: int, loop: Loop, flat: Flat) -> bool:
    """Whether the way from a to b crosses an edge of a loop that ends in neither, or goes through a corner."""
    p, q = flat[a], flat[b]
    for c, d in zip(loop, loop[1:] + loop[:1]):
        if {a, b} & {c, d}:
            continue
        r, s = flat[c], flat[d]
        if turn(p, q, r) * turn(p, q, s) <= 0 and turn(r, s, p) * turn(r, s, q) <= 0:
            return True
    return False


def bridged(outer: Loop, holes: list[Loop], flat: Flat) -> Loop:
    """One loop, in which a way there and back leads to each hole."""
    loop, rest = outer, list(holes)
    while rest:
        hole = max(rest, key=lambda it: max(flat[corner] for corner in it))
        rest.remove(hole)
        pairs = sorted(
            ((math.dist(flat[a], flat[b]), k, j) for k, a in enumerate(loop) for j, b in enumerate(hole)),
        )
        walls = [loop, hole, *rest]
        free = (it for it in pairs if not any(meets(loop[it[1]], hole[it[2]], wall, flat) for wall in walls))
        _, k, j = next(free, pairs[0])
        loop = loop[: k + 1] + hole[j:] + hole[: j + 1] + loop[k:]
    return loop


def is_ear(loop: Loop, at: int, flat: Flat) -> bool:
    """Whether the corner here can be cut off: it turns left, and no other corner is within it or on the cut."""
    a, b, c = loop[at - 1], loop[at], loop[(at + 1) % len(loop)]
    p, q, r = flat[a], flat[b], flat[c]
    if turn(p, q, r) <= 0 or a == c:
        return False
    for it in loop:
        if it in (a, b, c):
            continue
        if turn(p, q, flat[it]) >= 0 and turn(q, r, flat[it]) >= 0 and turn(r, p, flat[it]) >= 0:
            return False
    return True


def pieces(loop: Loop, flat: Flat, fits: Callable[[Loop], int]) -> list[Loop]:
    """A loop cut into pieces, corner by corner, until what is left is one piece.

    `fits` tells of a loop how many of its corners are off the plane that has most of them, 0 where it is flat; at each step
    the corner goes whose loss leaves the fewest."""
    found: list[Loop] = []
    while fits(loop) > 0:
        ears = [k for k in range(len(loop)) if is_ear(loop, k, flat)]
        if not ears:
            # (a loop that touches itself may have none: then any corner that is not straight)
            ears = [k for k in range(len(loop)) if turn(*(flat[loop[j % len(loop)]] for j in (k - 1, k, k + 1))) != 0]
        if not ears:
            break
        best = min(ears, key=lambda k: fits(loop[:k] + loop[k + 1 :]))
        found.append([loop[best - 1], loop[best], loop[(best + 1) % len(loop)]])
        loop = loop[:best] + loop[best + 1 :]
    return [*found, loop]


def off_plane(corners: Sequence[Vector], tolerance: float) -> int:
    """How many corners are farther than this from the plane that has most of them, among the planes of neighbours."""
    count = len(corners)
    if count <= 3:
        return 0
    least = count
    for k in range(count):
        a, b, c = corners[k - 2], corners[k - 1], corners[k]
        normal = cross(minus(b, a), minus(c, a))
        if normal == (0, 0, 0):
            continue
        reach = tolerance * length(normal) if tolerance else 0
        least = min(least, sum(abs(dot(normal, minus(it, a))) > reach for it in corners))
    return 0 if least == count else least
