"""Cells of lines or planes in a box: from each vertex of the arrangement, the cells round it by their signs."""

from itertools import combinations
from typing import Iterator

from .tables import Box, walls_of
from .vectors import Numbers, Point, cross, dot, is_within, leading, lowest, opposite

Cells = dict[int, list[Point]]


def vertices_flat(rows: list[Numbers]) -> Iterator[Point]:
    """The common points of two lines."""
    for a, b in combinations(rows, 2):
        p = cross(a, b)
        if p[2]:
            yield lowest(p)


def vertices_solid(rows: list[Numbers]) -> Iterator[Point]:
    """The common points of three planes."""
    size = len(rows)
    for i in range(size):
        a = rows[i]
        for j in range(i + 1, size):
            b = rows[j]
            # The six minors of two rows, once for all third planes.
            mxy, mxz, mxw = a[0] * b[1] - a[1] * b[0], a[0] * b[2] - a[2] * b[0], a[0] * b[3] - a[3] * b[0]
            myz, myw, mzw = a[1] * b[2] - a[2] * b[1], a[1] * b[3] - a[3] * b[1], a[2] * b[3] - a[3] * b[2]
            for k in range(j + 1, size):
                c = rows[k]
                w = c[0] * myz - c[1] * mxz + c[2] * mxy
                if w:
                    yield lowest((
                        -(c[1] * mzw - c[2] * myw + c[3] * myz),
                        c[0] * mzw - c[2] * mxw + c[3] * mxz,
                        -(c[0] * myw - c[1] * mxw + c[3] * mxy),
                        w,
                    ))


def signs(rows: list[Numbers], zeros: list[int], along: Numbers) -> tuple[int, list[int]]:
    """Of the rows with no sign yet those that rise along a direction, as bits, and those that have none still."""
    above, rest = 0, []
    for at in zeros:
        rise = dot(rows[at][:-1], along)
        if rise > 0:
            above |= 1 << at
        elif rise == 0:
            rest.append(at)
    return above, rest


def both(v: Numbers) -> tuple[Numbers, Numbers]:
    """A direction and the one against it."""
    return v, opposite(v)


def round_ray(rows: list[Numbers], zeros: list[int], ray: Numbers) -> Iterator[int]:
    """The signs round a ray of the planes that hold it: along each plane, then off it."""
    for at in zeros:
        normal = (*rows[at][:-1], 0)[:3]
        for along in both(cross(ray, normal)):
            above, rest = signs(rows, zeros, along)
            for off in both(normal):
                yield above | signs(rows, rest, off)[0]


def round_vertex(rows: list[Numbers], zeros: list[int]) -> set[int]:
    """The sets of rows through a vertex, as bits, that are above at once somewhere near it."""
    size = len(rows[0]) - 1
    if len(zeros) == size:
        masks = [0]
        for at in zeros:
            masks += [mask | 1 << at for mask in masks]
        return set(masks)
    if size == 2:
        # Lines through a point are planes through the ray that stands on it.
        return set(round_ray(rows, zeros, (0, 0, 1)))
    found: set[int] = set()
    rays = [cross(rows[a], rows[b]) for a, b in combinations(zeros, 2)]
    for ray in {leading(ray) for ray in rays if any(ray)}:
        for along in both(ray):
            above, rest = signs(rows, zeros, along)
            found.update(above | mask for mask in round_ray(rows, rest, along))
    return found


def cells_of(box: Box, halves: list[Numbers]) -> Cells:
    """Each mask that has a point strictly inside the box and on no half-space, with the corners of its region."""
    rows = halves + walls_of(box)
    count, full = len(halves), (1 << len(rows)) - 1
    inside = full >> count << count
    seen: set[Point] = set()
    result: Cells = {}
    for p in vertices_flat(rows) if len(rows[0]) == 3 else vertices_solid(rows):
        if p in seen or not is_within(box, p, strictly=False):
            continue
        seen.add(p)
        above, zeros = 0, []
        for at, row in enumerate(rows):
            side = dot(row, p)
            if side > 0:
                above |= 1 << at
            elif side == 0:
                zeros.append(at)
        for mask in round_vertex(rows, zeros):
            mask |= above
            if mask & inside == inside:
                result.setdefault(mask ^ inside, []).append(p)
    return result


def inner(corners: list[Point]) -> Point:
    """A point strictly inside the region of some corners: their mediant."""
    return tuple(map(sum, zip(*corners)))
