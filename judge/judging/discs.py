"""Candidates of lines and discs: the dropping rules, the two further rules of lean ones, and samples."""

from itertools import combinations
from typing import Iterator, NamedTuple

from .tables import Box, Table, walls_of
from .vectors import Numbers, Point, disc_value, opposite

WEIGHTS = [(i, j, k) for i in range(1, 7) for j in range(1, 7) for k in range(1, 7) if i + j + k <= 8]


class Rules(NamedTuple):
    """For one region: discs that must be in a set, that may not be, and that bring or bar others."""

    must: int
    never: int
    brings: list[int]
    bars: list[int]


def is_parted(square: int, one: int, other: int) -> bool:
    """Whether a number is at least 0, and its square at least 4 times the product of two squared radii."""
    return square >= 0 and square * square >= 4 * one * other


def pair_rules(discs: list[Numbers]) -> tuple[list[int], list[int]]:
    """Of each disc the ones that it lies in, and the ones that are apart from it."""
    brings, bars = [0] * len(discs), [0] * len(discs)
    for i, (x, y, r) in enumerate(discs):
        for j, (u, v, s) in enumerate(discs):
            if i != j:
                between = (u - x) ** 2 + (v - y) ** 2
                brings[i] |= (s >= r and is_parted(r + s - between, r, s)) << j
                bars[i] |= is_parted(between - r - s, r, s) << j
    return brings, bars


def is_cut_off(disc: Numbers, sides: list[Numbers]) -> bool:
    """Whether a side of the region, Above towards it, has the centre strictly below, at the radius or farther."""
    for a, b, d in sides:
        height = a * disc[0] + b * disc[1] + d
        if height < 0 and height * height >= disc[2] * (a * a + b * b):
            return True
    return False


def is_missed(disc: Numbers, corners: list[Point]) -> bool:
    """Whether a corner v is not strictly inside, and no corner is nearer to the centre along v - c."""
    for v in corners:
        if disc_value(disc, v) >= 0:
            x, y = v[0] - disc[0] * v[2], v[1] - disc[1] * v[2]
            if all(x * (q[0] * v[2] - v[0] * q[2]) + y * (q[1] * v[2] - v[1] * q[2]) >= 0 for q in corners):
                return True
    return False


def is_exceeded(disc: Numbers, other: Numbers, corners: list[Point]) -> bool:
    """Whether at each corner the other disc's value is at most this one's."""
    return all(disc_value(other, q) <= disc_value(disc, q) for q in corners)


def rules_of(box: Box, table: Table, mask: int, corners: list[Point], lean: bool) -> Rules:
    """The rules at one region: those of candidates, and of lean ones where these are asked for."""
    rows = [half.row for half in table.flat]
    sides = [row if mask >> at & 1 else opposite(row) for at, row in enumerate(rows)] + walls_of(box)
    brings, bars = pair_rules(table.discs)
    must = never = 0
    for i, disc in enumerate(table.discs):
        must |= all(disc_value(disc, q) <= 0 for q in corners) << i
        never |= (is_cut_off(disc, sides) or (lean and is_missed(disc, corners))) << i
        if lean:
            for j, other in enumerate(table.discs):
                brings[i] |= (i != j and is_exceeded(disc, other, corners)) << j
    return Rules(must, never, brings, bars)


def sets_of(rules: Rules) -> Iterator[int]:
    """The sets of discs that no rule takes out."""
    count = len(rules.brings)

    def go(at: int, chosen: int, barred: int, must: int) -> Iterator[int]:
        if at == count:
            if not must & ~chosen:
                yield chosen
            return
        bit = 1 << at
        if not must & bit:
            yield from go(at + 1, chosen, barred, must)
        decided_out = (bit - 1) & ~chosen
        if not barred & bit and not rules.bars[at] & chosen and not rules.brings[at] & decided_out:
            yield from go(at + 1, chosen | bit, barred | rules.bars[at], must | rules.brings[at])

    yield from go(0, 0, rules.never, rules.must)


def samples(corners: list[Point]) -> Iterator[Point]:
    """i c1 + j c2 + k c3 of three different corners, number by number."""
    for (a, b, c), (d, e, f), (g, h, m) in combinations(corners, 3):
        for i, j, k in WEIGHTS:
            yield (i * a + j * d + k * g, i * b + j * e + k * h, i * c + j * f + k * m)


def is_sample(corners: list[Point], p: Point) -> bool:
    """Whether a point is a sample of the region with these corners."""
    x, y, w = p
    return any(u * w == x * t and v * w == y * t for u, v, t in samples(corners))


def sample_sets(table: Table, corners: list[Point], most: int) -> set[int]:
    """The sets of discs that the samples of a region are in, which are so many at most."""
    found: set[int] = set()
    for x, y, w in samples(corners):
        if len(found) == most:
            break
        chosen = 0
        for at, (cx, cy, r2) in enumerate(table.discs):
            side = (x - cx * w) ** 2 + (y - cy * w) ** 2 - r2 * w * w
            if side == 0:
                break
            chosen |= (side < 0) << at
        else:
            found.add(chosen)
    return found
