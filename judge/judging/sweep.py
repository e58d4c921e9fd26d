"""The masks of lines and discs that have a point, exactly: columns between the places where curves meet or turn."""

from fractions import Fraction
from functools import cmp_to_key
from itertools import combinations
from math import isqrt
from typing import Iterator, NamedTuple

from .tables import Box, Table, walls_of
from .vectors import Numbers, Point, cross


class Root(NamedTuple):
    """The number (whole + sign * sqrt(under)) / over, over above 0; sign 0 where there is no root."""

    whole: int
    sign: int
    under: int
    over: int

    def floor(self, bits: int) -> int:
        """A number that is at most 2 below this one times 2^bits, and not above it."""
        root = isqrt(self.under << (2 * bits))
        low = (self.whole << bits) + (root if self.sign > 0 else -root - 1 if self.sign else 0)
        return low // self.over


def ratio(whole: int, over: int) -> Root:
    """A rational number."""
    return Root(whole, 0, 0, over) if over > 0 else Root(-whole, 0, 0, -over)


def root_sign(a: int, b: int, under: int) -> int:
    """The sign of a + b sqrt(under)."""
    if a >= 0 and b >= 0:
        return int(a > 0 or (b > 0 and under > 0))
    if a <= 0 and b <= 0:
        return -int(a < 0 or (b < 0 and under > 0))
    size = a * a - b * b * under
    return (size > 0) - (size < 0) if a > 0 else (size < 0) - (size > 0)


def compare(p: Root, q: Root) -> int:
    """The sign of p - q."""
    a = p.whole * q.over - q.whole * p.over
    b, c = p.sign * q.over, -q.sign * p.over
    # The sign of a + b sqrt(d) + c sqrt(e): first that of a + b sqrt(d), then by squares.
    first, last = root_sign(a, b, p.under), c * (q.under > 0)
    last = (last > 0) - (last < 0)
    if first == last or last == 0:
        return first
    if first == 0:
        return last
    size = root_sign(a * a + b * b * p.under - c * c * q.under, 2 * a * b, p.under)
    return size if first > 0 else -size


def quadratic(a: int, b: int, c: int) -> Iterator[Root]:
    """The real roots of a x^2 + 2 b x + c, a above 0."""
    under = b * b - a * c
    if under >= 0:
        yield Root(-b, -1, under, a)
        yield Root(-b, 1, under, a)


def line_meets_disc(row: Numbers, disc: Numbers) -> Iterator[Root]:
    """The columns where a line that is not upright meets a circle."""
    (a, b, d), (x, y, r2) = row, disc
    # b y = -(a x + d), so (x - cx)^2 b^2 + (a x + d + b cy)^2 = r2 b^2.
    e = d + b * y
    yield from quadratic(a * a + b * b, a * e - x * b * b, b * b * (x * x - r2) + e * e)


def breaks_of(rows: list[Numbers], discs: list[Numbers]) -> Iterator[Root]:
    """The columns of upright lines, of meets of two curves, and of the ends of circles."""
    for a, b, d in rows:
        if b == 0:
            yield ratio(-d, a)
    for p, q in combinations(rows, 2):
        x, _, w = cross(p, q)
        if w:
            yield ratio(x, w)
    for disc in discs:
        yield Root(disc[0], 1, disc[2], 1)
        yield Root(disc[0], -1, disc[2], 1)
        for row in rows:
            if row[1]:
                yield from line_meets_disc(row, disc)
    for (x, y, r), (u, v, s) in combinations(discs, 2):
        row = (2 * (u - x), 2 * (v - y), x * x + y * y - r - u * u - v * v + s)
        if row[1]:
            yield from line_meets_disc(row, (x, y, r))
        elif row[0]:
            yield ratio(-row[2], row[0])


def between(values: list[Root], bits: int = 24) -> Iterator[Fraction]:
    """A rational number between each two neighbours of the distinct values, in order."""
    ordered = sorted((root.floor(bits), root) for root in set(values))
    exact, start = cmp_to_key(compare), 0
    for at in range(1, len(ordered) + 1):
        # Values whose approximations may overlap are put in order exactly.
        if at == len(ordered) or ordered[at][0] - ordered[at - 1][0] > 4:
            if at - start > 1:
                ordered[start:at] = sorted(ordered[start:at], key=lambda pair: exact(pair[1]))
            start = at
    for (_, low), (_, high) in zip(ordered, ordered[1:]):
        fine = bits
        below, above = low.floor(fine), high.floor(fine)
        if above - below >= 8 or compare(low, high):
            while above - below < 8:
                fine *= 2
                below, above = low.floor(fine), high.floor(fine)
            yield Fraction((above + below) // 2 + 1, 1 << fine)


def heights(rows: list[Numbers], discs: list[Numbers], x: Fraction) -> list[Root]:
    """The heights at a column of lines and circles."""
    n, w = x.numerator, x.denominator
    result = []
    for a, b, d in rows:
        if b:
            result.append(ratio(-(a * n + d * w), b * w))
    for cx, cy, r2 in discs:
        under = r2 * w * w - (n - cx * w) ** 2
        if under > 0:
            result += [Root(cy * w, sign, under, w) for sign in (-1, 1)]
    return result


def free_masks(box: Box, table: Table) -> dict[int, Point]:
    """Each mask of lines and discs that has a point strictly inside the box, with such a point."""
    (left, low), (right, high) = box
    rows = [half.row for half in table.flat] + walls_of(box)
    found: dict[int, Point] = {}
    for x in between(list(breaks_of(rows, table.discs))):
        if left < x < right:
            n, w = x.numerator, x.denominator
            for y in between(heights(rows, table.discs, x)):
                if low < y < high:
                    point = (n * y.denominator, y.numerator * w, w * y.denominator)
                    found.setdefault(table.mask(point), point)
    return found
