"""Vectors of whole numbers, and rational points: numbers with their denominator last."""

from math import gcd
from operator import mul
from typing import Iterable, Sequence

Numbers = tuple[int, ...]
Point = tuple[int, ...]
Vector = tuple[int, int, int]


def farthest(numbers: Iterable[int]) -> int:
    """The greatest size of some numbers."""
    return max(abs(x) for x in numbers)


def minus(a: Vector, b: Vector) -> Vector:
    """The difference of two vectors."""
    return (a[0] - b[0], a[1] - b[1], a[2] - b[2])


def cross(a: Sequence[int], b: Sequence[int]) -> Vector:
    """The cross product of the first three numbers of each."""
    return (a[1] * b[2] - a[2] * b[1], a[2] * b[0] - a[0] * b[2], a[0] * b[1] - a[1] * b[0])


def dot(a: Iterable[int], b: Iterable[int]) -> int:
    """The sum of the products, number by number."""
    return sum(map(mul, a, b))


def determinant(rows: Sequence[Numbers]) -> int:
    """The determinant of two rows of two numbers, or of three rows of three."""
    if len(rows) == 2:
        return rows[0][0] * rows[1][1] - rows[0][1] * rows[1][0]
    return dot(rows[0], cross(rows[1], rows[2]))


def units(size: int) -> list[Numbers]:
    """The unit vector of each axis."""
    return [tuple(int(k == axis) for k in range(size)) for axis in range(size)]


def opposite(v: Numbers) -> Numbers:
    """The vector the other way."""
    return tuple(-x for x in v)


def leading(v: Numbers) -> Numbers:
    """The primitive vector along a vector or against it, whose first component that is not 0 is above 0."""
    common = gcd(*v)
    if next(x for x in v if x) < 0:
        common = -common
    return tuple(x // common for x in v)


def lowest(p: Point) -> Point:
    """The same point in lowest terms, its denominator above 0."""
    common = gcd(*p)
    if p[-1] < 0:
        common = -common
    return tuple(x // common for x in p)


def disc_value(disc: Numbers, p: Point) -> int:
    """A number below 0 strictly inside a disc (x, y, squared radius), and 0 on its circle."""
    x, y, w = p
    return (x - disc[0] * w) ** 2 + (y - disc[1] * w) ** 2 - disc[2] * w * w


def is_within(box: tuple[Numbers, Numbers], p: Point, strictly: bool) -> bool:
    """Whether a point is in a box, given by its least and greatest corner."""
    w, margin = p[-1], int(strictly)
    return all(low * w + margin <= x <= high * w - margin for x, low, high in zip(p, *box))
