"""Where the corners of a mesh come to stand: factors and moves for the axes at which as few planes as possible bend.

An axis that is exact has one answer. For the others the best numbers of steps are tried together, those with the least
distances first, until all planes stay plane; else the trial with the fewest pieces is taken.
"""

from __future__ import annotations

import math
import random
from dataclasses import dataclass
from fractions import Fraction
from itertools import product
from typing import Iterator, Protocol

from .axes import SEEN, SPAN, Fit, Trial, check_reach, exact_base, multiple, near_base, placed, shifted, simple_fit, trials, whole_of
from .loops import Side
from .mesh import Point
from .decimals import least_common
from .polygons import Vector, cross, length, minus, off_plane

# how many trials of each axis are combined, where one, two or three axes are not exact
BEST = {0: 1, 1: 2046, 2: 64, 3: 18}
# and how many combinations are drawn at random after them, while planes bend
DRAWN = 20_000
# how many placings are looked at closer
KEPT = 6
# how many fine ones are looked at, and of how many of the finest choices of each axis
FINE = 12
FINEST = 60

Whole = tuple[int, int, int]


@dataclass
class Part:
    """What has to be made whole: sides on corners, the distinct values of the corners on each axis, and which a corner has."""

    sides: list[Side]
    exact: list[Point]
    corners: list[int]
    values: list[list[Fraction]]
    index: dict[int, Whole]
    noise: Fraction
    size: Fraction
    most: Fraction


@dataclass
class Placing:
    """Factors and moves for the axes, and the place of each corner. `bent` is how many pieces more than planes there are."""

    fits: list[Fit]
    places: dict[int, Whole]
    bent: int


def part_of(sides: list[Side], exact: list[Point], noise: Fraction, size: Fraction, most: Fraction) -> Part:
    """The part with these sides."""
    corners = sorted({it for side in sides for loop in side.loops for it in loop})
    values = [sorted({exact[it][k] for it in corners}) for k in range(3)]
    order = [{value: at for at, value in enumerate(column)} for column in values]
    index = {it: (order[0][exact[it][0]], order[1][exact[it][1]], order[2][exact[it][2]]) for it in corners}
    return Part(sides, exact, corners, values, index, noise, size, most)


def exact_fits(values: list[list[Fraction]], noise: Fraction) -> list[Fit | None]:
    """The fits of the axes that are exact: with one factor for all of them where one serves, else each with its own."""
    bases = [exact_base(it) or near_base(it, noise) for it in values]
    spans = [it[-1] - it[0] for it in values]
    known = [it for it in bases if it is not None]
    if len(known) == len(values):
        shared = least_common(known)
        if shared * max(spans) <= SPAN:
            scale = multiple(shared, max(spans), None)
            fits = [placed(it, scale, noise) for it in values]
            if all(it is not None for it in fits):
                return fits
    # (the factors are near one another where they can be, so that the part looks as it is)
    fixed = [Fraction(SPAN) / span if base is None else base for base, span in zip(bases, spans)]
    target = min((it for it, base in zip(fixed, bases) if base is None), default=max(*fixed, SEEN / max(spans)))
    return [
        None if base is None else placed(column, multiple(base, span, target), noise)
        for base, span, column in zip(bases, spans, values)
    ]


class Bending(Protocol):
    """What can bend: sides of a mesh, or lines on which several edges lie."""

    def count(self, whole: list[list[int]], most: int) -> int:
        """How many bend at these whole values of the axes; counted no further than to `most`."""


class Bends:
    """Which sides bend where corners are made whole. Sides along two axes cannot, nor can triangles."""

    def __init__(self, part: Part) -> None:
        self.sides: list[list[Whole]] = []
        self.bases: list[tuple[Whole, Whole, Whole]] = []
        for side in part.sides:
            corners = [part.index[it] for it in dict.fromkeys(it for loop in side.loops for it in loop)]
            is_along = any(len({it[k] for it in corners}) == 1 for k in range(3))
            if len(corners) > 3 and not is_along:
                self.sides.append(corners)
                self.bases.append(far_apart(corners, part))

    def count(self, whole: list[list[int]], most: int) -> int:
        """How many sides bend at these whole values of the axes; counted no further than to `most`."""
        xs, ys, zs = whole
        bent = 0
        for corners, base in zip(self.sides, self.bases):
            (ax, ay, az), (bx, by, bz), (cx, cy, cz) = ((xs[it[0]], ys[it[1]], zs[it[2]]) for it in base)
            bx, by, bz, cx, cy, cz = bx - ax, by - ay, bz - az, cx - ax, cy - ay, cz - az
            nx, ny, nz = by * cz - bz * cy, bz * cx - bx * cz, bx * cy - by * cx
            far = nx * ax + ny * ay + nz * az
            for i, j, k in corners:
                if nx * xs[i] + ny * ys[j] + nz * zs[k] != far:
                    bent += 1
                    break
            if bent >= most:
                break
        return bent

    def pieces(self, whole: list[list[int]]) -> int:
        """About how many pieces the bent sides are cut into, beside one for each side."""
        return sum(off_plane(points_of(corners, whole), 0) for corners in self.sides)


def points_of(corners: list[Whole], whole: list[list[int]]) -> list[Vector]:
    """The whole points of corners."""
    return [(whole[0][i], whole[1][j], whole[2][k]) for i, j, k in corners]


def far_apart(corners: list[Whole], part: Part) -> tuple[Whole, Whole, Whole]:
    """Three of the corners that are far from one line."""
    near = [[float(it - column[0]) for it in column] for column in part.values]
    points = {it: (near[0][it[0]], near[1][it[1]], near[2][it[2]]) for it in corners}
    a = corners[0]
    b = max(corners, key=lambda it: length(minus(points[it], points[a])))
    along = minus(points[b], points[a])
    c = max(corners, key=lambda it: length(cross(along, minus(points[it], points[a]))))
    return a, b, c


@dataclass
class Choice:
    """What an axis may be: the whole numbers of its values, how far they are from them, and the trial or the fit behind it."""

    whole: list[int]
    error: float
    trial: Trial | None = None
    fit: Fit | None = None

    def made(self, values: list[Fraction], noise: Fraction) -> Fit:
        """The fit, with a simple factor and move."""
        if self.fit is not None:
            return self.fit
        assert self.trial is not None
        return simple_fit(values, self.whole, self.trial, noise)


def choices(values: list[list[Fraction]], most: Fraction, fits: list[Fit | None]) -> list[list[Choice]]:
    """The choices of each axis, the best first; of an axis that is exact there is one."""
    found = []
    for column, fit in zip(values, fits):
        if fit is not None:
            found.append([Choice(list(fit.whole), fit.error, fit=fit)])
        else:
            found.append([Choice(whole_of(column, it), it.error, it) for it in trials(column, SPAN, most)])
    return found


def combinations(axes: list[list[Choice]]) -> Iterator[tuple[Choice, ...]]:
    """The choices of the axes together: the best of each axis, those with the least distances first; then some of all."""
    count = BEST[sum(len(it) > 1 for it in axes)]
    yield from sorted(product(*(it[:count] for it in axes)), key=square_error)
    if any(len(it) > count for it in axes):
        # (the same numbers at each run)
        draw = random.Random(1)
        for _ in range(DRAWN):
            yield tuple(draw.choice(it) for it in axes)


def square_error(combination: tuple[Choice, ...]) -> float:
    """The sum of the squares of the distances on the axes."""
    return sum((it.error * it.error for it in combination), 0.0)


def search(bends: Bending, axes: list[list[Choice]]) -> list[tuple[int, float, tuple[Choice, ...]]]:
    """The combinations at which the fewest sides bend, each with their number and its distance, the best ones first."""
    best: list[tuple[int, float, tuple[Choice, ...]]] = []
    least = 10**6
    for combination in combinations(axes):
        bent = bends.count([it.whole for it in combination], least + 1)
        if bent <= least:
            least = bent
            best.append((bent, square_error(combination), combination))
        if bent == 0:
            break
    return sorted(best, key=lambda it: it[:2])[:KEPT]


def freed(part: Part) -> list[Fit | None]:
    """The fits of the axes that have but two values; those of the others are looked for anew, since exact ones bend sides."""
    return [fit if len(column) == 2 else None for fit, column in zip(exact_fits(part.values, part.noise), part.values)]


def placings(part: Part) -> list[Placing]:
    """The placings at which the fewest sides bend: with the exact factors where these bend none, else with any."""
    bends = Bends(part)
    fits = exact_fits(part.values, part.noise)
    found = search(bends, choices(part.values, part.most, fits))
    if (not found or found[0][0] > 0) and freed(part) != fits:
        found += search(bends, choices(part.values, part.most, freed(part)))
    return [placing(part, it) for _, _, it in sorted(found, key=lambda it: it[:2])]


def fine_placings(part: Part) -> list[Placing]:
    """Some placings of many steps, at which corners have the most whole places beside them."""
    draw = random.Random(2)
    axes = choices(part.values, part.most, freed(part))
    if not all(axes):
        return []
    finest = [sorted(it, key=lambda choice: choice.whole[0] - choice.whole[-1])[:FINEST] for it in axes]
    return [placing(part, tuple(draw.choice(it) for it in finest)) for _ in range(FINE)]


def given(part: Part, factors: list[Fraction]) -> Placing:
    """The placing at the factors that the caller gave, with the best move."""
    fits = []
    for name, column, factor in zip("xyz", part.values, factors):
        check_reach(name, column[-1] - column[0], factor)
        fits.append(placed(column, factor, part.noise) or shifted(column, factor))
    combination = tuple(Choice(list(it.whole), it.error, fit=it) for it in fits)
    return placing(part, combination)


def placing(part: Part, combination: tuple[Choice, ...]) -> Placing:
    """The placing of a combination, with simple factors and moves."""
    fits = [choice.made(column, part.noise) for column, choice in zip(part.values, combination)]
    whole = [it.whole for it in combination]
    places = {it: (whole[0][i], whole[1][j], whole[2][k]) for it, (i, j, k) in part.index.items()}
    return Placing(fits, places, Bends(part).pieces(whole))


def moved(part: Part, made: Placing, members: list[tuple[Point, int]]) -> float:
    """The greatest distance by which a corner of the file was moved, in its units; 0 only where none was."""
    greatest = Fraction(0)
    for point, corner in members:
        if corner in made.places:
            off = ((it * fit.scale + fit.move - to) / fit.scale for it, fit, to in zip(point, made.fits, made.places[corner]))
            greatest = max(greatest, sum((it * it for it in off), Fraction(0)))
    return math.sqrt(greatest)
