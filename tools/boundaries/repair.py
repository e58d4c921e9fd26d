"""Straightens bent sides: moves their corners to other whole places beside them, so that all stand on one plane again.

A corner may go no farther from its place in the file than the part allows, and sides that are plane stay so. This finds what
plain rounding misses: corners that are off a plane by one step.
"""

from __future__ import annotations

import math
import random
from collections import defaultdict
from itertools import product
from typing import Iterator

from .axes import REACH
from .limits import Whole, cross, dot, minus
from .polygons import off_plane
from .rounding import Part, Placing, far_apart

# places tried for one corner, and orders in which sides are taken
MOST_PLACES = 9
MOST_WAYS = 60
ORDERS = 2
# after so many tries in vain it is left
PATIENCE = 40
# sides of up to so many corners may bend again where others are mended for it
SOFT = 4

Row = tuple[Whole, int]


class Repair:
    """The places of the corners, and of each side that is plane its row."""

    def __init__(self, part: Part, made: Placing) -> None:
        self.part = part
        self.places = dict(made.places)
        self.scales = [float(it.scale) for it in made.fits]
        self.targets: dict[int, tuple[float, float, float]] = {}
        for it in part.corners:
            x, y, z = (float(value * fit.scale + fit.move) for value, fit in zip(part.exact[it], made.fits))
            self.targets[it] = (x, y, z)
        self.sides = [list(dict.fromkeys(it for loop in side.loops for it in loop)) for side in part.sides]
        self.bases = [base_of(corners, part) for corners in self.sides]
        self.sides_at: dict[int, list[int]] = defaultdict(list)
        for at, corners in enumerate(self.sides):
            if len(corners) > 3:
                for it in corners:
                    self.sides_at[it].append(at)
        self.known: dict[int, list[Whole]] = {}
        self.rows = [self.row(at) for at in range(len(self.sides))]

    def row(self, side: int) -> Row | None:
        """The plane of a side, or None where it is bent."""
        a, b, c = (self.places[it] for it in self.bases[side])
        normal = cross(minus(b, a), minus(c, a))
        far = dot(normal, a)
        if normal == (0, 0, 0) or any(dot(normal, self.places[it]) != far for it in self.sides[side]):
            return None
        return normal, far

    def bent(self) -> list[int]:
        """The sides that are bent."""
        return [it for it, row in enumerate(self.rows) if row is None and len(self.sides[it]) > 3]

    def candidates(self, corner: int) -> list[Whole]:
        """The whole places near enough to a corner, the nearest first."""
        if corner not in self.known:
            most = float(self.part.most)
            target = self.targets[corner]
            ranges = []
            for value, scale in zip(target, self.scales):
                reach = min(most * scale, 2.0)
                ranges.append(range(math.ceil(value - reach), math.floor(value + reach) + 1))
            found = []
            for x, y, z in product(*ranges):
                far = sum(((a - b) / scale) ** 2 for a, b, scale in zip((x, y, z), target, self.scales))
                if far <= most * most and all(abs(it) <= REACH for it in (x, y, z)):
                    found.append((far, (x, y, z)))
            found.sort()
            self.known[corner] = [it for _, it in found]
        return self.known[corner]

    def free(self, corner: int, side: int) -> list[Whole]:
        """The places that a corner may take so that its other sides of more than four corners that are plane stay so."""
        held = []
        for it in self.sides_at[corner]:
            row = self.rows[it]
            if it != side and row is not None and len(self.sides[it]) > SOFT:
                held.append(row)
        places = [it for it in self.candidates(corner) if all(dot(normal, it) == far for normal, far in held)]
        return places[:MOST_PLACES]

    def ways(self, side: int) -> Iterator[dict[int, Whole]]:
        """The places for the corners of a side at which it is plane."""
        corners = self.sides[side]
        free = {it: self.free(it, side) for it in corners}
        if not all(free.values()):
            return
        base = self.bases[side]
        others = sorted((it for it in corners if it not in base), key=lambda it: len(free[it]))
        for a, b, c in product(*(free[it] for it in base)):
            normal = cross(minus(b, a), minus(c, a))
            far = dot(normal, a)
            taken = dict(zip(base, (a, b, c)))
            for it in others:
                place = next((place for place in free[it] if dot(normal, place) == far), None)
                if place is None:
                    break
                taken[it] = place
            else:
                if normal != (0, 0, 0):
                    yield taken

    def cost(self, sides: list[int]) -> int:
        """About how many pieces these sides have beside one each."""
        return sum(len(self.sides[it]) - 3 for it in sides if self.row(it) is None)

    def straighten(self, side: int) -> bool:
        """Puts the corners of a side on one plane, where that bends no more than it mends."""
        touched = list(dict.fromkeys(it for corner in self.sides[side] for it in self.sides_at[corner]))
        before = self.cost(touched)
        start = {it: self.places[it] for it in self.sides[side]}
        best: tuple[int, dict[int, Whole]] = (before + 1, start)
        for tried, taken in enumerate(self.ways(side)):
            self.places.update(taken)
            after = self.cost(touched)
            if after < best[0]:
                best = (after, taken)
            if tried > MOST_WAYS or after == 0:
                break
        self.places.update(best[1])
        for it in touched:
            self.rows[it] = self.row(it)
        return best[0] < before

    def run(self, draw: random.Random) -> None:
        """Straightens side after side, until that has not helped for a while."""
        idle = 0
        while idle < PATIENCE:
            bent = self.bent()
            if not bent:
                break
            idle = 0 if self.straighten(draw.choice(bent)) else idle + 1

    def placing(self, made: Placing) -> Placing:
        """The placing that was reached."""
        pieces = sum(off_plane([self.places[it] for it in self.sides[side]], 0) for side in self.bent())
        return Placing(made.fits, self.places, pieces)


def base_of(corners: list[int], part: Part) -> tuple[int, int, int]:
    """Three corners of a side that are far from one line."""
    back = {part.index[it]: it for it in corners}
    a, b, c = far_apart(list(back), part)
    return back[a], back[b], back[c]


def repaired(part: Part, made: Placing) -> Placing:
    """The placing with the fewest pieces that is found beside one."""
    best = made
    for turn in range(ORDERS):
        if best.bent == 0:
            break
        repair = Repair(part, made)
        repair.run(random.Random(turn))
        again = repair.placing(made)
        if again.bent < best.bent:
            best = again
    return best
