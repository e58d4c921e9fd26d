"""An arc as two arcs that meet on the way, each with a centre of its own, where one whole centre does not suit both ends.

The point where they meet may be any whole place near the arc, so that there is nearly always one.
"""

from __future__ import annotations

import math
from dataclasses import dataclass, replace
from itertools import product

Place = tuple[int, int]

# the two meet within this part of the way, and at one of so many points along it
FIRST, LAST = 0.3, 0.7
POINTS = 160
# how many places of each end are tried
ENDS = 4


@dataclass(frozen=True)
class Arc:
    """An arc at a factor and a move: its centre, radius, first angle and how far it turns; and the most that it may be off."""

    x: float
    y: float
    radius: float
    first: float
    sweep: float
    most: float

    def at(self, share: float) -> tuple[float, float]:
        """The point at a share of the way."""
        angle = self.first + self.sweep * share
        return (self.x + self.radius * math.cos(angle), self.y + self.radius * math.sin(angle))

    def off(self, centre: Place, square: int) -> float:
        """How far the arc is from the circle about a centre, at most."""
        x, y, change = centre[0] - self.x, centre[1] - self.y, math.sqrt(square) - self.radius
        steps = (self.first + self.sweep * k / 8 for k in range(9))
        return max(abs(x * math.cos(it) + y * math.sin(it) + change) for it in steps)


@dataclass(frozen=True)
class Halves:
    """Two arcs in the place of one: where they meet, and the centres before and after it."""

    middle: Place
    before: Place
    after: Place
    off: float

    def moved(self, x: int, y: int) -> "Halves":
        """The same, moved by whole numbers."""
        middle, before, after = ((it[0] + x, it[1] + y) for it in (self.middle, self.before, self.after))
        return Halves(middle, before, after, self.off)


def places_near(x: float, y: float, most: float) -> list[Place]:
    """The whole places no farther than `most` from a point, the nearest first."""
    found = [
        (math.hypot(i - x, j - y), (i, j))
        for i in range(math.ceil(x - most), math.floor(x + most) + 1)
        for j in range(math.ceil(y - most), math.floor(y + most) + 1)
    ]
    return [place for far, place in sorted(found) if far <= most]


def middles(arc: Arc) -> dict[Place, float]:
    """The whole places where two arcs may meet, each with its share of the way."""
    found: dict[Place, float] = {}
    for k in range(POINTS + 1):
        share = FIRST + (LAST - FIRST) * k / POINTS
        for place in places_near(*arc.at(share), 0.75 * arc.most):
            if abs(math.hypot(place[0] - arc.x, place[1] - arc.y) - arc.radius) <= 0.7 * arc.most:
                found.setdefault(place, share)
    return found


def partners(end: Place, arc: Arc, meet: dict[Place, float], is_first: bool) -> dict[Place, tuple[float, Place]]:
    """For each place where the arcs may meet the best centre of the arc from there to an end."""
    centres = places_near(arc.x, arc.y, 1.6 * arc.most)
    squares = [((end[0] - x) ** 2 + (end[1] - y) ** 2, (x, y)) for x, y in centres]
    found: dict[Place, tuple[float, Place]] = {}
    for place, share in meet.items():
        part = replace(arc, sweep=arc.sweep * share) if is_first else replace(arc, first=arc.first + arc.sweep * share, sweep=arc.sweep * (1 - share))
        for square, (x, y) in squares:
            if (place[0] - x) ** 2 + (place[1] - y) ** 2 == square:
                off = part.off((x, y), square)
                if off <= arc.most and off < found.get(place, (math.inf, None))[0]:
                    found[place] = (off, (x, y))
    return found


def halved(arc: Arc, firsts: list[Place], lasts: list[Place]) -> tuple[Place, Place, Halves] | None:
    """Two arcs in the place of one, with the places of its ends, those with the least distance among the first few."""
    meet = middles(arc)
    before = {it: partners(it, arc, meet, True) for it in firsts[:ENDS]}
    after = {it: partners(it, arc, meet, False) for it in lasts[:ENDS]}
    best: tuple[float, Place, Place, Halves] | None = None
    for (first, one), (last, other) in product(before.items(), after.items()):
        for place in one.keys() & other.keys():
            off = max(one[place][0], other[place][0])
            if best is None or off < best[0]:
                best = (off, first, last, Halves(place, one[place][1], other[place][1], off))
    return best[1:] if best else None
