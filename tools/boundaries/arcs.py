"""Whole places for outlines with arcs: both ends of an arc have to be equally far from its centre.

One factor serves both axes. Where no factor makes all coordinates whole, many factors and moves are tried. At each one every
coordinate may go to the whole numbers beside it, and an arc takes those at which its ends are equally far from its centre. A
coordinate that several points share is one, so what is upright, level or about one centre stays so.
"""

from __future__ import annotations

import math
import random
from collections import defaultdict
from dataclasses import dataclass
from itertools import islice, product
from typing import Iterator

from .axes import SPAN, gap_shift
from .halves import Arc, Halves, Place, halved

# how many numbers of steps are tried with the moves that suit them best; how many other factors are looked at after them, with
# how many moves each, and how many of both together
BEST = 400
FACTORS = 20_000
MOVES = 40
DRAWN = 5000
# answers that are compared before the best is taken, choices of one arc that are followed, and steps of one trial
ANSWERS = 8
# trials after the first answer, and arcs that are made two
AFTER = 200
HALVINGS = 60
FOLLOWED = 6
STEPS = 120
# the share of what is allowed that the centre of a full circle may move; the rest is for its radius
HUB = 0.9


@dataclass(frozen=True)
class Round:
    """An arc, or a full circle (where `ends` is empty): the indices of its coordinates, and what it was in the drawing. Arcs of
    one circle have one `ring`."""

    centre: tuple[int, int]
    ends: tuple[tuple[int, int], ...]
    radius: float
    first: float
    sweep: float
    ring: int


@dataclass
class Answer:
    """A factor and moves, the whole numbers of the coordinates on both axes, the vectors from centres to full circles, the arcs
    that are two now, and the greatest distance along arcs, in units of the drawing."""

    factor: float
    shifts: tuple[float, float]
    whole: tuple[list[int], list[int]]
    spokes: dict[int, tuple[int, int]]
    halves: dict[int, Halves]
    off: float


@dataclass(frozen=True)
class Task:
    """Coordinates on both axes, counted from the first one; how far the outlines reach beyond them; arcs; and the most that
    anything may move, in units of the drawing."""

    values: tuple[list[float], list[float]]
    low: tuple[float, float]
    high: tuple[float, float]
    rounds: list[Round]
    # the arcs that are no full circles, in the order in which they are made whole
    arcs: list[Round]
    most: float
    # for each axis in which the coordinates mirror one another the middle, and for each of them its twin
    middles: tuple[float, float]
    twins: tuple[dict[int, int], dict[int, int]]
    # the centres of full circles
    hubs: frozenset[tuple[int, int]]

    @property
    def span(self) -> float:
        """The greater side."""
        return max(self.high[0] - self.low[0], self.high[1] - self.low[1])


class Trial:
    """One factor and one move."""

    def __init__(self, task: Task, factor: float, shifts: tuple[float, float], one_ring: bool, splits: int) -> None:
        self.task = task
        self.factor = factor
        self.shifts = shifts
        self.one_ring = one_ring
        self.splits = splits
        self.halvings = 0
        self.halves: dict[int, Halves] = {}
        self.taken: tuple[dict[int, int], dict[int, int]] = ({}, {})
        self.rings: dict[int, int] = {}
        self.steps = 0
        # what a coordinate and its twin, which mirrors it, come to together
        self.sums = tuple(round(2 * (self.task.middles[k] * factor + shifts[k])) for k in (0, 1))

    def places(self, axis: int, index: int, known: dict[int, int]) -> list[int]:
        """The whole numbers that a coordinate may take, beside others that are known. What mirrors a known one mirrors it."""
        for taken in (known, self.taken[axis]):
            if index in taken:
                return [taken[index]]
            twin = self.task.twins[axis].get(index)
            if twin in taken:
                return [self.sums[axis] - taken[twin]]
        exact = self.task.values[axis][index] * self.factor + self.shifts[axis]
        reach = min(self.task.most * self.factor, 1.3)
        return list(range(math.ceil(exact - reach), math.floor(exact + reach) + 1))

    def offsets(self, axis: int, one: Round) -> dict[int, list[tuple[int, int, int]]]:
        """The choices of one axis for centre and ends, by the difference of the squares of the distances there."""
        centre = one.centre[axis]
        first, last = (it[axis] for it in one.ends)
        found: dict[int, list[tuple[int, int, int]]] = defaultdict(list)
        for c in self.places(axis, centre, {}):
            for a in self.places(axis, first, {centre: c}):
                for b in self.places(axis, last, {centre: c, first: a}):
                    found[(a - c) ** 2 - (b - c) ** 2].append((c, a, b))
        return found

    def is_near(self, spot: tuple[int, int], x: int, y: int, share: float = 1.0) -> bool:
        """Whether a whole place is near enough to a point; nearer than the most allowed where a share of that is named."""
        off_x = (x - self.shifts[0]) / self.factor - self.task.values[0][spot[0]]
        off_y = (y - self.shifts[1]) / self.factor - self.task.values[1][spot[1]]
        return math.hypot(off_x, off_y) <= self.task.most * share

    def choices(self, one: Round) -> list[tuple[float, tuple[int, int, int], tuple[int, int, int]]]:
        """The choices for an arc, those with the least distance along it first."""
        across, up = self.offsets(0, one), self.offsets(1, one)
        ring = self.rings.get(one.ring) if self.one_ring else None
        found = []
        for difference, xs in across.items():
            for x, y in product(xs, up.get(-difference, ())):
                square = (x[1] - x[0]) ** 2 + (y[1] - y[0]) ** 2
                if square == 0 or (x[1], y[1]) == (x[2], y[2]) or (ring is not None and square != ring):
                    continue
                off = self.off(one, (x[0], y[0]), square)
                if one.centre in self.task.hubs and not self.is_near(one.centre, x[0], y[0], HUB):
                    continue
                if off <= self.task.most and all(self.is_near(one.ends[k], x[k + 1], y[k + 1]) for k in (0, 1)):
                    found.append((off, x, y))
        found.sort()
        return found[:FOLLOWED]

    def off(self, one: Round, centre: tuple[int, int], square: int) -> float:
        """How far an arc is from what it was, at most, in units of the drawing."""
        cx = (centre[0] - self.shifts[0]) / self.factor - self.task.values[0][one.centre[0]]
        cy = (centre[1] - self.shifts[1]) / self.factor - self.task.values[1][one.centre[1]]
        change = math.sqrt(square) / self.factor - one.radius
        farthest = 0.0
        for k in range(9):
            angle = one.first + one.sweep * k / 8
            farthest = max(farthest, abs(cx * math.cos(angle) + cy * math.sin(angle) + change))
        return farthest

    def spots(self, spot: tuple[int, int]) -> list[Place]:
        """The whole places that an end may take."""
        found = [it for it in product(self.places(0, spot[0], {}), self.places(1, spot[1], {})) if self.is_near(spot, *it)]
        x, y = (self.task.values[k][spot[k]] * self.factor + self.shifts[k] for k in (0, 1))
        return sorted(found, key=lambda it: math.hypot(it[0] - x, it[1] - y))

    def split(self, at: int) -> float | None:
        """Puts two arcs in the place of one, and goes on with the next arcs."""
        one = self.task.arcs[at]
        self.halvings += 1
        x, y = (self.task.values[k][one.centre[k]] * self.factor + self.shifts[k] for k in (0, 1))
        arc = Arc(x, y, one.radius * self.factor, one.first, one.sweep, self.task.most * self.factor)
        found = halved(arc, self.spots(one.ends[0]), self.spots(one.ends[1]))
        if found is None:
            return None
        for spot, place in zip(one.ends, found[:2]):
            for axis in (0, 1):
                self.taken[axis][spot[axis]] = place[axis]
        self.halves[self.task.rounds.index(one)] = found[2]
        rest = self.fill(at + 1)
        return max(found[2].off / self.factor, rest) if rest is not None else None

    def fill(self, at: int) -> float | None:
        """Finds choices for the arcs from one on; the greatest distance along them, or None where there are none."""
        if at == len(self.task.arcs):
            return 0.0
        one = self.task.arcs[at]
        for off, x, y in self.choices(one):
            self.steps += 1
            if self.steps > STEPS:
                return None
            kept = (dict(self.taken[0]), dict(self.taken[1]), dict(self.rings))
            for axis, row in enumerate((x, y)):
                self.taken[axis].update(zip((one.centre[axis], one.ends[0][axis], one.ends[1][axis]), row))
            self.rings.setdefault(one.ring, (x[1] - x[0]) ** 2 + (y[1] - y[0]) ** 2)
            rest = self.fill(at + 1)
            if rest is not None:
                return max(off, rest)
            self.taken, self.rings = (kept[0], kept[1]), kept[2]
        return self.split(at) if self.halvings < self.splits else None

    def nearest(self, axis: int, index: int) -> int:
        """The whole number of a coordinate: the one that arcs took, or the nearest one."""
        places = self.places(axis, index, {})
        exact = self.task.values[axis][index] * self.factor + self.shifts[axis]
        return min(places, key=lambda it: abs(it - exact)) if places else math.floor(exact + 0.5)

    def answer(self) -> Answer | None:
        """The answer at this factor and move, where there is one."""
        off = self.fill(0)
        if off is None:
            return None
        whole = tuple([self.nearest(k, at) for at in range(len(self.task.values[k]))] for k in (0, 1))
        spokes = {}
        for at, one in enumerate(self.task.rounds):
            if not one.ends:
                place = (whole[0][one.centre[0]], whole[1][one.centre[1]])
                spokes[at] = spoke(one.radius * self.factor, self.rings.get(one.ring) if self.one_ring else None)
                if spokes[at] == (0, 0):
                    return None
                off = max(off, self.off(one, place, spokes[at][0] ** 2 + spokes[at][1] ** 2))
        if off > self.task.most:
            return None
        return Answer(self.factor, self.shifts, (whole[0], whole[1]), spokes, self.halves, off)


def spoke(radius: float, square: int | None) -> tuple[int, int]:
    """A whole vector as long as a radius, or nearly; of this square length where one is given, else (0, 0) where there is none."""
    if square is None and abs(radius - round(radius)) < 1e-6 * radius:
        return (round(radius), 0)
    best, found = math.inf, (0, 0)
    for x in range(math.floor(radius + 1), -1, -1):
        y = round(math.sqrt(max(0.0, (square if square is not None else radius * radius) - x * x)))
        off = float(abs(x * x + y * y - square)) if square is not None else abs(math.hypot(x, y) - radius)
        if off < best and (x, y) != (0, 0):
            best, found = off, (x, y)
        if off < 1e-3 or y > x:
            break
    return found if square is None or best == 0 else (0, 0)


def trials(task: Task, factor: float | None, splits: int) -> Iterator[tuple[float, tuple[float, float]]]:
    """Factors and moves: those at which all coordinates are nearest to whole numbers, then others at which each arc by itself
    has whole vectors to its ends; or moves alone, where the factor is given."""
    draw = random.Random(4)
    found = []
    for steps in range(1, SPAN + 1) if factor is None else [0]:
        tried = steps / task.span if factor is None else factor
        (x, off_x), (y, off_y) = (gap_shift(it, tried) for it in task.values)
        found.append((max(off_x, off_y) / tried, tried, (x, y)))
    found.sort()
    for off, tried, shifts in found[: 0 if splits else BEST]:
        if off <= task.most:
            yield tried, (mirrored(task, 0, tried, shifts[0]), mirrored(task, 1, tried, shifts[1]))
    moves = 2 if all(task.twins) or splits else MOVES
    left = DRAWN // 40 if splits else DRAWN
    for _ in range(FACTORS):
        tried = factor or (1 - draw.random() ** 2 * 0.4) * SPAN / task.span
        bad = (not is_possible(task, it, tried) for it in task.arcs)
        if sum(islice((it for it in bad if it), splits + 1)) <= splits:
            for _ in range(moves):
                yield tried, (mirrored(task, 0, tried, draw.random()), mirrored(task, 1, tried, draw.random()))
            left -= moves
            if left <= 0:
                break


def is_possible(task: Task, one: Round, factor: float) -> bool:
    """Whether there are whole vectors of one length near those from the centre of an arc to its ends."""
    reach = 2 * min(task.most * factor, 1.3)
    seen: set[int] = set()
    for which, spot in enumerate(one.ends):
        x, y = ((task.values[k][spot[k]] - task.values[k][one.centre[k]]) * factor for k in (0, 1))
        squares = {
            i * i + j * j
            for i in range(math.ceil(x - reach), math.floor(x + reach) + 1)
            for j in range(math.ceil(y - reach), math.floor(y + reach) + 1)
            if (i - x) ** 2 + (j - y) ** 2 <= reach * reach
        }
        seen = seen & squares if which else squares
    return bool(seen)


def mirrored(task: Task, axis: int, factor: float, shift: float) -> float:
    """The move nearest to one at which what mirrors stays so: the middle comes to a whole number, or halfway between two where
    no coordinate is there."""
    twins = task.twins[axis]
    if not twins:
        return shift
    step = 1.0 if any(a == b for a, b in twins.items()) else 0.5
    middle = task.middles[axis] * factor
    return round((middle + shift) / step) * step - middle


def twins_of(values: list[float], noise: float) -> tuple[float, dict[int, int]]:
    """The middle of values that mirror one another about it, and which mirrors which; nothing where they do not."""
    middle = (values[0] + values[-1]) / 2
    if len(values) < 2 or any(abs(a + b - 2 * middle) > 2 * noise for a, b in zip(values, reversed(values))):
        return 0.0, {}
    return middle, {at: len(values) - 1 - at for at in range(len(values))}


def ordered(rounds: list[Round]) -> list[Round]:
    """The arcs that are no full circles, in an order in which each shares coordinates with those before it where it can."""
    rest = sorted((it for it in rounds if it.ends), key=lambda it: -it.radius)
    found: list[Round] = []
    known: set[tuple[int, int]] = set()
    while rest:
        best = max(rest, key=lambda it: (len({(k, spot[k]) for k in (0, 1) for spot in (it.centre, *it.ends)} & known), it.radius))
        rest.remove(best)
        found.append(best)
        known |= {(k, spot[k]) for k in (0, 1) for spot in (best.centre, *best.ends)}
    return found


def within_reach(task: Task, factor: float) -> bool:
    """Whether a factor spans no more than whole coordinates do."""
    return task.span * factor <= SPAN


def answers(task: Task, factor: float | None, one_ring: bool, splits: int) -> list[Answer]:
    """The first answers among trials; so many arcs may become two."""
    found: list[Answer] = []
    after, halvings = 0, 0
    for tried, shifts in trials(task, factor, splits):
        if not within_reach(task, tried):
            continue
        trial = Trial(task, tried, shifts, one_ring, splits)
        made = trial.answer()
        after += bool(found)
        halvings += trial.halvings
        if made is not None:
            found.append(made)
        if len(found) == ANSWERS or after == AFTER or halvings > HALVINGS:
            break
    return found
