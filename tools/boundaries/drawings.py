"""A drawing, or a section of a mesh, as contour blocks: joined, made whole, and checked."""

from __future__ import annotations

import math
from dataclasses import dataclass, field
from fractions import Fraction
from typing import Iterator

from . import limits
from .arcs import Answer, Round, Task, answers, ordered, spoke, twins_of
from .axes import REACH, SPAN, Fit, check_reach, exact_base, fit_to, multiple, near_base, placed, scale_range, shifted, simplest_move
from .faults import Refused
from .halves import Halves
from .limits import MOST_DISCS, MOST_LINES, Element
from .made import Made, Wishes
from .decimals import from_double, simplest_between
from .outlines import Outline, outlines_of, size_of
from .pieces import Piece, Spot, angles, extent, square_distance
from .rounding import choices, exact_fits, search
from .welding import NOISE

Ends = tuple[Fraction, Fraction]


@dataclass
class Sheet:
    """Outlines, the distinct values of their ends and centres on both axes, how far they reach, and the arcs among them."""

    outlines: list[Outline]
    values: list[list[Fraction]]
    index: list[dict[Fraction, int]]
    ends: list[Ends]
    rounds: list[Piece]
    noise: Fraction
    most: Fraction

    def at(self, spot: Spot) -> tuple[int, int]:
        """The indices of a point's coordinates."""
        return (self.index[0][spot[0]], self.index[1][spot[1]])

    def centre_at(self, spot: Spot, is_tied: bool) -> tuple[int, int]:
        """The indices of a centre's coordinates."""
        i, j = self.at(spot)
        return (i, j) if is_tied else (i + len(self.values[0]), j + len(self.values[1]))


@dataclass
class Layout:
    """Factors and moves for both axes, the whole vectors from the centres of full circles, and the centres that do not have the
    coordinates of ends."""

    fits: list[Fit]
    spokes: dict[object, tuple[int, int]]
    centres: dict[Spot, tuple[int, int]] = field(default_factory=dict)
    # arcs that are two now
    halves: dict[Piece, Halves] = field(default_factory=dict)

    def centre(self, sheet: Sheet, spot: Spot) -> tuple[int, int]:
        """The whole place of a centre."""
        i, j = sheet.at(spot)
        return self.centres.get(spot, (self.fits[0].whole[i], self.fits[1].whole[j]))


def sheet_of(outlines: list[Outline], noise: Fraction, most: Fraction) -> Sheet:
    """The sheet with these outlines."""
    pieces = [it for outline in outlines for it in outline]
    values, index, ends = [], [], []
    for k in (0, 1):
        spots = [spot for it in pieces for spot in ((it.start, it.end, it.centre) if not it.is_circle else (it.centre,)) if spot]
        column = sorted({it[k] for it in spots})
        reach = [Fraction(it[k]) for piece in pieces for it in extent(piece)]
        values.append(column)
        index.append({value: at for at, value in enumerate(column)})
        ends.append((min(*reach, column[0]), max(*reach, column[-1])))
    return Sheet(outlines, values, index, ends, [it for it in pieces if it.centre is not None], noise, most)


def made_outlines(pieces: list[Piece], wishes: Wishes, notes: list[str], layers: str) -> Made:
    """The text of outlines."""
    size = size_of(pieces)
    if size <= 0:
        raise Refused("the outlines have no size")
    noise = size * NOISE
    found = outlines_of(pieces, noise, wishes.join, layers)
    if not found.outlines:
        raise Refused("nothing is left of the outlines: no piece encloses anything")
    sheet = sheet_of(found.outlines, noise, wishes.most(size))
    check_size(sheet, size)
    why = ""
    for batch in batches(sheet, wishes.factors):
        best, other = best_of(sheet, batch, found.pieces, wishes)
        if best is not None:
            best.notes = [*notes, *found.notes]
            return best
        why = other or why
    raise Refused(why or "no factor and move bring the ends of the arcs equally far from their centres within the distance allowed")


def check_size(sheet: Sheet, size: Fraction) -> None:
    """Refuses what no factor can bring within the limits, before any is tried."""
    for name, (low, high) in zip("xy", sheet.ends):
        if low == high:
            raise Refused(f"all corners have the same {name}: the outlines enclose nothing")
    pieces = [it for outline in sheet.outlines for it in outline]
    if len(pieces) > limits.MOST_ELEMENTS:
        raise Refused(f"the outlines have {len(pieces)} lines and arcs, and bcsg takes at most {limits.MOST_ELEMENTS}")
    circles = {(it.centre, round(it.radius() / float(size), 6)) for it in sheet.rounds}
    if len(circles) > MOST_DISCS:
        raise Refused(f"the outlines have {len(circles)} different circles, and bcsg takes at most {MOST_DISCS}")
    lines = len(line_groups(sheet))
    if lines > MOST_LINES:
        raise Refused(f"the outlines have {lines} different lines, chords of arcs counted, and bcsg takes at most {MOST_LINES}")


def line_groups(sheet: Sheet) -> list[list[Piece]]:
    """The lines and the chords of arcs, those on one line together."""
    pieces = [it for outline in sheet.outlines for it in outline if not it.is_circle]
    pieces.sort(key=lambda it: -square_distance(it.start, it.end))
    groups: list[list[Piece]] = []
    for it in pieces:
        for group in groups:
            if is_on(group[0], it.start, sheet.noise) and is_on(group[0], it.end, sheet.noise):
                group.append(it)
                break
        else:
            groups.append([it])
    return groups


def is_on(piece: Piece, spot: Spot, noise: Fraction) -> bool:
    """Whether a point is on the line through the ends of a piece, within the noise."""
    x, y = float(piece.end[0] - piece.start[0]), float(piece.end[1] - piece.start[1])
    u, v = float(spot[0] - piece.start[0]), float(spot[1] - piece.start[1])
    return abs(x * v - y * u) <= 2 * float(noise) * math.hypot(x, y)


class Kinks:
    """The lines on which several pieces lie, neither upright nor level: rounding may bend these."""

    def __init__(self, sheet: Sheet) -> None:
        self.lines: list[list[tuple[int, int]]] = []
        for group in line_groups(sheet):
            spots = list(dict.fromkeys(sheet.at(spot) for it in group for spot in (it.start, it.end)))
            if len(spots) > 2 and all(len({it[k] for it in spots}) > 1 for k in (0, 1)):
                self.lines.append(spots)

    def count(self, whole: list[list[int]], most: int) -> int:
        """How many lines bend."""
        xs, ys = whole
        bent = 0
        for (ai, aj), (bi, bj), *rest in self.lines:
            x, y = xs[bi] - xs[ai], ys[bj] - ys[aj]
            bent += any(x * (ys[j] - ys[aj]) != y * (xs[i] - xs[ai]) for i, j in rest)
        return bent


def batches(sheet: Sheet, factors: list[Fraction] | None) -> Iterator[list[Layout]]:
    """Layouts to choose from: exact ones, and where none serves those that are near."""
    for axis, (low, high), given in zip("xy", sheet.ends, factors or ()):
        check_reach(axis, high - low, given)
    if sheet.rounds:
        if factors is not None and len(set(factors)) > 1:
            raise Refused("outlines with arcs need one factor for both axes")
        factor = factors[0] if factors is not None else None
        yield [it for it in (exact_round(sheet, factor, True), exact_round(sheet, factor, False)) if it is not None]
        yield round_layouts(sheet, factor)
        return
    fits: list[Fit | None]
    if factors is not None:
        fits = [placed(column, it, sheet.noise) or shifted(column, it) for column, it in zip(sheet.values, factors)]
    else:
        fits = exact_fits(sheet.values, sheet.noise)
    found = search(Kinks(sheet), choices(sheet.values, sheet.most, fits))
    yield [Layout([it.made(column, sheet.noise) for it, column in zip(combination, sheet.values)], {}) for _, _, combination in found]


def exact_radius(piece: Piece) -> Fraction:
    """The radius of an arc; exact where the start is beside the centre, or above or below it."""
    assert piece.centre is not None
    x, y = abs(piece.start[0] - piece.centre[0]), abs(piece.start[1] - piece.centre[1])
    return max(x, y) if min(x, y) == 0 else from_double(piece.radius())


def exact_round(sheet: Sheet, factor: Fraction | None, with_radii: bool) -> Layout | None:
    """The layout at which ends and centres, and the radii of full circles where these are asked for, are whole."""
    values = {it - column[0] for column in sheet.values for it in column}
    if with_radii:
        values |= {exact_radius(it) for it in sheet.rounds if it.is_circle}
    row = sorted(values)
    if factor is None and len(row) > 1:
        base = exact_base(row) or near_base(row, sheet.noise)
        span = max(high - low for low, high in sheet.ends)
        if base is None or base * span > SPAN:
            return None
        factor = multiple(base, span, None)
    if factor is None:
        return None
    fits = [placed(column, factor, sheet.noise, ends) for column, ends in zip(sheet.values, sheet.ends)]
    if fits[0] is None or fits[1] is None:
        return None
    layout = Layout([fits[0], fits[1]], {})
    for it in sheet.rounds:
        if it.is_circle:
            layout.spokes[it.key()] = spoke(it.radius() * float(factor), None)
    return layout


def task_of(sheet: Sheet, is_tied: bool, is_mirrored: bool) -> Task:
    """The arcs of a sheet, as a task of whole places. Where it is not tied, centres have coordinates of their own, which come
    after the others, though ends have the same."""
    rings: dict[tuple[Spot | None, float], int] = {}
    rounds = []
    size = float(max(high - low for low, high in sheet.ends))
    for it in sheet.rounds:
        assert it.centre is not None
        radius = it.radius()
        ring = rings.setdefault((it.centre, round(radius / size, 6)), len(rings))
        first, sweep = angles(it)
        ends = () if it.is_circle else (sheet.at(it.start), sheet.at(it.end))
        rounds.append(Round(sheet.centre_at(it.centre, is_tied), ends, radius, first, sweep, ring))
    values = [[float(it - column[0]) for it in column] for column in sheet.values]
    (x, across), (y, up) = (twins_of(it, float(sheet.noise)) if is_mirrored else (0.0, {}) for it in values)
    if not is_tied:
        values = [[*column, *column] for column in values]
    low, high = ([float(ends[side] - column[0]) for column, ends in zip(sheet.values, sheet.ends)] for side in (0, 1))
    both = (values[0], values[1])
    hubs = frozenset(it.centre for it in rounds if not it.ends)
    return Task(both, (low[0], low[1]), (high[0], high[1]), rounds, ordered(rounds), float(sheet.most), (x, y), (across, up), hubs)


def round_layouts(sheet: Sheet, factor: Fraction | None) -> list[Layout]:
    """Layouts at which the ends of each arc are equally far from its centre: of outlines that mirror themselves such as do, else
    any; then with centres that need not be level with ends; at last with arcs that become two. Arcs of one circle stay on one
    where that is found."""
    given = float(factor) if factor is not None else None
    for is_tied, is_mirrored, is_split in ((True, True, False), (True, False, False), (False, False, False), (False, False, True)):
        task = task_of(sheet, is_tied, is_mirrored)
        if is_mirrored and not any(task.twins):
            continue
        circles = len({it.ring for it in task.rounds})
        splits = MOST_DISCS - circles if is_split else 0
        shares = circles < len(task.rounds) and not is_split
        for one_ring in (True, False) if shares else (False,):
            found = answers(task, given, one_ring, splits)
            if found:
                return [layout_of(sheet, task, it, factor) for it in found]
    return []


def layout_of(sheet: Sheet, task: Task, answer: Answer, factor: Fraction | None) -> Layout:
    """The layout of an answer, moved into reach, with a simple factor and simple moves."""
    wholes, reaches, starts = [], [], []
    for k, column in enumerate(sheet.values):
        low, high = (math.floor(it[k] * answer.factor + answer.shifts[k]) for it in (task.low, task.high))
        start = -low if high - low + 1 <= REACH else -low - (high + 1 - low) // 2
        starts.append(start)
        wholes.append([it + start for it in answer.whole[k]])
        off = max(abs(float(v - column[0]) * answer.factor + answer.shifts[k] - t) for v, t in zip(column, answer.whole[k]))
        reaches.append(max(Fraction(off / answer.factor) * Fraction(101, 100), sheet.noise))
    rows = list(zip(sheet.values, wholes, reaches))
    scale = factor or Fraction(answer.factor)
    if factor is None:
        ranges = [scale_range(column, whole[: len(column)], reach, scale) for column, whole, reach in rows if len(column) > 1]
        known = [it for it in ranges if it is not None]
        if known and len(known) == len(ranges):
            scale = simplest_between(max(it[0] for it in known), min(it[1] for it in known))
    fits = [fit_to(column, whole[: len(column)], scale, simplest_move(column, whole[: len(column)], reach, scale)) for column, whole, reach in rows]
    spokes: dict[object, tuple[int, int]] = {sheet.rounds[at].key(): vector for at, vector in answer.spokes.items()}
    centres = {}
    for it, one in zip(sheet.rounds, task.rounds):
        assert it.centre is not None
        centres[it.centre] = (wholes[0][one.centre[0]], wholes[1][one.centre[1]])
    halves = {sheet.rounds[at]: it.moved(*starts) for at, it in answer.halves.items()}
    return Layout(fits, spokes, centres, halves)


def contours_of(sheet: Sheet, layout: Layout) -> list[list[Element]]:
    """The contours of a layout."""

    def whole(spot: Spot) -> tuple[int, int]:
        i, j = sheet.at(spot)
        return (layout.fits[0].whole[i], layout.fits[1].whole[j])

    found = []
    for outline in sheet.outlines:
        contour = []
        for it in outline:
            centre = layout.centre(sheet, it.centre) if it.centre is not None else None
            if it.is_circle and centre is not None:
                x, y = layout.spokes[it.key()]
                start = (centre[0] + x, centre[1] + y)
                contour.append(Element(start, start, centre, it.turn))
            elif it in layout.halves:
                half = layout.halves[it]
                ways = [(whole(it.start), half.middle, half.before), (half.middle, whole(it.end), half.after)]
                contour += [Element(start, end, centre, it.turn) for start, end, centre in ways]
            elif whole(it.start) != whole(it.end) or centre is not None:
                contour.append(Element(whole(it.start), whole(it.end), centre, it.turn))
        if contour:
            found.append(contour)
    return found


def best_of(sheet: Sheet, batch: list[Layout], pieces: list[Piece], wishes: Wishes) -> tuple[Made | None, str]:
    """The text with the fewest lines and circles, and of those the one that moves corners least; or why there is none."""
    best: tuple[int, float, Made] | None = None
    why = ""
    for layout in batch:
        contours = contours_of(sheet, layout)
        fault = limits.outline_fault(contours)
        distance = moved(sheet, layout, pieces)
        if fault is None and distance > float(sheet.most) * 1.0000001:
            fault = wishes.too_far("a corner or an arc", distance, sheet.most)
        if fault is not None:
            why = fault
            continue
        lines, discs = limits.lines_and_discs(contours)
        if best is None or (lines + discs, distance) < best[:2]:
            scales, moves = [it.scale for it in layout.fits], [it.move for it in layout.fits]
            best = (lines + discs, distance, Made(text_of(contours), scales, moves, distance, f"lines {lines} discs {discs}"))
    return best[2] if best else None, why


def moved(sheet: Sheet, layout: Layout, pieces: list[Piece]) -> float:
    """The greatest distance by which an end of a piece, or a point of an arc, was moved; 0 only where none was."""
    first, second = layout.fits
    greatest = Fraction(0)
    for it in pieces:
        for was, spot in zip(it.was or (), (it.start, it.end)):
            if it.is_circle or spot[0] not in sheet.index[0] or spot[1] not in sheet.index[1]:
                continue
            i, j = sheet.at(spot)
            x = (was[0] * first.scale + first.move - first.whole[i]) / first.scale
            y = (was[1] * second.scale + second.move - second.whole[j]) / second.scale
            greatest = max(greatest, x * x + y * y)
    return max([math.sqrt(greatest), *(arc_moved(sheet, layout, it) for it in sheet.rounds)])


def arc_moved(sheet: Sheet, layout: Layout, piece: Piece) -> float:
    """How far an arc is from what it was, at most; 0 where centre and radius are exact."""
    assert piece.centre is not None
    first, second = layout.fits
    centre = layout.centre(sheet, piece.centre)
    begin, sweep = angles(piece)
    if piece.is_circle:
        u, v = layout.spokes[piece.key()]
        return off_circle(layout, piece, centre, u * u + v * v, begin, sweep)
    i, j = sheet.at(piece.start)
    start = (first.whole[i], second.whole[j])
    half = layout.halves.get(piece)
    if half is None:
        return off_circle(layout, piece, centre, limits.square(start, centre), begin, sweep)
    x, y = (float((it - fit.move) / fit.scale - to) for it, fit, to in zip(half.middle, layout.fits, piece.centre))
    part = piece.turn * (math.atan2(y, x) - begin) % math.tau * piece.turn
    return max(
        off_circle(layout, piece, half.before, limits.square(start, half.before), begin, part),
        off_circle(layout, piece, half.after, limits.square(half.middle, half.after), begin + part, sweep - part),
    )


def off_circle(layout: Layout, piece: Piece, centre: tuple[int, int], square: int, begin: float, sweep: float) -> float:
    """How far a part of an arc is from the circle about a whole centre, at most."""
    assert piece.centre is not None
    x, y = ((it - fit.move) / fit.scale - was for it, fit, was in zip(centre, layout.fits, piece.centre))
    radius = Fraction(square) / layout.fits[0].scale ** 2
    if x == y == 0 and radius == square_distance(piece.start, piece.centre):
        return 0.0
    change = math.sqrt(radius) - piece.radius()
    steps = (begin + sweep * k / 16 for k in range(17))
    return max(abs(float(x) * math.cos(it) + float(y) * math.sin(it) + change) for it in steps)


def text_of(contours: list[list[Element]]) -> str:
    """The contour blocks."""
    rows = []
    for contour in contours:
        x, y = contour[0].start
        rows.append(f"G00 X{x} Y{y}")
        for it in contour:
            (x, y), (i, j) = it.end, it.centre or (0, 0)
            if it.centre is None:
                rows.append(f"G01 X{x} Y{y}")
            else:
                word = "G03" if it.turn > 0 else "G02"
                rows.append(f"{word} X{x} Y{y} I{i - it.start[0]} J{j - it.start[1]}")
    return "\n".join([*rows, "M02"]) + "\n"
