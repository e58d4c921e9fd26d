"""Pieces joined to closed outlines: ends that are one point, pieces that are drawn twice, and what is left open."""

from __future__ import annotations

import math
from collections import Counter, defaultdict
from dataclasses import dataclass, replace
from fractions import Fraction

from .faults import Refused
from .decimals import near, shown_above
from .pieces import Piece, Spot, extent, middle, square_distance
from .welding import NOISE, one_value

Outline = list[Piece]


def size_of(pieces: list[Piece]) -> Fraction:
    """The largest side of the box of all pieces."""
    spots = [spot for it in pieces for spot in extent(it)]
    sides = [max(it[k] for it in spots) - min(it[k] for it in spots) for k in (0, 1)]
    return Fraction(max(sides))


def welded(pieces: list[Piece], noise: Fraction) -> list[Piece]:
    """The pieces, where coordinates within the noise are one, without those that have no length."""
    spots = [spot for it in pieces for spot in (it.start, it.end, it.centre) if spot is not None]
    tables = []
    for k in (0, 1):
        values = [it[k] for it in spots]
        tables.append(dict(zip(values, one_value(values, noise))))

    def place(spot: Spot) -> Spot:
        return (tables[0][spot[0]], tables[1][spot[1]])

    found = []
    for it in pieces:
        centre = place(it.centre) if it.centre is not None else None
        made = replace(it, start=place(it.start), end=place(it.end), centre=centre, was=(it.start, it.end))
        if made.start != made.end or it.is_circle:
            found.append(made)
    return found


def degrees(pieces: list[Piece]) -> Counter[Spot]:
    """How many ends of pieces stand at each point."""
    return Counter(spot for it in pieces if not it.is_circle for spot in (it.start, it.end))


def loose_ends(pieces: list[Piece]) -> list[Spot]:
    """The points at which an odd number of pieces end."""
    return sorted(it for it, count in degrees(pieces).items() if count % 2)


def without_twins(pieces: list[Piece]) -> tuple[list[Piece], int]:
    """The pieces, each once, and how many were drawn twice. A side that two outlines share stays twice: that is where one copy
    would leave ends open, and two leave none."""
    counts = Counter(it.key() for it in pieces)
    first = {it.key(): it for it in reversed(pieces)}
    twice = {key for key, count in counts.items() if count % 2 == 0}
    shared = shared_sides(list(first.values()), [first[key] for key in twice])
    kept = [it for key, it in first.items() if key not in shared]
    # (a shared side that occurs twice counts as nothing, and so it is left out)
    return kept[::-1], sum(count - 1 for key, count in counts.items() if key not in shared)


def shared_sides(once: list[Piece], twice: list[Piece]) -> set[object]:
    """Which pieces that are drawn twice have to go so that no end is open: along a tree of such pieces, from its leaves on."""
    odd = set(loose_ends(once))
    if not odd or not twice:
        return set()
    ways: dict[Spot, list[Piece]] = defaultdict(list)
    for it in twice:
        ways[it.start].append(it)
        ways[it.end].append(it)
    gone: set[object] = set()
    seen: set[Spot] = set()
    for root in ways:
        if root in seen:
            continue
        order, above = [root], dict[Spot, Piece]()
        seen.add(root)
        for spot in order:
            for it in ways[spot]:
                other = it.end if it.start == spot else it.start
                if other not in seen:
                    seen.add(other)
                    above[other] = it
                    order.append(other)
        for spot in reversed(order[1:]):
            if spot in odd:
                gone.add(above[spot].key())
                odd ^= {above[spot].start, above[spot].end}
    return gone


def joined(pieces: list[Piece], reach: Fraction) -> tuple[list[Piece], int]:
    """The pieces, where open ends no farther apart than `reach` come together, the nearest ones first."""
    ends = loose_ends(pieces)
    pairs = sorted(
        (square_distance(a, b), a, b) for k, a in enumerate(ends) for b in ends[k + 1 :] if abs(a[0] - b[0]) <= reach
    )
    at_arcs = {spot for it in pieces if it.centre is not None for spot in (it.start, it.end)}
    goes: dict[Spot, Spot] = {}
    taken: set[Spot] = set()
    for far, a, b in pairs:
        if far <= reach * reach and not taken & {a, b}:
            taken |= {a, b}
            # (an arc keeps its end where it can)
            goes[a if b in at_arcs else b] = b if b in at_arcs else a
    moved = [replace(it, start=goes.get(it.start, it.start), end=goes.get(it.end, it.end)) for it in pieces]
    return [it for it, old in zip(moved, pieces) if it.start != it.end or old.is_circle], len(goes)


def check_closed(pieces: list[Piece], layers: str) -> None:
    """Refuses open outlines, with the open end and the distance to the nearest other one."""
    ends = loose_ends(pieces)
    if not ends:
        return
    end = ends[0]
    owner = next(it for it in pieces if end in (it.start, it.end))
    others = [it for it in ends if it != end]
    gap = math.sqrt(min(square_distance(end, it) for it in others)) if others else 0.0
    more = f"; {len(ends)} ends are open" if len(ends) > 2 else ""
    raise Refused(
        f"the outline is open at ({near(end[0])}, {near(end[1])}), an end of {owner.source}; "
        f"the nearest other open end is {shown_above(gap)} away{more}; {layers}"
    )


def traced(pieces: list[Piece]) -> list[Outline]:
    """Closed outlines of pieces at whose ends even numbers of pieces meet."""
    ways: dict[Spot, list[int]] = defaultdict(list)
    for at, it in enumerate(pieces):
        ways[it.start].append(at)
        ways[it.end].append(at)
    used = [False] * len(pieces)
    found = []
    for at, first in enumerate(pieces):
        if used[at]:
            continue
        used[at] = True
        way = [first]
        while way[-1].end != way[0].start:
            spot = way[-1].end
            after = next(it for it in ways[spot] if not used[it])
            used[after] = True
            way.append(pieces[after] if pieces[after].start == spot else pieces[after].turned())
        found += parted(way)
    return found


def parted(way: Outline) -> list[Outline]:
    """A closed way as closed ways that come to no point twice."""
    found = []
    rest: Outline = []
    for it in way:
        rest.append(it)
        at = next((k for k, other in enumerate(rest) if other.start == it.end), None)
        if at is not None:
            found.append(rest[at:])
            rest = rest[:at]
    return found


@dataclass
class Joined:
    """Closed outlines, the pieces that they were made of, and what there is to say."""

    outlines: list[Outline]
    pieces: list[Piece]
    notes: list[str]


def outlines_of(pieces: list[Piece], noise: Fraction, join: Fraction | None, layers: str) -> Joined:
    """The outlines of closed polylines and circles, and those of the loose pieces, each once."""
    whole: dict[object, Outline] = defaultdict(list)
    loose: list[Piece] = []
    for it in welded(pieces, noise):
        if it.is_circle:
            whole[it.key()].append(it)
        elif it.outline is not None:
            whole[it.outline].append(it)
        else:
            loose.append(it)
    notes = []
    loose, twins = without_twins(loose)
    if join is not None:
        loose, count = joined(loose, join)
        notes += [f"{count} open ends were joined with ends beside them"] if count else []
    check_closed(loose, layers)
    twins += sum(len(it) - 1 for it in whole.values() if it[0].is_circle)
    found = [it[:1] if it[0].is_circle else it for it in whole.values()] + traced(loose)
    kept: dict[object, Outline] = {}
    for outline in found:
        kept.setdefault(frozenset(it.key() for it in outline), outline)
    twins += len(found) - len(kept)
    if twins:
        notes.append(f"drawn twice, and taken once: {twins} outlines, lines or arcs")
    made = list(kept.values())
    return Joined([simplified(it, noise) for it in made], [it for outline in made for it in outline], notes)


def simplified(outline: Outline, noise: Fraction) -> Outline:
    """An outline without ends at which a line, or an arc, only goes on."""
    if len(outline) == 1:
        return outline
    start = next((k for k, it in enumerate(outline) if not goes_on(outline[k - 1], it, noise)), 0)
    way = outline[start:] + outline[:start]
    found = [way[0]]
    for it in way[1:]:
        last = found[-1]
        if goes_on(last, it, noise):
            found[-1] = replace(last, end=it.end)
        else:
            found.append(it)
    if len(found) > 1 and goes_on(found[-1], found[0], noise):
        last = found.pop()
        found[0] = replace(found[0], start=last.start)
    return found


def goes_on(a: Piece, b: Piece, noise: Fraction) -> bool:
    """Whether a piece goes on where the one before it ends, along the same line or circle."""
    if a.centre is not None or b.centre is not None:
        return a.centre == b.centre and a.turn == b.turn
    x, y = a.end[0] - a.start[0], a.end[1] - a.start[1]
    u, v = b.end[0] - a.start[0], b.end[1] - a.start[1]
    length = math.hypot(float(u), float(v))
    straight = abs(float(x * v - y * u)) <= float(noise) * length
    return straight and x * (b.end[0] - b.start[0]) + y * (b.end[1] - b.start[1]) > 0
