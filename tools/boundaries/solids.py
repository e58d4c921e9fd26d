"""A mesh from a file as an integer OFF text: joined, gathered by plane, made whole, and checked."""

from __future__ import annotations

from fractions import Fraction

from typing import Iterable

from . import limits
from .faces import made_faces, off_text
from .faults import Refused
from .limits import MOST_PLANES
from .loops import Side, borders, mended, open_edges, sides
from .made import Made, Wishes
from .mesh import Mesh, Point
from .decimals import near
from .overlap import overlap
from .planes import gather
from .repair import repaired
from .rounding import Part, Placing, fine_placings, given, moved, part_of, placings
from .welding import Welded, weld

# the distances from a plane within which corners count as on it, in parts of the size, after the noise: coarse files need more
COARSER = (Fraction(1, 100_000), Fraction(1, 20_000), Fraction(1, 5_000))


def gathered(welded: Welded) -> tuple[list[Side], list[str]]:
    """The sides of a mesh: its planes with their borders."""
    noise = float(welded.noise)
    planes = []
    for tolerance in (welded.noise, *(welded.size * it for it in COARSER)):
        if tolerance >= welded.noise:
            planes = gather(welded, float(tolerance), MOST_PLANES)
            if len(planes) <= MOST_PLANES:
                break
    if len(planes) > MOST_PLANES:
        raise Refused(f"the mesh has more than {MOST_PLANES} planes, and bcsg takes at most {MOST_PLANES}; export it coarser, or in parts")
    found, cut = mended(borders(planes, welded.faces), welded.near, noise)
    open_ones = open_edges(found)
    if open_ones:
        raise Refused(why_open(welded, open_ones))
    made = sides(planes, found, welded.near, noise)
    if not made:
        raise Refused("nothing is left of the mesh: each of its faces is there an even number of times")
    return made, [f"{cut} edges were cut at corners that stand on them"] if cut else []


def place(point: Point) -> str:
    """A point in a message."""
    return "(" + ", ".join(map(near, point)) + ")"


def why_open(welded: Welded, edges: list[tuple[int, int]]) -> str:
    """What to say of an open mesh."""
    a, b = (welded.exact[it] for it in edges[0])
    more = f", and so are {len(edges) - 1} other edges" if len(edges) > 1 else ""
    return f"the mesh is open: the edge from {place(a)} to {place(b)} belongs to an odd number of faces{more}"


def made_solid(mesh: Mesh, wishes: Wishes) -> Made:
    """The text of a mesh."""
    welded = weld(mesh, wishes.join)
    found, notes = gathered(welded)
    part = part_of(found, welded.exact, welded.noise, welded.size, wishes.most(welded.size))
    first = [given(part, wishes.factors)] if wishes.factors else placings(part)
    best, why = best_of(first, part, welded, wishes)
    if best is None:
        fine = first if wishes.factors else [*first, *fine_placings(part)]
        best, why = best_of((repaired(part, it) for it in fine), part, welded, wishes)
    if best is None:
        raise Refused(why)
    best.notes = [*welded.notes, *notes, *overlap_notes(welded)]
    return best


def overlap_notes(welded: Welded) -> list[str]:
    """The warning that solids overlap, where they do."""
    point = overlap(welded.faces, welded.near, float(welded.noise))
    if point is None:
        return []
    low = [min(it[k] for it in welded.exact) for k in range(3)]
    shown = ", ".join(f"{float(a) + b:.6g}" for a, b in zip(low, point))
    return [f"warning: solids overlap, for example at ({shown}); bcsg counts crossings, so the result is hollow there"]


def best_of(made: Iterable[Placing], part: Part, welded: Welded, wishes: Wishes) -> tuple[Made | None, str]:
    """The text with the fewest planes, and of those the one that moves corners least; or why there is none."""
    best: tuple[int, float, Made] | None = None
    far, bent = "", ""
    for one in made:
        distance = moved(part, one, welded.members)
        if distance > float(part.most):
            far = far or wishes.too_far("a corner", distance, part.most)
            continue
        faces = made_faces(part.sides, one.places)
        fault = limits.mesh_fault(faces)
        if fault is not None:
            bent = f"the mesh has {len(part.sides)} planes, but corners at whole coordinates bend some of them: {fault}"
            continue
        count = limits.count_planes(faces)
        if best is None or (count, distance) < best[:2]:
            scales, moves = [it.scale for it in one.fits], [it.move for it in one.fits]
            best = (count, distance, Made(off_text(faces), scales, moves, distance, f"planes {count}"))
    return best[2] if best else None, bent or far
