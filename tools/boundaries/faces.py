"""The faces of the whole mesh: each loop of a plane side is one face, and a side that bent is cut into pieces.

bcsg counts crossings, so a hole in a face is one more face, and a loop of too many corners is two loops with a way there and
back between them.
"""

from __future__ import annotations

from collections import Counter

from .limits import MOST_CORNERS, Whole, cross, dot, minus, plane
from .loops import Side
from .polygons import Loop, bridged, flattened, nested, off_plane, pieces

Face = list[Whole]


def made_faces(sides: list[Side], places: dict[int, Whole]) -> list[Face]:
    """The faces of all sides, as points. Edges on which a corner came to stand are cut there."""
    faces = []
    for side in sides:
        faces += side_faces(side, places)
    return mended(faces)


def side_faces(side: Side, places: dict[int, Whole]) -> list[Face]:
    """The faces of one side."""
    faces = [clean([places[it] for it in loop]) for loop in side.loops]
    corners = [it for face in faces for it in face]
    if is_flat(corners):
        return [part for face in faces for part in short_enough(face) if plane(face) is not None]
    return bent_faces(side, places)


def is_flat(corners: list[Whole]) -> bool:
    """Whether points are all on one plane."""
    row = plane(corners) if corners else None
    return row is None or all(row[0] * x + row[1] * y + row[2] * z + row[3] == 0 for x, y, z in corners)


def bent_faces(side: Side, places: dict[int, Whole]) -> list[Face]:
    """The pieces of a side that bent."""
    points = {it: places[it] for loop in side.loops for it in loop}
    loops = [it for it in (clean_loop(loop, places) for loop in side.loops) if it]
    table = [points.get(it, (0, 0, 0)) for it in range(max(points) + 1)]
    flat = flattened(loops, table, side.normal)
    found: list[Face] = []
    for outer, holes in nested(loops, flat):
        whole = bridged(outer, holes, flat)
        for piece in pieces(whole, flat, lambda it: off_plane([points[corner] for corner in it], 0)):
            face = clean([points[it] for it in piece])
            found += [part for part in short_enough(face) if plane(face) is not None]
    return found


def clean(face: Face) -> Face:
    """A face without repeated corners, and without ways there and back."""
    way: Face = []
    for it in face:
        if way and it == way[-1]:
            continue
        if len(way) > 1 and it == way[-2]:
            way.pop()
            continue
        way.append(it)
    while len(way) > 2 and (way[0] == way[-1] or way[1] == way[-1] or way[0] == way[-2]):
        way = way[1:] if way[0] == way[-1] or way[1] == way[-1] else way[:-1]
    return way if len(way) > 2 else []


def clean_loop(loop: Loop, places: dict[int, Whole]) -> Loop:
    """The corners of a loop that are apart after rounding."""
    kept = [it for k, it in enumerate(loop) if places[it] != places[loop[k - 1]]]
    return kept if len(kept) > 2 else []


def short_enough(face: Face) -> list[Face]:
    """A face as faces of at most 64 corners."""
    found = []
    while len(face) > MOST_CORNERS:
        at = next(k for k in range(MOST_CORNERS - 1, 1, -1) if plane(face[: k + 1]) and plane([face[0], *face[k:]]))
        found.append(face[: at + 1])
        face = [face[0], *face[at:]]
    return [*found, face] if len(face) > 2 else found


def edges_of(faces: list[Face]) -> Counter[tuple[Whole, Whole]]:
    """How many times each edge occurs."""
    return Counter((min(a, b), max(a, b)) for face in faces for a, b in zip(face, face[1:] + face[:1]))


def is_between(point: Whole, a: Whole, b: Whole) -> bool:
    """Whether a point stands on an edge, apart from its ends."""
    way, along = minus(point, a), minus(b, a)
    return 0 < dot(way, along) < dot(along, along) and cross(way, along) == (0, 0, 0)


def mended(faces: list[Face]) -> list[Face]:
    """The faces, where corners that stand on an edge which occurs an odd number of times are put into it."""
    odd = {it for it, count in edges_of(faces).items() if count % 2}
    if not odd:
        return faces
    corners = {it for ends in odd for it in ends}
    on = {
        (a, b): sorted((it for it in corners if is_between(it, a, b)), key=lambda it: dot(minus(it, a), minus(b, a)))
        for a, b in odd
    }
    made = []
    for face in faces:
        way: Face = []
        for a, b in zip(face, face[1:] + face[:1]):
            between = on.get((min(a, b), max(a, b)), [])
            way += [a, *(between if a < b else between[::-1])]
        made.append(clean(way))
    return [part for face in made for part in short_enough(face) if plane(face) is not None]


def off_text(faces: list[Face]) -> str:
    """The OFF text of faces."""
    order: dict[Whole, int] = {}
    for face in faces:
        for corner in face:
            order.setdefault(corner, len(order))
    edges = len(edges_of(faces))
    rows = ["OFF", f"{len(order)} {len(faces)} {edges}"]
    rows += [f"{x} {y} {z}" for x, y, z in order]
    rows += [" ".join(map(str, (len(face), *(order[it] for it in face)))) for face in faces]
    return "\n".join(rows) + "\n"
