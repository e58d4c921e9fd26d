"""The section of a mesh at a height, as lines of an outline."""

from __future__ import annotations

from collections import Counter
from fractions import Fraction

from .faults import Refused
from .mesh import Mesh, Point
from .decimals import near

Spot = tuple[Fraction, Fraction]


def section(mesh: Mesh, height: Fraction) -> tuple[list[tuple[Spot, Spot]], list[str]]:
    """The lines of the section just above a height, and what there is to say. A corner at the height counts as below it."""
    used = {it for face in mesh.faces for it in face}
    heights = [mesh.points[it][2] for it in used]
    if not heights:
        raise Refused("the file has no faces")
    lines: Counter[tuple[Spot, Spot]] = Counter()
    for face in mesh.faces:
        spots = crossings([mesh.points[it] for it in face], height)
        if len(spots) % 2:
            raise Refused("a face crosses the plane an odd number of times")
        for a, b in zip(spots[::2], spots[1::2]):
            if a != b:
                lines[(min(a, b), max(a, b))] += 1
    found = [it for it, count in lines.items() if count % 2]
    if not found:
        raise Refused(
            f"the plane z = {near(height)} does not meet the mesh, whose heights go from {near(min(heights))} to {near(max(heights))}"
        )
    notes = list(mesh.notes)
    if height in heights:
        notes.append(f"corners stand at the height {near(height)}: this is the section just above it")
    return found, notes


def crossings(corners: list[Point], height: Fraction) -> list[Spot]:
    """Where the edges of a face cross the height, in order along the line of the section."""
    found = []
    for (ax, ay, az), (bx, by, bz) in zip(corners, corners[1:] + corners[:1]):
        if (az > height) != (bz > height):
            share = (height - az) / (bz - az)
            found.append((ax + share * (bx - ax), ay + share * (by - ay)))
    return sorted(found)
