"""Boundaries, their half-spaces and their box: distinct canonical lines, discs and planes, and their limits."""

from math import isqrt
from typing import NamedTuple, Sequence

from .contours import Element, Place
from .meshes import Face, normal_of
from .texts import Refusal
from .trees import Leaf, Tree, leaves_of
from .vectors import Numbers, Point, disc_value, dot, leading, opposite, units

MOST_FLAT = 40
MOST_DISCS = 10
Box = tuple[Numbers, Numbers]


class Boundary(NamedTuple):
    """Closed contours by their elements, or a closed mesh by its faces."""

    kind: str
    elements: list[Element]
    faces: list[Face]


class Half(NamedTuple):
    """A line or plane as the numbers whose product with a point's is above 0 on its Above side."""

    row: Numbers
    origin: Numbers

    def leaf(self) -> Leaf:
        """The strip or slab that is written for it."""
        if len(self.origin) == 2:
            return Leaf("strip", self.origin + (self.row[1], -self.row[0]))
        return Leaf("slab", self.origin + self.row[:3])


class Table(NamedTuple):
    """The half-spaces of a boundary, the flat ones first; bit i of a mask is that of number i."""

    flat: list[Half]
    discs: list[Numbers]

    def leaves(self) -> list[Leaf]:
        """The leaf of each half-space."""
        return [half.leaf() for half in self.flat] + [Leaf("disc", disc) for disc in self.discs]

    def touches(self, p: Point) -> bool:
        """Whether a point is on a line, circle or plane."""
        return not all(dot(half.row, p) for half in self.flat) or not all(disc_value(disc, p) for disc in self.discs)

    def mask(self, p: Point) -> int:
        """The half-spaces that a point which is on none of them is Above, as bits."""
        mask = 0
        for at, half in enumerate(self.flat):
            mask |= (dot(half.row, p) > 0) << at
        for at, disc in enumerate(self.discs, len(self.flat)):
            mask |= (disc_value(disc, p) < 0) << at
        return mask


def row_at(normal: Numbers, place: Numbers) -> Numbers:
    """The row of a line or plane through a place across a normal."""
    return (*normal, -dot(normal, place))


def line_through(a: Place, b: Place) -> Numbers:
    """The row of the canonical line through two places: its normal is its direction turned left."""
    x, y = leading((b[0] - a[0], b[1] - a[1]))
    return row_at((-y, x), a)


def plane_of(face: Face) -> Numbers:
    """The row of the canonical plane of a face."""
    normal = normal_of(face)
    assert normal is not None
    return row_at(leading(normal), face[0])


def plane_of_slab(slab: Leaf) -> Numbers:
    """The row of the canonical plane of a slab."""
    return row_at(leading(slab.normal), slab.origin)


def table_of(boundary: Boundary) -> Table:
    """The half-spaces of a boundary, each where it stands first."""
    flat: dict[Numbers, Numbers] = {}
    for element in boundary.elements:
        if element.a != element.b:
            flat.setdefault(line_through(element.a, element.b), element.a)
    for face in boundary.faces:
        flat.setdefault(plane_of(face), face[0])
    discs = dict.fromkeys(element.disc for element in boundary.elements if element.disc)
    return Table([Half(row, origin) for row, origin in flat.items()], list(discs))


def check_limits(boundary: Boundary) -> Table:
    """The half-spaces of a boundary, or the first limit that they pass."""
    table = table_of(boundary)
    if len(table.flat) > MOST_FLAT:
        raise Refusal(f"{'TooManyPlanes' if boundary.faces else 'TooManyLines'} {len(table.flat)}")
    if len(table.discs) > MOST_DISCS:
        raise Refusal(f"TooManyDiscs {len(table.discs)}")
    return table


def audit_planes(boundary: Boundary, tree: Tree) -> list[Numbers]:
    """The distinct planes of a mesh and a tree, where they are no more than a conversion takes."""
    rows = [half.row for half in table_of(boundary).flat]
    rows += [plane_of_slab(leaf) for leaf in leaves_of(tree) if leaf.kind == "slab"]
    rows = list(dict.fromkeys(rows))
    if len(rows) > MOST_FLAT:
        raise Refusal(f"TooManyPlanes {len(rows)}")
    return rows


def box_of(boundary: Boundary) -> Box:
    """The box: a margin of 1 round all coordinates, circles taken whole; from -1 to 1 where there are none."""
    places: list[Numbers] = [corner for face in boundary.faces for corner in face]
    for element in boundary.elements:
        places += [element.a, element.b]
        if element.disc:
            x, y, square = element.disc
            radius = isqrt(square - 1) + 1
            places += [(x - radius, y - radius), (x + radius, y + radius)]
    axes = list(zip(*places or [(0,) * (2 if boundary.kind == "contour" else 3)]))
    return tuple(min(axis) - 1 for axis in axes), tuple(max(axis) + 1 for axis in axes)


def box_leaf(box: Box) -> Leaf:
    """The tile or block of a box."""
    least, greatest = box
    sides = tuple(high - low for low, high in zip(least, greatest))
    return Leaf("tile" if len(least) == 2 else "block", least + sides)


def walls_of(box: Box) -> list[Numbers]:
    """The rows of the sides of a box, Above towards its inside."""
    rows: list[Numbers] = []
    for unit, low, high in zip(units(len(box[0])), *box):
        rows += [unit + (-low,), opposite(unit) + (high,)]
    return rows


def joined(boundaries: Sequence[Boundary]) -> Boundary:
    """One boundary of the elements and faces of all."""
    elements = [element for part in boundaries for element in part.elements]
    return Boundary(boundaries[0].kind, elements, [face for part in boundaries for face in part.faces])
