"""Whether the ray straight down from a point crosses a boundary an odd number of times, as the definitions count."""

from typing import Callable

from .contours import Element, Place
from .meshes import Face, edges_of
from .tables import Boundary, plane_of
from .vectors import Numbers, Point, Vector, disc_value, dot, opposite


def crosses(a: Numbers, b: Numbers, p: Point) -> bool:
    """Whether the ray, moved an infinitesimal step to the right, meets the segment from a to b."""
    x, y, w = p
    if (a[0] * w <= x) == (b[0] * w <= x):
        return False
    if a[0] > b[0]:
        a, b = b, a
    return (b[0] - a[0]) * (y - a[1] * w) > (b[1] - a[1]) * (x - a[0] * w)


def arc_crossings(arc: Element, p: Point) -> int:
    """How many of the moved column's two points on the circle lie on the arc and below the point."""
    assert arc.centre and arc.disc
    (x, y, w), (centre_x, centre_y, square) = p, arc.disc
    off, radius = x - centre_x * w, square * w * w
    if off * off > radius or (off * off == radius and off > 0):
        return 0
    side = disc_value(arc.disc, p)
    is_over_all = side > 0 and y > centre_y * w
    is_over_lower = is_over_all or side < 0
    return (is_over_all and is_on_arc(arc, True, x, w)) + (is_over_lower and is_on_arc(arc, False, x, w))


def is_on_arc(arc: Element, upper: bool, x: int, w: int) -> bool:
    """Whether the column's upper or lower point lies on the arc."""
    assert arc.centre
    if arc.a == arc.b:
        return True
    start, end = (arc.a, arc.b) if arc.ccw else (arc.b, arc.a)
    before_start = is_before(upper, x, w, start, arc.centre)
    before_end = is_before(upper, x, w, end, arc.centre)
    if comes_before(start, end, arc.centre):
        return not before_start and before_end
    return not before_start or before_end


def is_before(upper: bool, x: int, w: int, end: Place, centre: Place) -> bool:
    """Whether the column's upper or lower point comes before an end, counter-clockwise from the right extreme."""
    if upper:
        return end[1] < centre[1] or x >= end[0] * w
    return end[1] < centre[1] and x < end[0] * w


def comes_before(s: Place, e: Place, centre: Place) -> bool:
    """Whether s comes before e: the upper half by falling x, then the lower half by rising x."""
    upper_s, upper_e = s[1] >= centre[1], e[1] >= centre[1]
    if upper_s != upper_e:
        return upper_s
    return s[0] > e[0] if upper_s else s[0] < e[0]


def is_straight_odd(elements: list[Element], p: Point) -> bool:
    """Whether the crossings are odd in number once each arc is replaced by its chord."""
    return sum(crosses(element.a, element.b, p) for element in elements) % 2 == 1


def flips_of(elements: list[Element], discs: list[Numbers], p: Point) -> int:
    """The discs, as bits, that flip the parity of a mask of a point's region: its arcs' sides of their chords."""
    flips = 0
    for element in elements:
        if element.disc and is_on_arc_side(element, p):
            flips ^= 1 << discs.index(element.disc)
    return flips


def is_on_arc_side(arc: Element, p: Point) -> bool:
    """Whether an arc is a full circle, or a point is right of its chord (counter-clockwise) or left of it."""
    (ax, ay), (bx, by), (x, y, w) = arc.a, arc.b, p
    turn = (bx - ax) * (y - ay * w) - (by - ay) * (x - ax * w)
    return arc.a == arc.b or (turn < 0 if arc.ccw else turn > 0)


def is_odd_flat(elements: list[Element], p: Point) -> bool:
    """Whether the crossings of all elements are odd in number."""
    count = 0
    for element in elements:
        count += arc_crossings(element, p) if element.centre else crosses(element.a, element.b, p)
    return count % 2 == 1


def odd_of_faces(faces: list[Face]) -> Callable[[Point], bool]:
    """A function: whether the faces that are crossed are odd in number."""
    ready: list[tuple[Numbers, list[tuple[Vector, Vector]]]] = []
    for face in faces:
        row = plane_of(face)
        if row[2]:
            edges = [(min(a, b), max(a, b)) for a, b in edges_of(face) if a[0] != b[0]]
            ready.append((row if row[2] > 0 else opposite(row), edges))

    def is_odd(p: Point) -> bool:
        x, y, _, w = p
        odd = False
        for row, edges in ready:
            if dot(row, p) > 0:
                for (sx, sy, _), (ex, ey, _) in edges:
                    if (sx * w <= x) != (ex * w <= x):
                        height = (ex - sx) * (y - sy * w) - (ey - sy) * (x - sx * w)
                        odd ^= height > 0 or (height == 0 and ey <= sy)
        return odd

    return is_odd


def odd_of(boundary: Boundary) -> Callable[[Point], bool]:
    """A function: whether the ray straight down from a point crosses a boundary an odd number of times."""
    if boundary.kind == "contour":
        return lambda p: is_odd_flat(boundary.elements, p)
    return odd_of_faces(boundary.faces)
