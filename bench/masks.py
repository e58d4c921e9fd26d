"""The masks of all free points of contours, each found at a place that is known to have it: a count that is exact.

Lines and circles cut the open box into cells. The closure of each cell has a vertex, where curves or sides of the box meet, or
a whole circle that meets no other curve. So it suffices to look at each sector between the curves at each vertex, and at both
sides of each lone circle. All numbers are whole, or of the form p + q sqrt(n) with whole p, q and n, so each sign is exact.

It shares no code with bench/counts.py, so that each can be held against the other; masks of both have the same bits."""
from collections import namedtuple
from functools import cmp_to_key
from itertools import combinations
from math import gcd, isqrt


class Surd:
    """The number p + q sqrt(n). Numbers that are put together have the same n, or none."""

    __slots__ = ("p", "q", "n")

    def __init__(self, p, q=0, n=0):
        root = isqrt(n)
        self.p, self.q, self.n = (p + q * root, 0, 0) if root * root == n else (p, q, n)

    def __add__(self, other):
        p, q, n = parts(other)
        return made(self.p + p, self.q + q, self.n or n)

    def __mul__(self, other):
        p, q, n = parts(other)
        n = self.n or n
        return made(self.p * p + self.q * q * n, self.p * q + self.q * p, n)

    def __neg__(self):
        return made(-self.p, -self.q, self.n)

    def __sub__(self, other):
        return self + -other

    __radd__, __rmul__ = __add__, __mul__

    def sign(self):
        """-1, 0 or 1."""
        if (self.p >= 0) == (self.q >= 0) or self.q == 0 or self.p == 0:
            return sign(self.p) or sign(self.q)
        # (p and q have different signs, and n is no square: the greater one decides)
        return sign(self.p) if self.p * self.p > self.q * self.q * self.n else sign(self.q)


def parts(number):
    return (number.p, number.q, number.n) if isinstance(number, Surd) else (number, 0, 0)


def made(p, q, n):
    """A sum or product, whose n is known to be no square."""
    number = Surd.__new__(Surd)
    number.p, number.q, number.n = p, q, n
    return number


def sign(number):
    return (number > 0) - (number < 0)


# A line (k = 0) or a circle (k = 1): a point (x, y) is Above where a x + b y - d - k (x x + y y) is above 0.
Curve = namedtuple("Curve", "a b d k")


def value(curve, point):
    """The number whose sign says the side of a point (x, y, w), which is (x / w, y / w)."""
    x, y, w = point
    flat = x * (curve.a * w) + y * (curve.b * w) - curve.d * w * w
    return flat - x * x - y * y if curve.k else flat


# ---- the curves of contours


def curves_of(contours):
    """Lines and then circles of contours, each once, in the order in which the elements have them."""
    lines, circles = {}, {}
    for start, end, centre, _ in (element for contour in contours for element in contour):
        if start != end:
            lines[line_through(start, end)] = None
        if centre:
            (x, y), r2 = centre, (start[0] - centre[0]) ** 2 + (start[1] - centre[1]) ** 2
            circles[Curve(2 * x, 2 * y, x * x + y * y - r2, 1)] = None
    return list(lines), list(circles)


def line_through(start, end):
    """The line with the least whole numbers, of which the first that is not 0 is above 0."""
    a, b = start[1] - end[1], end[0] - start[0]
    scale = gcd(a, b) * (1 if (a, b) > (0, 0) else -1)
    a, b = a // scale, b // scale
    return Curve(a, b, a * start[0] + b * start[1], 0)


def sides_of(contours):
    """The sides of the box: lines above which it is. It reaches one past all ends and all circles."""
    spans = ([], [])
    for start, _, centre, _ in (element for contour in contours for element in contour):
        for k in (0, 1):
            spans[k].append(start[k])
            if centre:
                r2 = (start[0] - centre[0]) ** 2 + (start[1] - centre[1]) ** 2
                radius = isqrt(r2) + (isqrt(r2) ** 2 < r2)
                spans[k].extend((centre[k] - radius, centre[k] + radius))
    (left, right), (low, high) = ((min(span, default=0) - 1, max(span, default=0) + 1) for span in spans)
    return [Curve(1, 0, left, 0), Curve(-1, 0, -right, 0), Curve(0, 1, low, 0), Curve(0, -1, -high, 0)]


# ---- where two curves meet


def meets(first, second):
    """The points that two different curves have in common, as (x, y, w) with whole w above 0."""
    if first.k and second.k:
        # (what two circles have in common is on the line where both have one value)
        line, circle = Curve(first.a - second.a, first.b - second.b, first.d - second.d, 0), first
    else:
        line, circle = (second, first) if first.k else (first, second)
    if not (line.a or line.b):
        return []
    return meets_of_circle(line, circle) if circle.k else meets_of_lines(line, circle)


def meets_of_lines(first, second):
    size = first.a * second.b - first.b * second.a
    if size == 0:
        return []
    x, y = first.d * second.b - first.b * second.d, first.a * second.d - first.d * second.a
    return [(Surd(x * sign(size)), Surd(y * sign(size)), abs(size))]


def meets_of_circle(line, circle):
    """Along the line from the point nearest to the origin, at the roots t of t t + p t - q."""
    square = line.a * line.a + line.b * line.b
    p = circle.a * line.b - circle.b * line.a
    q = (circle.a * line.a + circle.b * line.b) * line.d - circle.d * square - line.d * line.d
    under = p * p + 4 * q
    if under < 0:
        return []
    x, y = 2 * line.a * line.d + line.b * p, 2 * line.b * line.d - line.a * p
    return [(Surd(x, -way * line.b, under), Surd(y, way * line.a, under), 2 * square) for way in ((1, -1) if under else (1,))]


# ---- the cells at a vertex


def cells_at(point, curves):
    """Of each cell whose closure has this vertex: the signs of all curves."""
    signs = [value(curve, point).sign() for curve in curves]
    through = [(k, slope_at(curve, point), curve.k * point[2]) for k, curve in enumerate(curves) if signs[k] == 0]
    for known in sectors(through):
        yield [known[k] if s == 0 else s for k, s in enumerate(signs)]


def slope_at(curve, point):
    """The gradient at a point, times w."""
    x, y, w = point
    return (-2 * curve.k * x + curve.a * w, -2 * curve.k * y + curve.b * w)


def sectors(through):
    """The cells round a point that all these curves go through, each as the signs of the curves by their numbers.

    A curve is (number, g, k): a step s away from the point its value is g s - k s s, up to a factor above 0. So it leaves the
    point in the two directions across g, and any other direction has the sign of g along it."""
    tangents = tangents_of(through)
    rays = [ray for ray, _ in tangents]
    for turned in (1, -1):
        for ray, following in zip(rays, [*rays[1:], opposite(rays[0])]):
            between = (ray[0] + following[0], ray[1] + following[1]) if len(rays) > 1 else left_of(ray)
            yield {number: dot(slope, between).sign() * turned for number, slope, _ in through}
        for ray, curves in tangents:
            ray = ray if turned == 1 else opposite(ray)
            ahead = {number: dot(slope, ray).sign() for number, slope, _ in through}
            for cusp in cusps(left_of(ray), curves):
                yield ahead | cusp


def tangents_of(through):
    """The directions in which the curves go, each once and turned to the upper half plane, anticlockwise, with their curves."""
    rays = sorted(((upward(left_of(curve[1])), curve) for curve in through), key=cmp_to_key(lambda r, s: -turn(r[0], s[0])))
    tangents = []
    for ray, curve in rays:
        if tangents and turn(tangents[-1][0], ray) == 0:
            tangents[-1][1].append(curve)
        else:
            tangents.append((ray, [curve]))
    return tangents


def cusps(left, curves):
    """The cells between curves that leave a point in one direction, whose left is given, as the signs of these curves.

    A curve with g = G left bends to the left by k / G, up to one factor, and its value to the left of it has the sign of G."""
    slopes = {number: dot(slope, left) for number, slope, _ in curves}

    def bends_less(one, other):
        (i, _, k), (j, _, m) = one, other
        return (k * slopes[j] - m * slopes[i]).sign() * slopes[i].sign() * slopes[j].sign()

    order = [number for number, _, _ in sorted(curves, key=cmp_to_key(bends_less))]
    for count in range(1, len(order)):
        yield {number: slopes[number].sign() * (1 if place < count else -1) for place, number in enumerate(order)}


def dot(p, q):
    return p[0] * q[0] + p[1] * q[1]


def left_of(ray):
    return (-ray[1], ray[0])


def opposite(ray):
    return (-ray[0], -ray[1])


def turn(ray, other):
    """1 where the other ray is to the left, -1 where it is to the right."""
    return (ray[0] * other[1] - ray[1] * other[0]).sign()


def upward(ray):
    return ray if (ray[1].sign(), ray[0].sign()) > (0, 0) else opposite(ray)


# ---- all cells


def free_masks(contours):
    """The masks of all points strictly inside the box of the contours and on none of their curves; bit i is that of curve i,
    the lines first."""
    sides, (lines, circles) = sides_of(contours), curves_of(contours)
    curves = sides + lines + circles
    points = {k: [] for k in range(len(curves))}
    cells = []
    for (i, first), (j, second) in combinations(enumerate(curves), 2):
        for point in meets(first, second):
            points[i].append(point), points[j].append(point)
            if all(value(side, point).sign() >= 0 for side in sides):
                cells.extend(cells_at(point, curves))
    for k, circle in enumerate(curves):
        if circle.k and not points[k]:
            cells.extend(cells_of_lone(k, curves))
    within = (cell[len(sides):] for cell in cells if min(cell[: len(sides)]) > 0)
    return {sum(1 << i for i, s in enumerate(cell) if s > 0) for cell in within}


def cells_of_lone(k, curves):
    """The cells on both sides of a circle that meets no other curve."""
    circle = curves[k]
    r2 = (circle.a // 2) ** 2 + (circle.b // 2) ** 2 - circle.d
    signs = [value(curve, (Surd(circle.a // 2, 1, r2), Surd(circle.b // 2), 1)).sign() for curve in curves]
    return [[side if i == k else s for i, s in enumerate(signs)] for side in (1, -1)]
