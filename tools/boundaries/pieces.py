"""The pieces of outlines: lines and arcs, exactly as a drawing has them, and maps of the plane for blocks."""

from __future__ import annotations

import math
from dataclasses import dataclass, replace
from fractions import Fraction

from .decimals import from_double

Spot = tuple[Fraction, Fraction]

# two lengths are one where they differ by no more than this part
SAME = Fraction(1, 10**8)


@dataclass(frozen=True)
class Piece:
    """A line, or an arc about a centre, to the left (1) or to the right (-1); an arc whose end is its start is a full circle.
    `source` says where it stands in the drawing, `was` what the ends were there, and pieces of one closed outline have the same
    number."""

    start: Spot
    end: Spot
    centre: Spot | None = None
    turn: int = 0
    source: str = ""
    layer: str = ""
    outline: int | None = None
    height: Fraction = Fraction(0)
    was: tuple[Spot, Spot] | None = None

    @property
    def is_circle(self) -> bool:
        """Whether this is a full circle."""
        return self.centre is not None and self.start == self.end

    def key(self) -> tuple[Spot, Spot, Spot | None, int]:
        """The same for pieces that cover the same points, whatever their direction."""
        if self.is_circle and self.centre is not None:
            radius = square_distance(self.start, self.centre)
            return (self.centre, (radius, Fraction(0)), self.centre, 0)
        if self.start <= self.end:
            return (self.start, self.end, self.centre, self.turn)
        return (self.end, self.start, self.centre, -self.turn)

    def turned(self) -> "Piece":
        """The same piece the other way."""
        was = (self.was[1], self.was[0]) if self.was else None
        return replace(self, start=self.end, end=self.start, turn=-self.turn, was=was)

    def radius(self) -> float:
        """The radius of an arc, 0 of a line."""
        return math.sqrt(square_distance(self.start, self.centre)) if self.centre is not None else 0.0


@dataclass(frozen=True)
class Map:
    """A map of the plane, and of the height: x' = a x + b y + x0, y' = c x + d y + y0, z' = e z + z0."""

    a: Fraction = Fraction(1)
    b: Fraction = Fraction(0)
    c: Fraction = Fraction(0)
    d: Fraction = Fraction(1)
    x0: Fraction = Fraction(0)
    y0: Fraction = Fraction(0)
    e: Fraction = Fraction(1)
    z0: Fraction = Fraction(0)

    def spot(self, x: Fraction, y: Fraction) -> Spot:
        """Where a point goes."""
        return (self.a * x + self.b * y + self.x0, self.c * x + self.d * y + self.y0)

    def height(self, z: Fraction) -> Fraction:
        """Where a height goes."""
        return self.e * z + self.z0

    def after(self, inner: "Map") -> "Map":
        """The map that does the inner one first."""
        x0, y0 = self.spot(inner.x0, inner.y0)
        return Map(
            self.a * inner.a + self.b * inner.c,
            self.a * inner.b + self.b * inner.d,
            self.c * inner.a + self.d * inner.c,
            self.c * inner.b + self.d * inner.d,
            x0,
            y0,
            self.e * inner.e,
            self.height(inner.z0),
        )

    @property
    def mirrors(self) -> bool:
        """Whether the map turns left into right."""
        return self.a * self.d - self.b * self.c < 0

    @property
    def keeps_circles(self) -> bool:
        """Whether circles stay circles."""
        first, second = self.a * self.a + self.c * self.c, self.b * self.b + self.d * self.d
        lean = self.a * self.b + self.c * self.d
        return first > 0 and abs(first - second) <= SAME * first and abs(lean) <= SAME * first

    @property
    def is_flat(self) -> bool:
        """Whether the map makes a line of the plane."""
        return self.a * self.d == self.b * self.c


MIRROR = Map(a=Fraction(-1), e=Fraction(-1))


def turning(degrees: Fraction) -> Map:
    """The turn to the left by an angle; exact for right angles."""
    cosine, sine = direction(degrees)
    return Map(a=cosine, b=-sine, c=sine, d=cosine)


def direction(degrees: Fraction) -> Spot:
    """Cosine and sine of an angle; exact for right angles."""
    rest = degrees % 360
    exact = {0: (1, 0), 90: (0, 1), 180: (-1, 0), 270: (0, -1)}
    if rest in exact:
        return (Fraction(exact[int(rest)][0]), Fraction(exact[int(rest)][1]))
    angle = math.radians(float(rest))
    return (from_double(math.cos(angle)), from_double(math.sin(angle)))


def square_distance(a: Spot, b: Spot) -> Fraction:
    """The square of the distance of two points."""
    return (a[0] - b[0]) ** 2 + (a[1] - b[1]) ** 2


def bulge_centre(start: Spot, end: Spot, bulge: Fraction) -> Spot:
    """The centre of the arc of a bulge, which is the tangent of a quarter of its angle, above 0 to the left."""
    share = (1 - bulge * bulge) / (4 * bulge)
    return (
        (start[0] + end[0]) / 2 - (end[1] - start[1]) * share,
        (start[1] + end[1]) / 2 + (end[0] - start[0]) * share,
    )


def middle(piece: Piece) -> tuple[float, float]:
    """The point halfway along a piece, as floats."""
    (ax, ay), (bx, by) = piece.start, piece.end
    if piece.centre is None:
        return (float(ax + bx) / 2, float(ay + by) / 2)
    first, sweep = angles(piece)
    radius = piece.radius()
    angle = first + sweep / 2
    return (float(piece.centre[0]) + radius * math.cos(angle), float(piece.centre[1]) + radius * math.sin(angle))


def angles(piece: Piece) -> tuple[float, float]:
    """The angle at which an arc begins, and how far it turns; below 0 to the right."""
    assert piece.centre is not None
    cx, cy = piece.centre
    first = math.atan2(float(piece.start[1] - cy), float(piece.start[0] - cx))
    last = math.atan2(float(piece.end[1] - cy), float(piece.end[0] - cx))
    sweep = piece.turn * (last - first) % math.tau
    return first, piece.turn * (sweep or math.tau)


def extent(piece: Piece) -> list[tuple[float, float]]:
    """The ends of a piece, and where an arc reaches farthest along an axis."""
    found = [(float(it[0]), float(it[1])) for it in (piece.start, piece.end)]
    if piece.centre is None:
        return found
    first, sweep = angles(piece)
    radius = piece.radius()
    for quarter in range(4):
        angle = quarter * math.pi / 2
        way = (angle - first) % math.tau if sweep > 0 else (first - angle) % math.tau
        if way <= abs(sweep):
            found.append((float(piece.centre[0]) + radius * math.cos(angle), float(piece.centre[1]) + radius * math.sin(angle)))
    return found
