"""What a caller asks for, and what is made for it."""

from __future__ import annotations

from dataclasses import dataclass, field
from fractions import Fraction

from .decimals import near, shown_above

# the most by which a corner is moved, in parts of the size, unless the caller asks for more
MOST_MOVED = Fraction(1, 2000)
COARSE = Fraction(1, 20)


@dataclass(frozen=True)
class Wishes:
    """What the caller asked for."""

    factors: list[Fraction] | None = None
    join: Fraction | None = None
    layer: str | None = None
    plane: Fraction | None = None
    is_coarse: bool = False

    def most(self, size: Fraction) -> Fraction:
        """The most by which a corner of something of this size may be moved."""
        return max(size * (COARSE if self.is_coarse else MOST_MOVED), self.join or Fraction(0))

    def too_far(self, what: str, distance: float, most: Fraction) -> str:
        """What to say where something would move farther than that."""
        more = "" if self.is_coarse else "; --coarse allows more"
        return f"{what} would move by {shown_above(distance)}, and at most {near(most)} is allowed{more}"


@dataclass
class Made:
    """A text, what was done to get it, and what there is to say about it."""

    text: str
    scales: list[Fraction]
    moves: list[Fraction]
    moved: float
    counts: str
    notes: list[str] = field(default_factory=list)
