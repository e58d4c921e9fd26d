"""A mesh as it was read: its points, exactly, and its faces."""

from __future__ import annotations

from dataclasses import dataclass, field
from fractions import Fraction

from .faults import Refused
from .decimals import number, why_no_number

Point = tuple[Fraction, Fraction, Fraction]

# more than this would take longer than a user waits, and boundaries within the limits of bcsg need far fewer
MOST_FACES = 150_000
# numbers of fewer digits are taken as they stand
DIGITS_OF_ROUNDED = 6


@dataclass
class Mesh:
    """Points and faces; `places` says of each face where it stands in the file, as `unit` and a number."""

    unit: str
    points: list[Point] = field(default_factory=list)
    faces: list[list[int]] = field(default_factory=list)
    places: list[int] = field(default_factory=list)
    # how far two neighbouring coordinates of the file's kind of number are apart, where the greatest one stands
    step: Fraction = Fraction(0)
    notes: list[str] = field(default_factory=list)

    def add(self, place: int, corners: list[int]) -> None:
        """Adds a face."""
        self.faces.append(corners)
        self.places.append(place)

    def place(self, face: int) -> str:
        """Where a face stands."""
        return f"{self.unit} {self.places[face]}"


class Words:
    """Coordinates that stand as words in a text. They come many times each, so each word is read once."""

    def __init__(self) -> None:
        self.known: dict[str, Fraction] = {}
        self.found: dict[tuple[str, ...], int] = {}
        self.points: list[Point] = []

    def coordinate(self, word: str, line: int) -> Fraction:
        """The value of a word."""
        if word not in self.known:
            value = number(word)
            if value is None:
                raise Refused(f"line {line}: {why_no_number(word)}")
            self.known[word] = value
        return self.known[word]

    def point(self, words: list[str], line: int) -> Point:
        """The point of three words."""
        x, y, z = (self.coordinate(it, line) for it in words)
        return (x, y, z)

    def index(self, words: list[str], line: int) -> int:
        """The index of the point of three words; equal words are one point."""
        key = tuple(words)
        if key not in self.found:
            self.found[key] = len(self.points)
            self.points.append(self.point(words, line))
        return self.found[key]

    def step(self) -> Fraction:
        """How coarse the words are: the last digit that a word of the greatest size would have."""
        digits = max((significant(it) for it in self.known), default=0)
        greatest = max((abs(it) for it in self.known.values()), default=Fraction(0))
        if digits < DIGITS_OF_ROUNDED or greatest == 0:
            return Fraction(0)
        return power_of_ten(greatest) / Fraction(10) ** (digits - 1)


def significant(word: str) -> int:
    """The number of digits of a decimal, without zeros before and after them."""
    digits = word.lower().split("e")[0].lstrip("+-")
    if "." in digits:
        digits = digits.rstrip("0").replace(".", "")
    return len(digits.strip("0"))


def power_of_ten(value: Fraction) -> Fraction:
    """The greatest power of ten that is not above a value, which is above 0."""
    power = Fraction(10) ** (len(str(value.numerator)) - len(str(value.denominator)))
    while power > value:
        power /= 10
    while power * 10 <= value:
        power *= 10
    return power


def check_count(count: int, what: str) -> None:
    """Refuses a mesh of too many faces before they are read."""
    if count > MOST_FACES:
        raise Refused(
            f"the file has {count:,} {what}, and at most {MOST_FACES:,} are read; "
            "bcsg takes boundaries of at most 40 planes, so export a coarser mesh"
        )
