"""Contours: the words and blocks of a text, its first fault, and the check of closed contours."""

import re
from itertools import count
from typing import Iterator, NamedTuple

from .texts import BLANKS, NUMBER, REACH, Refusal, at_word, lines_of, whole_value
from .vectors import Numbers, farthest

Place = tuple[int, int]
IGNORED_G = {17, 20, 21, 40, 49, 54, 90, 94}
MODES = {0, 1, 2, 3, 80}
MOST_ELEMENTS = 512
PIECE = re.compile(rb"(?:[ \t\r]+|\([^)]*\))*+(?:([A-Za-z])[ \t\r]*(" + NUMBER.pattern + rb")|;|\Z)")


class Element(NamedTuple):
    """An edge from a to b, or an arc round a centre; a full circle where its ends are one place."""

    a: Place
    b: Place
    centre: Place | None = None
    ccw: bool = False

    def square(self, end: Place) -> int:
        """The squared distance of an end from the centre."""
        assert self.centre is not None
        return (end[0] - self.centre[0]) ** 2 + (end[1] - self.centre[1]) ** 2

    @property
    def disc(self) -> Numbers | None:
        """The disc of an arc: its centre and its squared radius."""
        return None if self.centre is None else (*self.centre, self.square(self.a))


def words_of(line: bytes, at: int) -> Iterator[tuple[str, int | None]]:
    """The words of a line from left to right with their whole values, up to bytes that begin no word."""
    if line.lstrip(BLANKS).startswith(b"%"):
        return
    place = 0
    for nth in count(1):
        piece = PIECE.match(line, place)
        if piece is None:
            raise at_word("BadWord", at, nth)
        if piece[1] is None:
            return
        yield piece[1].decode().upper(), whole_value(piece[2])
        place = piece.end()


class Block:
    """The words of one line, by what they mean."""

    def __init__(self, line: bytes, at: int) -> None:
        self.mode: int | None = None
        self.ends = False
        self.numbers: dict[str, int] = {}
        for nth, (letter, value) in enumerate(words_of(line, at), 1):
            fault = self.take_general(value) if letter == "G" else self.take(letter, value)
            if fault:
                raise at_word(fault, at, nth)

    def take_general(self, value: int | None) -> str | None:
        """Adds a G word; answers the name of its fault."""
        if value == 91:
            return "Incremental"
        if value in MODES:
            twin = self.mode is not None
            self.mode = value
            return "TwinWord" if twin else None
        return None if value in IGNORED_G else "UnknownWord"

    def take(self, letter: str, value: int | None) -> str | None:
        """Adds another word; answers the name of its fault."""
        if letter not in "MNFSTZXYIJ" or (letter == "M" and value not in (2, 30, *range(3, 10))):
            return "UnknownWord"
        self.ends |= letter == "M" and value in (2, 30)
        if letter in "MNFST":
            return None
        if letter in self.numbers:
            return "TwinWord"
        if letter != "Z" and value is None:
            return "NotWhole"
        self.numbers[letter] = value or 0
        return "TooFar" if letter in "XY" and abs(value or 0) > REACH else None

    def has(self, letters: str) -> bool:
        """Whether a word with one of these letters stands."""
        return any(letter in self.numbers for letter in letters)


class Program:
    """The state between two blocks."""

    def __init__(self) -> None:
        self.place: Place = (0, 0)
        self.mode = 80
        self.began = 0
        self.elements: list[Element] = []

    def close(self, at: int) -> None:
        """Closes the contour, which is open where it does not end where it began."""
        if self.began < len(self.elements):
            a, b = self.elements[self.began].a, self.elements[-1].b
            if a != b:
                raise Refusal(f"OpenContour line {at} from {a[0]} {a[1]} to {b[0]} {b[1]}")
        self.began = len(self.elements)

    def run(self, block: Block, at: int) -> None:
        """One block, with its faults in order."""
        self.mode = self.mode if block.mode is None else block.mode
        numbers = block.numbers
        if "Z" in numbers and block.has("XYIJ"):
            raise at_word("ThreeAxis", at, 0)
        if self.mode == 80 and block.has("XYIJ"):
            raise at_word("MissingMotion", at, 0)
        end = (numbers.get("X", self.place[0]), numbers.get("Y", self.place[1]))
        if self.mode == 0 and block.has("XY"):
            self.close(at)
            self.place = end
        elif self.mode == 1 and block.has("XY") and end != self.place:
            self.add(Element(self.place, end), at)
        elif self.mode in (2, 3) and block.has("XYIJ"):
            if not block.has("IJ"):
                raise at_word("MissingCentre", at, 0)
            centre = (self.place[0] + numbers.get("I", 0), self.place[1] + numbers.get("J", 0))
            if farthest(centre) > REACH:
                raise at_word("TooFar", at, 0)
            self.add(Element(self.place, end, centre, self.mode == 3), at)
        if block.ends:
            self.close(at)

    def add(self, element: Element, at: int) -> None:
        """Adds an element to the contour."""
        if len(self.elements) == MOST_ELEMENTS:
            raise at_word("TooMany", at, 0)
        self.elements.append(element)
        self.place = element.b


def read_contours(text: bytes) -> list[Element]:
    """The elements of all contours of a text, or its first fault."""
    program = Program()
    lines = lines_of(text)
    for at, line in enumerate(lines, 1):
        block = Block(line, at)
        program.run(block, at)
        if block.ends:
            return program.elements
    program.close(len(lines) + 1)
    return program.elements


def check_contours(elements: list[Element]) -> list[Element]:
    """The same elements, where each arc has both ends at one distance above 0."""
    for at, element in enumerate(elements):
        if element.centre is None:
            continue
        if element.centre == element.a:
            raise Refusal(f"ZeroRadius element {at}")
        start, end = element.square(element.a), element.square(element.b)
        if start != end:
            raise Refusal(f"SkewArc element {at} start2 {start} end2 {end}")
    return elements
