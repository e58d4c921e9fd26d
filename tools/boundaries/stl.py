"""STL, as text and as bytes.

A file is of bytes exactly where its length is 84 + 50 times the count at byte 80, whatever its first word is: the head of such
a file may begin with `solid` too.
"""

from __future__ import annotations

import math
import struct
from fractions import Fraction

from .faults import Refused
from .mesh import Mesh, Words, check_count
from .decimals import from_single

HEAD = 84
FACET = struct.Struct("<12x12s12s12s2x")
CORNER = struct.Struct("<3f")


def read_stl(data: bytes) -> Mesh:
    """The mesh of an STL file."""
    if not data.strip():
        raise Refused("the file is empty")
    count = struct.unpack_from("<I", data, 80)[0] if len(data) >= HEAD else -1
    if count >= 0 and len(data) == HEAD + FACET.size * count:
        return read_bytes(data, count)
    if data.lstrip()[:5].lower() == b"solid" and b"\0" not in data:
        return read_text(data.decode("latin-1"))
    raise Refused(why_neither(data, count))


def why_neither(data: bytes, count: int) -> str:
    """Why a file is neither kind of STL."""
    if b"\0" not in data:
        return "line 1: an STL text begins with the word 'solid', and this file does not"
    if count < 0:
        return f"the file is cut off: it has {len(data)} bytes, and a binary STL has at least {HEAD}"
    needed = HEAD + FACET.size * count
    if len(data) < needed:
        whole = (len(data) - HEAD) // FACET.size
        return f"the file is cut off after facet {whole:,}: its count says {count:,} facets"
    return f"the file has {len(data) - needed:,} bytes more than the {count:,} facets that its count says"


def read_bytes(data: bytes, count: int) -> Mesh:
    """The mesh of a binary STL file with this many facets."""
    check_count(count, "facets")
    mesh = Mesh("facet")
    found: dict[bytes, int] = {}
    known: dict[float, Fraction] = {}
    greatest = 0.0
    for facet, corners in enumerate(FACET.iter_unpack(data[HEAD:]), 1):
        for corner in corners:
            if corner in found:
                continue
            values = CORNER.unpack(corner)
            if not all(map(math.isfinite, values)):
                raise Refused(f"facet {facet}: a coordinate is not a finite number")
            for value in values:
                if value not in known:
                    known[value] = from_single(value)
                    greatest = max(greatest, abs(value))
            found[corner] = len(mesh.points)
            mesh.points.append((known[values[0]], known[values[1]], known[values[2]]))
        mesh.add(facet, [found[it] for it in corners])
    mesh.step = single_step(greatest)
    return mesh


def single_step(greatest: float) -> Fraction:
    """How far two neighbouring floats of 32 bits are apart near this value."""
    return Fraction(2) ** (math.frexp(greatest)[1] - 24) if greatest > 0 else Fraction(0)


class Facets:
    """The facets of an STL text, line by line."""

    def __init__(self) -> None:
        self.mesh = Mesh("line")
        self.words = Words()
        self.corners: list[int] | None = None
        self.facet_line = 0
        self.is_open = False

    def take(self, line: int, words: list[str]) -> None:
        """One line that is not empty."""
        first = words[0].lower()
        if first == "vertex":
            self.take_vertex(line, words)
        elif first == "facet":
            if self.corners is not None:
                raise Refused(f"line {line}: a facet begins within the facet of line {self.facet_line}")
            self.corners, self.facet_line = [], line
        elif first == "endfacet":
            self.end_facet(line)
        elif first == "solid":
            self.is_open = True
        elif first == "endsolid":
            self.is_open = False
        elif first not in ("outer", "endloop"):
            raise Refused(f"line {line}: {words[0][:40]!r} is not a word of an STL text")
        if self.corners is not None and first in ("solid", "endsolid"):
            raise Refused(f"line {line}: the facet of line {self.facet_line} has no end")

    def take_vertex(self, line: int, words: list[str]) -> None:
        """A corner of the facet that is open."""
        if self.corners is None:
            raise Refused(f"line {line}: a vertex stands outside a facet")
        if len(words) != 4:
            raise Refused(f"line {line}: a vertex has three coordinates, and here are {len(words) - 1}")
        self.corners.append(self.words.index(words[1:], line))

    def end_facet(self, line: int) -> None:
        """The end of the facet that is open."""
        if self.corners is None or len(self.corners) != 3:
            have = 0 if self.corners is None else len(self.corners)
            raise Refused(f"line {line}: a facet has three vertices, and here are {have}")
        self.mesh.add(self.facet_line, self.corners)
        self.corners = None


def read_text(text: str) -> Mesh:
    """The mesh of an STL text; it may have several solids."""
    check_count(text.count("endfacet"), "facets")
    facets = Facets()
    line = 0
    for line, row in enumerate(text.splitlines(), 1):
        words = row.split()
        if words:
            facets.take(line, words)
    if facets.corners is not None:
        raise Refused(f"the file is cut off: it ends within the facet of line {facets.facet_line}")
    if facets.is_open:
        raise Refused(f"the file is cut off: line {line} is its last one, and 'endsolid' is missing")
    facets.mesh.points = facets.words.points
    facets.mesh.step = facets.words.step()
    return facets.mesh
