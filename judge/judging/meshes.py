"""Meshes: the rows of an OFF text, its first fault, and the check of closed meshes."""

from collections import Counter
from itertools import combinations
from typing import NoReturn

from .texts import REACH, Refusal, at_word, hash_words, lines_of, number_word, spaced
from .vectors import Vector, cross, dot, minus

Face = list[Vector]


class Row:
    """A row of a text, read word by word. Faults name the word at fault."""

    def __init__(self, line: int, words: list[bytes]) -> None:
        self.line = line
        self.words = words
        self.at = 0

    def fail(self, name: str) -> NoReturn:
        """A fault of the word that was read last."""
        raise at_word(name, self.line, self.at)

    def next(self, missing: str = "Short") -> bytes:
        """The next word; where there is none the fault of a missing one."""
        self.at += 1
        if self.at > len(self.words):
            raise at_word(missing, self.line, len(self.words) + 1)
        return self.words[self.at - 1]

    def whole(self) -> int:
        """The next word as a whole number."""
        value = number_word(self.next())
        if isinstance(value, str):
            self.fail(value)
        return value

    def count(self, most: int | None) -> int:
        """The next word as a count."""
        value = number_word(self.next("BadCount"))
        if isinstance(value, str) or value < 0:
            self.fail("BadCount")
        if most is not None and value > most:
            self.fail("TooMany")
        return value

    def end(self, ignored: int = 0) -> None:
        """No more words than so many after the last one read."""
        if len(self.words) > self.at + ignored:
            raise at_word("Extra", self.line, self.at + ignored + 1)

    def coordinate(self) -> int:
        """The next word as a coordinate."""
        value = self.whole()
        if abs(value) > REACH:
            self.fail("TooFar")
        return value

    def face(self, places: list[Vector]) -> Face:
        """The whole row as a face."""
        corners = self.whole()
        if corners < 3:
            self.fail("ShortFace")
        if corners > 64:
            self.fail("TooMany")
        face = []
        for _ in range(corners):
            index = self.whole()
            if not 0 <= index < len(places):
                self.fail("BadIndex")
            face.append(places[index])
        self.end(4)
        return face


def read_mesh(text: bytes) -> list[Face]:
    """The faces of a text, each by the places at its corners, or its first fault."""
    lines = lines_of(text)
    rows = [Row(at, words) for at, line in enumerate(lines, 1) if (words := hash_words(line))]
    rows.reverse()

    def row() -> Row:
        if not rows:
            raise at_word("Short", len(lines) + 1, 0)
        return rows.pop()

    if not rows:
        raise at_word("NotOff", len(lines) + 1, 0)
    head = row()
    if head.next() != b"OFF":
        head.fail("NotOff")
    if len(head.words) == 1:
        head = row()
    vertices, faces, _ = head.count(1024), head.count(2048), head.count(None)
    head.end()
    places = []
    for _ in range(vertices):
        here = row()
        places.append((here.coordinate(), here.coordinate(), here.coordinate()))
        here.end()
    result = [row().face(places) for _ in range(faces)]
    if rows:
        raise at_word("Extra", rows[-1].line, 1)
    return result


def normal_of(face: Face) -> Vector | None:
    """A normal of the plane through three corners that are not on one line, or None where all are on one."""
    for b, c in combinations(face[1:], 2):
        normal = cross(minus(b, face[0]), minus(c, face[0]))
        if any(normal):
            return normal
    return None


def edges_of(face: Face) -> list[tuple[Vector, Vector]]:
    """The edges, from each corner to the next and from the last to the first."""
    return list(zip(face, face[1:] + face[:1]))


def check_face(face: Face, at: int) -> None:
    """The first fault of one face."""
    for place, (a, b) in enumerate(edges_of(face)):
        if a == b:
            raise Refusal(f"TwinCorner face {at} place {place}")
    normal = normal_of(face)
    if normal is None:
        raise Refusal(f"FlatFace face {at}")
    for place, corner in enumerate(face):
        if dot(normal, minus(corner, face[0])):
            raise Refusal(f"BentFace face {at} place {place}")


def check_mesh(faces: list[Face]) -> list[Face]:
    """The same faces, where they are a closed mesh."""
    for at, face in enumerate(faces):
        check_face(face, at)
    edges = Counter((min(a, b), max(a, b)) for face in faces for a, b in edges_of(face))
    for (a, b), count in edges.items():
        if count % 2:
            raise Refusal(f"OddEdge {spaced(a + b)} count {count}")
    return faces
