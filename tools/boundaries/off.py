"""OFF, with numbers of any kind, colours, normals and texture coordinates (COFF, NOFF, STOFF)."""

from __future__ import annotations

import re

from .faults import Refused
from .mesh import Mesh, Words, check_count

HEAD = re.compile(r"(ST)?C?N?OFF")
# texture coordinates, colour and normal stand after the three coordinates of a vertex
OTHER_HEAD = re.compile(r"(ST)?C?N?(4|n|4n)OFF")

Row = tuple[int, list[str]]


def read_off(data: bytes) -> Mesh:
    """The mesh of an OFF file."""
    rows = rows_of(data.decode("latin-1"))
    if not rows:
        raise Refused("the file is empty")
    rows = without_head(rows)
    if not rows:
        raise Refused("the file is cut off: it ends before the counts of vertices and faces")
    line, words = rows[0]
    counts = [whole(it, line, "a count") for it in words[:2]]
    if len(counts) < 2:
        raise Refused(f"line {line}: the counts of vertices and faces are missing")
    vertices, faces = counts
    check_count(faces, "faces")
    if len(rows) < 1 + vertices + faces:
        raise Refused(
            f"the file is cut off: its counts say {vertices:,} vertices and {faces:,} faces, "
            f"and {len(rows) - 1:,} rows follow them"
        )
    if len(rows) > 1 + vertices + faces:
        raise Refused(f"line {rows[1 + vertices + faces][0]}: this row stands after the last face")
    return filled(rows[1 : 1 + vertices], rows[1 + vertices :])


def rows_of(text: str) -> list[Row]:
    """The lines with words, each with its number, without comments."""
    found = []
    for line, row in enumerate(text.splitlines(), 1):
        words = row.split("#", 1)[0].split()
        if words:
            found.append((line, words))
    return found


def without_head(rows: list[Row]) -> list[Row]:
    """The rows after the word OFF; counts may stand on its row."""
    line, words = rows[0]
    if OTHER_HEAD.fullmatch(words[0]):
        raise Refused(f"line {line}: {words[0]} has points of other than three coordinates")
    if HEAD.fullmatch(words[0]):
        if words[1:2] == ["BINARY"]:
            raise Refused(f"line {line}: a binary OFF file is not read; save it as text")
        return [(line, words[1:]), *rows[1:]] if len(words) > 1 else rows[1:]
    # (Geomview takes a file without its first word too)
    if re.fullmatch(r"\d+", words[0]):
        return rows
    raise Refused(f"line {line}: an OFF file begins with the word OFF, and this one does not")


def whole(word: str, line: int, what: str) -> int:
    """The whole number of a word."""
    if not re.fullmatch(r"\d{1,9}", word):
        raise Refused(f"line {line}: {what} is a whole number, and here is {word[:40]!r}")
    return int(word)


def filled(vertices: list[Row], faces: list[Row]) -> Mesh:
    """The mesh of these rows."""
    mesh, coordinates, lines = Mesh("line"), Words(), 0
    for line, words in vertices:
        if len(words) < 3:
            raise Refused(f"line {line}: a vertex has three coordinates, and here are {len(words)}")
        mesh.points.append(coordinates.point(words[:3], line))
    for line, words in faces:
        count = whole(words[0], line, "the number of corners")
        if len(words) < 1 + count:
            raise Refused(f"line {line}: the face has {count} corners, and here are {len(words) - 1}")
        corners = [whole(it, line, "a corner") for it in words[1 : 1 + count]]
        for corner in corners:
            if corner >= len(mesh.points):
                raise Refused(f"line {line}: the file has {len(mesh.points)} vertices, counted from 0, and no vertex {corner}")
        if count < 3:
            lines += 1
        else:
            mesh.add(line, corners)
    if lines:
        mesh.notes.append(f"{lines} faces of fewer than three corners were left out")
    mesh.step = coordinates.step()
    return mesh
