"""PLY: text, and bytes in both orders, with any elements and properties in any order."""

from __future__ import annotations

import math
import struct
from dataclasses import dataclass, field
from fractions import Fraction
from typing import Iterator

from .faults import Refused
from .mesh import Mesh, Words, check_count
from .decimals import from_double, from_single
from .stl import single_step

TYPES = {
    "char": "b", "int8": "b", "uchar": "B", "uint8": "B", "short": "h", "int16": "h", "ushort": "H", "uint16": "H",
    "int": "i", "int32": "i", "uint": "I", "uint32": "I", "float": "f", "float32": "f", "double": "d", "float64": "d",
}  # fmt: skip
LONGEST_HEAD = 100_000


@dataclass
class Property:
    """A property of an element; a list has the type of its count too."""

    name: str
    kind: str
    count: str = ""


@dataclass
class Element:
    """An element of the head: its name, how many there are, and what each one has."""

    name: str
    count: int
    properties: list[Property] = field(default_factory=list)


@dataclass
class Head:
    """What stands before the data."""

    form: str
    elements: list[Element]
    lines: int
    end: int


Value = str | float | int | list[str] | list[float] | list[int]


def read_ply(data: bytes) -> Mesh:
    """The mesh of a PLY file."""
    if not data.strip():
        raise Refused("the file is empty")
    head = read_head(data)
    check_elements(head, len(data))
    if head.form == "ascii":
        return from_text(data[head.end :].decode("latin-1"), head)
    return from_bytes(data, head)


def read_head(data: bytes) -> Head:
    """The head, up to the line end_header."""
    if data[:3] != b"ply" or data[3:4] not in (b"\n", b"\r"):
        raise Refused("line 1: a PLY file begins with the line 'ply', and this one does not")
    end = data.find(b"end_header", 0, LONGEST_HEAD)
    if end < 0:
        raise Refused("the file is cut off: its head has no line 'end_header'")
    after = end + len(b"end_header")
    after += 2 if data[after : after + 2] == b"\r\n" else 1
    form, elements = "", list[Element]()
    lines = data[:end].decode("latin-1").splitlines()
    for line, row in enumerate(lines[1:], 2):
        words = row.split()
        if not words or words[0] in ("comment", "obj_info"):
            continue
        if words[0] == "format" and len(words) >= 2:
            form = words[1]
        elif words[0] == "element" and len(words) == 3 and words[2].isdecimal():
            elements.append(Element(words[1], int(words[2])))
        elif words[0] == "property" and elements:
            elements[-1].properties.append(property_of(words, line))
        else:
            raise Refused(f"line {line}: {row[:60]!r} is not a line of a PLY head")
    if form not in ("ascii", "binary_little_endian", "binary_big_endian"):
        raise Refused(f"the head names no format that is read, but {form!r}")
    return Head(form, elements, len(lines) + 1, after)


def property_of(words: list[str], line: int) -> Property:
    """The property of a line of the head."""
    if len(words) == 5 and words[1] == "list" and words[2] in TYPES and words[3] in TYPES:
        return Property(words[4], words[3], words[2])
    if len(words) == 3 and words[1] in TYPES:
        return Property(words[2], words[1])
    raise Refused(f"line {line}: {' '.join(words)[:60]!r} is not a property of a PLY head")


def check_elements(head: Head, size: int) -> None:
    """Refuses a head without vertices of three coordinates or without faces, and one of more elements than the file holds."""
    for element in head.elements:
        check_count(element.count if element.name == "face" else 0, "faces")
        if element.count > size:
            raise Refused(f"the file is cut off: its head says {element.count:,} elements '{element.name}'")
    for name, wanted in (("vertex", {"x", "y", "z"}), ("face", {"vertex_index", "vertex_indices"})):
        found = [it for it in head.elements if it.name == name]
        if not found:
            raise Refused(f"the head has no element '{name}': the file is no mesh of faces")
        names = {it.name for it in found[0].properties}
        if not (wanted <= names if name == "vertex" else wanted & names):
            raise Refused(f"the head gives the element '{name}' no property {' or '.join(sorted(wanted))}")


def is_corners(property_: Property) -> bool:
    """Whether a property of a face is the list of its vertices."""
    return property_.name in ("vertex_index", "vertex_indices") and property_.count != ""


def from_text(text: str, head: Head) -> Mesh:
    """The mesh of the rows of a text."""
    mesh, coordinates = Mesh("line"), Words()
    rows = iter(enumerate(text.splitlines(), head.lines + 1))
    for element in head.elements:
        for done in range(element.count):
            line, row = next(((line, it) for line, it in rows if it.strip()), (0, ""))
            words = row.split()
            if not words:
                raise Refused(f"the file is cut off: it has {done:,} of {element.count:,} elements '{element.name}'")
            values = row_values(words, element, line)
            if element.name == "vertex":
                mesh.points.append(coordinates.point([str(values[it]) for it in "xyz"], line))
            elif element.name == "face":
                mesh.add(line, corners_of(values, f"line {line}"))
    mesh.step = coordinates.step()
    return checked(mesh)


def row_values(words: list[str], element: Element, line: int) -> dict[str, Value]:
    """The values of the properties on a row, by their names; those of a corner list as whole numbers."""
    values: dict[str, Value] = {}
    at = 0
    for it in element.properties:
        count = 1
        if it.count:
            count = whole(words[at], line) if at < len(words) else len(words)
            at += 1
        if at + count > len(words):
            raise Refused(f"line {line}: the row ends before its property {it.name!r}")
        taken = words[at : at + count]
        at += count
        values[it.name] = [whole(word, line) for word in taken] if is_corners(it) else taken if it.count else taken[0]
    return values


def whole(word: str, line: int) -> int:
    """The whole number of a word."""
    if not word.isdecimal() or len(word) > 9:
        raise Refused(f"line {line}: a whole number is due, and here is {word[:40]!r}")
    return int(word)


def corners_of(values: dict[str, Value], place: str) -> list[int]:
    """The corners of a face."""
    found = values.get("vertex_indices", values.get("vertex_index"))
    if not isinstance(found, list):
        raise Refused(f"{place}: the face has no list of vertices")
    return [int(it) for it in found]


def checked(mesh: Mesh) -> Mesh:
    """The mesh, where its faces have three corners or more, which are vertices."""
    for index, corners in enumerate(mesh.faces):
        if len(corners) < 3:
            raise Refused(f"{mesh.place(index)}: a face has three corners or more, and here are {len(corners)}")
        for corner in corners:
            if not 0 <= corner < len(mesh.points):
                raise Refused(f"{mesh.place(index)}: the file has {len(mesh.points)} vertices, and no vertex {corner}")
    return mesh


def from_bytes(data: bytes, head: Head) -> Mesh:
    """The mesh of the bytes after the head."""
    mesh = Mesh("face")
    order = "<" if head.form == "binary_little_endian" else ">"
    at = head.end
    for element in head.elements:
        for index in range(element.count):
            try:
                values, at = bytes_values(data, at, element, order)
            except struct.error:
                raise Refused(f"the file is cut off: it has {index:,} of {element.count:,} elements '{element.name}'") from None
            if element.name == "vertex":
                x, y, z = coordinates_of(values, element, index)
                mesh.points.append((x, y, z))
            elif element.name == "face":
                mesh.add(index, corners_of(values, f"face {index}"))
    if at < len(data.rstrip(b"\r\n")):
        raise Refused(f"the file has {len(data) - at:,} bytes more than the elements of its head")
    kinds = {it.kind for element in head.elements if element.name == "vertex" for it in element.properties if it.name in "xyz"}
    if kinds & {"float", "float32"}:
        mesh.step = single_step(float(max((abs(it) for point in mesh.points for it in point), default=Fraction(0))))
    return checked(mesh)


def bytes_values(data: bytes, at: int, element: Element, order: str) -> tuple[dict[str, Value], int]:
    """The values of one element, and where the next one begins."""
    values: dict[str, Value] = {}
    for it in element.properties:
        if not it.count:
            form = struct.Struct(order + TYPES[it.kind])
            values[it.name] = form.unpack_from(data, at)[0]
            at += form.size
            continue
        count_form = struct.Struct(order + TYPES[it.count])
        count = int(count_form.unpack_from(data, at)[0])
        at += count_form.size
        if count < 0 or count > len(data):
            raise Refused(f"byte {at}: a list of {count} values cannot be in this file")
        list_form = struct.Struct(f"{order}{count}{TYPES[it.kind]}")
        values[it.name] = list(list_form.unpack_from(data, at))
        at += list_form.size
    return values, at


def coordinates_of(values: dict[str, Value], element: Element, index: int) -> Iterator[Fraction]:
    """The three coordinates of a vertex."""
    kinds = {it.name: it.kind for it in element.properties}
    for name in "xyz":
        value = values[name]
        if isinstance(value, int):
            yield Fraction(value)
        elif not isinstance(value, float) or not math.isfinite(value):
            raise Refused(f"vertex {index}: the coordinate {name} is not a finite number")
        else:
            yield from_single(value) if kinds[name] in ("float", "float32") else from_double(value)
