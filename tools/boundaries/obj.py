"""OBJ: the vertices and the faces of a Wavefront file. Lines and points, normals, groups and materials are left out."""

from __future__ import annotations

import re

from .faults import Refused
from .mesh import Mesh, Words, check_count

FREE_FORM = {"cstype", "curv", "curv2", "surf", "deg", "bmat", "step"}
# a vertex, and then its texture and normal, one of which or both may be missing
CORNER = re.compile(r"(-?\d{1,9})(/(-?\d*)(/(-?\d*))?)?")
WORDS = {
    "v", "vt", "vn", "vp", "f", "fo", "l", "p", "g", "o", "s", "mg", "usemtl", "mtllib", "usemap", "maplib", "lod",
    "bevel", "c_interp", "d_interp", "shadow_obj", "trace_obj", "call", "csh", "end", "parm", "trim", "hole", "scrv", "sp", "con",
}  # fmt: skip


def read_obj(data: bytes) -> Mesh:
    """The mesh of an OBJ file."""
    if not data.strip():
        raise Refused("the file is empty")
    if b"\0" in data:
        raise Refused("an OBJ file is a text, and this file has bytes that no text has")
    check_count(data.count(b"\nf ") + data.count(b"\nf\t"), "faces")
    mesh, coordinates, left = Mesh("line"), Words(), 0
    for line, words in lines_of(data.decode("latin-1")):
        if words[0] == "v":
            if len(words) < 4:
                raise Refused(f"line {line}: a vertex has three coordinates, and here are {len(words) - 1}")
            mesh.points.append(coordinates.point(words[1:4], line))
        elif words[0] in ("f", "fo"):
            mesh.add(line, face(words[1:], len(mesh.points), line))
        elif words[0] in ("l", "p"):
            left += 1
        elif words[0] in FREE_FORM:
            raise Refused(f"line {line}: the file has a curved surface ({words[0]}), and only flat faces are read")
        elif words[0] not in WORDS:
            raise Refused(f"line {line}: {words[0][:40]!r} is not a word of an OBJ file")
    check_corners(mesh)
    if left:
        mesh.notes.append(f"{left} lines and points were left out")
    mesh.step = coordinates.step()
    return mesh


def lines_of(text: str) -> list[tuple[int, list[str]]]:
    """The lines with words, joined where one ends with a backslash, without comments."""
    found: list[tuple[int, list[str]]] = []
    held: list[str] = []
    for line, row in enumerate(text.splitlines(), 1):
        row = row.split("#", 1)[0].rstrip()
        is_held = row.endswith("\\")
        held += row.rstrip("\\").split()
        if held and not is_held:
            found.append((line, held))
        if not is_held:
            held = []
    return [*found, (line, held)] if held else found


def face(words: list[str], vertices: int, line: int) -> list[int]:
    """The corners of a face; an index below 0 counts back from the last vertex before the line."""
    if len(words) < 3:
        raise Refused(f"line {line}: a face has three corners or more, and here are {len(words)}")
    corners = []
    for word in words:
        found = CORNER.fullmatch(word)
        index = int(found[1]) if found else 0
        if index == 0 or index < -vertices:
            raise Refused(f"line {line}: {word[:40]!r} is not a corner of a face")
        corners.append(index - 1 if index > 0 else vertices + index)
    return corners


def check_corners(mesh: Mesh) -> None:
    """Refuses a face with a corner that is no vertex. A vertex may stand after the face."""
    for face_index, corners in enumerate(mesh.faces):
        for corner in corners:
            if corner >= len(mesh.points):
                raise Refused(f"{mesh.place(face_index)}: the file has {len(mesh.points)} vertices, and no vertex {corner + 1}")
