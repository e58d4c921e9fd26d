"""Small meshes for the tests, made here, as files of each format."""

from __future__ import annotations

import math
import struct
from typing import Iterable, Sequence

Vector = tuple[float, float, float]
Faces = list[list[Vector]]
Spot = tuple[float, float]


def prism(outline: Sequence[Spot], low: float, high: float) -> Faces:
    """The faces of a prism over an outline that runs to the left."""
    bottom = [(x, y, low) for x, y in reversed(outline)]
    top = [(x, y, high) for x, y in outline]
    ends = list(zip(outline, [*outline[1:], outline[0]]))
    return [bottom, top, *([(ax, ay, low), (bx, by, low), (bx, by, high), (ax, ay, high)] for (ax, ay), (bx, by) in ends)]


def box(x: float, y: float, z: float, at: Vector = (0, 0, 0)) -> Faces:
    """The faces of a box."""
    a, b, c = at
    return prism([(a, b), (a + x, b), (a + x, b + y), (a, b + y)], c, c + z)


def ring(radius: float, sides: int, turn: float = 0.0) -> list[Spot]:
    """A polygon with equal sides."""
    return [(radius * math.cos(math.tau * k / sides + turn), radius * math.sin(math.tau * k / sides + turn)) for k in range(sides)]


def mapped(faces: Faces, scale: Vector = (1, 1, 1), move: Vector = (0, 0, 0)) -> Faces:
    """The same faces, scaled and moved."""
    return [[(x * scale[0] + move[0], y * scale[1] + move[1], z * scale[2] + move[2]) for x, y, z in face] for face in faces]


def turned(faces: Faces, degrees: float, axis: int) -> Faces:
    """The same faces, turned about an axis."""
    cosine, sine = math.cos(math.radians(degrees)), math.sin(math.radians(degrees))
    i, j = [(1, 2), (2, 0), (0, 1)][axis]

    def one(point: Vector) -> Vector:
        found = list(point)
        found[i], found[j] = cosine * point[i] - sine * point[j], sine * point[i] + cosine * point[j]
        return (found[0], found[1], found[2])

    return [[one(it) for it in face] for face in faces]


def back(faces: Faces) -> Faces:
    """The same faces the other way round, as those of a hollow."""
    return [face[::-1] for face in faces]


def triangles(faces: Faces) -> Faces:
    """The faces as fans of triangles; right for convex faces."""
    return [[face[0], a, b] for face in faces for a, b in zip(face[1:], face[2:])]


def plate_with_hole(sides: int = 8, radius: float = 4.0, at: Spot = (10.0, 10.0), size: float = 20.0, high: float = 5.0) -> Faces:
    """Triangles of a square plate with a hole; `sides` is a multiple of 4, and the hole is cut from its corners outwards."""
    hole = [(at[0] + x, at[1] + y) for x, y in ring(radius, sides, math.pi / 4)]
    corners = [(size, size), (0.0, size), (0.0, 0.0), (size, 0.0)]
    flat: list[tuple[Spot, Spot, Spot]] = []
    quarter = sides // 4
    for k in range(4):
        part = [hole[(k * quarter + j) % sides] for j in range(quarter + 1)]
        flat += [(corners[k], b, a) for a, b in zip(part, part[1:])]
        flat.append((corners[k], corners[(k + 1) % 4], part[-1]))
    found: Faces = []
    for a, b, c in flat:
        found += [[(*a, high), (*b, high), (*c, high)], [(*c, 0.0), (*b, 0.0), (*a, 0.0)]]
    outer = prism(corners, 0, high)[2:]
    inner = back(prism(hole, 0, high)[2:])
    return found + triangles(outer + inner)


def stl_text(faces: Faces, form: str = "{:.9g}", name: str = "part") -> bytes:
    """An STL text."""
    rows = [f"solid {name}"]
    for face in triangles(faces):
        rows += [" facet normal 0 0 0", "  outer loop"]
        rows += ["   vertex " + " ".join(form.format(it) for it in point) for point in face]
        rows += ["  endloop", " endfacet"]
    return ("\n".join([*rows, f"endsolid {name}"]) + "\n").encode()


def stl_bytes(faces: Faces, head: bytes = b"made for a test") -> bytes:
    """A binary STL."""
    parts = triangles(faces)
    rows = [struct.pack("<12fH", 0, 0, 0, *(it for point in face for it in point), 0) for face in parts]
    return head.ljust(80, b" ") + struct.pack("<I", len(parts)) + b"".join(rows)


def indexed(faces: Faces) -> tuple[list[Vector], list[list[int]]]:
    """The points, each once, and the faces as indices."""
    order: dict[Vector, int] = {}
    made = [[order.setdefault(it, len(order)) for it in face] for face in faces]
    return list(order), made


def words(values: Iterable[float]) -> str:
    """Numbers as words."""
    return " ".join(f"{it:.12g}" for it in values)


def off_text(faces: Faces, head: str = "OFF\n", tail: str = "") -> bytes:
    """An OFF text; `tail` stands after each face."""
    points, made = indexed(faces)
    rows = [words(it) for it in points] + [words([len(it), *it]) + tail for it in made]
    return (f"{head}{len(points)} {len(made)} 0\n" + "\n".join(rows) + "\n").encode()


def obj_text(faces: Faces, corner: str = "{}", count_back: bool = False) -> bytes:
    """An OBJ text; `corner` says how a corner is written."""
    points, made = indexed(faces)
    rows = ["# made for a test", "o part", *("v " + words(it) for it in points), "vn 0 0 1", "vt 0 0"]
    for face in made:
        numbers = (it - len(points) if count_back else it + 1 for it in face)
        rows.append("f " + " ".join(corner.format(it) for it in numbers))
    return ("\n".join(rows) + "\n").encode()


def ply_text(faces: Faces, name: str = "vertex_indices", before: str = "", values: str = "{x} {y} {z}") -> bytes:
    """A PLY text; `before` are properties of vertices that `values` writes too."""
    points, made = indexed(faces)
    names = values.replace("{", "").replace("}", "").split()
    rows = ["ply", "format ascii 1.0", "comment made for a test", f"element vertex {len(points)}"]
    rows += [f"property float {it if it in 'xyz' else before}" for it in names]
    rows += [f"element face {len(made)}", f"property list uchar int {name}", "end_header"]
    rows += [values.format(x=f"{x:.12g}", y=f"{y:.12g}", z=f"{z:.12g}") for x, y, z in points]
    rows += [words([len(it), *it]) for it in made]
    return ("\n".join(rows) + "\n").encode()


def ply_bytes(faces: Faces, order: str, kind: str = "f") -> bytes:
    """A binary PLY in either byte order (`<` or `>`), with colours of vertices and flags of faces."""
    points, made = indexed(faces)
    form = {"<": "binary_little_endian", ">": "binary_big_endian"}[order]
    number = {"f": "float", "d": "double"}[kind]
    rows = ["ply", f"format {form} 1.0", f"element vertex {len(points)}", "property uchar red"]
    rows += [f"property {number} {it}" for it in "xyz"]
    rows += [f"element face {len(made)}", "property list uchar int vertex_indices", "property short flags", "end_header"]
    data = b"".join(struct.pack(order + "B3" + kind, 7, *it) for it in points)
    data += b"".join(struct.pack(f"{order}B{len(it)}ih", len(it), *it, -1) for it in made)
    return ("\n".join(rows) + "\n").encode() + data


def rounded(x: float, y: float, wide: float, high: float, radius: float) -> list[tuple[float, float, float]]:
    """The corners of a rectangle with round corners, with bulges."""
    bulge = math.tan(math.pi / 8)
    return [
        (x + radius, y, 0), (x + wide - radius, y, bulge), (x + wide, y + radius, 0), (x + wide, y + high - radius, bulge),
        (x + wide - radius, y + high, 0), (x + radius, y + high, bulge), (x, y + high - radius, 0), (x, y + radius, bulge),
    ]  # fmt: skip
