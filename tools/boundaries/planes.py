"""Planes first: the faces of a mesh are gathered by plane, as far as each plane goes.

A plane grows from its greatest face over faces beside it. It is laid anew through three corners far apart as it grows, since
a plane through a small face is wrong far from it.
"""

from __future__ import annotations

from collections import defaultdict
from dataclasses import dataclass

from .polygons import Vector, area_vector, cross, dot, length, minus
from .welding import Welded

# faces that lean more than this against a plane are not of it, unless they have no width
COSINE = 0.7
# a face narrower than so many times the noise has no width
THIN = 4


@dataclass
class Plane:
    """A plane with the unit normal, and the faces on it."""

    normal: Vector
    far: float
    faces: list[int]


class Gathering:
    """The faces, and the planes found so far."""

    def __init__(self, welded: Welded, tolerance: float) -> None:
        self.noise = float(welded.noise)
        self.points = welded.near
        self.faces = welded.faces
        self.tolerance = tolerance
        self.normals = [area_vector([self.points[it] for it in face]) for face in self.faces]
        self.plane_of = [-1] * len(self.faces)
        self.planes: list[Plane] = []
        self.beside: dict[tuple[int, int], list[int]] = defaultdict(list)
        for face, corners in enumerate(self.faces):
            for a, b in zip(corners, corners[1:] + corners[:1]):
                self.beside[(a, b) if a < b else (b, a)].append(face)

    def is_on(self, face: int, plane: Plane) -> bool:
        """Whether a face is on a plane: all its corners are, and it does not lean, or has no width."""
        (x, y, z), far = plane.normal, plane.far
        for it in self.faces[face]:
            point = self.points[it]
            if abs(x * point[0] + y * point[1] + z * point[2] - far) > self.tolerance:
                return False
        normal = self.normals[face]
        lean = x * normal[0] + y * normal[1] + z * normal[2]
        return abs(lean) >= COSINE * length(normal) or self.is_thin(face)

    def is_thin(self, face: int) -> bool:
        """Whether a face is so narrow that its normal says nothing."""
        corners = [self.points[it] for it in self.faces[face]]
        longest = max(length(minus(a, b)) for a, b in zip(corners, corners[1:] + corners[:1]))
        return length(self.normals[face]) <= THIN * self.noise * longest

    def neighbours(self, face: int) -> list[int]:
        """The faces that share an edge with a face."""
        corners = self.faces[face]
        return [it for a, b in zip(corners, corners[1:] + corners[:1]) for it in self.beside[(a, b) if a < b else (b, a)]]

    def grow(self, seed: int, index: int, is_new: bool) -> None:
        """Takes the faces that are on a plane, from one face on over its neighbours."""
        plane = self.planes[index]
        self.plane_of[seed] = index
        plane.faces.append(seed)
        waiting, refused, limit, begin = [seed], list[int](), 4, len(plane.faces) - 1
        while waiting:
            for other in self.neighbours(waiting.pop()):
                if self.plane_of[other] >= 0:
                    continue
                if self.is_on(other, plane):
                    self.plane_of[other] = index
                    plane.faces.append(other)
                    waiting.append(other)
                else:
                    refused.append(other)
            is_large = len(plane.faces) - begin >= limit
            if is_new and (is_large or not waiting) and refused:
                self.lay(plane)
                limit *= 2
                again = [it for it in refused if self.plane_of[it] < 0 and self.is_on(it, plane)]
                refused = [it for it in refused if self.plane_of[it] < 0] if is_large else []
                for other in dict.fromkeys(again):
                    self.plane_of[other] = index
                    plane.faces.append(other)
                    waiting.append(other)

    def lay(self, plane: Plane) -> None:
        """Lays a plane through three corners of its faces that are far apart."""
        corners = [self.points[it] for it in {it for face in plane.faces for it in self.faces[face]}]
        a = max(corners, key=lambda it: length(minus(it, corners[0])))
        b = max(corners, key=lambda it: length(minus(it, a)))
        along = minus(b, a)
        c = max(corners, key=lambda it: length(cross(along, minus(it, a))))
        normal = cross(along, minus(c, a))
        size = length(normal)
        if size <= self.tolerance * length(along):
            return
        unit = (normal[0] / size, normal[1] / size, normal[2] / size)
        if dot(unit, plane.normal) < 0:
            unit = (-unit[0], -unit[1], -unit[2])
        plane.normal, plane.far = unit, (dot(unit, a) + dot(unit, b) + dot(unit, c)) / 3

    def take(self, seed: int) -> None:
        """Gives a face a plane: one that is there, or one of its own."""
        for index, plane in enumerate(self.planes):
            if self.is_on(seed, plane):
                self.grow(seed, index, False)
                return
        x, y, z = self.normals[seed]
        size = length((x, y, z))
        unit = (x / size, y / size, z / size)
        point = self.points[self.faces[seed][0]]
        self.planes.append(Plane(unit, dot(unit, point), []))
        self.grow(seed, len(self.planes) - 1, True)


def gather(welded: Welded, tolerance: float, most: int) -> list[Plane]:
    """The planes of a mesh, or as many as were found when there were more than `most`. Faces without width, of which no plane
    is known, come to a plane on which they are, or nowhere: their edges cancel, or are mended as edges of others."""
    gathering = Gathering(welded, tolerance)
    sizes = [length(it) for it in gathering.normals]
    for seed in sorted(range(len(welded.faces)), key=lambda it: -sizes[it]):
        if gathering.plane_of[seed] >= 0 or (sizes[seed] == 0 or gathering.is_thin(seed)) and gathering.planes:
            continue
        if sizes[seed] == 0:
            continue
        gathering.take(seed)
        if len(gathering.planes) > most:
            break
    return gathering.planes
