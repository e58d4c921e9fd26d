"""The inputs of bench/run, each made from its numbers: contours, meshes, and texts and streams of these."""
import math
import random
import sys
from functools import cached_property
from pathlib import Path

import counts
import masks
import parts
from outlines import circle, oblong, path, ring

EXAMPLES = Path(__file__).resolve().parent.parent / "examples"
sys.path.append(str(EXAMPLES))
import boundaries

FAR = 1023


class Boundary:
    """A boundary of one kind, as a text."""

    def __init__(self, kind, text):
        self.kind, self.text = kind, text

    def contours(self):
        """Its elements over whole numbers."""
        whole = lambda p: p and tuple(map(int, p))
        return [[(whole(p), whole(q), whole(c), turn) for p, q, c, turn in contour] for contour in boundaries.contours(self.text)]

    def sort(self):
        """Of which inputs it is one, for the sums."""
        if self.kind == "off":
            return "meshes"
        return "contours with arcs" if any(element[2] for contour in self.contours() for element in contour) else "straight contours"

    @cached_property
    def numbers(self):
        """For the table: its half-spaces, and its cells; of contours its candidates, the kept ones, and those with a free point."""
        if self.kind == "off":
            places, faces = boundaries.mesh(self.text)
            places = [tuple(map(int, p)) for p in places]
            planes = counts.planes_of(places, faces)
            return [f"{len(planes)} planes", counts.cells_of(planes, counts.block_of(places, faces)) if planes else 1]
        lines, discs, tile = self.arrangement()
        kept, free = self.masks
        return [f"{len(lines)} lines, {len(discs)} discs", counts.candidates_of(lines, discs, tile), len(kept), len(free)]

    @cached_property
    def masks(self):
        """The masks of the kept candidates of contours, and those of their free points: two counts that share no code."""
        return counts.kept_of(*self.arrangement()), masks.free_masks(self.contours())

    def arrangement(self):
        """The lines, the discs and the box of contours."""
        read = self.contours()
        return counts.lines_of(read), counts.discs_of(read), counts.tile_of(read)


class Case:
    """A named input: the bytes that a command reads, the boundary whose numbers the table has, and words of the case's own."""

    def __init__(self, name, make, boundary=None, words=(), sort=None):
        self.name, self.make, self.boundary, self.words = name, make, boundary, list(words)
        self.sort = sort or boundary.sort()

    def bytes(self):
        """The input, or None where there is none: it is to be made from a text that the program refused to write."""
        made = self.make()
        return made.encode() if isinstance(made, str) else made


# ---- contours


def star(lines):
    """A polygon whose edges all cross one another, or nearly all."""
    step = next(k for k in range(lines // 2 - 1, 0, -1) if math.gcd(k, lines) == 1)
    places = ring(lines)
    return path([places[i * step % lines] for i in range(lines)])


def tangle(lines, seed):
    """A closed path of edges to and fro between random places."""
    chance = random.Random(seed)
    return path([(chance.randint(-FAR, FAR), chance.randint(-FAR, FAR)) for _ in range(lines)])


def crossing(discs, spread, seed=7, least=300, most=458):
    """Circles round random centres that are at most `spread` apart along each axis."""
    chance = random.Random(seed)
    at = lambda: chance.randint(-spread // 2, spread // 2)
    return "".join(circle(at(), at(), chance.randint(least, most)) for _ in range(discs))


def near(discs, radius, seed=1):
    """Circles of one radius round different places near the origin."""
    chance, places = random.Random(seed), {}
    while len(places) < discs:
        places[chance.randint(-3, 3), chance.randint(-3, 3)] = None
    return "".join(circle(x, y, radius) for x, y in places)


def holes(count):
    """A bar with round holes in a row."""
    long = 20 * count
    bar = path([(long, 0), (long, 20), (0, 20), (0, 0)])
    return bar + "".join(circle(20 * i + 10, 10, 5) for i in range(count))


def contour_cases():
    texts = [
        ("bar with 8 holes", holes(8)),
        ("bar with 10 holes", holes(10)),
        ("gear (examples)", (EXAMPLES / "gear.ngc").read_text()),
        ("star of 24 lines", star(24)),
        ("star of 40 lines", star(40)),
        ("tangle of 24 lines", tangle(24, 1)),
        ("tangle of 40 lines", tangle(40, 1)),
        ("polygon of 40 lines, 10 discs across", path(ring(40)) + crossing(10, 500)),
        ("star of 24 lines, 8 discs across", star(24) + crossing(8, 500)),
        ("star of 40 lines, 5 discs across", star(40) + crossing(5, 500)),
        ("star of 40 lines, 10 small discs", star(40) + crossing(10, 1200, least=20, most=120)),
        ("star of 40 lines, 10 discs across", star(40) + crossing(10, 500)),
        ("star of 24 lines, 8 discs nearly one", star(24) + near(8, 140)),
        ("star of 40 lines, 6 discs nearly one", star(40) + near(6, 84)),
        ("star of 40 lines, 10 discs nearly one", star(40) + near(10, 84)),
    ]
    return [(name, Boundary("contour", text + "M30\n")) for name, text in texts]


def part_cases():
    return [(name, Boundary("contour", text)) for name, text in parts.texts()]


# ---- meshes


def mesh(places, faces):
    rows = [f"OFF {len(places)} {len(faces)} 0"]
    rows += [" ".join(map(str, place)) for place in places]
    rows += [" ".join(map(str, (len(face), *face))) for face in faces]
    return "\n".join(rows) + "\n"


def stair(steps):
    """A stair between two outlines, at y = 0 and y = 10."""
    outline = [(0, 0), *(place for i in range(1, steps + 1) for place in ((i - 1, i), (i, i))), (steps, 0)]
    count = len(outline)
    sides = [[k, (k + 1) % count, count + (k + 1) % count, count + k] for k in range(count)]
    return mesh([(x, y, z) for y in (0, 10) for x, z in outline], [list(range(count)), list(range(count, 2 * count)), *sides])


def together(parts):
    """The mesh of all these, each given by its places and faces."""
    places, faces = [], []
    for some, sides in parts:
        faces += [[len(places) + i for i in side] for side in sides]
        places += some
    return mesh(places, faces)


def raised(outline, low, high):
    """A plane outline between two heights, as places and faces."""
    count = len(outline)
    sides = [[k, (k + 1) % count, count + (k + 1) % count, count + k] for k in range(count)]
    return [(x, y, z) for z in (low, high) for x, y in outline], [list(range(count)), list(range(count, 2 * count)), *sides]


def box(x0, y0, z0, x1, y1, z1):
    return raised(oblong(x0, y0, x1, y1), z0, z1)


def shells(count):
    """Boxes in one another; every other one is a hollow."""
    return together(box(k, k, k, 4 * count - k, 4 * count - k, 4 * count - k) for k in range(count))


def plate(outlines):
    """Outlines, of which some are holes in others, as a plate."""
    return together(raised(outline, 0, 10) for outline in outlines)


def caltrop():
    """Three bars across one another, with a pyramid at each end."""
    places, faces = [], []
    for along in range(3):
        turned = lambda place: tuple(place[(i - along) % 3] for i in range(3))
        for end in (1, -1):
            first = len(places)
            places += [turned((end * x, y, z)) for x in (10, 30) for y, z in ((-10, -10), (10, -10), (10, 10), (-10, 10))]
            places.append(turned((end * 45, 0, 0)))
            faces += [[first + i for i in (k, (k + 1) % 4, 4 + (k + 1) % 4, 4 + k)] for k in range(4)]
            faces += [[first + i for i in (4 + k, 4 + (k + 1) % 4, 8)] for k in range(4)]
    return mesh(places, faces)


def house():
    """Walls and a roof of two slopes, with a room, and a doorway into it."""
    gable = [(0, 0), (20, 0), (20, 15), (10, 21), (0, 15)]
    walls, sides = raised(gable, 0, 30)
    return together([([(x, y, z) for x, z, y in walls], sides), box(2, 2, 2, 18, 28, 13), box(8, 0, 2, 12, 2, 9)])


def tetrahedra(count, seed, far=FAR):
    """Tetrahedra with random corners, which cross one another."""
    chance = random.Random(seed)
    places = [tuple(chance.randint(-far, far) for _ in range(3)) for _ in range(4 * count)]
    return mesh(places, [[4 * t + i for i in range(4) if i != left] for t in range(count) for left in range(4)])


def windings(planes, faces, seed=3):
    """Faces of 64 corners on random planes, each round the same 16 places of its plane four times; of each plane as many."""
    chance, places, all_faces = random.Random(seed), [], []
    for k in range(planes):
        a, b, c = chance.randint(-4, 4), chance.randint(-4, 4), chance.randint(-60, 60)
        places += [(x, y, a * x + b * y + c) for x, y in ring(16, 90 + k % 30)]
        all_faces += [[16 * k + i % 16 for i in range(64)]] * (faces // planes // 2 * 2)
    return mesh(places, all_faces)


def floors(planes, faces, seed=3):
    """Faces of 64 corners on a plane below nearly all cells, and two triangles on each other plane, which are random."""
    chance, places, triangles = random.Random(seed), [(x, y, -400) for x, y in ring(64, 100)], []
    for k in range(planes - 1):
        a, b, c = chance.randint(-4, 4), chance.randint(-4, 4), chance.randint(-60, 60)
        places += [(x, y, a * x + b * y + c) for x, y in ((-100, -100), (100, -90), (-90, 100))]
        triangles += [[64 + 3 * k + i for i in range(3)]] * 2
    return mesh(places, triangles + [list(range(64))] * (faces - len(triangles)))


def central(count, seed):
    """Tetrahedra of one size, almost, round the origin, each turned at random."""
    chance, places = random.Random(seed), []
    for _ in range(count):
        w, x, y, z = (chance.gauss(0, 1) for _ in range(4))
        turn = [
            (w * w + x * x - y * y - z * z, 2 * (x * y - w * z), 2 * (x * z + w * y)),
            (2 * (x * y + w * z), w * w - x * x + y * y - z * z, 2 * (y * z - w * x)),
            (2 * (x * z - w * y), 2 * (y * z + w * x), w * w - x * x - y * y + z * z),
        ]
        size = 577 / (w * w + x * x + y * y + z * z)
        for corner in ((1, 1, 1), (1, -1, -1), (-1, 1, -1), (-1, -1, 1)):
            places.append(tuple(round(size * counts.dot(row, corner)) for row in turn))
    return mesh(places, [[4 * t + i for i in range(4) if i != left] for t in range(count) for left in range(4)])


def mesh_cases():
    texts = [
        ("stair of 10 steps", stair(10)),
        ("stair of 18 steps", stair(18)),
        ("flange (examples)", (EXAMPLES / "flange.off").read_text()),
        ("tripod (examples)", (EXAMPLES / "tripod.off").read_text()),
        ("6 tetrahedra", tetrahedra(6, 1)),
        ("10 tetrahedra", tetrahedra(10, 1)),
        ("10 tetrahedra round one centre", central(10, 1)),
        ("2,016 faces of 64 corners on 24 planes", windings(24, 2016)),
        ("2,000 faces of 64 corners on 40 planes", windings(40, 2000)),
        ("1,970 faces of 64 corners on the lowest of 40 planes", floors(40, 2048)),
    ]
    return [(name, Boundary("off", text)) for name, text in texts]


# ---- commands


class Texts:
    """The texts that the program writes for boundaries, each made once. `convert` runs it on the kind and the text."""

    def __init__(self, convert):
        self.convert, self.made = convert, {}

    def of(self, boundary):
        """The text, or None where the boundary was refused."""
        if boundary not in self.made:
            self.made[boundary] = self.convert(boundary.kind, boundary.text.encode())
        return self.made[boundary]


def plain(cases, words=()):
    return [Case(name, lambda it=it: it.text, it, words) for name, it in cases]


def numbered(kind, least, most, text_of):
    return [Case(f"{n}", lambda: b"", Boundary(kind, text_of(n)), [str(n)]) for n in (least, most)]


def of_texts(cases, texts, words=()):
    return [Case(f"the text of: {name}", lambda it=it: texts.of(it), None, words, it.sort()) for name, it in cases]


def joined(first, second):
    return first if second is None else first.encode() + b"====\n" + second


def audited(cases, texts):
    return [Case(name + ", and its text", lambda it=it: (text := texts.of(it)) and joined(it.text, text), it) for name, it in cases]


def pairs(cases):
    stream_of = lambda first, second: lambda: joined(first, second.encode())
    return [Case(name, stream_of(first, second), whole, (), sort) for name, first, second, whole, sort in cases]


def layers(count, section):
    """A section many times, one on the other."""
    return "".join(f"LAYER {k} {k + 1}\n{section}" for k in range(count))


def prism_cases():
    sections = [
        ("star of 24 lines, 3 discs across", star(24) + crossing(3, 500)),
        ("star of 40 lines, 10 discs nearly one", star(40) + near(10, 84)),
    ]
    return [Case(f"64 layers: {name}", lambda it=it: layers(64, it), sort="contours with arcs") for name, it in sections]


def commands(texts):
    """Each command by its first words, with its inputs."""
    contours, meshes = contour_cases(), mesh_cases()
    flat, solid = ("1", "2", "0", "3"), ("1", "2", "5", "3")
    tangles = tangle(20, 1), tangle(20, 2)
    both = Boundary("contour", "".join(tangles))
    return [
        (["convert", "contour"], plain(contours)),
        (["convert", "off"], plain(meshes)),
        (["side", "contour"], plain(contours[-3:], flat)),
        (["side", "off"], plain(meshes[-3:], solid)),
        (["trial", "contour"], numbered("contour", 8, 10, holes)),
        (["trial", "off"], numbered("off", 10, 18, stair)),
        (["factor", "contour"], plain(contours)),
        (["factor", "off"], plain(meshes)),
        (["carve", "contour"], plain(contours)),
        (["carve", "off"], plain(meshes)),
        (["ask"], of_texts(contours[-7:-3], texts, flat) + of_texts(meshes[3:6], texts, solid)),
        (["upgrade"], of_texts(contours[-7:-3], texts) + of_texts(meshes[3:6], texts)),
        (["audit"], audited(meshes, texts)),
        (["combine", "union", "contour"], pairs([("two tangles of 20 lines", *tangles, both, None)])),
        (["combine", "union", "off"], pairs([("twice 5 tetrahedra", tetrahedra(5, 1), tetrahedra(5, 2), None, "meshes")])),
        (["prism"], prism_cases()),
    ]


# ---- covers


LETTER = [[(0, 0), (4, 0), (4, 6), (8, 6), (10, 8), (10, 12), (8, 14), (0, 14)], oblong(3, 8, 7, 12)]

# parts, with the least terms and literals of a formula over their half-spaces where these are known from how a part is made
COVERS = [
    ("bracket (examples)", lambda: example("bracket.ngc"), (4, 16)),
    ("slot (examples)", lambda: example("slot.ngc"), (4, 18)),
    ("two parts (examples)", lambda: example("parts.off"), (2, 11)),
    ("three bars with pyramids for ends", lambda: Boundary("off", caltrop()), (3, 36)),
    ("3 boxes in one another", lambda: Boundary("off", shells(3)), (7, 42)),
    ("a house with a room and a doorway", lambda: Boundary("off", house()), None),
    ("the letter P, two corners cut", lambda: Boundary("off", plate(LETTER)), None),
    ("plate of 22 sides, a square hole", lambda: Boundary("off", plate([ring(22), oblong(-300, -300, 300, 300)])), None),
    ("flange (examples)", lambda: example("flange.off"), None),
    ("tripod (examples)", lambda: example("tripod.off"), None),
    ("gear (examples)", lambda: example("gear.ngc"), None),
    ("stair of 10 steps", lambda: Boundary("off", stair(10)), (10, 60)),
    ("stair of 18 steps", lambda: Boundary("off", stair(18)), (18, 108)),
]


def example(name):
    """A boundary of the examples."""
    return Boundary("off" if name.endswith(".off") else "contour", (EXAMPLES / name).read_text())
