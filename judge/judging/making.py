"""Random contours and meshes, valid and near the limits, and their texts in the many ways that they may be written."""

import random
from pathlib import Path
from typing import Callable, Sequence

from .contours import Element, Place
from .meshes import Face
from .vectors import Vector

FOLDER = Path(__file__).resolve().parent.parent / "cases"
TRIPLES = [(3, 4), (4, 3), (-3, 4), (3, -4), (5, 12), (-12, 5), (8, 15), (0, 5), (5, 0), (-5, 0), (0, -5)]
Contour = list[Element]


def read_pieces() -> dict[str, list[str]]:
    """The pieces of `cases/pieces` by their names."""
    lines = (FOLDER / "pieces").read_text().split("\n")
    named = (line.split(" ", 1) for line in lines if line and not line.startswith("#"))
    return {name: [piece.encode().decode("unicode_escape") for piece in rest.split("|")] for name, rest in named}


PIECES = read_pieces()


class Dice(random.Random):
    """Chance, with the choices that the makers need."""

    def odds(self, per_cent: int) -> bool:
        """True so many times in a hundred."""
        return self.random() * 100 < per_cent

    def place(self, size: int) -> Place:
        """A place within a size."""
        return (self.randint(-size, size), self.randint(-size, size))

    def size(self) -> int:
        """A size of coordinates: mostly small, seldom the greatest."""
        return self.choice((2, 4, 6, 10, 10, 30, 100, 400, 1023))

    def piece(self, name: str) -> str:
        """One of the pieces with a name."""
        return self.choice(PIECES[name])


def polygon(places: Sequence[Place]) -> Contour:
    """The edges between places, the last one to the first."""
    return [Element(a, b) for a, b in zip(places, [*places[1:], places[0]]) if a != b]


def rectilinear(dice: Dice) -> Contour:
    """A polygon along the axes."""
    size, count = dice.size(), dice.randint(2, 4)
    corners = [dice.place(size) for _ in range(count)]
    return polygon([p for a, b in zip(corners, corners[1:] + corners[:1]) for p in (a, (b[0], a[1]))])


def circle(centre: Place, off: Place, ccw: bool) -> Contour:
    """A full circle."""
    start = (centre[0] + off[0], centre[1] + off[1])
    return [Element(start, start, centre, ccw)]


def circle_in_arcs(dice: Dice) -> Contour:
    """Arcs between whole places of one circle, forth and back."""
    square, (x, y) = dice.choice((25, 50, 65, 325, 1105)), dice.place(20)
    reach = range(-33, 34)
    places = [(x + i, y + j) for i in reach for j in reach if i * i + j * j == square]
    chosen = dice.sample(places, dice.randint(2, 4))
    return [Element(a, b, (x, y), dice.odds(60)) for a, b in zip(chosen, chosen[1:] + chosen[:1])]


def arcs(dice: Dice) -> Contour:
    """A contour of arcs and edges; some of its arcs may have ends at two distances."""
    size = min(dice.size(), 400)
    start = at = dice.place(size)
    result = []
    for _ in range(dice.randint(1, 4)):
        i, j = dice.choice([*TRIPLES, dice.place(max(2, size // 2))])
        if dice.odds(40):
            end = dice.place(size)
            result.append(Element(at, end))
        else:
            end = (at[0] + i + dice.choice((i, -i, j, -j)), at[1] + j + dice.choice((j, -j)))
            if (end[0] - at[0] - i) ** 2 + (end[1] - at[1] - j) ** 2 != i * i + j * j:
                end = dice.choice((at, (at[0] + 2 * i, at[1] + 2 * j), (at[0] + i - j, at[1] + j + i)))
            result.append(Element(at, end, (at[0] + i, at[1] + j), dice.odds(50)))
        at = end
    return [e for e in [*result, Element(at, start)] if e.centre is not None or e.a != e.b]


def touching(dice: Dice) -> list[Contour]:
    """Circles and squares that touch one another, from within or without, or cross at one place."""
    (cx, cy), (i, j) = dice.place(20), dice.choice(TRIPLES)
    k, m = dice.randint(1, 3), dice.randint(1, 3)
    other = dice.choice((k + m, k - m, k, 0, m - k, 2 * k))
    whole = [circle((cx, cy), (k * i, k * j), dice.odds(50))]
    whole.append(circle((cx + other * i, cy + other * j), (m * i, m * j), dice.odds(50)))
    if dice.odds(60):
        x, y, side = cx - 5 * k, cy - 5 * k, 10 * k
        whole.append(polygon([(x, y), (x + side, y), (x + side, y + dice.randint(1, 20)), (x, y + 5 * k)]))
    return whole


def crowded(dice: Dice) -> list[Contour]:
    """Many discs that are nearly one."""
    (x, y), (i, j) = dice.place(5), dice.choice([*TRIPLES, (7, 1), (30, 40)])
    return [
        circle((x + dice.randint(-2, 2), y + dice.randint(-2, 2)), (i + dice.randint(-1, 1), j), dice.odds(50))
        for _ in range(dice.choice((3, 4, 5, 6, 10)))
    ]


def at_limits(dice: Dice) -> list[Contour]:
    """About as many lines as are taken, or coordinates as far as they go."""
    kind = dice.randrange(3)
    if kind == 0:
        return [polygon([dice.place(900) for _ in range(dice.choice((39, 40, 41, 60)))])]
    if kind == 1:
        return [polygon([(7 * k, 0), (7 * k, 9), (7 * k + 5, 9)]) for k in range(dice.choice((18, 19, 20)))]
    centre = (dice.choice((-1023, 1023)), dice.choice((-1023, 1023)))
    return [circle(centre, (-2 * centre[0], -2 * centre[1]), True), polygon([centre, (0, 0), (-centre[0], 1)])]


def mixed(dice: Dice) -> list[Contour]:
    """Some contours of any kind; one may stand twice."""
    result = []
    for _ in range(dice.choice((1, 1, 1, 2, 2, 3))):
        size = dice.size()
        kind = dice.randint(0, 5)
        if kind == 0:
            result.append(polygon([dice.place(size) for _ in range(dice.randint(3, 6))]))
        elif kind == 1:
            result.append(circle(dice.place(size // 2), dice.choice([*TRIPLES, (1, 0), (7, 1)]), dice.odds(50)))
        else:
            result.append((rectilinear, circle_in_arcs, arcs, arcs)[kind - 2](dice))
    return result + result[:1] if dice.odds(6) else result


def contours(dice: Dice) -> list[Contour]:
    """Contours of any kind."""
    makers: list[Callable[[Dice], list[Contour]]] = [lambda _: [], at_limits, touching, crowded, mixed]
    return dice.choices(makers, (4, 5, 14, 7, 70))[0](dice)


def spelled(value: int, dice: Dice) -> str:
    """A number in one of its spellings."""
    text = f"{abs(value):0{dice.choice((1, 1, 1, 1, 4))}d}" + dice.choice(("", "", "", "", ".", ".0", ".000"))
    return ("-" if value < 0 else dice.choice(("", "", "", "+", "-" if value == 0 else ""))) + text


def contour_text(whole: list[Contour], dice: Dice) -> bytes:
    """The text of some contours. In the loose style what is modal is often left out, and numbers are spelled anyhow."""
    loose = dice.odds(50)
    lines: list[str] = ["%", "(made) G21 G90"] if loose and dice.odds(50) else []
    at, mode = (0, 0), ""

    def block(new: str, end: Place, rest: list[str]) -> None:
        nonlocal mode, at
        words = [] if loose and new == mode and dice.odds(70) else [new]
        for letter, old, number in zip("XY", at, end):
            if not (loose and old == number and dice.odds(60)):
                words.append(letter + (spelled(number, dice) if loose else str(number)))
        mode, at = new, end
        line = (dice.choice(("", " ", "  ")) if loose else " ").join(words + rest)
        lines.append(line.lower() if loose and dice.odds(20) else line)

    for contour in whole:
        if contour:
            block("G00", contour[0].a, [])
        for element in contour:
            (x, y), (i, j) = element.a, element.centre or element.a
            rest = [f"I{i - x}", f"J{j - y}"] if element.centre else []
            block("G01" if not rest else "G03" if element.ccw else "G02", element.b, rest)
            if loose and dice.odds(8):
                lines.append(dice.piece("contour-idle"))
                mode = "G00" if lines[-1] == "G00 Z5" else mode
    if dice.odds(40):
        lines += ["M30", dice.choice(("?", "G91", "%", "X9"))] if dice.odds(50) else ["M30"]
    end = dice.choice(("\n", "\n", "\n", "\r\n"))
    return (end.join(lines) + (end if lines and dice.odds(90) else "")).encode()


def extruded(base: Sequence[Place], low: int, along: Vector) -> list[Face]:
    """A prism over a polygon, sheared along a vector."""
    ground: Face = [(x, y, low) for x, y in base]
    top: Face = [(x + along[0], y + along[1], z + along[2]) for x, y, z in ground]
    sides = [[a, b, d, c] for a, b, c, d in zip(ground, ground[1:] + ground[:1], top, top[1:] + top[:1])]
    return [ground, top, *sides]


def pyramid(base: Face, apex: Vector) -> list[Face]:
    """A pyramid over a face."""
    return [base, *([a, b, apex] for a, b in zip(base, base[1:] + base[:1]))]


def solid(dice: Dice) -> list[Face]:
    """A mesh of one part, mostly closed."""
    size = min(dice.size(), 500)
    kind = dice.choice(("box", "box", "prism", "prism", "tetrahedron", "pyramid", "bipyramid", "stair"))
    x, y = dice.place(size)
    low, high = dice.randint(-size, size), dice.randint(1, size)
    if kind == "box":
        a, b = dice.randint(1, size), dice.randint(1, size)
        return extruded([(x, y), (x + a, y), (x + a, y + b), (x, y + b)], low, (0, 0, high))
    if kind == "stair":
        return extruded([(0, 0), (0, 1), (1, 1), (1, 2), (2, 2), (2, 0)], low, (0, 0, high))
    base = [dice.place(size) for _ in range(3 if kind == "tetrahedron" else dice.randint(3, 5))]
    if kind == "prism":
        return extruded(base, low, (*dice.place(3), high))
    ground: Face = [(x, y, low) for x, y in base]
    faces = pyramid(ground, (*dice.place(size), low + high))
    if kind == "bipyramid":
        faces = faces[1:] + pyramid(ground, (*dice.place(size), low - dice.randint(1, size)))[1:]
    turn = dice.choice(((0, 1, 2), (1, 2, 0), (2, 1, 0)))
    return [[(p[turn[0]], p[turn[1]], p[turn[2]]) for p in face] for face in faces]


def mesh(dice: Dice) -> list[Face]:
    """A mesh, mostly closed and of few planes."""
    roll = dice.randint(0, 99)
    if roll < 3:
        return []
    if roll < 6:
        count = dice.choice((37, 38, 39, 45))
        return extruded([(k * 20 - 400, k * (k + 1) // 2 - 700) for k in range(count)], 0, (0, 0, 7))
    faces = [face for _ in range(dice.choice((1, 1, 1, 1, 2, 2))) for face in solid(dice)]
    if roll < 10:
        faces += [list(reversed(face)) for face in faces]
    elif roll < 16:
        at = dice.randrange(len(faces))
        faces[at : at + 1] = [faces[at]] * dice.choice((0, 0, 2))
    if dice.odds(30):
        faces = [[face[0], a, b] for face in faces for a, b in zip(face[1:], face[2:])]
    for at, face in enumerate(faces):
        turn = dice.randrange(len(face)) if dice.odds(30) else 0
        faces[at] = face[turn:] + face[:turn]
    return dice.sample(faces, len(faces)) if dice.odds(30) else faces


def mesh_text(faces: list[Face], dice: Dice) -> bytes:
    """The OFF text of a mesh. In the loose style places may stand more than once, and numbers are spelled anyhow."""
    loose = dice.odds(40)
    places = sorted({corner for face in faces for corner in face})
    if loose:
        places += dice.sample(places, min(len(places), 2)) + [(0, 0, 0)] * dice.randint(0, 1)
        dice.shuffle(places)
    where: dict[Vector, list[int]] = {}
    for at, place in enumerate(places):
        where.setdefault(place, []).append(at)
    gap = dice.choice((" ", "\n"))
    lines = [f"OFF{gap}{len(places)} {len(faces)} {dice.choice((0, 12, 7))}"]
    for place in places:
        lines.append(" ".join(spelled(x, dice) if loose else str(x) for x in place))
    for face in faces:
        lines.append(" ".join(map(str, [len(face), *(dice.choice(where[corner]) for corner in face)])))
        if loose and dice.odds(20):
            lines[-1] += dice.piece("off-idle")
    text = "\n".join(lines)
    if loose:
        text = text.replace(" ", dice.choice((" ", "  ", "\t", " \t ")))
    return (text + ("\n" if dice.odds(90) else "")).encode()
