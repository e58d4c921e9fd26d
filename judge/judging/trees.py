"""Trees: leaves with their numbers and sets, what a tree says of a point, and the layout of printed text."""

from math import gcd
from typing import Callable, Iterator, NamedTuple, Union

from .texts import REACH, ended
from .vectors import Numbers, Point, determinant, disc_value, farthest, opposite, units

HALF, WHOLE = 8192, 16384
BOXES = ("tile", "block")
LONG_BOX: dict[str, tuple[Numbers, Numbers]] = {
    "strip": ((-HALF, 0, 0), (WHOLE, HALF)),
    "slab": ((-HALF, -HALF, 0), (WHOLE, WHOLE, HALF)),
}


class Leaf(NamedTuple):
    """A disc (x, y, squared radius), tile (x, y, a, b), block (x, y, z, a, b, c), strip (o, u) or slab (o, n)."""

    kind: str
    numbers: Numbers

    @property
    def is_flat(self) -> bool:
        """Whether the leaf is one of the plane."""
        return self.kind in ("disc", "tile", "strip")

    @property
    def origin(self) -> Numbers:
        """The centre, the least corner, or the origin."""
        return self.numbers[: 2 if self.is_flat else 3]

    @property
    def rest(self) -> Numbers:
        """The squared radius, the sides, the direction or the normal."""
        return self.numbers[2 if self.is_flat else 3 :]

    @property
    def normal(self) -> Numbers:
        """The normal of a strip or slab."""
        return (-self.rest[1], self.rest[0]) if self.is_flat else self.rest

    def is_lawful(self) -> bool:
        """Whether the numbers are within the ranges of the leaf's row."""
        if self.kind in BOXES:
            return farthest(self.origin) <= 4096 and 1 <= min(self.rest) and max(self.rest) <= 8191
        if self.kind == "disc":
            return farthest(self.origin) <= REACH and 1 <= self.rest[0] <= 8_372_232
        most = 2046 if self.is_flat else 8_388_607
        return farthest(self.origin) <= REACH and farthest(self.rest) <= most and gcd(*self.rest) == 1


class Node(NamedTuple):
    """An operator with its children in order."""

    operator: str
    kids: tuple["Tree", ...]


Tree = Union[Leaf, Node]


def frame_of(leaf: Leaf) -> list[Numbers]:
    """The directions of a strip or slab, its normal last."""
    n = leaf.normal
    if leaf.is_flat:
        return [leaf.rest, n]
    a, b, c = n
    if a:
        return [(b, -a, 0), (c, 0, -a), n]
    return [(1, 0, 0), (0, c, -b) if b else (0, 1, 0), n]


def short_form(leaf: Leaf) -> Numbers:
    """The least corner and the sides of the box that an axis leaf is."""
    least = tuple(o if n == 1 else o - HALF for o, n in zip(leaf.origin, leaf.normal))
    return least + tuple(HALF if n else WHOLE for n in leaf.normal)


def leaf_of_box(numbers: Numbers) -> Leaf | None:
    """The tile, block or axis leaf that a least corner and sides say."""
    size = len(numbers) // 2
    plain = Leaf(BOXES[size - 2], numbers)
    if plain.is_lawful():
        return plain
    for unit in units(size):
        for n in (unit, opposite(unit)):
            origin = tuple(x if k == 1 else x + HALF for x, k in zip(numbers, n))
            leaf = Leaf("strip", origin + (n[1], -n[0])) if size == 2 else Leaf("slab", origin + n)
            if leaf.is_lawful() and short_form(leaf) == numbers:
                return leaf
    return None


def amounts(leaf: Leaf) -> list[tuple[Numbers, int, int]]:
    """The directions that lead from the origin to the points of a leaf, each with its least and greatest amount."""
    if leaf.kind in BOXES:
        return [(unit, 0, side) for unit, side in zip(units(len(leaf.rest)), leaf.rest)]
    *along, normal = frame_of(leaf)
    return [*((way, -HALF, HALF) for way in along), (normal, 0, HALF)]


def depths(leaf: Leaf, p: Point) -> list[int]:
    """Numbers that are all at least 0 in the leaf's set, and of which one is 0 there on its boundary."""
    if leaf.kind == "disc":
        return [-disc_value(leaf.numbers, p)]
    ranges = amounts(leaf)
    ways = [way for way, _, _ in ranges]
    whole = determinant(ways)
    sign, size = (1 if whole > 0 else -1), abs(whole) * p[-1]
    away = tuple(x - o * p[-1] for x, o in zip(p, leaf.origin))
    result: list[int] = []
    for at, (_, low, high) in enumerate(ranges):
        # Cramer's rule: the amount of this direction, times the determinant of all and the point's denominator.
        amount = sign * determinant([*ways[:at], away, *ways[at + 1 :]])
        result += [amount - low * size, high * size - amount]
    return result


def leaves_of(tree: Tree) -> Iterator[Leaf]:
    """The leaves of a tree in order."""
    if isinstance(tree, Leaf):
        yield tree
    else:
        for kid in tree.kids:
            yield from leaves_of(kid)


def is_flat(tree: Tree) -> bool:
    """Whether a leaf of the plane stands in a tree."""
    return any(leaf.is_flat for leaf in leaves_of(tree))


def holds_where(tree: Tree, leaf_holds: Callable[[Leaf], bool]) -> bool:
    """What a tree says, where this is what its leaves say."""
    if isinstance(tree, Leaf):
        return leaf_holds(tree)
    kids = (holds_where(kid, leaf_holds) for kid in tree.kids)
    if tree.operator == "union":
        return any(kids)
    if tree.operator == "intersection":
        return all(kids)
    return next(kids) and not any(kids)


def holds(tree: Tree, p: Point) -> bool:
    """What a tree says of a point."""
    known: dict[Leaf, bool] = {}

    def is_in(leaf: Leaf) -> bool:
        if leaf not in known:
            known[leaf] = min(depths(leaf, p)) >= 0
        return known[leaf]

    return holds_where(tree, is_in)


def is_edge(tree: Tree, p: Point) -> bool:
    """Whether a point is on the boundary of a leaf of the tree."""
    return any(min(depths(leaf, p)) == 0 for leaf in set(leaves_of(tree)))


def listed(numbers: Numbers) -> str:
    """Numbers in brackets."""
    return "[" + ",".join(map(str, numbers)) + "]"


def box_words(least: Numbers, sides: Numbers) -> str:
    """A box as a leaf says it."""
    shape = "square" if len(sides) == 2 else "cube"
    return f"translate({listed((*least, 0)[:3])}) {shape}({listed(sides)})"


def leaf_words(leaf: Leaf, long: bool = False) -> str:
    """A leaf as it is printed, or in its long spelling."""
    if leaf.kind == "disc":
        return f"translate({listed((*leaf.origin, 0))}) circle(r=sqrt({leaf.rest[0]}))"
    if leaf.kind in BOXES:
        return box_words(leaf.origin, leaf.rest)
    if sum(n * n for n in leaf.normal) == 1 and not long:
        numbers = short_form(leaf)
        return box_words(numbers[: len(numbers) // 2], numbers[len(numbers) // 2 :])
    return f"multmatrix([{','.join(map(listed, matrix_of(leaf)))}]) {box_words(*LONG_BOX[leaf.kind])}"


def matrix_of(leaf: Leaf) -> list[Numbers]:
    """The rows of the matrix of a strip or slab: its columns are the directions and the origin."""
    columns = [*frame_of(leaf), leaf.origin]
    if leaf.is_flat:
        columns = [*(column + (0,) for column in columns[:2]), (0, 0, 1), leaf.origin + (0,)]
    return [*zip(*columns), (0, 0, 0, 1)]


def node_lines(tree: Tree, depth: int = 0) -> Iterator[tuple[str, bool]]:
    """The lines of a tree, each with whether a node begins there."""
    blanks = "  " * depth
    if isinstance(tree, Leaf):
        yield f"{blanks}{leaf_words(tree)};", True
        return
    yield f"{blanks}{tree.operator}() {{", True
    for kid in tree.kids:
        yield from node_lines(kid, depth + 1)
    yield blanks + "}", False


def layout(head: list[str], tree: Tree, notes: dict[int, str] | None = None) -> bytes:
    """The bytes of a printed tree with its head lines and its notes by the numbers of nodes."""
    result = list(head)
    number = 0
    for line, is_node in node_lines(tree):
        if is_node:
            if notes and number in notes:
                result.append(line[: len(line) - len(line.lstrip())] + "// " + notes[number])
            number += 1
        result.append(line)
    return ended(result)


def upgrade(tree: Tree) -> bytes:
    """A tree laid out anew, with neither box nor notes."""
    return layout([f"// bcsg 2 {'contour' if is_flat(tree) else 'solid'}"], tree)
