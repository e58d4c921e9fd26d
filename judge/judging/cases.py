"""Cases for each command: words and bytes, valid, at fault in each way, at limits, and hostile."""

import re
from math import isqrt
from typing import Callable, NamedTuple

from .answers import cover, formula
from .csg import OPERATORS, read_tree
from .formulas import tree_of
from .making import Dice, contour_text, contours, mesh, mesh_text, solid
from .meshes import edges_of
from .requests import read_boundary
from .setting import Setting
from .tables import Boundary
from .texts import BOUNDARY_BYTES, Refusal
from .trees import Leaf, Node, Tree, amounts, layout, leaf_words, leaves_of
from .trials import MOST_STEPS
from .vectors import Numbers

KINDS = ("off", "contour")
TOKEN = re.compile(r"[A-Za-z_]+|-?[0-9.]+|//.*|\s+|.")


class Case(NamedTuple):
    """A command line and what stands on standard input."""

    words: list[str]
    data: bytes


def with_fault(text: str, kind: str, dice: Dice) -> str:
    """A text with a line taken out, doubled or put in, or with a number or another token exchanged."""
    roll = dice.randint(0, 9)
    lines, tokens = text.split("\n"), TOKEN.findall(text)
    at = dice.randrange(len(lines))
    if roll < 5 or not tokens:
        put = [lines[at]] * 2 if roll == 1 else [dice.piece(f"{kind}-lines"), lines[at]]
        lines[at : at + 1] = put if roll else []
        return "\n".join(lines)
    numbers = [at for at, token in enumerate(tokens) if token[-1].isdigit()]
    if roll < 8 and numbers:
        tokens[dice.choice(numbers)] = dice.piece(f"{kind}-numbers")
    else:
        tokens[dice.randrange(len(tokens))] = dice.piece(f"{kind}-words")
    return "".join(tokens)


def spoiled(data: bytes, kind: str, dice: Dice) -> bytes:
    """A text with a fault, with bytes taken out, put in, doubled or changed, cut, very long, or any bytes."""
    roll = dice.randint(0, 99)
    if roll < 70:
        text = with_fault(data.decode(), kind, dice)
        return (with_fault(text, kind, dice) if dice.odds(30) else text).encode()
    if roll == 99:
        return dice.randbytes(dice.randint(0, 99))
    if roll == 98:
        return data + b" " * (BOUNDARY_BYTES + dice.randint(0, 1) - len(data))
    for _ in range(dice.randint(1, 3)):
        at = dice.randint(0, len(data))
        end = min(len(data), at + dice.choice((1, 1, 2, 9)))
        byte = bytes([dice.randrange(256)])
        put = dice.choice((b"", b"", data[at:end] * 2, dice.piece("hostile").encode("latin-1"), byte))
        data = data[:at] + put + data[end:]
    return data[: dice.randint(0, len(data))] if dice.odds(10) else data


def boundary_text(kind: str, dice: Dice, faulty: int = 25) -> bytes:
    """The text of a boundary, so many times in a hundred at fault in some way."""
    data = contour_text(contours(dice), dice) if kind == "contour" else mesh_text(mesh(dice), dice)
    return spoiled(data, kind, dice) if dice.odds(faulty) else data


def point_words(dice: Dice, data: bytes) -> list[str]:
    """The words of a point, mostly near the small numbers of a text and their sums, at times past the bounds."""
    found = [int(word) for word in re.findall(rb"-?[0-9]+", data[:4000]) if len(word) < 6]
    near = [0, 5, *found, *(x + y for x, y in zip(found, found[3:]))]
    w = dice.choice((1, 1, 1, 2, 3, 4, 7, 1 << 20, 1 << 40))
    numbers = [dice.choice(near) * w + dice.choice((0, 0, 0, 1, -1, dice.randint(-w, w))) for _ in range(3)]
    roll = dice.randint(0, 99)
    if roll < 5:
        numbers[dice.randrange(3)] = dice.choice((1, -1)) * ((1 << 60) + dice.randint(-1, 1))
    words = [str(number) for number in [*numbers, (1 << 40) + dice.randint(-1, 1) if roll == 5 else w]]
    if roll == 6:
        words[dice.randrange(4)] = dice.piece("point-words")
    if 10 < roll < 16:
        words = [word.replace("-", "-00") if word.startswith("-") else "0" + word for word in words]
    return words


def near_edge(kind: str, data: bytes, dice: Dice) -> list[str]:
    """A point in the column of a corner or of a place on an edge, above or below it, where the text is lawful."""
    try:
        boundary = read_boundary(kind, data)
    except Refusal:
        return []
    ends: list[tuple[Numbers, Numbers]] = [edge for face in boundary.faces for edge in edges_of(face)]
    for element in boundary.elements:
        ends += [(element.a, element.b), (element.centre or element.a, element.b)]
    if not ends:
        return []
    (a, b), (i, j) = dice.choice(ends), dice.choice(((0, 1), (0, 1), (0, 1), (1, 1), (2, 1), (1, 3)))
    p = [i * x + j * y for x, y in zip(a, b)]
    p[-1] += dice.choice((0, 1, -1, dice.randint(-99, 99)))
    return [str(x) for x in [*[*p, 0][:3], i + j]]


def side_case(dice: Dice) -> Case:
    """A case of `side`: near corners, so that columns and edges are met."""
    kind = dice.choice(KINDS)
    data = boundary_text(kind, dice)
    point = (near_edge(kind, data, dice) if dice.odds(50) else []) or point_words(dice, data)
    if kind == "contour" and dice.odds(92):
        point[2] = dice.choice(("0", "-0"))
    return Case(["side", kind, *point], data)


def leaf(flat: bool, dice: Dice, block: Leaf | None = None) -> Leaf:
    """A leaf within its ranges, or seldom past them; of space a slab or this block, where one is given."""
    size = dice.choice((1, 3, 10, 1023, 4096))
    o = tuple(dice.randint(-min(size, 1023), min(size, 1023)) for _ in range(2 if flat else 3))
    sides = tuple(dice.choice((1, dice.randint(1, size), 8192 if dice.odds(2) else 8191)) for _ in o)
    n = dice.choice(((1, 0, 0), (0, 0, -1), (0, 1, 0), (0, -1, 0), (1, 1, 1), (0, 2, 3), (-3, 0, 1), (8_388_607, 1, 0)))
    u = dice.choice(((1, 0), (0, -1), (-1, 0), (0, 1), (2046, 1), (1, -2046), (3, 4), (-12, 5), (1, 1)))
    u = (2, -4) if dice.odds(2) else u
    if flat:
        disc = Leaf("disc", (*o, dice.choice((1, 25, 50, 8_372_232, size))))
        return dice.choice([disc, Leaf("tile", o + sides), Leaf("strip", o + u), Leaf("strip", o + u)])
    if dice.odds(30 if block else 40):
        return block or Leaf("block", o + sides)
    return Leaf("slab", o + n)


def tree(flat: bool, dice: Dice, depth: int = 3, block: Leaf | None = None) -> Tree:
    """A tree of leaves of one kind, or seldom of both."""
    if depth == 0 or dice.odds(30):
        return leaf(flat != dice.odds(1), dice, block)
    operator = dice.choice(OPERATORS)
    least = 0 if operator == "union" and dice.odds(10) else 1
    return Node(operator, tuple(tree(flat, dice, depth - 1, block) for _ in range(dice.randint(least, 3))))


def spelled_tree(node: Tree, dice: Dice) -> str:
    """A tree in either spelling of its leaves, with blanks and comments."""
    gap = dice.choice(("", " ", "\n", "\t", "// note\n", "\r\n"))
    if isinstance(node, Leaf):
        words = leaf_words(node, dice.odds(40)) + ";"
        return gap + (words.replace(",", " ,\n") if dice.odds(8) else words)
    kids = "".join(spelled_tree(kid, dice) for kid in node.kids)
    return f"{gap}{node.operator}(){gap}{{{kids}{gap}}}"


def small_setting(kind: str, dice: Dice) -> Setting:
    """A lawful boundary of few half-spaces."""
    while True:
        data = mesh_text(solid(dice), dice) if kind == "off" else contour_text(contours(dice), dice)
        try:
            setting = Setting((read_boundary(kind, data),))
        except Refusal:
            continue
        if len(setting.leaves) <= 9:
            return setting


def csg_text(dice: Dice) -> bytes:
    """A CSG text, in one of four at fault."""
    if dice.odds(12):
        data = formula(small_setting(dice.choice(KINDS), dice))[1]
    else:
        data = (spelled_tree(tree(dice.odds(50), dice), dice) + dice.choice(("", "\n", " // end", "//"))).encode()
    return spoiled(data, "tree", dice) if dice.odds(26) else data


def near_leaf(data: bytes, dice: Dice) -> list[str]:
    """A point at or near the boundary of a leaf, its far ends too, where the text is lawful."""
    try:
        leaves = list(leaves_of(read_tree(data)))
    except Refusal:
        leaves = []
    if not leaves:
        return []
    chosen = dice.choice(leaves)
    p = list(chosen.origin)
    if chosen.kind == "disc":
        square = chosen.rest[0]
        steps = [(k, isqrt(square - k * k)) for k in range(min(99, isqrt(square) + 1))]
        i, j = dice.choice([step for step in steps if step[0] ** 2 + step[1] ** 2 == square] or steps)
        p = [p[0] - i, p[1] + j]
    else:
        for way, low, high in amounts(chosen):
            k = dice.choice((low, high, 0, 1, high // 2))
            p = [o + k * step for o, step in zip(p, way)]
    w = dice.choice((1, 1, 3))
    p = [k * w + dice.choice((0, 0, 0, 1, -1)) for k in p]
    return [str(k) for k in [*[*p, 0][:3], w]]


def ask_case(dice: Dice) -> Case:
    """A case of `ask`: points at corners and edges of leaves too."""
    data = csg_text(dice)
    words = point_words(dice, data)
    words[2] = dice.choice(("0", "0", words[2]))
    return Case(["ask", *((near_leaf(data, dice) if dice.odds(40) else []) or words)], data)


def edited(node: Tree, dice: Dice) -> Tree:
    """A tree with a leaf moved or turned, a child taken out or given twice, or an operator exchanged."""
    if isinstance(node, Leaf):
        at, step = dice.randrange(3), dice.choice((-2, -1, 1, 2))
        o = tuple(x + step * (k == at) for k, x in enumerate(node.origin))
        return node if node.kind != "slab" else Leaf("slab", o + tuple(-x if step == 2 else x for x in node.rest))
    if not node.kids:
        return node
    operator, kids = node
    at, roll = dice.randrange(len(kids)), dice.randint(0, 9)
    if roll < 7:
        kids = (*kids[:at], edited(kids[at], dice), *kids[at + 1 :])
    elif roll == 7 and len(kids) > 1:
        kids = kids[:at] + kids[at + 1 :]
    elif roll == 8:
        kids += (kids[at],)
    else:
        operator = dice.choice(OPERATORS)
    return Node(operator, kids)


def audit_case(dice: Dice) -> Case:
    """A case of `audit`: the text of the mesh, edited, or a tree of other half-spaces."""
    first = mesh_text(mesh(dice) if dice.odds(30) else solid(dice), dice)
    first = spoiled(first, "off", dice) if dice.odds(8) else first
    try:
        setting = Setting((read_boundary("off", first),))
    except Refusal:
        setting = Setting((Boundary("off", [], []),))
    if len(setting.leaves) <= 10 and dice.odds(75):
        node = tree_of(cover(setting.free, len(setting.leaves)), setting)
        for _ in range(dice.choice((0, 0, 1, 1, 2, 3))):
            node = edited(node, dice)
        text = layout(setting.head(), node) if dice.odds(50) else spelled_tree(node, dice).encode()
    else:
        block = setting.block if dice.odds(95) else Leaf("block", (0, 0, 0, 1, 1, 1))
        text = spelled_tree(tree(dice.odds(4), dice, 3, block), dice).encode()
    return Case(["audit"], joined(first, spoiled(text, "tree", dice) if dice.odds(8) else text, dice))


def joined(first: bytes, second: bytes, dice: Dice) -> bytes:
    """Two texts with the line between them, which seldom is missing or stands twice."""
    roll = dice.randint(0, 99)
    line = b"====" if roll < 80 else b"====\r" if roll < 95 else dice.choice((b" ====", b"=====", b"===="))
    if first and not first.endswith(b"\n") and roll < 98:
        first += b"\n"
    return first + line + (b"\n" if second or dice.odds(50) else b"") + second + (b"\n====\n" if roll == 97 else b"")


def combine_case(dice: Dice) -> Case:
    """A case of `combine`: two boundaries that share half-spaces at times."""
    kind = dice.choice(KINDS)
    first = boundary_text(kind, dice, 10)
    second = first if dice.odds(8) else boundary_text(kind, dice, 10)
    return Case(["combine", dice.choice(("union", "intersection", "difference")), kind], joined(first, second, dice))


def layers_case(dice: Dice) -> Case:
    """A case of `prism`: sections of contours between heights, which seldom overlap."""
    low, data = dice.randint(-30, 10), b"# layers\n" if dice.odds(10) else b""
    for _ in range(dice.choice((0, 1, 1, 2, 2, 3, 4))):
        high = low + dice.randint(1, 9)
        line = f"LAYER {low} {high}" if high < 0 or dice.odds(50) else f"  LAYER\t{low}.0 +{high}"
        line = dice.piece("layer-lines") if dice.odds(6) else line
        text = boundary_text("contour", dice, 5)
        data += (line + dice.choice(("", "", " # top", "\r")) + "\n").encode() + text
        data += b"\n" if text and not text.endswith(b"\n") else b""
        low = high + dice.choice((0, 0, 1, -1 if dice.odds(15) else 2))
    return Case(["prism"], data[:-1] if dice.odds(10) else data)


def trial_case(dice: Dice) -> Case:
    """A case of `trial`, mostly of few steps."""
    kind = dice.choice(KINDS)
    steps = dice.randint(1, 5) if dice.odds(93) else dice.randint(1, MOST_STEPS[kind])
    return Case(["trial", kind, dice.choice(("", "", "0", "00")) + str(steps)], b"")


def boundary_case(command: str, dice: Dice) -> Case:
    """A case of a command that takes one boundary and no more words than its kind."""
    kind = dice.choice(KINDS)
    return Case([command, kind], boundary_text(kind, dice))


MAKERS: dict[str, Callable[[Dice], Case]] = {
    "convert": lambda dice: boundary_case("convert", dice),
    "factor": lambda dice: boundary_case("factor", dice),
    "side": side_case,
    "ask": ask_case,
    "upgrade": lambda dice: Case(["upgrade"], csg_text(dice)),
    "audit": audit_case,
    "combine": combine_case,
    "prism": layers_case,
    "trial": trial_case,
}


def make_case(command: str, seed: int, number: int) -> Case:
    """The case of a command with this number, always the same for one seed."""
    dice = Dice(f"{command} {seed} {number}")
    case = MAKERS[command](dice)
    return Case(dice.piece("usage").split(" "), case.data) if dice.odds(1) else case
