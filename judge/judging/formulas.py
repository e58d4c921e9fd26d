"""Is a text the formula of a boundary? Its head, layout, normal form, order, meaning, needs and notes."""

import random
import re
from math import gcd
from typing import Iterable, Iterator, NamedTuple

from .csg import read_tree
from .setting import Setting
from .texts import Refusal, spaced
from .trees import Leaf, Node, Tree, holds, layout
from .vectors import is_within

NOTE = re.compile(r" *// (own|out) (undecided|-?[0-9]{1,300}( -?[0-9]{1,300})+)")


class Wrong(Exception):
    """What is wrong with an answer."""


class Term(NamedTuple):
    """The half-spaces of a product whose inside is taken, and those that are taken away, as bits."""

    taken: int
    cut: int

    def holds(self, mask: int) -> bool:
        """Whether the product holds at the points of a mask."""
        return not self.taken & ~mask and not mask & self.cut

    def without(self, bit: int) -> "Term":
        """The product once a literal is taken out."""
        return Term(self.taken & ~bit, self.cut & ~bit)


def bits_of(mask: int) -> list[int]:
    """The bits of a number, from the least on."""
    return [1 << at for at in range(mask.bit_length()) if mask >> at & 1]


def check_bytes(got: bytes, wanted: bytes, what: str) -> None:
    """Wrong where two texts differ, at the first line that does."""
    if got != wanted:
        ours, theirs = wanted.split(b"\n"), got.split(b"\n")
        for at, (one, other) in enumerate(zip(ours, theirs), 1):
            if one != other:
                raise Wrong(f"{what}: line {at} is {other!r}, not {one!r}")
        raise Wrong(f"{what}: {len(theirs) - 1} lines in place of {len(ours) - 1}")


def read_notes(text: bytes) -> dict[int, str]:
    """The notes of a printed text by the numbers of the nodes that they stand before."""
    notes: dict[int, str] = {}
    number = 0
    for line in text.decode().split("\n"):
        if NOTE.fullmatch(line):
            if number in notes:
                raise Wrong(f"two notes before node {number}")
            notes[number] = line.strip()[3:]
        elif line.strip() not in ("", "}") and not line.lstrip().startswith("//"):
            number += 1
    return notes


def read_laid_out(text: bytes, head: list[str], with_notes: bool) -> tuple[Tree, dict[int, str]]:
    """The tree and the notes of a text, where it is their layout to the byte."""
    try:
        tree = read_tree(text)
    except Refusal as refusal:
        raise Wrong(f"the text is refused: {refusal.why}") from None
    notes = read_notes(text) if with_notes else {}
    check_bytes(text, layout(head, tree, notes), "layout")
    return tree, notes


def side_of(leaves: Iterable[Tree], setting: Setting) -> int:
    """The half-spaces that some leaves are, as bits."""
    mask = 0
    for leaf in leaves:
        if not isinstance(leaf, Leaf) or leaf not in setting.leaves:
            raise Wrong(f"a literal is no half-space of the boundary: {leaf}")
        mask |= 1 << setting.leaves.index(leaf)
    return mask


def products(tree: Tree, setting: Setting) -> list[Term]:
    """The terms of a union, those of its groups multiplied out."""
    if not isinstance(tree, Node) or tree.operator != "union":
        raise Wrong("the text, or the last child of a group, is no union")
    result = []
    for kid in tree.kids:
        match kid:
            case Node("difference", (Node("intersection", (first, *rest)), *cuts)):
                inner = [Term(0, 0)] if first == setting.block else products([first, *rest][-1], setting)
                taken = side_of(rest if first == setting.block else [first, *rest][:-1], setting)
                cut = side_of(cuts, setting)
                result += [Term(term.taken | taken, term.cut | cut) for term in inner]
            case _:
                raise Wrong("a child of a union is no difference of an intersection")
    return result


def leaves_at(mask: int, setting: Setting) -> tuple[Tree, ...]:
    """The leaves of the half-spaces in a mask."""
    return tuple(setting.leaves[bit.bit_length() - 1] for bit in bits_of(mask))


def plain_tree(term: Term, setting: Setting) -> Tree:
    """The difference of one term."""
    first = Node("intersection", (setting.block, *leaves_at(term.taken, setting)))
    return Node("difference", (first, *leaves_at(term.cut, setting)))


def tree_of(terms: Iterable[Term], setting: Setting) -> Tree:
    """The tree in normal form of some terms."""
    return Node("union", tuple(plain_tree(term, setting) for term in terms))


def check_meaning(terms: list[Term], masks: dict[int, bool], setting: Setting) -> None:
    """The terms hold at exactly the odd ones of some masks."""
    for mask, odd in masks.items():
        if any(term.holds(mask) for term in terms) != odd:
            at = setting.points.get(mask)
            where = spaced(at) if at else f"candidate {mask:b}, which has no point"
            raise Wrong(f"the text is {'out' if odd else 'in'} at {where}, where the boundary is not")


def elements_of(terms: list[Term]) -> Iterator[tuple[int, int, int]]:
    """Each term with 0, and with the bit of each of its literals in turn, and the node that stands for it."""
    node = 1
    for at, term in enumerate(terms):
        yield at, 0, node
        node += 2  # the intersection and the block
        for bit in [*bits_of(term.taken), *bits_of(term.cut)]:
            node += 1
            yield at, bit, node
        node += 1


def shows(terms: list[Term], at: int, bit: int, mask: int, odd: bool) -> bool:
    """Whether the points of a mask show that a term (bit 0) is needed, or a literal of it."""
    if bit:
        return not odd and terms[at].without(bit).holds(mask)
    return odd and terms[at].holds(mask) and sum(term.holds(mask) for term in terms) == 1


def check_needed(terms: list[Term], masks: dict[int, bool]) -> None:
    """Each term alone holds an odd mask, and each literal keeps an even one out."""
    for at, bit, _ in elements_of(terms):
        if not any(shows(terms, at, bit, mask, odd) for mask, odd in masks.items()):
            raise Wrong(f"{f'half-space {bit.bit_length() - 1} of ' if bit else ''}term {at} is redundant")


def check_notes(terms: list[Term], notes: dict[int, str], setting: Setting) -> int:
    """Each note stands where it has to and is true; answers how many are undecided."""
    if list(notes) != [node for _, _, node in elements_of(terms)]:
        raise Wrong("notes do not stand before each term and each literal, and nowhere else")
    for at, bit, node in elements_of(terms):
        name, rest = notes[node].split(" ", 1)
        if name != ("out" if bit else "own"):
            raise Wrong(f"the note before node {node} is `{name}`")
        if rest != "undecided":
            check_point(terms, at, bit, rest, setting)
        elif any(shows(terms, at, bit, mask, odd) for mask, odd in setting.sampled.items()):
            raise Wrong(f"the note before node {node} is undecided, and a sample shows what it says")
    return sum(note.endswith("undecided") for note in notes.values())


def check_point(terms: list[Term], at: int, bit: int, numbers: str, setting: Setting) -> None:
    """A note names a point that may be printed and that shows what the note says."""
    p = tuple(map(int, numbers.split(" ")))
    if spaced(p) != numbers or len(p) != len(setting.box[0]) + 1 or p[-1] < 1:
        fault = "has the wrong numbers"
    elif gcd(*p) != 1:
        fault = "is not in lowest terms"
    elif not setting.is_free(p):
        fault = "is not free"
    elif not setting.is_sample(p):
        fault = "is no sample"
    elif not shows(terms, at, bit, setting.table.mask(p), setting.is_odd(p)):
        fault = "is odd, or the term does not hold there without it" if bit else "is even, or not of this term alone"
    else:
        return
    raise Wrong(f"the point {numbers} of a note of term {at} {fault}")


def check_points(tree: Tree, setting: Setting, count: int, dice: random.Random) -> None:
    """The tree means the boundary at points of some masks and at random ones, and holds nowhere outside the box."""
    least, greatest = setting.box
    for mask in dice.sample(list(setting.points), min(count, len(setting.points))):
        if holds(tree, setting.points[mask]) != setting.free[mask]:
            raise Wrong(f"text and boundary differ at {setting.points[mask]}")
    for _ in range(count):
        w = dice.choice((1, 2, 3, 7, 64, 1021, 1 << 20))
        p = tuple(dice.randint(low * w - w, high * w + w) for low, high in zip(least, greatest)) + (w,)
        if not is_within(setting.box, p, strictly=False) and (holds(tree, p) or setting.is_odd(p)):
            raise Wrong(f"the text or the boundary holds at {p}, outside the box")
        if setting.is_free(p) and holds(tree, p) != setting.is_odd(p):
            raise Wrong(f"text and boundary differ at {p}")


def check_formula(
    text: bytes, setting: Setting, with_notes: bool, count: int, dice: random.Random
) -> tuple[list[Term], int]:
    """The terms and the number of undecided notes of a text, where it is a formula of the boundary."""
    tree, notes = read_laid_out(text, setting.head(), with_notes)
    terms = products(tree, setting)
    if terms != sorted(set(terms)):
        raise Wrong("the terms do not ascend")
    if tree != tree_of(terms, setting):
        raise Wrong("the text is not in normal form: a literal twice, out of order, or in a group")
    check_meaning(terms, setting.free, setting)
    check_needed(terms, setting.lean)
    undecided = check_notes(terms, notes, setting) if with_notes else 0
    check_points(tree, setting, count, dice)
    return terms, undecided
