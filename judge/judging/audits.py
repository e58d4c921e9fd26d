"""Audits: whether a mesh and a tree agree at each point of the box that is on no plane of either."""

import random
import re
from math import gcd

from .cells import cells_of, inner
from .formulas import Wrong
from .parity import odd_of
from .tables import Boundary, audit_planes, box_of, plane_of_slab
from .trees import Leaf, Tree, holds, holds_where, leaves_of
from .vectors import Numbers, Point, dot, is_within

ANSWER = re.compile(rb"differs (-?[0-9]{1,300}) (-?[0-9]{1,300}) (-?[0-9]{1,300}) ([0-9]{1,300})\n")


class Audit:
    """A mesh and a tree of one audit."""

    def __init__(self, mesh: Boundary, tree: Tree) -> None:
        self.tree = tree
        self.rows = audit_planes(mesh, tree)
        self.box = box_of(mesh)
        self.is_odd = odd_of(mesh)

    def difference(self) -> Point | None:
        """A point where mesh and tree differ: the inner one of a cell."""
        sides = {leaf: side_of_slab(leaf, self.rows) for leaf in leaves_of(self.tree)}
        for mask, corners in cells_of(self.box, self.rows).items():
            in_cell = {leaf: bool(mask & bit) == above for leaf, (bit, above) in sides.items()}
            p = inner(corners)
            if self.is_odd(p) != holds_where(self.tree, in_cell.__getitem__):
                return p
        return None

    def fault(self, p: Point) -> str | None:
        """Why a point is no answer."""
        if p[-1] < 1 or gcd(*p) != 1:
            return "is not in lowest terms"
        if not is_within(self.box, p, strictly=True):
            return "is not strictly inside the box"
        if not all(dot(row, p) for row in self.rows):
            return "is on a plane of the mesh or of the text"
        return None if self.is_odd(p) != holds(self.tree, p) else "is where mesh and text agree"


def side_of_slab(leaf: Leaf, rows: list[Numbers]) -> tuple[int, bool]:
    """The bit of a slab's plane, and whether the slab is on its Above side; the block, which is all, has no bit."""
    if leaf.kind == "block":
        return 0, False
    row = plane_of_slab(leaf)
    return 1 << rows.index(row), dot(row, leaf.normal) > 0


def check_audit(text: bytes, audit: Audit, count: int, dice: random.Random) -> None:
    """Wrong where the answer of an audit is."""
    if text != b"same\n":
        found = ANSWER.fullmatch(text)
        if found is None:
            raise Wrong(f"no answer of an audit: {text[:80]!r}")
        p = tuple(map(int, found.groups()))
        fault = audit.fault(p)
        if fault or b"differs %d %d %d %d\n" % p != text:
            raise Wrong(f"the point {p} {fault or 'is not written plainly'}")
        return
    differing = audit.difference()
    if differing is not None:
        raise Wrong(f"`same`, and mesh and text differ at {differing}")
    for _ in range(count):
        w = dice.choice((2, 3, 7, 64, 1021))
        p = tuple(dice.randint(low * w, high * w) for low, high in zip(*audit.box)) + (w,)
        if audit.fault(p) is None:
            raise Wrong(f"`same`, and mesh and text differ at {p}")
