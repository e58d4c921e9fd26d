"""Factored formulas: the terms that a factored text says, and the one tree that the rule makes of them."""

import random
from functools import reduce

from .formulas import Term, Wrong, check_meaning, check_needed, check_points, leaves_at, plain_tree, products
from .formulas import read_laid_out
from .setting import Setting
from .trees import Node, Tree

DEEPEST = 20


def most_shared(terms: list[Term], count: int) -> tuple[int, bool] | None:
    """The literal in most terms, in two at least: of equal ones the least half-space, and then the positive one."""
    best, shared = 1, None
    for at in range(count):
        for positive in (True, False):
            stands = sum((term.taken if positive else term.cut) >> at & 1 for term in terms)
            if stands > best:
                best, shared = stands, (1 << at, positive)
    return shared


def factored(terms: list[Term], setting: Setting, level: int = 0) -> list[Tree]:
    """The nodes for a list of terms inside so many groups."""
    result: list[Tree] = []
    while terms:
        shared = most_shared(terms, len(setting.leaves)) if level < DEEPEST else None
        if shared is None:
            return result + [plain_tree(term, setting) for term in terms]
        bit, positive = shared
        group = [term for term in terms if (term.taken if positive else term.cut) & bit]
        taken = reduce(int.__and__, (term.taken for term in group))
        cut = reduce(int.__and__, (term.cut for term in group))
        inner = [Term(term.taken & ~taken, term.cut & ~cut) for term in group]
        union = Node("union", tuple(factored(inner, setting, level + 1)))
        first = Node("intersection", (*leaves_at(taken, setting), union))
        result.append(Node("difference", (first, *leaves_at(cut, setting))))
        terms = [term for term in terms if term not in group]
    return result


def factored_tree(terms: list[Term], setting: Setting) -> Tree:
    """The one tree that the rule makes of all terms."""
    return Node("union", tuple(factored(terms, setting)))


def check_factored(text: bytes, setting: Setting, count: int, dice: random.Random) -> None:
    """Wrong where a text is not the factored tree of terms that cover the masks of all candidates."""
    tree, _ = read_laid_out(text, setting.head(), False)
    terms = sorted(products(tree, setting))
    if tree != factored_tree(terms, setting):
        raise Wrong("the text is not the factored tree of its terms")
    check_meaning(terms, setting.free, setting)
    check_meaning(terms, setting.every, setting)
    check_needed(terms, setting.every)
    check_points(tree, setting, count, dice)
