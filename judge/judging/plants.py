"""Wrong answers, planted: right ones of the table `cases/plants` spoiled, each of which the judge has to find."""

import re
from itertools import combinations
from typing import Callable, Iterator, NamedTuple

from .answers import answer, cover, notes_of
from .cases import Case
from .csg import read_tree
from .factored import factored_tree
from .formulas import Term, bits_of, products, tree_of
from .requests import read_given
from .rows import lines, run_with, table, unfolded
from .setting import Setting
from .trees import layout
from .verdicts import Run, setting_of, verdict

Change = Callable[[list[Term], Setting], list[Term]]


class Plant(NamedTuple):
    """A wrong answer: its name, the case, the right run and the wrong one."""

    name: str
    case: Case
    right: Run
    wrong: Run


def redundant_literal(terms: list[Term], setting: Setting) -> list[Term]:
    """The first term gets a literal that it has no need of: one that all its odd masks have alike."""
    first = terms[0]
    odd = [mask for mask, is_odd in setting.lean.items() if is_odd and first.holds(mask)]
    for bit in (1 << at for at in range(len(setting.leaves))):
        stands = sum(bool(mask & bit) for mask in odd)
        if not (first.taken | first.cut) & bit and stands in (0, len(odd)):
            more = Term(first.taken | bit, first.cut) if stands else Term(first.taken, first.cut | bit)
            return sorted([more, *terms[1:]])
    raise AssertionError("each literal cuts the first term")


def redundant_term(terms: list[Term], setting: Setting) -> list[Term]:
    """A further term: what two of them have in common."""
    for one, other in combinations(terms, 2):
        both = Term(one.taken | other.taken, one.cut | other.cut)
        if not both.taken & both.cut:
            return sorted([*terms, both])
    raise AssertionError("no two terms overlap")


def term_of_mask(mask: int, setting: Setting) -> Term:
    """The term that holds one mask alone."""
    return Term(mask, ~mask & ((1 << len(setting.leaves)) - 1))


CHANGES: dict[str, Change] = {
    "plainly": lambda terms, _: terms,
    "of the lean masks": lambda _, setting: cover(setting.lean, len(setting.leaves)),
    "the first dropped": lambda terms, _: terms[1:],
    "the first twice": lambda terms, _: [terms[0], *terms],
    "reversed": lambda terms, _: terms[::-1],
    "signs exchanged": lambda terms, _: sorted(Term(term.cut, term.taken) for term in terms),
    "all dropped": lambda terms, _: [],
    "a literal dropped": lambda terms, _: [terms[0].without(bits_of(terms[0].taken)[0]), *terms[1:]],
    "a redundant literal": redundant_literal,
    "a redundant term": redundant_term,
    "one for each mask": lambda _, setting: sorted(
        term_of_mask(mask, setting) for mask, odd in setting.free.items() if odd),
    "the first half-space dropped": lambda terms, _: [term.without(1) for term in terms],
    "the last disc but one dropped": lambda terms, setting: [
        term.without(1 << len(setting.leaves) - 2) for term in terms],
}


def with_terms(case: Case, right: Run, change: str) -> Run:
    """Other terms, with the notes that fit them best, or factored; the lines after the text of a trial stay."""
    setting = setting_of(read_given(*case))
    text, mark, rest = right.out.partition(b"trial ")
    terms = CHANGES[change](sorted(products(read_tree(text), setting)), setting)
    if case.words[0] == "factor":
        tree = tree_of(terms, setting) if change == "plainly" else factored_tree(terms, setting)
        return right._replace(out=layout(setting.head(), tree))
    return right._replace(out=layout(setting.head(), tree_of(terms, setting), notes_of(terms, setting)) + mark + rest)


def spoiled(case: Case, right: Run, how: str, what: str, more: str) -> Run:
    """The wrong run that a row of the table says."""
    match how:
        case "sub":
            new = more.encode().decode("unicode_escape") if "\\x" in more else more
            out = re.sub(what, new, right.out.decode(), count=1, flags=re.M)
            return right._replace(out=out.encode("latin-1"))
        case "terms":
            return with_terms(case, right, what)
        case "as":
            return answer(what.split(), unfolded(more))._replace(read=right.read)
        case "says":
            return run_with(what)
        case "ends":
            return right._replace(status=int(what))
        case "reads":
            return right._replace(read=int(what))
    raise AssertionError(f"no way to spoil an answer: {how}")


def of_table() -> Iterator[Plant]:
    """The wrong answers of the table."""
    for _, (name, words, text, how, what, *more) in table("plants"):
        case = Case(words.split(), unfolded(text))
        right = answer(*case)
        yield Plant(name, case, right, spoiled(case, right, how, what, more[0] if more else ""))


def of_rows() -> Iterator[Plant]:
    """Each row of the table of single lines, with the line of the next one that has another."""
    rows = [row for row in lines() if row.out == "exactly"]
    for at, row in enumerate(rows):
        other = next(other for other in rows[at + 1 :] + rows if other.run != row.run)
        yield Plant(f"{row.name} with the line of {other.name}", row.case, row.run, other.run)


def all_plants() -> Iterator[Plant]:
    """All wrong answers with the right ones."""
    yield from of_table()
    yield from of_rows()


def missed(plant: Plant) -> Iterator[str]:
    """What is wrong with the judge: a right answer that it refuses, or a wrong one that it takes."""
    words, data = plant.case
    refused = verdict(words, data, plant.right, 50)
    if refused is not None:
        yield f"{plant.name}: the right answer is refused: {refused}"
    if plant.wrong == plant.right:
        yield f"{plant.name}: the answer is not spoiled"
    elif verdict(words, data, plant.wrong, 0) is None:
        yield f"{plant.name}: not found"
