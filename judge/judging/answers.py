"""Lawful answers, made slowly from the definitions: for the judge's own tests and to edit in generated cases."""

from typing import Iterable, Sequence

from .audits import Audit
from .discs import samples
from .factored import factored_tree
from .formulas import Term, elements_of, shows, tree_of
from .prisms import laid_out, settings_of
from .requests import Given, bytes_taken, read_given
from .setting import Setting
from .texts import Stop, spaced
from .trees import layout, node_lines
from .vectors import Point, lowest
from .verdicts import Run, forced, setting_of, summary


def cover(masks: dict[int, bool], count: int) -> list[Term]:
    """Terms that hold each odd mask and no even one, none of them redundant in any part."""
    even = [mask for mask, odd in masks.items() if not odd]
    terms: list[Term] = []
    for mask, odd in masks.items():
        if odd and not any(term.holds(mask) for term in terms):
            # A literal of the product keeps out what differs from the mask in its bit.
            parted, literals = [other ^ mask for other in even], (1 << count) - 1
            for bit in (1 << at for at in range(count)):
                if all(bits & literals & ~bit for bits in parted):
                    literals &= ~bit
            terms.append(Term(mask & literals, ~mask & literals))
    odds = [mask for mask, odd in masks.items() if odd]
    for term in list(terms):
        others = [other for other in terms if other != term]
        if all(any(other.holds(mask) for other in others) for mask in odds):
            terms = others
    return sorted(terms)


def shown(setting: Setting) -> Iterable[tuple[Point, int, bool]]:
    """Points that may be printed, each with its mask and whether it is odd."""
    if not setting.is_flat:
        for mask, p in setting.points.items():
            yield lowest(p), mask, setting.free[mask]
        return
    for corners in setting.regions.values():
        seen = set()
        for p in samples(corners):
            if setting.is_free(p) and (mask := setting.table.mask(p)) not in seen:
                seen.add(mask)
                yield lowest(p), mask, setting.free[mask]


def notes_of(terms: list[Term], setting: Setting) -> dict[int, str]:
    """A true note before each term and each literal."""
    points = list(shown(setting))
    notes = {}
    for at, bit, node in elements_of(terms):
        found = (spaced(p) for p, mask, odd in points if shows(terms, at, bit, mask, odd))
        notes[node] = f"{'out' if bit else 'own'} {next(found, 'undecided')}"
    return notes


def formula(setting: Setting) -> tuple[list[Term], bytes, int]:
    """Terms, their text, and how many of its notes are undecided."""
    terms = cover(setting.lean, len(setting.leaves))
    notes = notes_of(terms, setting)
    undecided = sum(note.endswith("undecided") for note in notes.values())
    return terms, layout(setting.head(), tree_of(terms, setting), notes), undecided


def written(given: Given) -> bytes:
    """What a lawful run writes."""
    command = given.request.command
    if command == "audit":
        assert given.tree is not None
        p = Audit(given.boundaries[0], given.tree).difference()
        return f"differs {spaced(lowest(p))}\n".encode() if p else b"same\n"
    if command in ("side", "ask", "upgrade"):
        return forced(given)
    if command == "prism":
        settings = settings_of(given)
        trees = [tree_of(cover(setting.lean, len(setting.leaves)), setting) for setting in settings]
        return laid_out(given, settings, [[line for line, _ in node_lines(tree)] for tree in trees])
    setting = setting_of(given)
    if command == "factor":
        return layout(setting.head(), factored_tree(cover(setting.every, len(setting.leaves)), setting))
    terms, text, undecided = formula(setting)
    return text + (summary(given.request, setting, terms, undecided) if command == "trial" else b"")


def answer(words: Sequence[str], data: bytes) -> Run:
    """A lawful run."""
    read = bytes_taken(words, data)
    try:
        return Run(0, written(read_given(words, data)), b"", read)
    except Stop as stop:
        return Run(stop.status, b"", stop.line.encode() + b"\n", read)
