"""Is a run of the program right? Its status, its line on standard error, and what it wrote."""

import random
import re
from typing import NamedTuple, Sequence

from .audits import Audit, check_audit
from .factored import check_factored
from .formulas import Term, Wrong, check_bytes, check_formula
from .prisms import check_prism
from .requests import Given, Request, bytes_taken, read_given
from .setting import Setting
from .texts import Stop
from .trees import holds, is_edge, is_flat, upgrade

FORMULAS = ("convert", "combine", "trial")


class Run(NamedTuple):
    """How a run ended, what it wrote, and how many bytes of its input it read, where this is known."""

    status: int
    out: bytes
    err: bytes
    read: int | None = None


def setting_of(given: Given) -> Setting:
    """The boundary, or the two, of a request."""
    return Setting(given.boundaries, given.request.operation)


def forced(given: Given) -> bytes:
    """What `side`, `ask` and `upgrade` write."""
    x, y, z, w = given.request.point or (0, 0, 0, 1)
    if given.tree is None:
        setting = setting_of(given)
        p = (x, y, w) if setting.is_flat else (x, y, z, w)
        return b"edge\n" if setting.table.touches(p) else b"odd\n" if setting.is_odd(p) else b"even\n"
    if given.request.command == "upgrade":
        return upgrade(given.tree)
    p = (x, y, w) if is_flat(given.tree) else (x, y, z, w)
    return b"edge\n" if is_edge(given.tree, p) else b"in\n" if holds(given.tree, p) else b"out\n"


def summary(request: Request, setting: Setting, terms: list[Term], undecided: int) -> bytes:
    """The lines after the text of a trial."""
    flat, discs = len(setting.table.flat), len(setting.table.discs)
    parts, inside = len(setting.every), sum(setting.every.values())
    counts = f"lines {flat}\ndiscs {discs}\ncandidates" if setting.is_flat else f"planes {flat}\ncells"
    literals = sum(term.taken.bit_count() + term.cut.bit_count() for term in terms)
    rest = f"terms {len(terms)}\nliterals {literals}\nundecided {undecided}\n"
    return f"trial {request.kind} {request.steps}\n{counts} {parts}\ninside {inside}\n{rest}".encode()


def check_converted(given: Given, out: bytes, count: int, dice: random.Random) -> None:
    """Wrong where the text of `convert`, `combine` or `trial` is, or the summary after it."""
    setting = setting_of(given)
    before, mark, _ = out.partition(b"\ntrial ")
    text = before + b"\n" if mark else out
    terms, undecided = check_formula(text, setting, True, count, dice)
    wanted = summary(given.request, setting, terms, undecided) if given.request.steps else b""
    check_bytes(out[len(text) :], wanted, "summary")


def check_out(given: Given, out: bytes, count: int, dice: random.Random) -> None:
    """Wrong where what was written is."""
    command = given.request.command
    if command in FORMULAS:
        check_converted(given, out, count, dice)
    elif command == "factor":
        check_factored(out, setting_of(given), count, dice)
    elif command == "prism":
        check_prism(out, given, count, dice)
    elif command == "audit":
        assert given.tree is not None
        check_audit(out, Audit(given.boundaries[0], given.tree), count, dice)
    else:
        check_bytes(out, forced(given), "answer")


def verdict(words: Sequence[str], data: bytes, run: Run, count: int = 1000, seed: int = 0) -> str | None:
    """What is wrong with a run, or None. So many random points are tried of each text."""
    given, status, line = None, 0, ""
    try:
        given = read_given(words, data)
    except Stop as stop:
        status, line = stop.status, stop.line + "\n"
    if run.status != status or run.err != line.encode():
        return f"exit {run.status} with {run.err[:200]!r} on standard error, not exit {status} with {line.encode()!r}"
    if run.read not in (None, bytes_taken(words, data)):
        return f"{run.read} bytes of the input were read, not {bytes_taken(words, data)}"
    if given is None:
        return f"{len(run.out)} bytes on standard output of a refused run" if run.out else None
    strange = re.search(rb"[^\x00-\x7f]", run.out)
    if strange:
        return f"byte {strange.start()} of standard output is {strange.group()!r}, which no text has"
    try:
        check_out(given, run.out, count, random.Random(seed))
    except Wrong as wrong:
        return str(wrong)
    return None
