"""The command line of tools/from: words, messages and statuses."""

from __future__ import annotations

import argparse
import errno
import os
import re
import subprocess
import sys
from dataclasses import replace
from fractions import Fraction
from importlib.util import find_spec
from pathlib import Path
from typing import NoReturn

from .drawings import made_outlines
from .dxf import layers_of, read_dxf
from .faults import DeviceFault, Refused
from .decimals import number, shown, shown_above
from .pieces import Piece
from .reading import DRAWING, contents, ending, read_mesh
from .section import section
from .made import Made, Wishes
from .solids import made_solid

# the Python for which Debian installs ezdxf, and the variable that says it was tried
DEBIAN = "/usr/bin/python3"
TRIED = "BCSG_TOOLS_PYTHON_TRIED"
USAGE = "tools/from [--factor F or FX,FY,FZ] [--join TOLERANCE] [--layer NAME] [--plane Z] [--coarse] FILE"


class Words(argparse.ArgumentParser):
    """A parser that says what is wrong in one line."""

    def error(self, message: str) -> NoReturn:
        """Refuses the words."""
        raise Refused(f"{message}; usage: {self.usage}")


def parser(usage: str, description: str) -> Words:
    """The words that reading a file takes."""
    words = Words(usage=usage, description=description, allow_abbrev=False)
    words.add_argument("--factor", metavar="F", help="use this factor, or one for each axis: FX,FY,FZ")
    words.add_argument("--join", metavar="TOLERANCE", help="join corners, or ends of lines, that are so far apart")
    words.add_argument("--layer", metavar="NAME", help="read only this layer of a drawing")
    words.add_argument("--plane", metavar="Z", help="take the section of a mesh at this height, as outlines")
    words.add_argument("--coarse", action="store_true", help="allow corners to move by more than one part in 2,000 of the size")
    words.add_argument("file", metavar="FILE", help="a file whose name ends in .stl, .ply, .obj, .off or .dxf")
    return words


def fraction(text: str, option: str) -> Fraction:
    """The number of an option: a decimal, or a fraction p/q."""
    parts = text.split("/")
    values = [number(it) if re.fullmatch(r"\S+", it) else None for it in parts]
    if len(parts) > 2 or None in values or (len(parts) == 2 and values[1] == 0):
        raise Refused(f"--{option} wants a number, and here is {text!r}")
    value = values[0] or Fraction(0)
    return value / (values[1] or 1) if len(parts) == 2 else value


def above_zero(text: str, option: str) -> Fraction:
    """The number of an option that has to be above 0."""
    value = fraction(text, option)
    if value <= 0:
        raise Refused(f"--{option} wants a number above 0, and here is {text!r}")
    return value


def wishes_of(given: argparse.Namespace) -> Wishes:
    """What the words ask for."""
    factors = None
    if given.factor is not None:
        factors = [above_zero(it, "factor") for it in given.factor.split(",")]
        if len(factors) > 3:
            raise Refused(f"--factor wants at most three numbers, and here is {given.factor!r}")
    return Wishes(
        factors,
        None if given.join is None else above_zero(given.join, "join"),
        given.layer,
        None if given.plane is None else fraction(given.plane, "plane"),
        given.coarse,
    )


def factors_for(axes: int, wishes: Wishes) -> list[Fraction] | None:
    """The factors that were given, one for each axis."""
    if wishes.factors is None or len(wishes.factors) == axes:
        return wishes.factors
    if len(wishes.factors) == 1:
        return wishes.factors * axes
    raise Refused(f"--factor gives {len(wishes.factors)} numbers, and here are {axes} axes")


def made(name: str, wishes: Wishes) -> Made:
    """The text of a file."""
    path = Path(name)
    form = ending(path)
    if form == DRAWING:
        if wishes.plane is not None:
            raise Refused("--plane is for meshes, and this is a drawing")
        if not contents(path).strip():
            raise Refused("the file is empty")
        drawing = read_dxf(path, wishes.layer)
        layers = "the layer read is " + repr(wishes.layer) if wishes.layer is not None else layers_of(drawing) + "; --layer reads one"
        return made_outlines(drawing.pieces, replace(wishes, factors=factors_for(2, wishes)), drawing.notes, layers)
    if wishes.layer is not None:
        raise Refused("--layer is for drawings, and this is a mesh")
    mesh = read_mesh(form, contents(path))
    if wishes.plane is None:
        return made_solid(mesh, replace(wishes, factors=factors_for(3, wishes)))
    lines, notes = section(mesh, wishes.plane)
    pieces = [Piece(a, b, source="the section") for a, b in lines]
    return made_outlines(pieces, replace(wishes, factors=factors_for(2, wishes)), notes, "the mesh is open there")


def report(result: Made) -> list[str]:
    """The lines about a text that go to standard error."""
    return [
        f"scale {' '.join(map(shown, result.scales))} move {' '.join(map(shown, result.moves))}",
        f"moved {shown_above(result.moved)}",
        result.counts,
        *result.notes,
    ]


def say(program: str, lines: list[str]) -> None:
    """Writes lines to standard error; where it is closed there is nobody to tell."""
    if sys.stderr is not None:
        try:
            print(*lines, sep="\n", file=sys.stderr, flush=True)
        except OSError:
            os.dup2(os.open(os.devnull, os.O_WRONLY), 2)


def write(text: str) -> None:
    """Writes a text to standard output."""
    if sys.stdout is None:
        raise DeviceFault("standard output is closed")
    try:
        sys.stdout.write(text)
        sys.stdout.flush()
    except OSError as error:
        # (what is left in the buffer would fail once more at the end)
        os.dup2(os.open(os.devnull, os.O_WRONLY), 1)
        reason = "its reader has left" if error.errno == errno.EPIPE else error.strerror
        raise DeviceFault(f"standard output: {reason}") from None


def find_ezdxf() -> None:
    """Goes on with Debian's own Python where that has ezdxf and this one has not: the first one on the path may be another."""
    if find_spec("ezdxf") is not None or os.environ.get(TRIED) or not os.access(DEBIAN, os.X_OK):
        return
    probe = "import sys, importlib.util as it; sys.exit(sys.version_info < (3, 11) or it.find_spec('ezdxf') is None)"
    if subprocess.run([DEBIAN, "-c", probe], capture_output=True, check=False).returncode == 0:
        os.environ[TRIED] = "1"
        os.execv(DEBIAN, [DEBIAN, *sys.argv])


def main(words: list[str]) -> int:
    """Runs the command; the status is 0, 2 where the file or the words are refused, 1 where standard output fails."""
    name = ""
    try:
        given = parser(USAGE, "Prints an integer OFF text, or contour blocks, for a file of another program.").parse_args(words)
        name = printable(given.file)
        if Path(given.file).suffix.lower() == DRAWING:
            find_ezdxf()
        result = made(given.file, wishes_of(given))
        write(result.text)
    except Refused as fault:
        say("from", [f"from: {name}: {fault}" if name else f"from: {fault}"])
        return 2
    except DeviceFault as fault:
        say("from", [f"from: {fault}"])
        return 1
    say("from", report(result))
    return 0


def printable(name: str) -> str:
    """A name as it can be printed."""
    return name.encode("utf-8", "backslashreplace").decode("utf-8").replace("\n", "\\n")
