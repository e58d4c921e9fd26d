"""Worked rows: files with the words, the input and the output of one run each, and a table of short ones."""

import re
from itertools import chain
from typing import Iterator, NamedTuple

from .cases import Case
from .making import FOLDER
from .verdicts import Run

STATUSES = {"usage: ": 3, "refused: ": 2, "out of memory": 6}


class Row(NamedTuple):
    """A case with how it has to end. What it has to write is given `exactly`, or `without notes`, or it is `free`."""

    name: str
    case: Case
    run: Run
    out: str = "exactly"

    def fault(self, run: Run) -> str | None:
        """What a run has that this row has not, or None."""
        if (run.status, run.err) != (self.run.status, self.run.err):
            return f"exit {run.status} with {run.err!r}, and the row has exit {self.run.status} with {self.run.err!r}"
        given = re.sub(rb" *// (own|out) .*\n", b"", run.out) if self.out == "without notes" else run.out
        return None if self.out == "free" or given == self.run.out else "the output is not that of the row"


def run_with(line: str) -> Run:
    """The run that ends with a line: a refusal, an answer, or `free`, a text of which nothing is said here."""
    status = next((status for start, status in STATUSES.items() if line.startswith(start)), 0)
    answer = b"" if line == "free" else line.encode() + b"\n"
    return Run(status, b"", answer) if status else Run(0, answer, b"")


def table(name: str) -> Iterator[tuple[str, list[str]]]:
    """The rows of a table, each with its place and its fields; the texts that are named in it are put in."""
    names: dict[str, str] = {}
    for number, line in enumerate((FOLDER / name).read_text().split("\n"), 1):
        if line.startswith("#"):
            continue
        line = re.sub(r"<([a-z][\w-]*)>", lambda found: names[found[1]], line)
        if line.startswith("= "):
            key, _, names[key] = line[2:].partition(" | ")
        elif line:
            yield f"{name} {number}", line.split(" | ")


def again(found: re.Match[str]) -> str:
    """A text that stands so many times, with the number of the time in the place of each `@`, or so much more."""
    text, times = found[1], int(found[2])
    if "@" not in text:
        return text * times
    return "".join(re.sub(r"@([+-]\d+)?", lambda sign: str(k + int(sign[1] or 0)), text) for k in range(times))


def unfolded(text: str) -> bytes:
    """The bytes of a text in a table: ` / ` is LF, `\\x41` a byte by its number, and `<..*3>` stands three times."""
    plain = re.sub(r" /( |$)", "\n", text).encode().decode("unicode_escape")
    return re.sub(r"<([^<>]*)\*(\d+)>", again, plain).encode("latin-1")


def lines() -> Iterator[Row]:
    """The rows of the tables: command lines parted by `;`, the input, and the one line of the answer."""
    for name, (commands, text, line) in chain(table("lines"), table("limits")):
        for nth, words in enumerate(commands.split(";")):
            case = Case(unfolded(words).decode().split(), unfolded(text))
            yield Row(f"{name} {nth}", case, run_with(line), "free" if line == "free" else "exactly")


def elsewhere() -> Iterator[Row]:
    """The refused texts of the tables where other commands read them, by the table `elsewhere`."""
    places = [fields for _, fields in table("elsewhere")]
    for row in lines():
        if row.run.status != 2 or len(row.case.data) > 9999:
            continue
        why, text = row.run.err.removeprefix(b"refused: ").decode().rstrip(), row.case.data
        is_limit = why.startswith(("TooManyLines", "TooManyDiscs", "TooManyPlanes"))
        for words, other, before, after, prefix, limits in places:
            if words == " ".join(row.case.words) and not (is_limit and limits == "none"):
                gap = b"\n" if after and text and not text.endswith(b"\n") else b""
                case = Case(other.split(), unfolded(before) + text + gap + unfolded(after))
                line = why if prefix == "as it is" or (is_limit and limits == "of both") else f"{prefix} {why}"
                yield Row(f"{row.name} as {other}", case, run_with(f"refused: {line}"))


def cuts() -> Iterator[Row]:
    """A text cut after each of its tokens: the next one is missing at the end."""
    text = (FOLDER / "tetrahedron.case").read_text().partition(">>>>")[2].partition("\n")[2]
    ends = [found.end() for found in re.finditer(r"//.*|(\w+|-\d+|[^\w\s])", text) if found[1]]
    for nth, end in enumerate(ends[:-1], 2):
        place = f"line {text.count(chr(10), 0, end) + 2} token {nth}"
        case = Case("ask 0 0 0 1".split(), text[:end].encode())
        yield Row(f"cut {nth}", case, run_with(f"refused: BadShape {place}"))


def files() -> Iterator[Row]:
    """The rows of single files: a line of words, then the input, then `>>>>` with how the output is meant, and it."""
    for path in sorted(FOLDER.glob("*.case")):
        words, _, rest = path.read_text().partition("\n")
        given, _, out = rest.partition(">>>>")
        how, _, out = out.partition("\n")
        yield Row(path.stem, Case(words.split(), given.encode()), Run(0, out.encode(), b""), how.strip() or "exactly")


def examples() -> Iterator[Row]:
    """The inputs of the project's own examples, converted and factored."""
    contours = ("convert contour", "factor contour")
    commands = {".off": ("convert off", "factor off"), ".ngc": contours, ".layers": ("prism",)}
    for path in sorted((FOLDER.parent.parent / "examples").iterdir()):
        for words in commands.get(path.suffix, ()):
            yield Row(f"{path.name} {words}", Case(words.split(), path.read_bytes()), Run(0, b"", b""), "free")


def all_rows() -> list[Row]:
    """All worked rows."""
    return [*lines(), *elsewhere(), *cuts(), *files(), *examples()]
