"""Lines, words and numbers of a text, and how a refusal is reported."""

import re
from typing import Iterable

BLANKS = b" \t\r"
NUMBER = re.compile(rb"[+-]?(?:[0-9]+\.?[0-9]*|\.[0-9]+)")
FARTHEST = 1 << 62
BOUNDARY_BYTES = 1_048_576
TREE_BYTES = 268_435_456
JOINED_BYTES = 2_097_160
REACH = 1023


class Stop(Exception):
    """A run that ends without an answer: its exit status and its line on standard error."""

    def __init__(self, status: int, line: str) -> None:
        super().__init__(line)
        self.status = status
        self.line = line


class Refusal(Stop):
    """A refusal; `why` is what stands after `refused: `."""

    def __init__(self, why: str) -> None:
        super().__init__(2, "refused: " + why)
        self.why = why


def at_word(name: str, line: int, word: int) -> Refusal:
    """A fault of a word, or of a line where the word is 0."""
    return Refusal(f"{name} line {line}" + (f" word {word}" if word else ""))


def lines_of(text: bytes) -> list[bytes]:
    """The pieces between LFs; an empty piece after the last LF is no line."""
    pieces = text.split(b"\n")
    if pieces[-1] == b"":
        pieces.pop()
    return pieces


def spaced(numbers: Iterable[int]) -> str:
    """Numbers with a blank between each two."""
    return " ".join(map(str, numbers))


def ended(lines: Iterable[str]) -> bytes:
    """The text of some lines, each ended by LF."""
    return "".join(line + "\n" for line in lines).encode()


def whole_value(number: bytes) -> int | None:
    """What a number says, or None where a digit after its point is not 0. Past 2^62 it is 2^62."""
    before, _, after = number.lstrip(b"+-").partition(b".")
    if after.strip(b"0"):
        return None
    digits = before.lstrip(b"0") or b"0"
    size = FARTHEST if len(digits) > 19 else min(int(digits), FARTHEST)
    return -size if number.startswith(b"-") else size


def number_word(word: bytes) -> int | str:
    """The whole value of a word, or the name of what is wrong with it."""
    if not NUMBER.fullmatch(word):
        return "BadWord"
    value = whole_value(word)
    return "NotWhole" if value is None else value


def hash_words(line: bytes) -> list[bytes]:
    """The pieces between blanks before the line's first `#`."""
    return [w for w in re.split(rb"[ \t\r]+", line.partition(b"#")[0]) if w]


def parts_of(text: bytes) -> tuple[bytes, bytes]:
    """What stands before the first line `====` and after its LF."""
    start = 0
    while start < len(text):
        end = text.find(b"\n", start)
        end = len(text) if end < 0 else end
        if text[start:end] in (b"====", b"====\r"):
            return text[:start], text[end + 1 :]
        start = end + 1
    raise Refusal("NoPart")
