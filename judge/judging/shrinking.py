"""Makes a case small that shows a difference: lines, words, bytes and faces are taken out while it still does."""

import re
import time
from typing import Callable, Iterator


def without_runs(pieces: list[bytes]) -> Iterator[bytes]:
    """The pieces without one run of them: long runs first, then shorter ones."""
    size = len(pieces)
    while size >= 1:
        for start in range(0, len(pieces), size):
            yield b"".join(pieces[:start] + pieces[start + size :])
        size //= 2


def without_face(data: bytes) -> Iterator[bytes]:
    """An OFF text with one of its last rows less, and one face less in its counts."""
    counts = re.search(rb"^(OFF\s+|)(\d+) (\d+)", data, re.M)
    if counts and int(counts[3]):
        less = b"%s%s %d" % (counts[1], counts[2], int(counts[3]) - 1)
        rows = data[counts.end() :].split(b"\n")
        for at in range(1 + int(counts[2]), len(rows)):
            yield data[: counts.start()] + less + b"\n".join(rows[:at] + rows[at + 1 :])


def smaller(data: bytes) -> Iterator[bytes]:
    """Texts that are a little smaller than this one; in the last ones a number is halved."""
    yield from without_runs(re.findall(rb"[^\n]*\n|[^\n]+", data))
    yield from without_face(data)
    yield from without_runs(re.findall(rb"\S+\s*|\s+", data))
    if len(data) < 400:
        yield from without_runs([data[at : at + 1] for at in range(len(data))])
    for found in re.finditer(rb"\d{2,300}", data):
        yield data[: found.start()] + b"%d" % (int(found.group()) // 2) + data[found.end() :]


def shrunk(data: bytes, shows: Callable[[bytes], bool], seconds: float) -> bytes:
    """A smaller text that still shows the difference, found within so many seconds."""
    deadline = time.monotonic() + seconds
    while True:
        for less in smaller(data):
            if time.monotonic() > deadline:
                return data
            if less != data and shows(less):
                data = less
                break
        else:
            return data
