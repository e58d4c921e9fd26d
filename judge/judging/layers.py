"""Layers: the sections of a text and its first fault."""

import re
from typing import NamedTuple

from .texts import REACH, Refusal, hash_words, number_word

MOST_LAYERS = 64


class Section(NamedTuple):
    """The heights of a section and the text of its contours."""

    low: int
    high: int
    text: bytes


def heights_of(words: list[bytes]) -> tuple[int, int] | None:
    """The heights of a LAYER line, or None where its further words are none."""
    if len(words) != 3:
        return None
    low, high = number_word(words[1]), number_word(words[2])
    if isinstance(low, str) or isinstance(high, str):
        return None
    return (low, high) if -REACH <= low < high <= REACH else None


def read_layers(text: bytes) -> list[Section]:
    """The sections of a text, or its first fault."""
    heads: list[tuple[int, int]] = []
    texts: list[bytes] = []
    for at, line in enumerate(re.findall(rb"[^\n]*\n|[^\n]+", text), 1):
        words = hash_words(line.rstrip(b"\n"))
        if words and words[0] == b"LAYER":
            heights = heights_of(words)
            if heights is None:
                raise Refusal(f"BadLayer line {at}")
            if len(heads) == MOST_LAYERS:
                raise Refusal(f"TooManyLayers line {at}")
            heads.append(heights)
            texts.append(b"")
        elif texts:
            texts[-1] += line
        elif words:
            raise Refusal(f"BadLayer line {at}")
    for second, (low, high) in enumerate(heads):
        for first in range(second):
            if heads[first][0] < high and low < heads[first][1]:
                raise Refusal(f"Overlap layer {first} layer {second}")
    return [Section(*head, lines) for head, lines in zip(heads, texts)]
