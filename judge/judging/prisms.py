"""Layers as they are written: one for each section, with a tree for its contours and no notes."""

import random

from .formulas import Wrong, check_bytes, check_formula
from .requests import Given
from .setting import Setting
from .tables import Box
from .texts import ended, spaced


def settings_of(given: Given) -> list[Setting]:
    """The contours of each section."""
    return [Setting((boundary,)) for boundary in given.boundaries]


def box_of_layers(given: Given, settings: list[Setting]) -> Box:
    """The box of all sections with their heights."""
    if not settings:
        return (-1, -1, -1), (1, 1, 1)
    low, high = min(section.low for section in given.sections), max(section.high for section in given.sections)
    least = tuple(min(axis) for axis in zip(*(setting.box[0] for setting in settings)))
    greatest = tuple(max(axis) for axis in zip(*(setting.box[1] for setting in settings)))
    return least + (low - 1,), greatest + (high + 1,)


def laid_out(given: Given, settings: list[Setting], trees: list[list[str]]) -> bytes:
    """The layout of layers with the lines of their trees."""
    least, greatest = box_of_layers(given, settings)
    lines = ["// bcsg 2 prism", "// box " + spaced(least + greatest), "union() {"]
    for section, tree in zip(given.sections, trees):
        lines.append(f"  translate([0,0,{section.low}]) linear_extrude(height={section.high - section.low})")
        lines += ["    " + line for line in tree]
    return ended([*lines, "}"])


def trees_in(text: bytes) -> list[list[str]]:
    """The lines of each layer's tree, without the blanks before them."""
    trees: list[list[str]] = []
    for line in text.decode().split("\n")[3:]:
        if line.startswith("  translate("):
            trees.append([])
        elif line.startswith("    ") and trees:
            trees[-1].append(line[4:])
    return trees


def check_prism(text: bytes, given: Given, count: int, dice: random.Random) -> None:
    """Wrong where the text of layers is."""
    settings, trees = settings_of(given), trees_in(text)
    check_bytes(text, laid_out(given, settings, trees), "layout of layers")
    for at, (setting, tree) in enumerate(zip(settings, trees)):
        try:
            check_formula(ended([*setting.head(), *tree]), setting, False, count, dice)
        except Wrong as wrong:
            raise Wrong(f"layer {at}: {wrong}") from None
