"""The texts that `trial` converts."""

from .texts import ended, spaced


def stair(n: int) -> bytes:
    """The OFF text of a stair of n steps between y = 0 and y = 10."""
    m = 2 * n + 2
    outline = [(0, 0)] + [place for i in range(1, n + 1) for place in ((i - 1, i), (i, i))] + [(n, 0)]
    lines = [f"OFF {2 * m} {m + 2} 0"]
    lines += [f"{x} {y} {z}" for y in (0, 10) for x, z in outline]
    lines += [spaced([m, *range(first, first + m)]) for first in (0, m)]
    lines += [f"4 {k} {(k + 1) % m} {m + (k + 1) % m} {m + k}" for k in range(m)]
    return ended(lines)


def plate(n: int) -> bytes:
    """The contours of a rectangle of 20 n by 20 with n circles of radius 5 in a row."""
    lines = ["G00 X0 Y0", f"G01 X{20 * n} Y0", f"G01 X{20 * n} Y20", "G01 X0 Y20", "G01 X0 Y0"]
    for i in range(n):
        lines += [f"G00 X{20 * i + 15} Y10", f"G03 X{20 * i + 15} Y10 I-5 J0"]
    return ended([*lines, "M30"])


MOST_STEPS = {"off": 18, "contour": 10}
TEXTS = {"off": stair, "contour": plate}
