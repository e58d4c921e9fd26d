"""Blocks of contours: circles, closed paths, and outlines of edges and arcs."""
import math


def ring(corners, radius=1000):
    """Whole places round the origin, almost evenly."""
    turns = [2 * math.pi * i / corners for i in range(corners)]
    return [(round(radius * math.cos(turn)), round(radius * math.sin(turn))) for turn in turns]


def path(places):
    """The edges round these places, as blocks."""
    x, y = places[-1]
    return "".join([f"G00 X{x} Y{y}\n", *(f"G01 X{x} Y{y}\n" for x, y in places)])


def circle(x, y, radius):
    return f"G00 X{x + radius} Y{y}\nG03 X{x + radius} Y{y} I{-radius} J0\n"


def oblong(x0, y0, x1, y1):
    return [(x0, y0), (x1, y0), (x1, y1), (x0, y1)]


class Arc:
    """A step of an outline: to a place along a circle round a centre, anticlockwise or clockwise."""

    def __init__(self, to, centre, clockwise=False):
        self.to, self.centre, self.clockwise = to, centre, clockwise


def outline(start, *steps):
    """The blocks from a place through these steps: a place is an edge's end, and the last step ends at the start."""
    x, y = start
    blocks = [f"G00 X{x} Y{y}\n"]
    for step in steps:
        arc = step if isinstance(step, Arc) else None
        word, to = ("G02" if arc.clockwise else "G03", arc.to) if arc else ("G01", step)
        middle = f" I{arc.centre[0] - x} J{arc.centre[1] - y}" if arc else ""
        blocks.append(f"{word} X{to[0]} Y{to[1]}{middle}\n")
        x, y = to
    return "".join(blocks)
