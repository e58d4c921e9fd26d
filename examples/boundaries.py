"""Reads the boundaries of the examples, for the scripts beside it: lawful text only, since the program has judged it."""
import math
import re


def contours(text):
    """The contours of a text: each a list of elements, (from, to, centre, turn), where a line has neither centre nor turn."""
    at, mode, found, open_one = (0, 0), None, [], []
    for line in text.splitlines():
        words = dict.fromkeys("XYIJ")
        for letter, number in re.findall(r"([A-Z])\s*([+-]?[0-9.]+)", re.sub(r"\(.*?\)|;.*|^\s*%.*", "", line.upper())):
            words[letter] = float(number)
            if letter == "G" and float(number) in (0, 1, 2, 3):
                mode = int(float(number))
        to = tuple(at[k] if words["XY"[k]] is None else words["XY"[k]] for k in (0, 1))
        moves = any(words[it] is not None for it in ("XY" if mode in (0, 1) else "XYIJ"))
        if not moves or mode is None:
            continue
        if mode == 0:
            found, open_one = found + [open_one] * bool(open_one), []
        elif mode == 1:
            open_one.append((at, to, None, 0)) if to != at else None
        else:
            centre = (at[0] + (words["I"] or 0), at[1] + (words["J"] or 0))
            open_one.append((at, to, centre, 1 if mode == 3 else -1))
        at = to
    return found + [open_one] * bool(open_one)


def corners(contour, steps=64):
    """Points along a contour, so close that arcs look round."""
    points = []
    for start, to, centre, turn in contour:
        points.append(start)
        if centre:
            radius = math.dist(start, centre)
            first = math.atan2(start[1] - centre[1], start[0] - centre[0])
            sweep = turn * (math.atan2(to[1] - centre[1], to[0] - centre[0]) - first) % math.tau or math.tau
            for k in range(1, steps):
                angle = first + turn * sweep * k / steps
                points.append((centre[0] + radius * math.cos(angle), centre[1] + radius * math.sin(angle)))
    return points


def mesh(text):
    """The vertices of an OFF text, and its faces as lists of their numbers."""
    rows = [row for row in (re.sub("#.*", "", line).split() for line in text.splitlines()) if row]
    # (the counts stand on the row of the word OFF, or on the next one)
    rows = [rows[0][1:], *rows[1:]] if len(rows[0]) > 1 else rows[1:]
    count, faces = int(rows[0][0]), int(rows[0][1])
    places = [tuple(float(it) for it in row[:3]) for row in rows[1 : 1 + count]]
    return places, [[int(it) for it in row[1 : 1 + int(row[0])]] for row in rows[1 + count : 1 + count + faces]]
