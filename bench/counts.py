"""Counts what a conversion makes of a boundary, over whole numbers and by the definitions: distinct lines, discs and planes,
the cells of planes within the box, the candidates of lines and discs; and what a text has."""
from fractions import Fraction
from math import gcd, isqrt


def canonical(numbers):
    """Numbers of a line or plane up to a factor."""
    divisor = gcd(*numbers)
    sign = next(1 if n > 0 else -1 for n in numbers if n)
    return tuple(sign * n // divisor for n in numbers)


def cross(p, q):
    return (p[1] * q[2] - p[2] * q[1], p[2] * q[0] - p[0] * q[2], p[0] * q[1] - p[1] * q[0])


def dot(p, q):
    return sum(a * b for a, b in zip(p, q))


def less(p, q):
    return tuple(a - b for a, b in zip(p, q))


# ---- contours


def lines_of(contours):
    """The lines a x + b y = d of edges, and of chords of arcs that are no full circles, each once."""
    ends = [(p, q) for contour in contours for p, q, _, _ in contour if p != q]
    return list(dict.fromkeys(canonical((p[1] - q[1], q[0] - p[0], p[1] * q[0] - p[0] * q[1])) for p, q in ends))


def discs_of(contours):
    """The discs of arcs, each once: a centre and a squared radius."""
    arcs = [(p, c) for contour in contours for p, _, c, _ in contour if c]
    return list(dict.fromkeys((c[0], c[1], dot(less(p, c), less(p, c))) for p, c in arcs))


def tile_of(contours):
    """The box of contours: one more than their places and their circles reach."""
    spans = [(p, 0) for contour in contours for p, _, _, _ in contour]
    spans += [((x, y), isqrt(r2 - 1) + 1) for x, y, r2 in discs_of(contours)]
    return [[f(sign * r + p[k] for p, r in spans) + sign for f, sign in ((min, -1), (max, 1))] for k in (0, 1)]


def regions_of(lines, tile):
    """The convex regions into which lines divide a box: the corners of each, as x, y, w, and on which lines' upper sides it is."""
    (x0, x1), (y0, y1) = tile
    regions = [([(x0, y0, 1), (x1, y0, 1), (x1, y1, 1), (x0, y1, 1)], 0)]
    for i, line in enumerate(lines):
        regions = [part for corners, mask in regions for part in parts_of(corners, mask, line, 1 << i)]
    return regions


def value(line, p):
    return line[0] * p[0] + line[1] * p[1] - line[2] * p[2]


def parts_of(corners, mask, line, bit):
    """The parts of a convex region on the two sides of a line."""
    values = [value(line, p) for p in corners]
    if min(values) >= 0 or max(values) <= 0:
        return [(corners, mask | bit * (max(values) > 0))]
    below, above = [], []
    for i, (p, v) in enumerate(zip(corners, values)):
        q, w = corners[i - 1], values[i - 1]
        if v * w < 0:
            point = [b * abs(v) + a * abs(w) for a, b in zip(p, q)]
            below.append(tuple(n // gcd(*point) for n in point))
            above.append(below[-1])
        if v <= 0:
            below.append(p)
        if v >= 0:
            above.append(p)
    return [(below, mask), (above, mask | bit)]


def is_apart(d, e):
    gap = (d[0] - e[0]) ** 2 + (d[1] - e[1]) ** 2 - d[2] - e[2]
    return gap >= 0 and gap * gap >= 4 * d[2] * e[2]


def is_nested(d, e):
    overlap = d[2] + e[2] - (d[0] - e[0]) ** 2 - (d[1] - e[1]) ** 2
    return d[2] <= e[2] and overlap >= 0 and overlap * overlap >= 4 * d[2] * e[2]


def is_beyond(line, d, sign):
    """Whether a disc is on one side of a line, as far as its radius at least."""
    centre = sign * value(line, (d[0], d[1], 1))
    return centre > 0 and centre * centre >= d[2] * (line[0] ** 2 + line[1] ** 2)


def is_around(corners, d):
    return all((x - d[0] * w) ** 2 + (y - d[1] * w) ** 2 <= d[2] * w * w for x, y, w in corners)


def bits(tests):
    return sum(1 << i for i, test in enumerate(tests) if test)


def lawful_sets(discs):
    """The sets of discs of which no two are apart, and in which with each disc are those that it lies in."""
    apart = [bits(i != j and is_apart(d, e) for j, e in enumerate(discs)) for i, d in enumerate(discs)]
    around = [bits(i != j and is_nested(d, e) for j, e in enumerate(discs)) for i, d in enumerate(discs)]
    holds = lambda s, i: s & apart[i] == 0 and around[i] & ~s == 0
    return [s for s in range(1 << len(discs)) if all(holds(s, i) for i in range(len(discs)) if s >> i & 1)]


def divided(lines, discs, tile):
    """Each region with the sets of discs that no rule drops: its corners, its mask, and the sets as numbers."""
    sets = lawful_sets(discs)
    above, below = ([bits(is_beyond(line, d, sign) for line in lines) for d in discs] for sign in (1, -1))
    for corners, mask in regions_of(lines, tile):
        due = bits(is_around(corners, d) for d in discs)
        none = bits(above[i] & ~mask or below[i] & mask for i in range(len(discs)))
        yield corners, mask, [s for s in sets if s & due == due and s & none == 0]


def candidates_of(lines, discs, tile):
    """How many regions with sets of discs no rule drops."""
    return sum(len(sets) for _, _, sets in divided(lines, discs, tile))


def depth(d, corner):
    """How far a corner is past the circle of a disc: the distances squared, times w squared."""
    x, y, w = corner
    return (x - d[0] * w) ** 2 + (y - d[1] * w) ** 2 - d[2] * w * w


def is_missed(corners, d):
    """Whether some corner v is not strictly inside a disc, and no corner is nearer to its centre c along the way from c to v."""

    def is_nearest(v):
        ahead = (v[0] - d[0] * v[2], v[1] - d[1] * v[2])
        return all(dot(ahead, (q[0] * v[2] - v[0] * q[2], q[1] * v[2] - v[1] * q[2])) >= 0 for q in corners)

    return any(depth(d, v) >= 0 and is_nearest(v) for v in corners)


def is_exceeded(corners, d, e):
    """Whether each corner is at least as deep in the disc e as in d, so that what is in d is in e too."""
    return all(depth(e, q) <= depth(d, q) for q in corners)


def kept_of(lines, discs, tile):
    """The masks of the candidates that are left where a missed disc, and one that another exceeds which is left out, are too."""
    kept, number = set(), range(len(discs))
    for corners, mask, sets in divided(lines, discs, tile):
        missed = bits(is_missed(corners, d) for d in discs)
        wants = [bits(i != j and is_exceeded(corners, d, e) for j, e in enumerate(discs)) for i, d in enumerate(discs)]
        lean = (s for s in sets if s & missed == 0 and all(wants[i] & ~s == 0 for i in number if s >> i & 1))
        kept.update(mask | s << len(lines) for s in lean)
    return kept


# ---- meshes


def planes_of(places, faces):
    """The planes a x + b y + c z = d of faces, each once."""
    return list(dict.fromkeys(plane_of([places[i] for i in face]) for face in faces))


def plane_of(corners):
    first = corners[0]
    sides = [less(p, first) for p in corners if p != first]
    normal = next(n for n in (cross(sides[0], q) for q in sides) if any(n))
    return canonical((*normal, dot(normal, first)))


def block_of(places, faces):
    corners = [places[i] for face in faces for i in face]
    return [(min(p[k] for p in corners) - 1, max(p[k] for p in corners) + 1) for k in (0, 1, 2)]


def cells_of(planes, block):
    """How many cells planes make of a box: each adds as many as its section has parts, and so each line of a section."""
    count = 1
    for k, plane in enumerate(planes):
        values = [plane[0] * x + plane[1] * y + plane[2] * z - plane[3] for x in block[0] for y in block[1] for z in block[2]]
        if min(values) < 0 < max(values):
            count += 1 + parts_on(plane, planes[:k], block)
    return count


def parts_on(plane, planes, block):
    """By how many parts the lines of other planes divide the section of a plane further."""
    lines = {}
    for other in planes:
        along = cross(plane[:3], other[:3])
        if any(along) and meets_block(plane, other, along, block):
            lines.setdefault(canonical((*along, *moment(plane, other))), other)
    added, before = 0, []
    for other in lines.values():
        points = {meet(plane, other, third) for third in before}
        added += 1 + sum(p is not None and is_within(p, block) for p in points)
        before.append(other)
    return added


def moment(p, q):
    return less(tuple(p[3] * n for n in q[:3]), tuple(q[3] * n for n in p[:3]))


def is_within(p, block):
    return all(low < x < high for x, (low, high) in zip(p, block))


def meets_block(p, q, along, block):
    """Whether the line of two planes goes through the inside of a box."""
    start = less(tuple(p[3] * n for n in cross(q[:3], along)), tuple(q[3] * n for n in cross(p[:3], along)))
    least, most = None, None
    for x, step, (low, high) in zip(start, along, block):
        x = Fraction(x, dot(along, along))
        if step == 0:
            if not low < x < high:
                return False
            continue
        ends = sorted(((low - x) / step, (high - x) / step))
        least = ends[0] if least is None else max(least, ends[0])
        most = ends[1] if most is None else min(most, ends[1])
    return least < most


def meet(p, q, r):
    """The one point of three planes, or None."""
    size = dot(p[:3], cross(q[:3], r[:3]))
    if size == 0:
        return None
    parts = [(p[3], cross(q[:3], r[:3])), (q[3], cross(r[:3], p[:3])), (r[3], cross(p[:3], q[:3]))]
    return tuple(Fraction(sum(d * n[k] for d, n in parts), size) for k in (0, 1, 2))


# ---- texts


def of_text(text):
    """What a text, as bytes, has: terms, literals (leaves besides the box of each term), leaves, and notes without a point."""
    terms, leaves = text.count(b"difference() {\n"), text.count(b";\n")
    undecided = text.count(b" undecided\n")
    return {"Terms": terms, "Literals": leaves - terms, "Leaves": leaves, "Undecided": undecided}
