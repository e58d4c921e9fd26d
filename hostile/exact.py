"""What contours and CSG texts of the plane say of points, over whole numbers: a second reading of docs/definitions.md and
docs/formats.md, that shares no code with the program. A point is (x, y, w), which is (x / w, y / w), with w above 0."""
import re

TOKEN = re.compile(r"[A-Za-z][A-Za-z0-9_]*|-?[0-9]+|[(){}\[\],;=]")


def is_above_root(height, under):
    """The signs of height - sqrt(under) and height + sqrt(under), for a number under the root that is not negative."""
    outside = (height * height > under) - (height * height < under)
    return (outside if height >= 0 else -1), (-outside if height < 0 else 1 if height or under else 0)


# ---- contours: a list of elements (from, to, centre, turn), where an edge has neither centre nor turn


def crosses_edge(start, end, point):
    """Whether the ray straight down from a point, moved to the right by less than anything, meets an edge."""
    x, y, w = point
    if (start[0] * w <= x) == (end[0] * w <= x):
        return False
    left, right = sorted((start, end))
    return (right[0] - left[0]) * (y - left[1] * w) > (right[1] - left[1]) * (x - left[0] * w)


def crossings_of_arc(start, end, centre, turn, point):
    """How often that ray meets an arc: at the upper and at the lower point of its column, where these are on the arc."""
    x, y, w = point
    ahead, r2 = x - centre[0] * w, (start[0] - centre[0]) ** 2 + (start[1] - centre[1]) ** 2
    under = r2 * w * w - ahead * ahead
    if under < 0 or under == 0 and ahead > 0:
        return 0
    past_upper, past_lower = is_above_root(y - centre[1] * w, under)
    first, last = (start, end) if turn > 0 else (end, start)
    has = lambda half: has_column_point(first, last, centre, ahead, under, w, half)
    return (past_upper > 0 and has(1)) + (past_lower > 0 and has(-1))


def has_column_point(first, last, centre, ahead, under, w, half):
    """Whether an anticlockwise arc has the upper (1) or lower (-1) point of a column that is moved to the right.

    It has the points of its circle to the right of its chord. On the chord are its ends alone: along the upper half the arc comes
    to its last end from the right, and leaves its first end to the left; along the lower half it is the other way."""
    if first == last:
        return True
    across, up = last[0] - first[0], last[1] - first[1]
    # across * (v - first.y) - up * (u - first.x) at the column's point (u, v), times w: a number and a factor of the root
    number = across * (centre[1] - first[1]) * w - up * (ahead + (centre[0] - first[0]) * w)
    side = sign_with_root(number, across * half, under)
    if side:
        return side < 0
    is_last = sign_with_root((centre[1] - last[1]) * w, half, under) == 0 and ahead + (centre[0] - last[0]) * w == 0
    return is_last == (half > 0)


def sign_with_root(number, factor, under):
    """The sign of number + factor sqrt(under)."""
    left, right = number * abs(number), factor * abs(factor) * under
    return (left + right > 0) - (left + right < 0)


def is_odd(elements, point):
    """Whether the downward ray meets all these elements an odd number of times."""
    count = 0
    for start, end, centre, turn in elements:
        count += crossings_of_arc(start, end, centre, turn, point) if centre else crosses_edge(start, end, point)
    return count % 2 == 1


# ---- texts


class Formula:
    """Reads a lawful CSG text of the plane, and says at which of some points it holds: bit i of a number is that of point i."""

    def __init__(self, text, points):
        self.tokens, self.points, self.leaves = TOKEN.findall(re.sub(r"//[^\n]*", "", text)), points, {}
        self.at, self.every = 0, (1 << len(points)) - 1
        self.bits = self.node()
        if self.at != len(self.tokens):
            raise ValueError(f"something stands behind the node: token {self.at + 1}")

    def node(self):
        name = self.tokens[self.at]
        if name not in ("union", "intersection", "difference"):
            return self.leaf()
        self.at += 4
        kids = []
        while self.tokens[self.at] != "}":
            kids.append(self.node())
        self.at += 1
        return joined(name, kids)

    def leaf(self):
        end = self.tokens.index(";", self.at)
        words = tuple(self.tokens[self.at : end])
        self.at = end + 1
        if words not in self.leaves:
            holds = leaf_of(words)
            self.leaves[words] = packed(holds(*point) for point in self.points)
        return self.leaves[words]


def joined(name, kids):
    """The points of a node from those of its children."""
    if name == "union":
        return any_of(kids)
    first, *others = kids
    if name == "difference":
        return first & ~any_of(others)
    for other in others:
        first &= other
    return first


def any_of(kids):
    found = 0
    for kid in kids:
        found |= kid
    return found


def packed(truths):
    """A number whose bit i is truth i."""
    return int("".join("01"[bool(it)] for it in truths)[::-1] or "0", 2)


def leaf_of(words):
    """The closed set of a leaf, as a function of x, y, w."""
    shape = [word for word in words if word[0].isalpha()]
    numbers = [int(word) for word in words if word.lstrip("-").isdigit()]
    if shape == ["translate", "circle", "r", "sqrt"]:
        left, low, _, r2 = numbers
        return lambda x, y, w: (x - left * w) ** 2 + (y - low * w) ** 2 <= r2 * w * w
    if shape == ["translate", "square"]:
        left, low, _, wide, high = numbers
        return lambda x, y, w: 0 <= x - left * w <= wide * w and 0 <= y - low * w <= high * w
    if shape == ["multmatrix", "translate", "square"]:
        return strip_of(numbers)
    raise ValueError(f"no leaf of the plane: {''.join(words)}")


def strip_of(numbers):
    """The points o + s u + k n, with s and k in the ranges of the square: u, n and o are columns of the matrix."""
    ux, nx, _, ox, uy, ny, _, oy = numbers[:8]
    left, low, _, wide, high = numbers[16:]
    size = ux * ux + uy * uy

    def holds(x, y, w):
        along = (x - ox * w) * ux + (y - oy * w) * uy - left * size * w
        across = (x - ox * w) * nx + (y - oy * w) * ny - low * size * w
        return 0 <= along <= wide * size * w and 0 <= across <= high * size * w

    return holds
