"""Command lines, the order of faults, and the boundaries that the bytes of each command say."""

import re
from contextlib import contextmanager
from typing import Callable, Iterator, NamedTuple, Sequence

from .contours import check_contours, read_contours
from .csg import read_tree
from .layers import Section, read_layers
from .meshes import check_mesh, read_mesh
from .tables import Boundary, audit_planes, box_leaf, box_of, check_limits, joined
from .texts import BOUNDARY_BYTES, JOINED_BYTES, TREE_BYTES, Refusal, Stop, parts_of
from .trees import Tree, is_flat, leaves_of
from .trials import MOST_STEPS, TEXTS
from .vectors import farthest

FORMULAS = ("convert", "factor")  # `carve` will stand here too: input, refusals and order are those of these
WHOLE = re.compile(r"-?[0-9]+")
DIGITS = re.compile(r"[0-9]+")


class Request(NamedTuple):
    """What the words of a command line ask for."""

    command: str
    kind: str = ""
    operation: str = ""
    point: tuple[int, ...] = ()
    steps: int = 0


class Given(NamedTuple):
    """What the bytes of a request say: boundaries, a tree, or sections of layers with a boundary each."""

    request: Request
    boundaries: tuple[Boundary, ...] = ()
    tree: Tree | None = None
    sections: tuple[Section, ...] = ()


def usage() -> Stop:
    """Words that are in no row of the command table."""
    return Stop(3, "usage: unknown command line")


def asked(word: str) -> int:
    """The number that a word of a point says, of any length; past 29 digits it is past each bound."""
    digits = word.lstrip("-0")
    size = int(digits or "0") if len(digits) < 30 else 1 << 99
    return -size if word.startswith("-") else size


def point_of(words: Sequence[str], kind: str) -> tuple[int, ...]:
    """The numbers X Y Z W of a question, where the point is looked at."""
    if not all(WHOLE.fullmatch(word) for word in words) or "-" in words[3] or not words[3].strip("0"):
        raise usage()
    point = tuple(map(asked, words))
    if farthest(point[:3]) > 1 << 60 or point[3] > 1 << 40:
        raise Refusal("PointTooFine")
    if kind == "contour" and point[2]:
        raise Refusal("PointOffPlane")
    return point


def request_of(words: Sequence[str]) -> Request:
    """The request of a command line, where it is not Usage and its point is looked at."""
    match list(words):
        case [command, ("off" | "contour") as kind] if command in FORMULAS:
            return Request(command, kind)
        case ["side", ("off" | "contour") as kind, *point] if len(point) == 4:
            return Request("side", kind, point=point_of(point, kind))
        case ["ask", *point] if len(point) == 4:
            return Request("ask", point=point_of(point, ""))
        case ["upgrade" | "audit" | "prism" as command]:
            return Request(command)
        case ["combine", ("union" | "intersection" | "difference") as operation, ("off" | "contour") as kind]:
            return Request("combine", kind, operation)
        case ["trial", ("off" | "contour") as kind, steps] if DIGITS.fullmatch(steps):
            if 1 <= asked(steps) <= MOST_STEPS[kind]:
                return Request("trial", kind, steps=asked(steps))
    raise usage()


def read_boundary(kind: str, text: bytes) -> Boundary:
    """The closed boundary that a text says."""
    if kind == "contour":
        return Boundary(kind, check_contours(read_contours(text)), [])
    return Boundary(kind, [], check_mesh(read_mesh(text)))


@contextmanager
def inside(where: str) -> Iterator[None]:
    """Refusals of what is done here are reported as those of a part of the text."""
    try:
        yield
    except Refusal as refusal:
        raise Refusal(f"{where} {refusal.why}") from None


def read_pair(request: Request, data: bytes) -> Given:
    """Two boundaries of one stream."""
    texts = parts_of(data)
    for at, text in enumerate(texts, 1):
        if len(text) > BOUNDARY_BYTES:
            raise Refusal(f"PartTooLong {at}")
    first = read_boundary(request.kind, texts[0])
    with inside("part 2"):
        second = read_boundary(request.kind, texts[1])
    check_limits(joined((first, second)))
    return Given(request, (first, second))


def read_audit(request: Request, data: bytes) -> Given:
    """A mesh and a tree of one stream."""
    first, second = parts_of(data)
    if len(first) > BOUNDARY_BYTES:
        raise Refusal("PartTooLong 1")
    mesh = read_boundary("off", first)
    with inside("part 2"):
        tree = read_tree(second)
    if is_flat(tree):
        raise Refusal("NotSolid")
    block = box_leaf(box_of(mesh))
    if any(leaf.kind == "block" and leaf != block for leaf in leaves_of(tree)):
        raise Refusal("OtherBox")
    audit_planes(mesh, tree)
    return Given(request, (mesh,), tree)


def read_sections(request: Request, data: bytes) -> Given:
    """The sections of layers, each as `convert contour` takes it."""
    sections = tuple(read_layers(data))
    boundaries = []
    for at, section in enumerate(sections):
        with inside(f"layer {at}"):
            boundaries.append(read_boundary("contour", section.text))
            check_limits(boundaries[-1])
    return Given(request, tuple(boundaries), sections=sections)


def read_asked(request: Request, data: bytes) -> Given:
    """The tree of a CSG text, on whose plane the point is where there is one."""
    tree = read_tree(data)
    if request.point and request.point[2] and is_flat(tree):
        raise Refusal("PointOffPlane")
    return Given(request, tree=tree)


def read_one(request: Request, data: bytes) -> Given:
    """One boundary, whose half-spaces are within the limits where a formula is made of it."""
    boundary = read_boundary(request.kind, data)
    if request.command in FORMULAS:
        check_limits(boundary)
    return Given(request, (boundary,))


READERS: dict[str, tuple[int, Callable[[Request, bytes], Given]]] = {
    "convert": (BOUNDARY_BYTES, read_one),
    "factor": (BOUNDARY_BYTES, read_one),
    "side": (BOUNDARY_BYTES, read_one),
    "ask": (TREE_BYTES, read_asked),
    "upgrade": (TREE_BYTES, read_asked),
    "audit": (TREE_BYTES, read_audit),
    "combine": (JOINED_BYTES, read_pair),
    "prism": (BOUNDARY_BYTES, read_sections),
}


def bytes_taken(words: Sequence[str], data: bytes) -> int:
    """How many bytes of its input a run reads: none where the words decide, one past the limit, or all."""
    try:
        request = request_of(words)
    except Stop:
        return 0
    return 0 if request.command == "trial" else min(len(data), READERS[request.command][0] + 1)


def read_given(words: Sequence[str], data: bytes) -> Given:
    """What words and bytes ask for, or the first fault in the stated order."""
    request = request_of(words)
    if request.command == "trial":
        return Given(request, (read_boundary(request.kind, TEXTS[request.kind](request.steps)),))
    most, read = READERS[request.command]
    if len(data) > most:
        raise Refusal("TooLong")
    return read(request, data)
