"""CSG text: its tokens, the tree that it spells, or its first fault."""

import re
from typing import NamedTuple, NoReturn

from .texts import Refusal, lines_of
from .trees import LONG_BOX, Leaf, Node, Tree, leaf_of_box, matrix_of
from .vectors import Numbers

FREE = re.compile(rb"(?:[ \t\r\n]+|//[^\n]*)*")
TOKEN = re.compile(rb"([A-Za-z][A-Za-z0-9_]*)|(-?[0-9]+)|[(){}\[\],;=]")
LARGEST = 8_388_607
DEEPEST = 64
OPERATORS = ("union", "intersection", "difference")
TWO, THREE, FOUR = "( [ # , # ] )", "( [ # , # , # ] )", "[ # , # , # , # ]"
MATRIX = f"( [ {FOUR} , {FOUR} , {FOUR} , {FOUR} ] )"
SHAPES = {"cube": THREE, "square": TWO, "circle": "( r = sqrt ( # ) )"}


class Token(NamedTuple):
    """A token with its place; its text is empty at the end of the text."""

    text: str
    is_number: bool
    line: int
    nth: int


def fault(name: str, token: Token) -> NoReturn:
    """A fault of a CSG text at a token."""
    raise Refusal(f"{name} line {token.line} token {token.nth}")


class Reader:
    """Goes along the tokens of a text. The next token is looked at where it is asked for, and no sooner."""

    def __init__(self, text: bytes) -> None:
        self.text = text
        self.place = 0
        self.line = 1
        self.nth = 0
        self.kind: bool | None = None
        self.ahead: Token | None = None

    def peek(self) -> Token:
        """The next token, which stays."""
        if self.ahead is None:
            self.ahead = self.scan()
        return self.ahead

    def scan(self) -> Token:
        """Reads one token."""
        free = FREE.match(self.text, self.place)
        assert free is not None
        self.line += self.text.count(b"\n", self.place, free.end())
        self.place = free.end()
        self.nth += 1
        if self.place == len(self.text):
            return Token("", False, len(lines_of(self.text)) + 1, self.nth)
        found = TOKEN.match(self.text, self.place)
        if found is None:
            fault("BadToken", Token("", False, self.line, self.nth))
        self.place = found.end()
        return Token(found.group().decode(), found.group(2) is not None, self.line, self.nth)

    def next(self) -> Token:
        """The next token, which is taken."""
        token = self.peek()
        self.ahead = None
        return token

    def take(self, *wanted: str) -> Token:
        """Takes a token that has to be one of these."""
        token = self.next()
        if token.text not in wanted:
            fault("BadShape", token)
        return token

    def number(self) -> int:
        """Takes a number."""
        token = self.next()
        if not token.is_number:
            fault("BadShape", token)
        digits = token.text.lstrip("-")
        if (len(digits) > 1 and digits[0] == "0") or token.text == "-0" or len(digits) > 7 or int(digits) > LARGEST:
            fault("BadNumber", token)
        return int(token.text)

    def numbers(self, pattern: str) -> Numbers:
        """Takes the tokens of a pattern; answers the numbers that stand for its `#`."""
        result = []
        for token in pattern.split():
            if token == "#":
                result.append(self.number())
            else:
                self.take(token)
        return tuple(result)

    def leaf(self, first: Token) -> Leaf:
        """A leaf after its first name, up to its `;`."""
        matrix = self.numbers(MATRIX + " translate") if first.text == "multmatrix" else ()
        least = self.numbers(THREE)
        shape = self.take("cube", "square") if matrix else self.take(*SHAPES)
        rest = self.numbers(SHAPES[shape.text])
        self.take(";")
        leaf = framed(matrix, least, rest) if matrix else plain(least, rest)
        if leaf is None:
            fault("BadFrame", first)
        if self.kind is not None and self.kind != leaf.is_flat:
            fault("Mixed", first)
        self.kind = leaf.is_flat
        return leaf

    def node(self, depth: int = 0) -> Tree:
        """A node inside so many operators."""
        token = self.next()
        if token.text in ("translate", "multmatrix"):
            return self.leaf(token)
        if token.text not in OPERATORS:
            fault("BadShape", token)
        if depth == DEEPEST:
            fault("TooDeep", token)
        for mark in "(){":
            self.take(mark)
        kids: list[Tree] = []
        while (token.text != "union" and not kids) or self.peek().text != "}":
            kids.append(self.node(depth + 1))
        self.take("}")
        return Node(token.text, tuple(kids))


def plain(least: Numbers, rest: Numbers) -> Leaf | None:
    """The leaf of a translate and a shape, or None where the numbers are not those of one."""
    if len(rest) == 3:
        return leaf_of_box(least + rest)
    if least[2]:
        return None
    disc = Leaf("disc", least[:2] + rest)
    return leaf_of_box(least[:2] + rest) if len(rest) == 2 else disc if disc.is_lawful() else None


def framed(matrix: Numbers, least: Numbers, sides: Numbers) -> Leaf | None:
    """The leaf of a matrix, a translate and a shape, or None where the numbers are not those of one."""
    u, n, o = matrix[0:12:4], matrix[2:12:4], matrix[3:12:4]
    leaf = Leaf("strip", o[:2] + u[:2]) if len(sides) == 2 else Leaf("slab", o + n)
    rows = [matrix[at : at + 4] for at in range(0, 16, 4)]
    is_one = leaf.is_lawful() and rows == matrix_of(leaf) and (least, sides) == LONG_BOX[leaf.kind]
    return leaf if is_one else None


def read_tree(text: bytes) -> Tree:
    """The tree that a text spells, or its first fault."""
    reader = Reader(text)
    tree = reader.node()
    extra = reader.next()
    if extra.text:
        fault("Extra", extra)
    return tree
