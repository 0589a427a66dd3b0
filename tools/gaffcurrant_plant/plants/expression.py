"""Expressions over whole numbers: reading and writing (docs/FORMATS.md). Their values and bounds are in `bounds`.

A node is a tuple that begins with its kind: ('num', k), ('var', i), ('neg', a), ('abs', a), ('add', a, b), ('sub', a,
b), ('mul', a, b), ('min', a, b), ('max', a, b), ('div', a, k), ('lut', a, points) with the points as pairs."""

from __future__ import annotations

import re
from typing import Iterable, Iterator, Optional, Sequence

from ..faults import Fault
from .kinds import Node

NODES, DEPTH, BRACKETS, DIGITS = 256, 64, 64, 18
FUNCTIONS = {"min": 2, "max": 2, "abs": 1, "lut": 1}
FEWEST_POINTS, MOST_POINTS = 2, 32
TOKEN = re.compile(r"[A-Za-z][A-Za-z0-9_]*|[0-9]+|.", re.DOTALL)


def is_whole(token: str) -> bool:
    """Whether a token is a whole number."""
    return token.isdigit() and token.isascii()


def tokens_of(words: Iterable[str]) -> list[str]:
    return [token for word in words for token in TOKEN.findall(word)]


class _Reader:
    """Descends over the tokens; counts nodes, depth and open brackets as it goes."""

    def __init__(self, tokens: list[str], names: list[str], version: int) -> None:
        self.tokens, self.names, self.version = tokens, names, version
        self.at, self.nodes, self.open = 0, 0, 0

    def peek(self) -> Optional[str]:
        return self.tokens[self.at] if self.at < len(self.tokens) else None

    def take(self) -> Optional[str]:
        token = self.peek()
        self.at += 1
        return token

    def node(self, depth: int, *node: object) -> tuple[Node, int]:
        self.nodes += 1
        if self.nodes > NODES:
            raise Fault(f"the expression has more than {NODES} nodes")
        if depth > DEPTH:
            raise Fault(f"more than {DEPTH} nodes stand one below another; group the sum by brackets into parts")
        return node, depth

    def sum(self) -> tuple[Node, int]:
        left, depth = self.product()
        while self.peek() in ("+", "-"):
            kind = "add" if self.take() == "+" else "sub"
            right, other = self.product()
            left, depth = self.node(max(depth, other) + 1, kind, left, right)
        return left, depth

    def product(self) -> tuple[Node, int]:
        left, depth = self.factor()
        while self.peek() in ("*", "/"):
            if self.take() == "*":
                if self.peek() == "*":
                    raise Fault("there are no powers: write the product out, `v * v` for v squared")
                right, other = self.factor()
                left, depth = self.node(max(depth, other) + 1, "mul", left, right)
            else:
                left, depth = self.node(depth + 1, "div", left, self.divisor())
        return left, depth

    def divisor(self) -> int:
        token = self.take()
        if token is not None and is_whole(token):
            if token == "0":
                raise Fault("a quotient by 0")
            return self.literal(token)
        said = f"`{token}`" if token is not None else "nothing"
        if token in self.names:
            said += ", which varies"
        raise Fault(
            f"the divisor behind `/` is {said}; it has to be a whole number of at least 1 written out in digits"
        )

    def literal(self, token: str) -> int:
        if len(token) > 1 and token[0] == "0":
            raise Fault(f"`{token}` has a leading zero")
        if len(token) > DIGITS:
            raise Fault(f"`{token}` has more than {DIGITS} digits")
        if self.peek() == ".":
            raise Fault("real numbers aren't read; write 0.2 * v as v / 5, or 0.35 * v as 7 * v / 20")
        return int(token)

    def factor(self) -> tuple[Node, int]:
        minuses = 0
        while self.peek() == "-":
            self.take()
            minuses += 1
            if minuses > NODES:
                raise Fault(f"the expression has more than {NODES} nodes")
        node, depth = self.leaf()
        for _ in range(minuses):
            node, depth = self.node(depth + 1, "neg", node)
        return node, depth

    def leaf(self) -> tuple[Node, int]:
        token = self.take()
        if token is None:
            raise Fault("the expression ends where a number, a name or a bracket is due")
        if token == "(":
            return self.bracketed(1, "(")[0]
        if is_whole(token):
            return self.number(token)
        if token in FUNCTIONS:
            return self.called(token)
        if token in self.names:
            return self.node(1, "var", self.names.index(token))
        raise Fault(self.unknown(token))

    def number(self, token: str) -> tuple[Node, int]:
        value = self.literal(token)
        behind = self.peek()
        if behind is not None and re.match(r"[A-Za-z(]", behind):
            raise Fault(f"between `{token}` and `{behind}` a sign is due, such as `*`")
        return self.node(1, "num", value)

    def called(self, name: str) -> tuple[Node, int]:
        """What stands behind the name of a function."""
        if name == "lut" and self.version < 2:
            raise Fault("`lut` isn't known in a plant of version 1; the first line `plant 2` brings it")
        if self.take() != "(":
            raise Fault(f"behind `{name}` an opening bracket is due")
        if name == "lut":
            return self.lut()
        parts = self.bracketed(FUNCTIONS[name], name)
        return self.node(max(depth for _, depth in parts) + 1, name, *(part for part, _ in parts))

    def bracketed(self, count: int, opener: str) -> list[tuple[Node, int]]:
        self.open_bracket()
        parts = [self.sum()]
        while self.peek() == ",":
            if len(parts) == count:
                if opener in ("min", "max"):
                    raise Fault(f"`{opener}` takes two: write {opener}(a, {opener}(b, c)) for three")
                raise Fault("`abs` takes one" if opener == "abs" else "a comma stands in plain brackets")
            self.take()
            parts.append(self.sum())
        if self.peek() != ")":
            raise Fault(f"a closing bracket is due before `{self.peek()}`" if self.peek() else "a bracket is left open")
        if len(parts) < count:
            raise Fault(f"`{opener}` takes two")
        self.take()
        self.open -= 1
        return parts

    def lut(self) -> tuple[Node, int]:
        """What stands behind `lut(`: an expression, and 2 to 32 points behind commas."""
        self.open_bracket()
        part, depth = self.sum()
        points = []
        while self.peek() == ",":
            self.take()
            points.append(self.point())
        if self.take() != ")":
            raise Fault("behind the points of `lut` a closing bracket is due")
        self.open -= 1
        if not FEWEST_POINTS <= len(points) <= MOST_POINTS:
            raise Fault(f"`lut` takes {FEWEST_POINTS} to {MOST_POINTS} points `x:y`, here are {len(points)}")
        if any(one >= other for (one, _), (other, _) in zip(points, points[1:])):
            raise Fault("the first numbers of the points of `lut` rise from point to point")
        return self.node(depth + 1, "lut", part, tuple(points))

    def point(self) -> tuple[int, int]:
        x = self.signed()
        if self.take() != ":":
            raise Fault("a point of `lut` has the form `x:y`")
        return x, self.signed()

    def signed(self) -> int:
        minus = self.peek() == "-"
        if minus:
            self.take()
        token = self.take()
        if token is None or not is_whole(token):
            raise Fault("a point of `lut` is two whole numbers `x:y` written out in digits")
        if minus and token == "0":
            raise Fault("`-0` is written `0`")
        return -self.literal(token) if minus else self.literal(token)

    def open_bracket(self) -> None:
        self.open += 1
        if self.open > BRACKETS:
            raise Fault(f"more than {BRACKETS} brackets are open at once")

    def unknown(self, token: str) -> str:
        if token in ("sin", "cos", "tan", "sqrt", "exp", "log", "floor", "mod", "pow"):
            return (
                f"`{token}` isn't known: there are min, max and abs, and lut in version 2; tools/scale makes them "
                "of sines and quotients"
            )
        if re.match(r"[A-Za-z]", token):
            known = ", ".join(self.names)
            return f"`{token}` is no state, input or noise of this plant (they are {known})"
        if token == "+":
            return "a plus sign stands where a number, a name or a bracket is due"
        if token in (")", ","):
            return f"`{token}` stands where a number, a name or a bracket is due"
        if token == ".":
            return "real numbers aren't read; write 0.2 * v as v / 5, or 0.35 * v as 7 * v / 20"
        if not 0x21 <= ord(token[0]) <= 0x7E:
            return f"the byte 0x{ord(token[0]):02X} belongs to no expression"
        return f"`{token}` isn't one of + - * / ( ) ,"


def parse(words: Iterable[str], names: Iterable[str], version: int = 1) -> Node:
    """The node that the words spell in a plant of this version, where the names are the variables in their order; else
    raises Fault."""
    tokens = tokens_of(words)
    if not tokens:
        raise Fault("behind `=` an expression is due")
    reader = _Reader(tokens, list(names), version)
    node, _ = reader.sum()
    token = reader.peek()
    if token is None:
        return node
    if token == ")":
        raise Fault("a closing bracket has no opening one")
    if token == "^":
        raise Fault("there are no powers: write the product out, `v * v` for v squared")
    if token == ".":
        raise Fault("real numbers aren't read; write 0.2 * v as v / 5, or 0.35 * v as 7 * v / 20")
    if token == ",":
        raise Fault("a comma stands outside of min and max")
    if not 0x21 <= ord(token[0]) <= 0x7E:
        raise Fault(f"the byte 0x{ord(token[0]):02X} belongs to no expression")
    if token == "#":
        raise Fault("a comment needs a line of its own")
    raise Fault(f"before `{token}` a sign is due, such as `*` or `+`")


LEVELS = {"add": 1, "sub": 1, "mul": 2, "div": 2}
SIGNS = {"add": (" + ", 1, 2), "sub": (" - ", 1, 2), "mul": (" * ", 2, 3)}


def text_of(node: Node, names: Sequence[str], level: int = 1) -> str:
    """The canonical text of a node where a node of this level is asked for."""
    kind = node[0]
    if kind == "num":
        said = str(node[1])
    elif kind == "var":
        said = names[node[1]]
    elif kind == "neg":
        said = "-" + text_of(node[1], names, 3)
    elif kind in SIGNS:
        sign, first, second = SIGNS[kind]
        said = text_of(node[1], names, first) + sign + text_of(node[2], names, second)
    elif kind == "div":
        said = text_of(node[1], names, 2) + f" / {node[2]}"
    elif kind == "lut":
        said = f"lut({text_of(node[1], names)}, " + ", ".join(f"{x}:{y}" for x, y in node[2]) + ")"
    else:
        said = kind + "(" + ", ".join(text_of(part, names) for part in node[1:]) + ")"
    return f"({said})" if LEVELS.get(kind, 3) < level else said


def parts_of(node: Node) -> list[Node]:
    """The nodes right below a node."""
    return [node[1]] if node[0] == "lut" else [part for part in node[1:] if isinstance(part, tuple)]


def walk(node: Node) -> Iterator[Node]:
    """All nodes of an expression, each before its parts."""
    yield node
    for part in parts_of(node):
        yield from walk(part)


def uses_of(node: Node) -> dict[int, int]:
    """How often each variable stands in an expression, by its number."""
    uses: dict[int, int] = {}
    for one in walk(node):
        if one[0] == "var":
            uses[one[1]] = uses.get(one[1], 0) + 1
    return uses
