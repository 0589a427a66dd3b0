"""Real expressions of models: sums, products, quotients, powers, min, max, abs and functions; read from text, derived,
evaluated.

A node is a tuple whose first place is its kind: ('num', fraction), ('var', name), ('add', a, b), ('mul', a, b),
('call', function, a) with a function of CURVES, a power ('power', exponent), straight pieces ('lut', points) or their
slope ('slope', points), ('min', a, b), ('max', a, b), ('atan2', a, b), ('abs', a), ('sign', a). Nodes are made by
`made`, each once, so that what stands more than once is worked out once."""

from __future__ import annotations

import re
from fractions import Fraction
from typing import Any, Callable, Iterable, Mapping, Optional, Sequence, Union

from ..faults import Fault
from .kinds import Function, Maths, Node, Polynomial, Value
from .polynomial import added, multiplied, number_of

TOKEN = re.compile(r"\s*([A-Za-z][A-Za-z0-9_]*|(?:[0-9]+\.?[0-9]*|\.[0-9]+)(?:[eE][+-]?[0-9]+)?|.)", re.DOTALL)
OPEN = 64
CURVES = ("sin", "cos", "tan", "asin", "acos", "atan", "sinh", "cosh", "tanh", "sqrt", "exp", "log")
# Functions beside these, with how many arguments they take.
OTHERS = {"abs": 1, "min": 2, "max": 2, "atan2": 2}
# Functions that have numbers beside their name.
WITH_NUMBERS = ("power", "lut", "slope")
FEWEST_POINTS, MOST_POINTS = 2, 32
PI = Fraction("3.14159265358979323846264338327950288419716939937510582097494")
MOST_POWER, MOST_TOKENS = 12, 1000
# Functions that are looked for, and what may stand in their place.
CLIPPED = "; a piece of a line may stand for it, as max(-1, min(1, x/0.1)), and a `noise` for what that leaves out"
INSTEAD = {
    "sign": CLIPPED,
    "sgn": CLIPPED,
    "ln": "; the natural logarithm is `log`",
    "arctan": "; it is `atan`",
    "arcsin": "; it is `asin`",
    "arccos": "; it is `acos`",
    "arctan2": "; it is `atan2`",
}
_MADE: dict[tuple[object, ...], Node] = {}


def made(kind: str, *parts: object) -> Node:
    """The node with this kind and these parts; equal nodes are one."""
    key = kind, *(id(part) if isinstance(part, tuple) and part[0] not in WITH_NUMBERS else part for part in parts)
    return _MADE.setdefault(key, (kind, *parts))


def number(value: Union[int, Fraction]) -> Node:
    return made("num", Fraction(value))


ZERO, ONE = number(0), number(1)


def add(a: Node, b: Node) -> Node:
    if a == ZERO or b == ZERO:
        return b if a == ZERO else a
    if a[0] == b[0] == "num":
        return number(a[1] + b[1])
    return made("add", a, b)


def mul(a: Node, b: Node) -> Node:
    if ZERO in (a, b):
        return ZERO
    if a == ONE or b == ONE:
        return b if a == ONE else a
    if a[0] == b[0] == "num":
        return number(a[1] * b[1])
    return made("mul", a, b)


def minus(a: Node) -> Node:
    return mul(number(-1), a)


def power(a: Node, exponent: Fraction) -> Node:
    """A power by a number: products for small whole exponents, else a function."""
    if exponent.denominator == 1 and 0 <= exponent <= MOST_POWER:
        result = ONE
        for _ in range(int(exponent)):
            result = mul(result, a)
        return result
    if a[0] == "num" and exponent.denominator == 1 and a[1]:
        return number(a[1] ** int(exponent))
    return made("call", ("power", exponent), a)


def quotient(a: Node, b: Node) -> Node:
    """The quotient of two nodes. Where the divisor is p + q*z by numbers, and the dividend c + d*z, it is written as
    d/q + (c - d*p/q)/(p + q*z), which names z once: so s/(K + s) is known to intervals as well as 1/(K + s) is."""
    inverse = power(b, Fraction(-1))
    constant, factor, z = affine(b)
    parts = split(a, z) if z else None
    if not parts or parts[1] == ZERO:
        return mul(a, inverse)
    c, d = parts[0], mul(number(1 / factor), parts[1])
    rest = add(c, mul(number(-constant), d))
    # A divisor that would be gone has to keep off 0 still.
    return mul(a, inverse) if rest == ZERO else add(d, mul(rest, inverse))


def affine(node: Node) -> tuple[Fraction, Fraction, Optional[Node]]:
    """Numbers p and q and a node z, so that a node is p + q*z; z is None where the node is no such sum."""
    kind = node[0]
    if kind == "num":
        return node[1], Fraction(0), None
    if kind == "add":
        (p, q, z), (other_p, other_q, other_z) = map(affine, node[1:])
        return (p + other_p, q or other_q, z or other_z) if not (z and other_z) else (Fraction(0), Fraction(1), None)
    if kind == "mul" and node[1][0] == "num":
        p, q, z = affine(node[2])
        return p * node[1][1], q * node[1][1], z
    return Fraction(0), Fraction(1), node


def split(node: Node, z: Node) -> Optional[tuple[Node, Node]]:
    """Nodes c and d, so that a node is c + d*z; None where z stands in it in other ways."""
    if node is z:
        return ZERO, ONE
    if not names_of(node) & names_of(z):
        return node, ZERO
    if node[0] not in ("add", "mul"):
        return None
    parts = [split(part, z) for part in node[1:]]
    if parts[0] is None or parts[1] is None:
        return None
    (c, d), (other_c, other_d) = parts[0], parts[1]
    if node[0] == "add":
        return add(c, other_c), add(d, other_d)
    if d != ZERO and other_d != ZERO:
        return None
    return mul(c, other_c), add(mul(d, other_c), mul(c, other_d))


class _Reader:
    def __init__(self, text: str, names: Sequence[str], parameters: Mapping[str, Fraction]) -> None:
        self.tokens = [token for token in TOKEN.findall(text.strip())]
        self.names, self.parameters, self.at, self.open = names, parameters, 0, 0

    def peek(self) -> Optional[str]:
        return self.tokens[self.at] if self.at < len(self.tokens) else None

    def take(self) -> Optional[str]:
        token = self.peek()
        self.at += 1
        return token

    def sum(self) -> Node:
        total = self.product()
        while self.peek() in ("+", "-"):
            is_minus = self.take() == "-"
            other = self.product()
            total = add(total, minus(other) if is_minus else other)
        return total

    def product(self) -> Node:
        total = self.factor()
        while self.peek() in ("*", "/"):
            if self.take() == "*":
                total = mul(total, self.factor())
            else:
                divisor = self.factor()
                if divisor == ZERO:
                    raise Fault("a quotient by 0")
                total = quotient(total, divisor)
        return total

    def factor(self) -> Node:
        if self.peek() == "-":
            self.deeper()
            self.take()
            result = minus(self.factor())
            self.open -= 1
            return result
        base = self.leaf()
        if self.peek() != "^":
            return base
        self.take()
        exponent = self.factor()
        if exponent[0] != "num":
            raise Fault("the exponent behind `^` is a number, without variables")
        return power(base, exponent[1])

    def unexpected(self) -> str:
        """What to say of the token behind a whole expression."""
        token, before = self.tokens[self.at], self.tokens[self.at - 1]
        if token[0].isalnum() or token == "(":
            return (
                f"between `{before}` and `{token}` a sign is due, as in {before} * {token if token != '(' else '(..)'}"
            )
        if token == ",":
            return "`,` isn't expected; decimals stand behind a point, as in 0.5"
        return f"`{token}` isn't expected"

    def deeper(self) -> None:
        self.open += 1
        if self.open > OPEN:
            raise Fault(f"more than {OPEN} brackets are open at once")

    def leaf(self) -> Node:
        token = self.take()
        if token is None:
            raise Fault("the expression ends where a number, a name or a bracket is due")
        if token == "(":
            return self.bracketed(1, "(")[0]
        if token in self.names:
            return made("var", token)
        if token in self.parameters:
            return number(self.parameters[token])
        if re.match(r"[0-9.]", token):
            return number(number_of(token))
        if token == "pi":
            return number(PI)
        if token in CURVES or token in OTHERS:
            return self.called(token)
        if token == "lut":
            return self.lut()
        if not token[0].isalpha():
            raise Fault(f"`{token}` isn't expected")
        if self.peek() == "(":
            raise Fault(
                f"the function `{token}` isn't known; there are {', '.join(CURVES + tuple(OTHERS))}, lut"
                + INSTEAD.get(token.lower(), "")
            )
        raise Fault(f"`{token}` is no variable of this model; they are {', '.join(self.names)}")

    def called(self, name: str) -> Node:
        if self.take() != "(":
            raise Fault(f"behind `{name}` an opening bracket is due")
        parts = self.bracketed(OTHERS.get(name, 1), name)
        return made(name, *parts) if name in OTHERS else made("call", name, parts[0])

    def lut(self) -> Node:
        """Straight pieces between points: `lut(a, x0, y0, x1, y1, ..)`."""
        if self.take() != "(":
            raise Fault("behind `lut` an opening bracket is due")
        argument, *numbers = self.listed()
        if any(one[0] != "num" for one in numbers):
            raise Fault("behind its first comma `lut` takes numbers, x and y of each point")
        points = tuple(zip(*[iter(one[1] for one in numbers)] * 2))
        if len(numbers) % 2 or not FEWEST_POINTS <= len(points) <= MOST_POINTS:
            raise Fault(
                f"`lut(a, x0, y0, x1, y1, ..)` takes {FEWEST_POINTS} to {MOST_POINTS} points, two numbers each; "
                f"here are {len(numbers)} numbers"
            )
        if any(one >= other for (one, _), (other, _) in zip(points, points[1:])):
            raise Fault("the first numbers of the points of `lut` rise from point to point")
        return made("call", ("lut", points), argument)

    def listed(self) -> list[Node]:
        """The expressions up to a closing bracket."""
        self.deeper()
        parts = [self.sum()]
        while self.peek() == ",":
            self.take()
            parts.append(self.sum())
        if self.take() != ")":
            raise Fault("a bracket is left open")
        self.open -= 1
        return parts

    def bracketed(self, count: int, opener: str) -> list[Node]:
        parts = self.listed()
        if len(parts) != count:
            raise Fault(f"`{opener}` takes {count}, here are {len(parts)}")
        return parts


def parse(text: str, names: Sequence[str], parameters: Optional[Mapping[str, Fraction]] = None) -> Node:
    """The node that a text spells over the names, and over parameters, which are numbers; else raises Fault."""
    reader = _Reader(text.replace("**", "^"), names, parameters or {})
    if not reader.tokens:
        raise Fault("an expression is due, and nothing stands there")
    if len(reader.tokens) > MOST_TOKENS:
        raise Fault(f"the expression has more than {MOST_TOKENS} names, numbers and signs")
    node = reader.sum()
    if reader.peek() is not None:
        raise Fault(reader.unexpected())
    return node


def parts_of(node: Node) -> Sequence[Node]:
    """The nodes right below a node."""
    return {"num": (), "var": (), "call": node[2:]}.get(node[0], node[1:])


def polynomial_of(node: Node, other: Callable[[Node], Polynomial]) -> Polynomial:
    """The node as a polynomial, where `other` gives that of a node which is no number, variable, sum or product."""
    kind = node[0]
    if kind == "num":
        return added({}, {(): node[1]})
    if kind == "var":
        return {(node[1],): Fraction(1)}
    if kind in ("add", "mul"):
        left, right = (polynomial_of(part, other) for part in node[1:])
        return added(left, right) if kind == "add" else multiplied(left, right)
    return other(node)


_NAMES: dict[int, tuple[Node, frozenset[str]]] = {}


def names_of(node: Node) -> frozenset[str]:
    """The variables that a node names."""
    if id(node) not in _NAMES:
        # The node is kept beside its names, so that no other one gets its number.
        below = [names_of(part) for part in parts_of(node)]
        _NAMES[id(node)] = node, frozenset([node[1]]) if node[0] == "var" else frozenset().union(*below)
    return _NAMES[id(node)][1]


def is_smooth(node: Node, held: Iterable[str] = ()) -> bool:
    """Whether it has no min, max, abs and lut but of variables that are held."""
    if node[0] in ("min", "max", "abs") or node[0] == "call" and node[1][0] == "lut":
        return names_of(node) <= set(held)
    return all(is_smooth(part, held) for part in parts_of(node))


def replaced(node: Node, nodes: Mapping[str, Node]) -> Node:
    """The node with others in the place of some variables."""
    if node[0] == "var":
        return nodes.get(node[1], node)
    parts = [replaced(part, nodes) for part in parts_of(node)]
    if node[0] == "add":
        return add(*parts)
    if node[0] == "mul":
        return mul(*parts)
    return made(*node[: len(node) - len(parts)], *parts)


def derivative(node: Node, name: str) -> Node:
    """The derivative by a variable; that of abs, min and max has `sign` in it, anything from -1 to 1 where its argument
    may be 0."""
    kind = node[0]
    if kind in ("num", "var"):
        return ONE if node[:2] == ("var", name) else ZERO
    if kind == "call":
        return mul(outer_derivative(node[1], node[2]), derivative(node[2], name))
    if kind == "abs":
        return mul(made("sign", node[1]), derivative(node[1], name))
    a, b = node[1:]
    left, right = derivative(a, name), derivative(b, name)
    if kind == "atan2":
        return mul(add(mul(b, left), minus(mul(a, right))), power(add(mul(a, a), mul(b, b)), Fraction(-1)))
    if kind == "add":
        return add(left, right)
    if kind == "mul":
        return add(mul(left, b), mul(a, right))
    # max(a, b) is (a + b + |a - b|) / 2, and min(a, b) with a minus there.
    turned = mul(made("sign", add(a, minus(b))), add(left, minus(right)))
    return mul(number(Fraction(1, 2)), add(add(left, right), turned if kind == "max" else minus(turned)))


def outer_derivative(function: Function, a: Node) -> Node:
    """The derivative of a function at a node."""
    if not isinstance(function, str):
        if function[0] == "power":
            return mul(number(function[1]), power(a, function[1] - 1))
        # The slope stays as it is along each piece.
        return made("call", ("slope", function[1]), a) if function[0] == "lut" else ZERO
    square, itself = mul(a, a), made("call", function, a)
    derivatives: dict[str, Callable[[], Node]] = {
        "sin": lambda: made("call", "cos", a),
        "cos": lambda: minus(made("call", "sin", a)),
        "tan": lambda: add(ONE, mul(itself, itself)),
        "asin": lambda: power(add(ONE, minus(square)), Fraction(-1, 2)),
        "acos": lambda: minus(power(add(ONE, minus(square)), Fraction(-1, 2))),
        "atan": lambda: power(add(ONE, square), Fraction(-1)),
        "sinh": lambda: made("call", "cosh", a),
        "cosh": lambda: made("call", "sinh", a),
        "tanh": lambda: add(ONE, minus(mul(itself, itself))),
        "exp": lambda: itself,
        "log": lambda: power(a, Fraction(-1)),
        "sqrt": lambda: mul(number(Fraction(1, 2)), power(a, Fraction(-1, 2))),
    }
    return derivatives[function]()


def text_of(node: Node) -> str:
    """A node as a model writes it, for messages."""
    kind = node[0]
    if kind == "num":
        return f"{float(node[1]):.6g}"
    if kind == "var":
        return str(node[1])
    parts = [text_of(part) for part in parts_of(node)]
    if kind == "add":
        return f"{parts[0]} - {parts[1][1:]}" if parts[1].startswith("-") else f"{parts[0]} + {parts[1]}"
    if kind == "mul":
        return f"-{factor_text(node[2])}" if node[1] == number(-1) else " * ".join(map(factor_text, node[1:]))
    if kind == "call" and node[1][0] in ("lut", "slope"):
        return f"{node[1][0]}({parts[0]}, {', '.join(f'{float(end):g}' for point in node[1][1] for end in point)})"
    if kind == "call" and not isinstance(node[1], str):
        return f"1 / {factor_text(node[2])}" if node[1][1] == -1 else f"{factor_text(node[2])}^{float(node[1][1]):g}"
    return f"{node[1] if kind == 'call' else kind}({', '.join(parts)})"


def factor_text(node: Node) -> str:
    return f"({text_of(node)})" if node[0] in ("add", "mul") else text_of(node)


def value_of(
    node: Node, values: Mapping[str, Value], maths: Maths[Value], known: Optional[dict[int, Value]] = None
) -> Value:
    """The value where `values` has the variables' and `maths` the functions and the numbers: real numbers or intervals.
    `known` has the values that were found before by the same of both."""
    if node[0] == "num":
        return maths.number(node[1])
    if node[0] == "var":
        return values[node[1]]
    known = {} if known is None else known
    if id(node) not in known:
        known[id(node)] = worked_out(node, values, maths, known)
    return known[id(node)]


def worked_out(node: Node, values: Mapping[str, Value], maths: Maths[Value], known: dict[int, Value]) -> Value:
    """The value of a node that is no number and no variable."""
    kind = node[0]
    if kind == "call":
        return maths.call(node[1], value_of(node[2], values, maths, known), node[2])
    # Each kind of value can be added and multiplied.
    parts: list[Any] = [value_of(part, values, maths, known) for part in parts_of(node)]
    value: Value
    if kind == "add":
        value = parts[0] + parts[1]
    elif kind == "mul":
        value = maths.square(parts[0]) if node[1] is node[2] else parts[0] * parts[1]
    elif kind == "atan2":
        value = maths.atan2(parts[0], parts[1], node)
    else:
        value = getattr(maths, {"min": "least", "max": "greatest", "abs": "size", "sign": "sign"}[kind])(*parts)
    return value
