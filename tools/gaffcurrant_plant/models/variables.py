"""What the equations of a model may name: its variables, and those that stand for its functions and for the states
behind a step of a sample."""

from __future__ import annotations

import math
import re
from fractions import Fraction
from typing import TYPE_CHECKING, Callable, Hashable, Optional, Sequence

from ..faults import Trouble
from ..plants.expression import MOST_POINTS
from ..plants.reader import TEXT_LIMIT, too_long
from .arithmetic import is_exact
from .curves import Argument, as_lines, as_lut, combined, curve_of, hull, intervals, product, unit_for
from .formula import PI, add, made, minus, mul, names_of, number, parts_of, polynomial_of, power, text_of, value_of
from .kinds import Ends, Function, ModelState, Node, Polynomial, Side, Whole as WholeEnd
from .nested_equation import Nested, is_curved
from .polynomial import added
from .scaled_equation import NEVER, Scaled, Terms
from .taylor_sampling import BESIDE

if TYPE_CHECKING:
    from .model import Model

# The points of a `lut` that is a whole text.
LAST_POINTS = re.compile(r"(, -?[0-9]+:-?[0-9]+)+\)\Z")
# Units of a state behind a step of a sample, in one of the state's own.
FINER = 10
# The greatest power of ten that is a denominator.
MOST_PLACES = 15
# Bits of a denominator from which on an end is rounded outward, to one of so many bits: each step of a sample would
# square it.
LONG, SHORT = 200, 80


class Variable:
    """What an equation may name: low and high are the ends of its whole number (of a noise those of its real value),
    error the ends of real value / unit - whole number, text how the plant writes it."""

    def __init__(
        self,
        kind: str,
        unit: Fraction,
        low: WholeEnd,
        high: WholeEnd,
        error: Ends = NEVER,
        text: str = "",
        choices: Optional[set[Fraction]] = None,
    ) -> None:
        self.kind, self.unit = kind, unit
        (self.low, self.high), self.error = outward(Fraction(low), Fraction(high)), outward(*error)
        self.text, self.choices = text, choices

    def around(self) -> Ends:
        """Where real value / unit lies."""
        return self.low + self.error[0], self.high + self.error[1]

    def less(self, middle: int) -> Variable:
        """The variable less a whole number; a `lut` has it in its points."""
        points = LAST_POINTS.search(self.text)
        if self.kind in ("curve", "listed") and points:
            text = self.text[: points.start()] + re.sub(
                r":(-?[0-9]+)", lambda found: f":{int(found[1]) - middle}", points[0]
            )
        else:
            text = f"({self.text} {'-' if middle > 0 else '+'} {abs(middle)})"
        choices = {value - middle for value in self.choices} if self.choices else None
        return Variable(self.kind, self.unit, self.low - middle, self.high - middle, self.error, text, choices)


class Room:
    """The variables of a model, and those that stand for its functions, of which each is made once."""

    def __init__(self, model: Model, pieces: int, is_nested: bool) -> None:
        self.version, self.pieces, self.is_nested = model.version, pieces, is_nested
        self.curves: dict[Hashable, str] = {}
        # Whether a polynomial came up that has products of what varies.
        self.has_products = False
        self.variables: dict[str, Variable] = {}
        for name, low, high, _, unit in model.states:
            error = NEVER if name in model.exact else (-BESIDE, 1 + BESIDE)
            self.variables[name] = Variable("state", unit, low / unit, high / unit - 1, error, name)
        for name, unit, values in model.inputs:
            whole = {value / unit for value in values}
            self.variables[name] = Variable("input", unit, min(whole), max(whole), NEVER, name, whole)
        for name, low, high in model.noises:
            self.variables[name] = Variable("noise", Fraction(1), low, high)

    def flattened(self, equation: Side) -> Polynomial:
        """A formula as a polynomial of variables, with a new variable for each of its functions; a polynomial stays as
        it is."""
        return equation if isinstance(equation, dict) else polynomial_of(self.gathered(equation), self.replaced)

    def varies(self, name: str) -> bool:
        """Whether a variable is none of the inputs, whose values are known, and no noise."""
        return self.variables[name].kind not in ("input", "listed", "noise")

    def form_of(self, equation: Polynomial) -> type[Scaled]:
        """The class that writes an equation."""
        has_products = is_curved(self, equation)
        self.has_products = self.has_products or has_products
        return Nested if has_products and self.is_nested else Scaled

    def gathered(self, node: Node) -> Node:
        """A formula with a variable in the place of each function of one input alone, as large as it is."""
        names = list(names_of(node))
        if len(names) == 1 and self.variables[names[0]].kind == "input":
            values = sorted(self.variables[names[0]].choices or ())
            if is_exact(node) or len(values) > (MOST_POINTS if self.version > 1 else self.pieces + 1):
                return node
            (((name,), _),) = self.named(("listed", id(node)), lambda: self.made_list(node, names[0], values)).items()
            return made("var", name)
        return made(*node[: len(node) - len(parts_of(node))], *map(self.gathered, parts_of(node))) if names else node

    def replaced(self, node: Node) -> Polynomial:
        """The polynomial for a function, min, max or abs."""
        if node[0] == "call":
            return self.curve(node[1], self.flattened(node[2]), text_of(node[2]))
        if node[0] == "atan2":
            return self.flattened(self.turned(node, [self.range_of(self.flattened(part)) for part in node[1:]]))
        return self.chosen(node[0], [self.flattened(part) for part in node[1:]])

    def named(self, key: Hashable, make: Callable[[], Variable]) -> Polynomial:
        """The polynomial of a variable that stands for a function, made where it isn't there yet."""
        if key not in self.curves:
            self.curves[key] = f"@{len(self.curves)}"
            self.variables[self.curves[key]] = make()
        return {(self.curves[key],): Fraction(1)}

    def curve(self, function: Function, argument: Polynomial, said: str) -> Polynomial:
        key = function, tuple(sorted(argument.items()))
        return self.named(key, lambda: self.made_curve(function, argument, said))

    def made_curve(self, function: Function, argument: Polynomial, said: str) -> Variable:
        whole = Whole(self, argument)
        curve = curve_of(function, Argument(whole.unit, whole.low, whole.high, whole.error), self.pieces, said)
        text, (low, high), error = (as_lut if self.version > 1 else as_lines)(curve, whole.text)
        return Variable("curve", curve.unit_out, low, high, error, text)

    def turned(self, node: Node, ranges: Sequence[Ends]) -> Node:
        """atan2(y, x) by atan, where x is above 0, or y keeps off it."""
        (_, y, x), ((low, high), (least, _)) = node, ranges
        if least > 0:
            return made("call", "atan", mul(y, power(x, Fraction(-1))))
        if low > 0 or high < 0:
            quarter = number(PI / 2 if low > 0 else -PI / 2)
            return add(quarter, minus(made("call", "atan", mul(x, power(y, Fraction(-1))))))
        raise Trouble(
            f"`{text_of(node)}`: its second argument has to be above 0, or its first to keep off 0, over the "
            "ranges; else it jumps"
        )

    def made_list(self, node: Node, name: str, values: Sequence[Fraction]) -> Variable:
        """The variable of a function of one input alone: what it is at the input's listed values, to a part of some
        20,000 of its range."""
        unit, points = self.variables[name].unit, [values[0] + k for k in range(2)] if len(values) == 1 else values
        maths = intervals()
        ends = [
            maths.ends(value_of(node, {name: maths.number(min(point, values[-1]) * unit)}, maths)) for point in points
        ]
        listed = Listed([int(point) for point in points], ends, unit_for(hull(ends)))
        if self.version == 1:
            text, (low, high), error = as_lines(listed, name)
            return Variable("curve", listed.unit_out, low, high, error, text)
        text, (low, high), _ = as_lut(listed, name)
        choices = {Fraction(y) for _, y in listed.points}
        return Variable("listed", listed.unit_out, low, high, listed.error_out, text, choices)

    def chosen(self, kind: str, parts: Sequence[Polynomial]) -> Polynomial:
        """min, max or abs of polynomials."""
        return self.named(
            (kind, tuple(tuple(sorted(part.items())) for part in parts)), lambda: self.made_choice(kind, parts)
        )

    def made_choice(self, kind: str, parts: Sequence[Polynomial]) -> Variable:
        unit = min((self.own_unit(part) for part in parts), key=lambda one: one)
        wholes = [Whole(self, part, unit) for part in parts]
        texts = ", ".join(whole.text for whole in wholes)
        if kind == "abs":
            low, high = wholes[0].low, wholes[0].high
            most = max(abs(end) for end in wholes[0].error)
            least = max(low, -high, 0)
            return Variable("curve", unit, least, max(-low, high), (-most, most), f"abs({texts})")
        ends = min if kind == "min" else max
        return Variable(
            "curve",
            unit,
            ends(one.low for one in wholes),
            ends(one.high for one in wholes),
            hull([one.error for one in wholes]),
            f"{kind}({texts})",
        )

    def behind_step(self, state: ModelState, step: int, equation: Polynomial, ends: Ends) -> Node:
        """The formula of a state behind a step of a sample, whose real value lies between the ends. About the middles
        of the ranges a number is apart."""
        name, *_, unit = state
        middle = round((ends[0] + ends[1]) / 2 / unit) * unit if self.is_nested else Fraction(0)
        ends_about = ends[0] - middle, ends[1] - middle
        whole = Whole(self, added(equation, {(): -middle}), unit / FINER, ends_about)
        # Each step writes those before it several times.
        if len(whole.text) > TEXT_LIMIT:
            raise too_long()
        key = f"@step {step} {name}"
        self.variables[key] = Variable("step", whole.unit, whole.low, whole.high, whole.error, bracketed(whole.text))
        return add(made("var", key), number(middle))

    def about_middle(self, name: str) -> tuple[str, int]:
        """The name of a variable less the whole number in the middle of its range, and that number; the variable itself
        where 0 is near the middle."""
        variable = self.variables[name]
        middle = round((variable.low + variable.high) / 2)
        if abs(middle) * 20 <= variable.high - variable.low:
            return name, 0
        key = f"{name} about {middle}"
        if key not in self.variables:
            self.variables[key] = variable.less(middle)
        return key, middle

    def range_of(self, argument: Polynomial) -> Ends:
        """The ends of the real value of a polynomial."""
        total = NEVER
        for monomial, coefficient in argument.items():
            interval = (coefficient, coefficient)
            for name in monomial:
                variable = self.variables[name]
                low, high = variable.around()
                interval = product(interval, (low * variable.unit, high * variable.unit))
            total = combined(total, interval)
        return total

    def own_unit(self, argument: Polynomial) -> Fraction:
        """The unit of a variable that stands alone, else one that is fine beside the range."""
        single = single_of(argument)
        return (
            self.variables[single].unit
            if single and self.variables[single].kind != "noise"
            else unit_for(self.range_of(argument))
        )


def outward(low: Fraction, high: Fraction) -> Ends:
    """Two ends; where they have long denominators, ends of shorter ones that hold them."""
    return (low if is_short(low) else Fraction(math.floor(low * 2**SHORT), 2**SHORT)), (
        high if is_short(high) else Fraction(math.ceil(high * 2**SHORT), 2**SHORT)
    )


def is_short(end: Fraction) -> bool:
    return end.denominator.bit_length() <= LONG


def single_of(argument: Polynomial) -> Optional[str]:
    """The variable that a polynomial is, or None."""
    if len(argument) == 1:
        ((monomial, coefficient),) = argument.items()
        if len(monomial) == 1 and coefficient == 1:
            return monomial[0]
    return None


class Listed:
    """A function at listed whole numbers, by the ends of its values there: its points in a unit, as of a Curve."""

    def __init__(self, xs: Sequence[int], ends: Sequence[Ends], unit: Fraction) -> None:
        self.first, self.last, self.unit_out = xs[0], xs[-1], unit
        self.points = [(x, round((low + high) / 2 / unit)) for x, (low, high) in zip(xs, ends)]
        self.error_out = hull([(low / unit - y, high / unit - y) for (low, high), (_, y) in zip(ends, self.points)])


class Whole:
    """A polynomial as a whole number of units: its text, ends and error. The ends of its real value may be given."""

    def __init__(
        self, room: Room, argument: Polynomial, unit: Optional[Fraction] = None, ends: Optional[Ends] = None
    ) -> None:
        single = single_of(argument)
        self.unit = unit or room.own_unit(argument)
        variable = room.variables[single] if single else None
        if variable and variable.kind != "noise" and variable.unit == self.unit:
            self.text, self.error, self.low, self.high = (
                variable.text,
                variable.error,
                int(variable.low),
                int(variable.high),
            )
            return
        scaled = finest(room, argument, self.unit)
        self.text, self.error = scaled.text(), scaled.error()
        low, high = (end / self.unit for end in ends or room.range_of(argument))
        self.low, self.high = math.floor(low - self.error[1]), math.ceil(high - self.error[0])


def bracketed(text: str) -> str:
    """A text that may stand as a factor."""
    return text if text.isidentifier() else f"({text})"


def finest(room: Room, equation: Polynomial, unit: Fraction, name: str = "") -> Scaled:
    """The equation over the least power of ten whose rounding is at most a tenth of a unit, else over the one whose
    rounding is the least."""
    form = room.form_of(equation)
    terms = Terms(room, equation, unit, form is Nested)
    best = form(terms, 1, name)
    for places in range(1, MOST_PLACES + 1):
        if best.rounding <= Fraction(1, 10):
            break
        scaled = form(terms, 10**places, name)
        if not scaled.is_short():
            break
        if scaled.rounding < best.rounding:
            best = scaled
    return best
