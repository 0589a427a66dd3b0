"""The functions of formulas over real numbers, as floats, and over intervals that hold every value for sure, by
mpmath's interval arithmetic (Debian: python3-mpmath)."""

from __future__ import annotations

import bisect
import math
from fractions import Fraction
from typing import Any, Callable, overload

from ..faults import Trouble
from .formula import parts_of, text_of
from .kinds import Ends, Function, Interval, Node, Real, RealPoints


# Ends of intervals are fractions: a number of more bits before or behind the point would fill the memory, and help no
# plant.
MOST_BITS, FEWEST_BITS = 1000, 20_000


def load_mpmath() -> Any:
    """mpmath's intervals; raises Trouble where it isn't there."""
    try:
        import mpmath
    except ImportError:
        raise Trouble(
            "functions and differential equations need mpmath; on Debian: apt-get install python3-mpmath"
        ) from None
    mpmath.iv.prec = 80
    return mpmath.iv


@overload
def lut_value(points: RealPoints, value: Fraction) -> Fraction:
    ...


@overload
def lut_value(points: RealPoints, value: Real) -> Real:
    ...


def lut_value(points: RealPoints, value: Real) -> Real:
    """The value of straight pieces between points: beyond them the first or the last one's."""
    k = bisect.bisect_right([x for x, _ in points], value)
    if k in (0, len(points)):
        return points[min(k, len(points) - 1)][1]
    (x, y), (next_x, next_y) = points[k - 1], points[k]
    return y + (next_y - y) / (next_x - x) * (value - x)


def lut_ends(points: RealPoints, low: Fraction, high: Fraction) -> Ends:
    """The ends of the values of straight pieces from low to high."""
    values = [lut_value(points, low), lut_value(points, high)] + [y for x, y in points if low < x < high]
    return min(values), max(values)


def slope_ends(points: RealPoints, low: Real, high: Real) -> Ends:
    """The ends of the slopes of the straight pieces that meet what lies from low to high."""
    slopes = [
        (next_y - y) / (next_x - x)
        for (x, y), (next_x, next_y) in zip(points, points[1:])
        if x <= high and low <= next_x
    ]
    slopes += [Fraction(0)] * (low <= points[0][0] or high >= points[-1][0])
    return min(slopes), max(slopes)


class Floats:
    """Real numbers as floats."""

    least, greatest, size = staticmethod(min), staticmethod(max), staticmethod(abs)

    @staticmethod
    def number(value: Fraction) -> Real:
        return float(value)

    @staticmethod
    def square(value: Real) -> Real:
        return value * value

    @staticmethod
    def sign(value: Real) -> int:
        return (value > 0) - (value < 0)

    @staticmethod
    def held(_: object, new: Real) -> Real:
        return new

    @staticmethod
    def atan2(one: Real, other: Real, _: object) -> Real:
        return math.atan2(one, other)

    @staticmethod
    def call(function: Function, value: Real, _: object) -> Real:
        """A function's value, no number where it has none."""
        try:
            if isinstance(function, str):
                found = getattr(math, function)(value)
            elif function[0] == "lut":
                found = float(lut_value(function[1], value))
            elif function[0] == "slope":
                found = float(slope_ends(function[1], value, value)[1])
            else:
                found = value ** float(function[1])
        except (ArithmeticError, ValueError):
            return math.nan
        return found if isinstance(found, float) else math.nan


class Exact(Floats):
    """Fractions, for formulas without functions."""

    @staticmethod
    def number(value: Fraction) -> Real:
        return value


def is_exact(node: Node) -> bool:
    """Whether a formula has sums, products, min, max and abs alone."""
    return node[0] not in ("call", "atan2") and all(map(is_exact, parts_of(node)))


class Intervals:
    """Intervals by mpmath, from fractions and back."""

    def __init__(self) -> None:
        self.iv = load_mpmath()
        self.numbers: dict[Fraction, Interval] = {}

    def number(self, value: Fraction) -> Interval:
        if value not in self.numbers:
            exact = Fraction(value)
            self.numbers[value] = self.iv.mpf(exact.numerator) / self.iv.mpf(exact.denominator)
        return self.numbers[value]

    def between(self, low: Fraction, high: Fraction) -> Interval:
        return self.hull(self.number(low), self.number(high))

    def hull(self, *intervals: Interval) -> Interval:
        return self.iv.mpf([min(one.a for one in intervals), max(one.b for one in intervals)])

    def common(self, one: Interval, other: Interval) -> Interval:
        """The common part of two intervals that both hold a value."""
        return self.iv.mpf([max(one.a, other.a), min(one.b, other.b)])

    def ends(self, interval: Interval) -> Ends:
        """The two ends as fractions; raises Trouble where one is infinite."""
        low, high = interval._mpi_
        return fraction_of(low), fraction_of(high)

    def square(self, value: Interval) -> Interval:
        return value**2

    def size(self, value: Interval) -> Interval:
        low, high = value.a, value.b
        if low >= 0:
            return value
        return -value if high <= 0 else self.iv.mpf([0, max(-low, high)])

    def least(self, one: Interval, other: Interval) -> Interval:
        return self.iv.mpf([min(one.a, other.a), min(one.b, other.b)])

    def greatest(self, one: Interval, other: Interval) -> Interval:
        return self.iv.mpf([max(one.a, other.a), max(one.b, other.b)])

    def sign(self, value: Interval) -> Interval:
        return self.iv.mpf(
            [-1 if value.a < 0 else 0 if value.a == 0 else 1, 1 if value.b > 0 else 0 if value.b == 0 else -1]
        )

    # Functions that rise or fall all over, but for cosh, from those that mpmath has for intervals.
    BY_ENDS: dict[str, Callable[[Any, Interval], Interval]] = {
        "atan": lambda iv, x: iv.atan2(x, iv.mpf(1)),
        "asin": lambda iv, x: iv.atan2(x, iv.sqrt(1 - x**2)),
        "acos": lambda iv, x: iv.atan2(iv.sqrt(1 - x**2), x),
        "sinh": lambda iv, x: (iv.exp(x) - iv.exp(-x)) / 2,
        "cosh": lambda iv, x: (iv.exp(x) + iv.exp(-x)) / 2,
        "tanh": lambda iv, x: 1 - 2 / (iv.exp(2 * x) + 1),
    }

    def by_ends(self, name: str, value: Interval) -> Interval:
        """A function that rises or falls all over, by the interval's ends; cosh has its least value, 1, at 0."""
        at_ends = [self.BY_ENDS[name](self.iv, self.iv.mpf([end, end])) for end in (value.a, value.b)]
        least = [self.iv.mpf(1)] if name == "cosh" and value.a <= 0 <= value.b else []
        return self.hull(*at_ends, *least)

    def atan2(self, one: Interval, other: Interval, node: Node) -> Interval:
        if one.a <= 0 <= one.b and other.a <= 0:
            raise Trouble(
                f"`{text_of(node)}` jumps where its first argument is 0 and its second below it, and these may "
                "be so; narrower ranges do it"
            )
        return self.iv.atan2(one, other)

    def call(self, function: Function, value: Interval, argument: Node) -> Interval:
        low, high = self.ends(value)
        if not isinstance(function, str):
            if function[0] in ("lut", "slope"):
                return self.between(*(lut_ends if function[0] == "lut" else slope_ends)(function[1], low, high))
            return self.power(function, value, low, high, argument)
        self.check_domain(function, value, low, high, argument)
        return self.by_ends(function, value) if function in self.BY_ENDS else getattr(self.iv, function)(value)

    def check_domain(self, name: str, value: Interval, low: Fraction, high: Fraction, argument: Node) -> None:
        """Raises Trouble where a function has no value, or a pole, in an interval."""
        text, ends = text_of(argument), f"may lie between {float(low):.4g} and {float(high):.4g}"
        if name in ("sqrt", "log") and low <= 0:
            raise Trouble(off_zero(name, low, high, argument))
        if name == "tan" and (high - low >= 3 or self.iv.cos(value).a <= 0 <= self.iv.cos(value).b):
            raise Trouble(
                f"what stands in `tan({text})` {ends}, with a pole between; a narrower range does it, or "
                f"tan(max(-1.5, min(1.5, {text})))"
            )
        if name in ("asin", "acos") and not -1 < low <= high < 1:
            raise Trouble(
                f"what stands in `{name}({text})` {ends}, and has to be within -1 and 1; {name}(max(-0.999, "
                f"min(0.999, {text}))) does it"
            )

    def power(
        self, function: tuple[str, Fraction], value: Interval, low: Fraction, high: Fraction, argument: Node
    ) -> Interval:
        """A power by a number; raises Trouble where it has none."""
        exponent = function[1]
        is_whole = exponent.denominator == 1
        if low <= 0 and (not is_whole or high >= 0):
            raise Trouble(off_zero(function, low, high, argument))
        if is_whole:
            return 1 / value ** int(-exponent) if exponent < 0 else value ** int(exponent)
        return self.iv.exp(self.iv.log(value) * self.number(exponent))


def off_zero(function: Function, low: Fraction, high: Fraction, argument: Node) -> str:
    """What to say of a root, a logarithm or a quotient whose argument may be 0, or below it, and what would do."""
    text, least = text_of(argument), f"{max(float(high), 1.0) / 100:.1g}"
    ends = f"between {float(low):.4g} and {float(high):.4g}"
    if function == ("power", Fraction(-1)):
        # What is below 0 by a measurement's rounding alone keeps to one side.
        clipped = (
            f"; a `max` does it, as in 1 / max({text}, {least})"
            if low * 500 >= -high
            else f", as 1 / max({text}, {least}) does, or 1 / min({text}, -{least})"
        )
        return f"the divisor `{text}` may lie {ends}, and has to keep off 0{clipped}"
    if isinstance(function, str):
        return (
            f"what stands in `{function}({text})` may lie {ends}, and has to be above 0; a `max` does it, as in "
            f"{function}(max({text}, {least}))"
        )
    sign = "keep off 0" if function[1].denominator == 1 else "be above 0"
    return (
        f"what stands in the power `{text if text.isidentifier() else f'({text})'}^{float(function[1]):g}` may "
        f"lie {ends}, and has to {sign}; a `max` does it, as in max({text}, {least})"
    )


def fraction_of(parts: tuple[int, int, int, int]) -> Fraction:
    """The fraction of an end of an interval, by its sign, mantissa and exponent."""
    sign, mantissa, exponent, _ = parts
    if not mantissa:
        if exponent:
            raise Trouble("a bound is infinite: the ranges are too wide for a function, or reach its pole")
        return Fraction(0)
    size = int(mantissa).bit_length() + exponent
    if not -FEWEST_BITS < size < MOST_BITS:
        raise Trouble(
            "a bound is past 10^300, or next to nothing: the sampling time is too long, or the ranges are too "
            "wide for a function"
        )
    value = Fraction(int(mantissa)) * (Fraction(2) ** exponent)
    return -value if sign else value
