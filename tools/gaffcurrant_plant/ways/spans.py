"""Intervals of doubles as arrays, whose ends are rounded outward. Needs numpy."""

from __future__ import annotations

from fractions import Fraction
from functools import lru_cache
from typing import TYPE_CHECKING, Union

from ..faults import Trouble
from .doubles import OF_NUMPY, numpy

if TYPE_CHECKING:
    from ..models.kinds import Function, RealPoints
    from ..plants.array_kinds import Flags, RealColumn

# How far functions of numpy may be beside, as a share of the value and at least: far more than they are; and a share
# that is more than the distance to the next double.
SHARE, LEAST = 2.0**-48, 1e-300
NEXT = 2.0**-52


def down(values: RealColumn) -> RealColumn:
    """Doubles below the exact results of which values may be the rounding; of what is infinite no number. Faster than
    numpy.nextafter, and at most a double or LEAST farther off."""
    return values - (numpy.abs(values) * NEXT + LEAST)


def up(values: RealColumn) -> RealColumn:
    """Doubles above the exact results of which values may be the rounding."""
    return values + (numpy.abs(values) * NEXT + LEAST)


class Span:
    """low and high are arrays of one shape, or numbers."""

    __slots__ = ("low", "high")

    def __init__(self, low: RealColumn, high: RealColumn) -> None:
        self.low, self.high = low, high

    def __add__(self, other: Span) -> Span:
        return Span(down(self.low + other.low), up(self.high + other.high))

    def __sub__(self, other: Span) -> Span:
        return Span(down(self.low - other.high), up(self.high - other.low))

    def __neg__(self) -> Span:
        return Span(-self.high, -self.low)

    def __mul__(self, other: Span) -> Span:
        if not isinstance(other.low, numpy.ndarray) and (other.low >= 0 or other.high <= 0):
            return self.times(float(other.low), float(other.high))
        if not isinstance(self.low, numpy.ndarray) and (self.low >= 0 or self.high <= 0):
            return other.times(float(self.low), float(self.high))
        ends = (self.low * other.low, self.low * other.high, self.high * other.low, self.high * other.high)
        return Span(
            down(numpy.minimum(numpy.minimum(*ends[:2]), numpy.minimum(*ends[2:]))),
            up(numpy.maximum(numpy.maximum(*ends[:2]), numpy.maximum(*ends[2:]))),
        )

    def times(self, least: float, most: float) -> Span:
        """The product with numbers between two that have one sign."""
        low, high = (self.low, self.high) if least >= 0 else (self.high, self.low)
        if least == most:
            return Span(down(low * least), up(high * least))
        return Span(
            down(numpy.minimum(low * least, low * most)),
            up(numpy.maximum(high * least, high * most)),
        )

    def lies_in(self, other: Span) -> Flags:
        lies: Flags = numpy.logical_and(other.low <= self.low, self.high <= other.high)
        return lies

    def chosen(self, where: Flags, other: Span) -> Span:
        """This span in some columns, another one in the others."""
        return Span(numpy.where(where, self.low, other.low), numpy.where(where, self.high, other.high))


def widened(low: RealColumn, high: RealColumn) -> Span:
    """A span about what functions of numpy have given."""
    return Span(low - (numpy.abs(low) * SHARE + LEAST), high + (numpy.abs(high) * SHARE + LEAST))


@lru_cache(maxsize=2**12)
def around(value: Union[int, float, Fraction]) -> Span:
    """The least span of doubles about a number or a fraction, found once."""
    value = Fraction(value)
    near = float(value)
    return Span(near, near) if Fraction(near) == value else Span(down(near), up(near))


class Spans:
    """What `value_of` needs to evaluate formulas over spans."""

    @staticmethod
    def number(value: Fraction) -> Span:
        return around(value)

    @staticmethod
    def square(value: Span) -> Span:
        high = numpy.maximum(numpy.abs(value.low), numpy.abs(value.high))
        low = numpy.where(
            (value.low <= 0) & (value.high >= 0), 0.0, numpy.minimum(numpy.abs(value.low), numpy.abs(value.high))
        )
        return Span(numpy.maximum(down(low * low), 0.0), up(high * high))

    @staticmethod
    def size(value: Span) -> Span:
        low = numpy.where(
            (value.low <= 0) & (value.high >= 0), 0.0, numpy.minimum(numpy.abs(value.low), numpy.abs(value.high))
        )
        return Span(low, numpy.maximum(numpy.abs(value.low), numpy.abs(value.high)))

    @staticmethod
    def least(one: Span, other: Span) -> Span:
        return Span(numpy.minimum(one.low, other.low), numpy.minimum(one.high, other.high))

    @staticmethod
    def greatest(one: Span, other: Span) -> Span:
        return Span(numpy.maximum(one.low, other.low), numpy.maximum(one.high, other.high))

    def atan2(self, one: Span, other: Span, _: object) -> Span:
        """By the least and the greatest angle of the corners, since no box that is asked for holds a jump."""
        if numpy.any((one.low <= 0) & (one.high >= 0) & (other.low <= 0)):
            raise Trouble("what stands in atan2 may come to where it jumps on the way")
        corners = [numpy.arctan2(y, x) for y in (one.low, one.high) for x in (other.low, other.high)]
        return widened(numpy.minimum.reduce(corners), numpy.maximum.reduce(corners))

    def call(self, function: Function, value: Span, _: object) -> Span:
        if not isinstance(function, str):
            return pieces(function[1], value) if function[0] == "lut" else self.power(function[1], value)
        if function in ("sin", "cos"):
            return wave(function, value)
        if function in ("sqrt", "log") and numpy.any(value.low <= 0):
            raise Trouble(f"what stands in {function} may be 0 or less on the way")
        if function in ("asin", "acos") and numpy.any((value.low < -1) | (value.high > 1)):
            raise Trouble(f"what stands in {function} may be beyond -1 or 1 on the way")
        if function == "tan" and numpy.any(
            numpy.floor(value.low / numpy.pi + 0.5 - 1e-9) != numpy.floor(value.high / numpy.pi + 0.5 + 1e-9)
        ):
            raise Trouble("what stands in tan may come to a pole on the way")
        ends = [getattr(numpy, OF_NUMPY.get(function, function))(end) for end in (value.low, value.high)]
        least = (
            numpy.where((value.low <= 0) & (value.high >= 0), 1.0, numpy.minimum(*ends))
            if function == "cosh"
            else numpy.minimum(*ends)
        )
        return widened(least, numpy.maximum(*ends))

    @staticmethod
    def power(exponent: Fraction, value: Span) -> Span:
        """A power by a number below 0, or by a fraction."""
        if numpy.any(value.low <= 0) and (exponent.denominator != 1 or numpy.any(value.high >= 0)):
            raise Trouble("a quotient's divisor, or what stands in a power, may be 0 on the way")
        ends = [value.low ** float(exponent), value.high ** float(exponent)]
        return widened(numpy.minimum(*ends), numpy.maximum(*ends))


def pieces(points: RealPoints, value: Span) -> Span:
    """Straight pieces between points: the values at the ends, and those of the points between."""
    xs, ys = ([float(end) for end in column] for column in zip(*points))
    low, high = (numpy.interp(numpy.asarray(end), xs, ys) for end in (value.low, value.high))
    least, most = numpy.minimum(low, high), numpy.maximum(low, high)
    for x, y in zip(xs, ys):
        is_met = (value.low <= x) & (x <= value.high)
        least, most = numpy.where(is_met, numpy.minimum(least, y), least), numpy.where(
            is_met, numpy.maximum(most, y), most
        )
    # What is rounded is a difference of values too.
    room = max(abs(y) for y in ys) * SHARE
    return widened(least - room, most + room)


def wave(function: str, value: Span) -> Span:
    """Sine or cosine: the values at the ends, and 1 or -1 where a top or a bottom lies between."""
    ends = [getattr(numpy, function)(end) for end in (value.low, value.high)]
    top = 0.0 if function == "cos" else numpy.pi / 2
    found = widened(numpy.minimum(*ends), numpy.maximum(*ends))
    for at, name in ((top, "high"), (top + numpy.pi, "low")):
        turns = [(end - at) / (2 * numpy.pi) for end in (value.low, value.high)]
        has_one = numpy.floor(turns[1] + 1e-9) > numpy.ceil(turns[0] - 1e-9) - 0.5
        setattr(found, name, numpy.where(has_one, 1.0 if name == "high" else -1.0, getattr(found, name)))
    return Span(numpy.maximum(found.low, -1.0), numpy.minimum(found.high, 1.0))
