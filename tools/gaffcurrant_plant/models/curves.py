"""Functions of one variable in the place of which straight pieces stand: points on the curve, a bound of what the
pieces leave out, and their text as `lut`, or by `min` and `max` of lines.

The bound is the textbook's of linear interpolation: between two points on a curve h that lie d apart the chord differs
from h by at most d^2 / 8 times the greatest second derivative, below it where h bends down, above it where h bends up.
The derivatives are bounded over each piece by interval arithmetic."""

from __future__ import annotations

import math
from collections import Counter
from fractions import Fraction
from functools import lru_cache
from itertools import combinations
from typing import NamedTuple, Protocol, Sequence, Tuple, Union

from ..faults import Trouble
from .arithmetic import Floats, Intervals, lut_ends, lut_value, slope_ends
from .formula import derivative, made, value_of
from .kinds import Ends, Function, Node, RealPoints, Whole

LOOKED = 400
# What rounding down leaves.
NOTHING = Fraction(0)
ROUNDED_DOWN = NOTHING, Fraction(1)
# A point of straight pieces in whole numbers; slope and constant of a line.
Point = Tuple[int, int]
Line = Tuple[Fraction, Fraction]


class Drawn(Protocol):
    """What `as_lut` and `as_lines` write: the ends of the argument's whole numbers, the points, the unit of the values
    and what they may be beside."""

    first: int
    last: int
    points: list[Point]
    unit_out: Fraction
    error_out: Ends


def combined(one: Ends, other: Ends) -> Ends:
    return one[0] + other[0], one[1] + other[1]


def product(one: Ends, other: Ends) -> Ends:
    ends = [a * b for a in one for b in other]
    return min(ends), max(ends)


def hull(intervals: Sequence[Ends]) -> Ends:
    return min(one[0] for one in intervals), max(one[1] for one in intervals)


class Argument(NamedTuple):
    """The whole number that stands for a function's argument: its unit, its ends, and those of real value / unit -
    whole number."""

    unit: Fraction
    low: int
    high: int
    error: Ends


@lru_cache(maxsize=4096)
def curve_of(function: Function, argument: Argument, pieces: int, said: str) -> Union[Curve, Pieces]:
    """The Curve of a function; the same one is made once, for all plants that are tried."""
    if not isinstance(function, str) and function[0] == "lut":
        return Pieces(function[1], argument)
    return Curve(function, intervals(), argument, pieces, said)


@lru_cache(maxsize=1)
def intervals() -> Intervals:
    return Intervals()


class Curve:
    """A function of a whole number that stands for an argument: real argument / unit - whole number lies in `error`.

    points: pairs of whole numbers; error_out: what (real value / unit_out - value of the pieces) may be, before any
    rounding down."""

    def __init__(self, function: Function, maths: Intervals, argument: Argument, pieces: int, said: str) -> None:
        self.maths, self.unit, self.error = maths, argument.unit, argument.error
        # The argument is a variable by what the model writes, which messages tell.
        self.variable = said
        self.node = made("call", function, made("var", said))
        self.slope = derivative(self.node, said)
        self.bend = derivative(self.slope, said)
        self.first, self.last = argument.low, max(argument.high, argument.low + 1)
        self.values: dict[int, Ends] = {}
        self.range = self.over(
            self.node, self.first + min(self.error[0], NOTHING), self.last + max(self.error[1], NOTHING)
        )
        self.unit_out = unit_for(self.range)
        xs = self.places(pieces)
        self.points = [(x, self.rounded(x)) for x in xs]
        self.error_out = hull([self.piece_error(*pair) for pair in zip(self.points, self.points[1:])])

    def over(self, node: Node, low: Whole, high: Whole) -> Ends:
        """The ends of a node over arguments from low to high units."""
        area = {self.variable: self.maths.between(low * self.unit, high * self.unit)}
        return self.maths.ends(value_of(node, area, self.maths))

    def at(self, x: int) -> Ends:
        """The ends of the value at a whole number."""
        if x not in self.values:
            self.values[x] = self.over(self.node, x, x)
        return self.values[x]

    def rounded(self, x: int) -> int:
        low, high = self.at(x)
        return round((low + high) / 2 / self.unit_out)

    def places(self, pieces: int) -> list[int]:
        """The ends of the pieces, denser where the curve bends more."""
        bends, step = bends_of(self.bend, self.variable, self.first, self.last, self.unit), Fraction(
            self.last - self.first, LOOKED
        )
        floor = sum(bends) / LOOKED / 20 or 1.0
        total, places, seen = sum(max(bend, floor) for bend in bends), [self.first], 0.0
        for k, bend in enumerate(bends):
            seen += max(bend, floor)
            if seen >= total * len(places) / pieces and len(places) < pieces:
                places.append(round(self.first + (k + 1) * step))
        return sorted(set(places) | {self.last})

    def piece_error(self, one: Point, other: Point) -> Ends:
        """What (real value / unit_out - the piece's value) may be where the whole number lies between two points."""
        (x, y), (next_x, next_y) = one, other
        bend = self.over(self.bend, x, next_x)
        share = (self.unit * (next_x - x)) ** 2 / 8
        chord = -share * max(bend[1], NOTHING), share * max(-bend[0], NOTHING)
        ends = []
        for at, value in ((x, y), (next_x, next_y)):
            low, high = self.at(at)
            ends += [low - value * self.unit_out, high - value * self.unit_out]
        slope = self.over(self.slope, x + min(self.error[0], NOTHING), next_x + max(self.error[1], NOTHING))
        moved = product(slope, (self.error[0] * self.unit, self.error[1] * self.unit))
        total = combined(combined(chord, (min(ends), max(ends))), moved)
        return total[0] / self.unit_out, total[1] / self.unit_out


class Pieces:
    """What Curve has, of straight pieces that the model itself gives: real numbers, whose points lie on whole numbers
    or beside."""

    def __init__(self, given: RealPoints, argument: Argument) -> None:
        self.unit, self.error = argument.unit, argument.error
        self.first, self.last = argument.low, max(argument.high, argument.low + 1)
        low, high = (
            end * self.unit
            for end in (self.first + min(self.error[0], NOTHING), self.last + max(self.error[1], NOTHING))
        )
        self.unit_out = unit_for(lut_ends(given, low, high))
        inside = [x for x, _ in given if self.first * self.unit < x < self.last * self.unit]
        places = sorted({self.first, self.last} | {round(x / self.unit) for x in inside})
        self.points = [(x, round(lut_value(given, x * self.unit) / self.unit_out)) for x in places]
        self.error_out = hull([self.piece_error(given, *pair) for pair in zip(self.points, self.points[1:])])

    def piece_error(self, given: RealPoints, one: Point, other: Point) -> Ends:
        """What (real value / unit_out - the piece's value) may be where the whole number lies between two points."""
        (x, y), (next_x, next_y) = one, other
        slope = Fraction(next_y - y, next_x - x)
        places = [Fraction(x), Fraction(next_x)] + [at / self.unit for at, _ in given if x < at / self.unit < next_x]
        ends = [lut_value(given, at * self.unit) / self.unit_out - (y + slope * (at - x)) for at in places]
        slopes = slope_ends(
            given, (x + min(self.error[0], NOTHING)) * self.unit, (next_x + max(self.error[1], NOTHING)) * self.unit
        )
        low, high = (end * self.unit / self.unit_out for end in self.error)
        moved = product(slopes, (low, high))
        return combined((min(ends), max(ends)), moved)


@lru_cache(maxsize=1024)
def bends_of(bend: Node, name: str, first: int, last: int, unit: Fraction) -> list[float]:
    """The roots of the second derivative's size at places that are spread evenly."""
    bends, step = [], Fraction(last - first, LOOKED)
    for k in range(LOOKED):
        at = float((first + (k + Fraction(1, 2)) * step) * unit)
        bends.append(math.sqrt(abs(float(value_of(bend, {name: at}, Floats())))))
    return bends


def unit_for(interval: Ends, fineness: int = 20000) -> Fraction:
    """A power of ten of which an interval has tens of thousands, or 1 where it is one number."""
    size = max(abs(interval[0]), abs(interval[1]), interval[1] - interval[0])
    if not size:
        return Fraction(1)
    if not Fraction(1, 10**280) < size < 10**280:
        # Past what doubles have.
        return Fraction(10) ** math.floor(
            math.log10(size.numerator) - math.log10(size.denominator) - math.log10(fineness)
        )
    return Fraction(10) ** math.floor(math.log10(float(size) / fineness))


def as_lut(curve: Drawn, text: str) -> tuple[str, tuple[int, int], Ends]:
    """The text of `lut`, the ends of its values, and the error with its rounding down."""
    said = ", ".join(f"{x}:{y}" for x, y in curve.points)
    values = [y for _, y in curve.points]
    return f"lut({text}, {said})", (min(values), max(values)), combined(curve.error_out, ROUNDED_DOWN)


def as_lines(curve: Drawn, text: str) -> tuple[str, tuple[int, int], Ends]:
    """The same by min and max of lines over a common denominator."""
    most = max(abs(curve.first), abs(curve.last), 1)
    denominator = 10 ** (len(str(most)) + 1)
    lines = lines_of(curve.points)
    whole = [(round(slope * denominator), round(constant * denominator)) for slope, constant in lines]
    beside = max(
        (abs(a - slope * denominator) * most + abs(b - constant * denominator)) / denominator
        for (a, b), (slope, constant) in zip(whole, lines)
    )
    terms = lattice(lines, [x for x, _ in curve.points])
    said = nested("max", [nested("min", [line_said(whole[j], text) for j in term]) for term in terms])
    values = [y for _, y in curve.points]
    ends = math.floor(min(values) - beside), math.ceil(max(values) + beside)
    return f"({said} / {denominator})", ends, combined(combined(curve.error_out, (-beside, beside)), ROUNDED_DOWN)


def lines_of(points: Sequence[Point]) -> list[Line]:
    """Slope and constant of each piece."""
    lines = []
    for (x, y), (next_x, next_y) in zip(points, points[1:]):
        slope = Fraction(next_y - y, next_x - x)
        lines.append((slope, y - slope * x))
    return lines


def line_said(line: tuple[int, int], text: str) -> str:
    slope, constant = line
    said = f"{slope} * ({text})" if not text.isidentifier() else f"{slope} * {text}"
    if not slope:
        return str(constant)
    return said + (f" - {-constant}" if constant < 0 else f" + {constant}" if constant else "")


def nested(name: str, parts: Sequence[str]) -> str:
    """min or max of any number of parts, halves within halves."""
    if len(parts) == 1:
        return parts[0]
    half = len(parts) // 2
    return f"{name}({nested(name, parts[:half])}, {nested(name, parts[half:])})"


def value_on(line: Line, x: Whole) -> Fraction:
    return line[0] * x + line[1]


def lattice(lines: Sequence[Line], xs: Sequence[int]) -> list[list[int]]:
    """Which lines stand in which min, so that the max of these is the function of straight pieces between the places
    xs: for each piece the lines that lie above it there (Tarela and Martinez, 1999), without those that aren't
    needed."""
    crossings = {(b - a) / (c - d) for (c, a), (d, b) in combinations(lines, 2) if c != d}
    places = sorted({Fraction(x) for x in xs} | {x for x in crossings if xs[0] < x < xs[-1]})
    # Whether a line is least or greatest at a place rests on its rank there alone.
    ranks = list(zip(*(ranked([value_on(line, x) for line in lines]) for x in places)))
    wanted = [ranks[piece_at(xs, x)][k] for k, x in enumerate(places)]
    terms = []
    for i, (low, high) in enumerate(zip(xs, xs[1:])):
        term = [
            j for j, line in enumerate(lines) if all(value_on(line, x) >= value_on(lines[i], x) for x in (low, high))
        ]
        if term not in terms:
            terms.append(term)
    if list(map(max, zip(*(least_of(term, ranks) for term in terms)))) != wanted:
        raise Trouble("straight pieces couldn't be put together by min and max")
    return [needed_lines(term, ranks, wanted) for term in needed_terms(terms, ranks, wanted)]


def ranked(values: Sequence[Fraction]) -> list[int]:
    """For each of some values its place among them."""
    places = {value: k for k, value in enumerate(sorted(set(values)))}
    return [places[value] for value in values]


def least_of(term: Sequence[int], ranks: Sequence[Sequence[int]]) -> list[int]:
    """The least rank among the lines of a term, at each place."""
    return list(map(min, zip(*(ranks[j] for j in term))))


def needed_terms(terms: Sequence[list[int]], ranks: Sequence[Sequence[int]], wanted: Sequence[int]) -> list[list[int]]:
    """The terms without those that can be left out one after the other: at each place where one reaches what is wanted
    another does too."""
    reached = [{k for k, pair in enumerate(zip(least_of(term, ranks), wanted)) if pair[0] == pair[1]} for term in terms]
    return [terms[at] for at in needed(reached)]


def needed_lines(term: Sequence[int], ranks: Sequence[Sequence[int]], wanted: Sequence[int]) -> list[int]:
    """The lines of a term without those that can be left out one after the other: at each place where one isn't above
    what is wanted another isn't either."""
    kept = [{k for k, (rank, most) in enumerate(zip(ranks[j], wanted)) if rank <= most} for j in term]
    return [term[at] for at in needed(kept)]


def needed(sets: Sequence[set[int]]) -> list[int]:
    """Which of some sets of places are left, when each goes in turn whose places the others have too."""
    counts = Counter(place for one in sets for place in one)
    left = []
    for at, one in enumerate(sets):
        if all(counts[place] > 1 for place in one):
            counts.subtract(one)
        else:
            left.append(at)
    return left


def piece_at(xs: Sequence[int], x: Whole) -> int:
    return max(i for i in range(len(xs) - 1) if xs[i] <= x)
