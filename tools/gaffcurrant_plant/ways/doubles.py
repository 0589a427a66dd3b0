"""A model's own equations over arrays of doubles, many runs at once: the way of a sample by fine steps of Runge and
Kutta's method of order four. Needs numpy."""

from __future__ import annotations

import math
from fractions import Fraction
from typing import TYPE_CHECKING, Callable, Dict, Iterable, Iterator, Optional, Sequence, SupportsFloat, Tuple

from ..faults import Trouble
from ..models.formula import value_of
from ..models.trial import CLOSE, MOST_STEPS, PARTS, STEPS

if TYPE_CHECKING:
    from ..models.kinds import Function, Monomial, RealBox, Side
    from ..models.model import Model
    from ..plants.array_kinds import Flags, RealColumn, Reals

# By this form the other modules of ways may take numpy from here, None where it is missing.
try:
    import numpy as numpy
except ImportError:
    numpy = None  # type: ignore[assignment] # `need_numpy` is asked before it is used

# A value of arrays by the variables' names; and the least and the greatest corner of a box.
Values = Callable[[Dict[str, "RealColumn"]], "RealColumn"]
Corners = Tuple["Reals", "Reals"]
# From so many states it is looked how many fine steps are enough.
TRIED = 64
# How far rounding may lead into an obstacle, or out of the domain, in units of the state.
NEAR = 1e-6


def need_numpy() -> None:
    """Raises Trouble where numpy is missing."""
    if numpy is None:
        raise Trouble("runs in doubles need numpy; on Debian: apt-get install python3-numpy")


# What numpy calls functions of formulas, where it has another name for them.
OF_NUMPY = {"asin": "arcsin", "acos": "arccos", "atan": "arctan"}


class Arrays:
    """Real numbers as arrays of floats."""

    def __init__(self) -> None:
        self.least, self.greatest, self.size, self.sign = numpy.minimum, numpy.maximum, numpy.abs, numpy.sign

    @staticmethod
    def number(value: Fraction) -> RealColumn:
        return float(value)

    @staticmethod
    def square(value: RealColumn) -> RealColumn:
        return value * value

    @staticmethod
    def held(old: RealColumn, new: RealColumn) -> RealColumn:
        """Values that change where there are new ones."""
        return numpy.where(numpy.isnan(new), old, new)

    @staticmethod
    def atan2(one: RealColumn, other: RealColumn, _: object) -> RealColumn:
        return numpy.arctan2(one, other)

    @staticmethod
    def call(function: Function, value: RealColumn, _: object) -> RealColumn:
        found: RealColumn
        if isinstance(function, str):
            found = getattr(numpy, OF_NUMPY.get(function, function))(value)
        elif function[0] == "lut":
            xs, ys = ([float(end) for end in column] for column in zip(*function[1]))
            found = numpy.interp(value, xs, ys)
        else:
            found = value ** float(function[1])
        return found


def sum_of(terms: Iterable[tuple[Fraction, Monomial]]) -> Values:
    """A function of values for a sum of (coefficient, names)."""
    weighed = [(float(coefficient), names) for coefficient, names in terms if coefficient]
    return lambda values: sum((product_of(weight, [values[name] for name in names]) for weight, names in weighed), 0.0)


def product_of(weight: float, values: Iterable[RealColumn]) -> RealColumn:
    product: RealColumn = weight
    for value in values:
        product = product * value
    return product


class RealPlant:
    """sides: functions of the variables' arrays for the derivatives of the states, or, of a model with `next` lines,
    for the next states. States and inputs are arrays of a row for each variable and a column for each run."""

    def __init__(self, model: Model) -> None:
        need_numpy()
        self.model, self.maths = model, Arrays()
        self.names, self.input_names, self.noise_names = model.state_names(), model.input_names(), model.noise_names()
        self.units = column(state[4] for state in model.states)
        self.lows, self.highs = column(state[1] for state in model.states), column(state[2] for state in model.states)
        self.noise_ends = column(low for _, low, _ in model.noises), column(high for *_, high in model.noises)
        self.of_matrix = bool(model.rows["A"]) and bool(model.sample)
        self.is_flow = bool(model.flows) or self.of_matrix
        self.sides = self.matrix_sides() if self.of_matrix else list(map(self.side, model.flows or model.equations))
        self.targets, self.obstacles = (self.boxes(keyword) for keyword in ("target", "obstacle"))
        self.steps = STEPS
        if self.is_flow:
            self.find_steps()

    def find_steps(self) -> None:
        """Doubles the fine steps of a sample until they are enough: a model that swings many times in a sample needs
        more of them."""
        draws = numpy.random.default_rng(1)
        states = self.lows + (self.highs - self.lows) * draws.random((len(self.names), TRIED))
        inputs = [draws.choice([float(value) for value in values], TRIED) for _, _, values in self.model.inputs]
        low, high = self.noise_ends
        noises = [low + (high - low) * draws.integers(0, 2, (len(self.noise_names), TRIED))] * PARTS
        turns = numpy.array([name in self.model.wraps for name in self.names]).reshape(-1, 1)
        turns = numpy.where(turns, self.highs - self.lows, numpy.inf)
        with numpy.errstate(all="ignore"):
            *_, end = self.way(states, numpy.array(inputs), noises)
            while self.steps < MOST_STEPS:
                self.steps, before = 2 * self.steps, end
                *_, end = self.way(states, numpy.array(inputs), noises)
                gaps = numpy.abs(end - before)
                if not (numpy.minimum(gaps, turns - gaps) > CLOSE * self.units).any():
                    self.steps //= 2
                    break

    def boxes(self, keyword: str) -> list[Corners]:
        """The ends of the boxes of lines with a keyword."""
        return [ends_of(box) for one, box in self.model.boxes if one == keyword]

    def side(self, node: Side) -> Values:
        if isinstance(node, dict):
            return sum_of([(coefficient, names) for names, coefficient in node.items()])
        formula = node
        return lambda values: value_of(formula, values, self.maths)

    def matrix_sides(self) -> list[Values]:
        """The lines A, B and c; what w adds in a sample comes evenly, beside the equations."""
        rows = self.model.rows
        inputs = rows["B"] or [[]] * len(self.names)
        constants = rows["c"] or [[Fraction(0)]] * len(self.names)
        return [
            sum_of(
                [(a, (name,)) for a, name in zip(of_states, self.names)]
                + [(b, (name,)) for b, name in zip(of_inputs, self.input_names)]
                + [(constant, ())]
            )
            for of_states, of_inputs, (constant,) in zip(rows["A"], inputs, constants)
        ]

    def slope(self, values: dict[str, RealColumn], states: Reals) -> Reals:
        values.update(zip(self.names, states))
        return numpy.stack([numpy.broadcast_to(side(values), states.shape[1:]) for side in self.sides])

    def way(self, states: Reals, inputs: Reals, noises: Sequence[Reals]) -> Iterator[Reals]:
        """The states on the way of a sample, the last one being those behind it. noises: for each of PARTS an array of
        a row for each noise. Between the samples of `next` lines, whose way isn't known, it is taken as straight."""
        values: dict[str, RealColumn] = dict(zip(self.input_names, inputs))
        if not self.is_flow:
            values.update(zip(self.noise_names, noises[0]))
            after = self.slope(values, states)
            yield from (self.wrapped(states + (after - states) * (k / STEPS)) for k in range(1, STEPS))
            yield self.wrapped(after, True)
            return
        moved: RealColumn = (
            noises[0][[self.noise_names.index(f"w_{name}") for name in self.names]]
            if self.of_matrix and self.model.rows["w"]
            else 0.0
        )
        steps = self.steps
        step, at = float(self.model.time) / steps, numpy.array(states)
        for k in range(steps):
            if not self.of_matrix:
                values.update(zip(self.noise_names, noises[k * PARTS // steps]))
            at = runge_kutta_array(lambda here: self.slope(values, here), at, step)
            yield self.wrapped(at + moved * ((k + 1) / steps), k + 1 == steps)

    def wrapped(self, states: Reals, is_last: bool = False) -> Reals:
        """States that come round, brought back into their range; exact ones are whole numbers of units at samples."""
        for i, name in enumerate(self.names):
            if name in self.model.exact and is_last:
                near = numpy.round(states[i] / self.units[i]) * self.units[i]
                states[i] = numpy.where(numpy.abs(near - states[i]) < NEAR * self.units[i], near, states[i])
            if name in self.model.wraps:
                size = self.highs[i] - self.lows[i]
                states[i] -= numpy.floor((states[i] - self.lows[i]) / size) * size
                states[i] = numpy.where(states[i] < self.highs[i], states[i], self.lows[i])
        return states

    def touches(self, states: Reals) -> Flags:
        """Which columns lie in an obstacle, by more than rounding."""
        return self.lie_in(self.obstacles, states, -NEAR)

    def is_in_target(self, states: Reals, number: Optional[int] = None) -> Flags:
        return self.lie_in(self.targets if number is None else [self.targets[number]], states, NEAR)

    def lie_in(self, boxes: Iterable[Corners], states: Reals, more: float) -> Flags:
        """Which columns lie in one of the boxes, each made larger by so many units to either side."""
        found = numpy.zeros(states.shape[1], dtype=bool)
        for low, high in boxes:
            found |= numpy.all((states > low - more * self.units) & (states < high + more * self.units), axis=0)
        return found

    def leaves(self, states: Reals) -> Flags:
        """Which columns lie outside of the domain, by more than rounding."""
        return ~self.lie_in([(self.lows, self.highs)], states, NEAR)


def column(values: Iterable[SupportsFloat]) -> Reals:
    return numpy.array([float(value) for value in values], dtype=float).reshape(-1, 1)


def ends_of(box: RealBox) -> Corners:
    return column([low for low, _ in box]), column([high for _, high in box])


def runge_kutta_array(slope: Callable[[Reals], Reals], at: Reals, step: float) -> Reals:
    one = slope(at)
    two = slope(at + step / 2 * one)
    three = slope(at + step / 2 * two)
    four = slope(at + step * three)
    after: Reals = at + step / 6 * (one + 2 * two + 2 * three + four)
    return after
