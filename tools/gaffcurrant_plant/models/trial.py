"""Compares a plant text with the real model it was made of, at random points: by fractions where the model is made of
sums and products, else by floats, and of differential equations by fine steps of Runge and Kutta's method of order
four."""

from __future__ import annotations

import importlib.util
import math
import random
from fractions import Fraction
from typing import Any, Callable, Iterator, Mapping, Protocol, Sequence

from ..plants.plant import Plant
from ..progress import Progress
from . import formula, polynomial
from .arithmetic import Exact, Floats, is_exact
from .kinds import Maths, ModelState, Real, Value
from .model import Model

FINE = 10**6
# Fine steps of a sample, at the least and at the most, and the parts of it in which a disturbance is held.
STEPS, MOST_STEPS, PARTS = 24, 1536, 4
# Fine steps are enough if twice as many lead from so many points to ends that are so close, in units.
TRIED, CLOSE = 16, 0.01
# What floats may be beside, in units.
NEAR = 1e-6
# Points that are tried at once.
BLOCK = 10_000


class HeldMaths(Maths[Value], Protocol[Value]):
    """What `value_of` asks for, and `held`: a value that changes, where there is a new one."""

    def held(self, old: Value, new: Value, /) -> Value:
        ...


class Seen:
    """The least and the greatest difference of the real step, in units, from the plant's without noise, and so of its
    whole number."""

    def __init__(self) -> None:
        self.least: Real = math.inf
        self.greatest: Real = -math.inf
        # The same as whole numbers, rounded down; 0 before anything was seen.
        self.low = self.high = 0

    def take(self, differences: Sequence[Real]) -> None:
        ends = min(differences), max(differences)
        self.least, self.greatest = min(self.least, ends[0]), max(self.greatest, ends[1])
        self.low, self.high = math.floor(self.least), math.floor(self.greatest)

    def lies_in(self, low: int, high: int) -> bool:
        """Whether each whole number lay within the ends of the noise."""
        near = 0 if isinstance(self.least, Fraction) and isinstance(self.greatest, Fraction) else NEAR
        return self.least >= low - near and self.greatest < high + 1 + near


class Point:
    """A random state, whole and real, inputs and disturbances."""

    def __init__(self, model: Model, draws: random.Random) -> None:
        self.whole: list[int] = []
        self.values: dict[str, Fraction] = {}
        for name, low, high, _, unit in model.states:
            steps = int((high - low) / unit)
            at = low / unit + draws.choice([0, steps - 1, draws.randrange(steps), draws.randrange(steps)])
            self.whole.append(int(at))
            # A measurement may be a rounding beside.
            share = 0 if name in model.exact else draws.choice([-1, FINE, draws.randrange(FINE)])
            self.values[name] = (at + Fraction(share, FINE)) * unit
        self.inputs: list[int] = []
        for name, unit, values in model.inputs:
            self.values[name] = draws.choice(values)
            self.inputs.append(int(self.values[name] / unit))
        self.values |= self.noises(model, draws)
        # What the disturbances become on the way; where they stay as they are, nothing.
        self.changes: list[dict[str, Fraction]] = (
            [self.noises(model, draws) if model.noises and draws.random() < 0.5 else {} for _ in range(PARTS)]
            if model.flows
            else []
        )

    def noises(self, model: Model, draws: random.Random) -> dict[str, Fraction]:
        return {
            name: low + (high - low) * Fraction(draws.choice([0, FINE, draws.randrange(FINE)]), FINE)
            for name, low, high in model.noises
        }


def trial(model: Model, plant: Plant, count: int, seed: int = 1) -> list[Seen]:
    """What was seen of each state at so many random points."""
    draws, seen, progress = random.Random(seed), [Seen() for _ in model.states], Progress("scale")
    fine = 0
    for begin in range(0, count, BLOCK):
        points = [Point(model, draws) for _ in range(min(BLOCK, count - begin))]
        progress.show(begin / count)
        after, fine = steps_of(plant, points), fine or fine_steps(model, points[:TRIED])
        for one, real, whole, state in zip(seen, real_steps(model, points, fine), after, model.states):
            unit: Real = state[4] if isinstance(real[0], Fraction) else float(state[4])
            differences = [value / unit - number for value, number in zip(real, whole)]
            one.take([around(each, model, state) for each in differences] if state[0] in model.wraps else differences)
    progress.end()
    return seen


def around(difference: Real, model: Model, state: ModelState) -> Real:
    """A difference of a state that comes round, the short way."""
    whole = (state[2] - state[1]) / state[4]
    turn: Real = whole if isinstance(difference, Fraction) else float(whole)
    return (difference + turn / 2) % turn - turn / 2


def steps_of(plant: Plant, points: Sequence[Point]) -> list[Sequence[int]]:
    """For each state the plant's steps without noise."""
    still = [0] * len(plant.noises)
    return list(zip(*(plant.step(point.whole, point.inputs, still) for point in points)))


def fine_steps(model: Model, points: Sequence[Point]) -> int:
    """How many fine steps of a sample are enough: a model that swings many times in a sample needs more of them."""
    steps = STEPS
    ends = real_steps(model, points, steps) if model.flows else []
    while model.flows and steps < MOST_STEPS:
        before, ends = ends, real_steps(model, points, 2 * steps)
        gaps = [
            max(abs(float(one) - float(other)) for one, other in zip(*pair)) / float(state[4])
            for pair, state in zip(zip(before, ends), model.states)
        ]
        if not any(gap > CLOSE for gap in gaps):
            break
        steps *= 2
    return steps


def real_steps(model: Model, points: Sequence[Point], fine: int = STEPS) -> list[Sequence[Real]]:
    """For each state the real steps, of differential equations by so many fine steps: by numpy for all points at once
    where floats are needed and it is there."""
    if not model.flows and all(isinstance(equation, dict) or is_exact(equation) for equation in model.equations):
        return list(zip(*(exact_step(model, point) for point in points)))
    if importlib.util.find_spec("numpy"):
        return steps_at_once(model, points, fine)
    floats = ((as_floats(point.values), list(map(as_floats, point.changes))) for point in points)
    return list(zip(*(step_of(model, values, changes, Floats(), fine) for values, changes in floats)))


def as_floats(values: Mapping[str, Fraction]) -> dict[str, float]:
    return {name: float(value) for name, value in values.items()}


def steps_at_once(model: Model, points: Sequence[Point], fine: int) -> list[Sequence[Real]]:
    """For each state the real steps from all points, by numpy."""
    from ..ways.doubles import Arrays, numpy

    values = {name: numpy.array([float(point.values[name]) for point in points]) for name in points[0].values}
    names, nothing = [name for name, *_ in model.noises], {name: numpy.nan for name, *_ in model.noises}
    kinds = [[point.changes[k] or nothing for point in points] for k in range(len(points[0].changes))]
    changes = [
        {name: numpy.array([float(change[name]) for change in of_points]) for name in names} for of_points in kinds
    ]
    with numpy.errstate(all="ignore"):
        after = step_of(model, values, changes, Arrays(), fine)
        return [numpy.broadcast_to(real, len(points)).tolist() for real in after]


def exact_step(model: Model, point: Point) -> Iterator[Real]:
    """The real next values of equations that are polynomials, or have min, max and abs beside, as fractions."""
    for equation in model.equations:
        yield polynomial.value_of(equation, point.values) if isinstance(equation, dict) else formula.value_of(
            equation, point.values, Exact()
        )


def step_of(
    model: Model,
    values: Mapping[str, Value],
    changes: Sequence[Mapping[str, Value]],
    maths: HeldMaths[Value],
    fine: int,
) -> list[Value]:
    """The real next values of equations that are formulas."""
    if model.flows:
        return flow_step(model, values, changes, maths, fine)
    return [formula.value_of(equation, values, maths) for equation in model.equations if isinstance(equation, tuple)]


def flow_step(
    model: Model,
    values: Mapping[str, Value],
    changes: Sequence[Mapping[str, Value]],
    maths: HeldMaths[Value],
    fine: int,
) -> list[Value]:
    """The real state after a sample, by so many fine steps, under a disturbance that changes a few times on the way."""
    names = [state[0] for state in model.states]
    now = dict(values)
    state, step = [now[name] for name in names], float(model.time) / fine

    def slope(at: Sequence[Value]) -> list[Value]:
        now.update(zip(names, at))
        return [formula.value_of(side, now, maths) for side in model.flows]

    for k in range(fine):
        if k % (fine // PARTS) == 0:
            now.update({name: maths.held(now[name], new) for name, new in changes[k * PARTS // fine].items()})
        state = runge_kutta(slope, state, step)
    return state


def runge_kutta(slope: Callable[[Sequence[Value]], list[Value]], state: Sequence[Value], step: float) -> list[Value]:
    # Each kind of value can be added and multiplied.
    at: Sequence[Any] = state
    one: Sequence[Any] = slope(state)
    two: Sequence[Any] = slope([x + step / 2 * k for x, k in zip(at, one)])
    three: Sequence[Any] = slope([x + step / 2 * k for x, k in zip(at, two)])
    four: Sequence[Any] = slope([x + step * k for x, k in zip(at, three)])
    return [x + step / 6 * (a + 2 * b + 2 * c + d) for x, a, b, c, d in zip(at, one, two, three, four)]
