"""Whether measured steps belong to a plant: for each step of a log the least disturbance that explains it by the
plant's own equations in whole units, rounding and quantising included, and whether the next state lies in the box of
the state's cell. Needs numpy."""

from __future__ import annotations

from fractions import Fraction
from typing import Any, Callable, Iterable, NamedTuple, Optional

import numpy
from numpy.typing import NDArray

from ..plants.array_kinds import Flags, Numbers, Reals, Wholes
from ..plants.batch import ARRAY_SHAPES, ARRAY_SPANS, BLOCK, ROOM, Batch
from ..plants.bounds import compiled, compiled_span
from ..plants.expression import uses_of
from ..plants.kinds import Interval, Node, Span, Value
from ..plants.plant import Plant
from ..plants.units import Units
from .logs import Log, sampling_of

# A value counts as at a unit's end from here on, as in arrays.whole_states; and an input as one of its values.
NEAR, AT_VALUE = 1e-9, 1e-6
FARTHEST = 2.0**52
# Shares of the steps for which ranges are told.
SHARES = (Fraction(1), Fraction(999, 1000), Fraction(99, 100))


class Equation(NamedTuple):
    """One equation: value: its value over arrays; ends: the ends of what its noises add beside their being 0, where
    they are only added, else None, and then span gives the ends of its value over the noises' ranges."""

    value: Value
    ends: Optional[Interval]
    span: Span


class Equations:
    """A plant's equations over arrays of states and inputs in whole units, a row for each variable. States that come
    round are counted on."""

    def __init__(self, plant: Plant, units: Units) -> None:
        self.plant, self.batch = plant, Batch(plant)
        nodes = plant.rolled.equations
        self.equations = [
            Equation(
                compiled(node, ARRAY_SHAPES, ROOM), added_noise(node, plant), compiled_span(node, ARRAY_SPANS, ROOM)
            )
            for node in nodes
        ]
        self.low, self.high = column(plant.lows), column(plant.highs)
        self.sizes = column(float(units.size(state[0])) for state in plant.states)
        self.input_sizes = column(float(units.size(name)) for name, _ in plant.inputs)
        self.exact = column([state[0] in units.exact for state in plant.states])
        self.periods = plant.periods
        self.values = [numpy.array(sorted(values)) for _, values in plant.inputs]
        self.indices = [numpy.array([values.index(value) for value in sorted(values)]) for _, values in plant.inputs]

    def whole_states(self, states: Reals, near: float = NEAR) -> Reals:
        """The whole numbers of real states, as doubles, those of states that come round within their range; NaN stays.
        A value this near below a unit counts as in it."""
        scaled = states / self.sizes
        whole = numpy.clip(
            numpy.where(self.exact, numpy.round(scaled), numpy.floor(scaled + near)), -FARTHEST, FARTHEST
        )
        for i, period in enumerate(self.periods):
            if period is not None:
                whole[i] = self.low[i] + (whole[i] - self.low[i]) % period
        return whole

    def are_inside(self, whole: Numbers) -> Flags:
        """Which columns lie in the domain."""
        inside: Flags = numpy.all((whole >= self.low) & (whole <= self.high), axis=0)
        return inside

    def vectors(self, inputs: Reals) -> Wholes:
        """The input vectors of columns of real inputs, -1 where a value is none of those of its input."""
        vectors = numpy.zeros(inputs.shape[1], dtype=numpy.int64)
        good = numpy.ones(inputs.shape[1], dtype=bool)
        for row, values, indices in zip(inputs / self.input_sizes, self.values, self.indices):
            whole = numpy.round(row)
            at = numpy.minimum(numpy.searchsorted(values, whole), len(values) - 1)
            good &= (values[at] == whole) & (abs(row - whole) < AT_VALUE * numpy.maximum(1, abs(whole)))
            vectors = vectors * len(values) + indices[at]
        return numpy.where(good, vectors, -1)

    def needed(self, whole: Numbers, inputs: Numbers, after: Numbers) -> tuple[Numbers, Numbers]:
        """For each state, a row, what would have to be added to its equation with noises of 0 to give the next state,
        and by how much that lies beyond what the noises' ranges give: above 0 over them, below 0 under them. Arrays of
        whole numbers, or of doubles."""
        plant, noises = self.plant, len(self.plant.noises)
        variables = [*whole, *inputs]
        needed, beyond = (numpy.zeros(whole.shape, dtype=whole.dtype) for _ in range(2))
        for i, (equation, period) in enumerate(zip(self.equations, self.periods)):
            base = equation.value(variables + [0] * noises)
            low, high = equation.ends or (
                end - base
                for end in equation.span([(one, one) for one in variables] + [noise[1:] for noise in plant.noises])
            )
            away = after[i] - base
            if period is not None:
                middle = (low + high) // 2
                away = middle + (away - middle + period // 2) % period - period // 2
            needed[i], beyond[i] = away, numpy.maximum(away - high, 0) + numpy.minimum(away - low, 0)
        return needed, beyond

    def stated(self) -> list[Optional[Interval]]:
        """For each state what its noises may add, None where they aren't only added."""
        return [equation.ends for equation in self.equations]

    def are_followed(self, whole: Numbers, vectors: Wholes, after: Numbers) -> Flags:
        """Which next states lie in the domain, in a cell of the box of their state's cell, the box being in the domain:
        what `Controller.follows` says."""
        indices = [(row - state[1]) // state[3] for row, state in zip(whole, self.plant.states)]
        extents, inside = self.batch.extents(self.batch.boxes(self.batch.lows(indices), vectors))
        followed = inside & self.are_inside(after)
        for (first, last), row, (_, low, _, width) in zip(extents, after, self.plant.states):
            index = (row - low) // width
            followed = followed & (first <= index) & (index <= last)
        return numpy.broadcast_to(followed, vectors.shape)


def added_noise(node: Node, plant: Plant) -> Optional[Interval]:
    """The least and the greatest sum of the noises of an equation that only adds them, each once; None of another
    one."""
    first = len(plant.states) + len(plant.inputs)
    signs: dict[int, int] = {}

    def is_plain(one: Node, sign: int) -> bool:
        kind = one[0]
        if kind == "var" and one[1] >= first:
            is_new = one[1] not in signs
            signs[one[1]] = sign
            return is_new
        if kind in ("add", "sub"):
            return is_plain(one[1], sign) and is_plain(one[2], -sign if kind == "sub" else sign)
        if kind == "neg":
            return is_plain(one[1], -sign)
        return all(name < first for name in uses_of(one))

    if not is_plain(node, 1):
        return None
    ends = [sorted(end * sign for end in plant.noises[name - first][1:]) for name, sign in signs.items()]
    return sum(low for low, _ in ends), sum(high for _, high in ends)


def column(values: Iterable[float]) -> NDArray[Any]:
    return numpy.array(list(values)).reshape(-1, 1)


class Conformity:
    """What a log says of a plant. steps: the samples with which the judged steps begin; needed and beyond: of each
    state, a row, in whole units, what its equation leaves unexplained, and how much of it the stated ranges don't
    explain; explained and followed: for each step; left_out: how many steps aren't judged, by the reason; gaps: the
    samples behind which some are missing; sample: the log's sampling time."""

    def __init__(
        self,
        equations: Equations,
        log: Log,
        sample: Optional[float],
        tell: Callable[[float], None] = lambda share: None,
    ) -> None:
        self.equations, self.log, self.plant = equations, log, equations.plant
        self.sample, missing = sampling_of(log, sample)
        self.gaps = numpy.flatnonzero(missing)
        self.whole = equations.whole_states(log.states)
        self.vectors = equations.vectors(log.inputs)
        self.candidates, self.steps, self.left_out = self.chosen(missing)
        count = self.steps.size
        self.needed, self.beyond = (numpy.zeros((len(self.plant.states), count), dtype=numpy.int64) for _ in range(2))
        self.followed = numpy.zeros(count, dtype=bool)
        self.values = (
            numpy.array([self.plant.vector(number) for number in range(self.plant.vectors)], dtype=numpy.int64)
            .reshape(self.plant.vectors, -1)
            .T
        )
        for begin in range(0, count, BLOCK):
            tell(begin / count)
            part = slice(begin, begin + BLOCK)
            self.needed[:, part], self.beyond[:, part], self.followed[part] = self.judged(self.steps[part], self.whole)
        self.judge_again()
        self.explained = ~self.beyond.any(axis=0)

    def judged(self, at: Wholes, whole: Reals) -> tuple[Numbers, Numbers, Flags]:
        """What the steps from these samples need, how far beyond the ranges that lies, and whether they are followed,
        by the samples' whole numbers."""
        kind, equations = self.equations.batch.kind, self.equations
        before: Numbers = whole[:, at].astype(numpy.int64).astype(kind)
        after: Numbers = whole[:, at + 1].astype(numpy.int64).astype(kind)
        needed, beyond = equations.needed(before, self.values[:, self.vectors[at]].astype(kind), after)
        return needed, beyond, equations.are_followed(before, self.vectors[at], after)

    def judge_again(self) -> None:
        """A value at the end of a unit may have been measured on either side of it: steps with such values that aren't
        explained or followed are judged by the other one too, which is that of the quotient in doubles."""
        poor = numpy.flatnonzero(self.beyond.any(axis=0) | ~self.followed)
        at = self.steps[poor]
        pairs = numpy.stack([at, at + 1], axis=1).ravel()
        other = self.equations.whole_states(self.log.states[:, pairs], 0.0)
        differs = (other != self.whole[:, pairs]).any(axis=0).reshape(-1, 2).any(axis=1)
        differs &= self.equations.are_inside(other[:, ::2])
        if not differs.any():
            return
        whole = numpy.array(self.whole)
        whole[:, pairs] = other
        needed, beyond, followed = self.judged(at[differs], whole)
        better = followed & ~beyond.any(axis=0)
        chosen = poor[differs][better]
        self.needed[:, chosen], self.beyond[:, chosen] = needed[:, better], beyond[:, better]
        self.followed[chosen] = True

    def chosen(self, missing: Flags) -> tuple[Wholes, Wholes, dict[str, int]]:
        """The steps with all numbers; those of them that are judged; and how many aren't, by the reason."""
        log, equations = self.log, self.equations
        has_state = numpy.isfinite(log.states).all(axis=0)
        has_all = has_state & numpy.isfinite(log.inputs).all(axis=0)
        steps = numpy.flatnonzero(log.goes_on)
        reasons = {
            "samples are missing in between": missing[steps],
            "a number is missing": ~(has_all[steps] & has_state[steps + 1]),
            "the state lies outside of the ranges": ~equations.are_inside(self.whole)[steps],
            "an input has none of its values": self.vectors[steps] < 0,
        }
        left_out, left = {}, numpy.ones(steps.size, dtype=bool)
        for number, (reason, wrong) in enumerate(reasons.items()):
            left_out[reason] = int((left & wrong).sum())
            left &= ~wrong
            if number == 1:
                candidates = steps[left]
        return candidates, steps[left], {reason: count for reason, count in left_out.items() if count}

    def share(self) -> float:
        """The share of the judged steps that are explained."""
        return float(self.explained.mean()) if self.steps.size else 0.0

    def stated(self) -> list[Interval]:
        """For each state what its noises may add, in whole units; where they aren't only added, the most that they
        added at a step."""
        return [
            ends or (int((needed - beyond).min(initial=0)), int((needed - beyond).max(initial=0)))
            for ends, needed, beyond in zip(self.equations.stated(), self.needed, self.beyond)
        ]

    def ranges(self, share: Fraction = Fraction(1)) -> list[Interval]:
        """For each state a range, in whole units, of which at least this share of the steps needs a number: as many of
        them lie below as above."""
        left = self.steps.size - -(-self.steps.size * share.numerator // share.denominator)
        return [middle_of(row, left) for row in self.needed]

    def worst(self, most: int = 10) -> list[int]:
        """The steps, as indices into `steps`, that lie farthest beyond the ranges beside the cells' widths, at most so
        many."""
        far = (abs(self.beyond) / column([state[3] for state in self.plant.states])).max(axis=0)
        order = numpy.argsort(-far, kind="stable")[:most]
        return [int(at) for at in order if far[at] > 0]


def middle_of(numbers: Wholes, left: int) -> Interval:
    """The ends of numbers without so many of them, half below and half above."""
    if not numbers.size:
        return 0, 0
    below, above = left // 2, numbers.size - 1 - (left - left // 2)
    cut = numpy.partition(numbers, sorted({below, above}))
    return int(cut[below]), int(cut[above])


def conform(
    plant: Plant,
    log: Log,
    units: Optional[Units] = None,
    sample: Optional[float] = None,
    tell: Callable[[float], None] = lambda share: None,
) -> Conformity:
    """What a log says of a plant, in these units, its own whole ones where they are left out. sample is the model's
    sampling time, where it is known. Raises Trouble where the log's samples are otherwise apart."""
    return Conformity(Equations(plant, units or plant.units), log, sample, tell)
