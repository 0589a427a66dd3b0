"""What may be wrong with a log whose steps a plant's equations don't explain: each usual mistake is taken away in turn,
and told where the steps are explained clearly better without it. Needs numpy."""

from __future__ import annotations

import math
from typing import Callable, Iterator, NamedTuple, Optional, Tuple

import numpy

from ..plants.array_kinds import Flags, Numbers, Reals, Wholes
from .conformity import Conformity, column

# Steps that are looked at, at most; and for few or many input vectors of a sample that is missing.
LOOKED, VECTORS = 6000, 32
# A mistake is told where without it at most this share of the unexplained steps is left, and so much of all steps, and
# so many, are explained that weren't.
LEFT, GAINED, FEWEST = 0.5, 0.01, 5
# What explains nearly as much as the best is told too.
BESIDE = 0.005
FACTORS = (1000.0, 100.0, 10.0, 3.6, 60.0, 180 / math.pi, 2 * math.pi, 9.80665)
TURNS = (2 * math.pi, 360.0)
LATE = (1, 2, -1)
# Rounds of least squares; and the numbers about what they give that are tried, up to this share of it to either side.
ROUNDS, TRIED, ABOUT = 4, 12, 0.25
# Gains this near to 1 are none, and what jumps lies so many ranges beyond.
NEAR_ONE, FAR = 0.02, 8
LISTED = 4


# States before, inputs and states after by a number.
Moved = Callable[[float], Tuple[Reals, Reals, Reals]]


class Cause(NamedTuple):
    """What explains more: in words; the share of the looked-at steps that is explained with it, and that without; how
    many steps were looked at."""

    said: str
    share: float
    before: float
    steps: int


class Looked:
    """Steps of a log as doubles: states before and after, and the inputs that act, in the model's units."""

    def __init__(self, conformity: Conformity, at: Wholes) -> None:
        self.equations, log = conformity.equations, conformity.log
        self.at, self.states, self.after, self.inputs = at, log.states[:, at], log.states[:, at + 1], log.inputs[:, at]

    def beyond(self, states: Reals, inputs: Reals, after: Reals) -> tuple[Numbers, Numbers]:
        """What would have to be added to the equations, and how far that lies beyond the ranges, in whole units as
        doubles."""
        equations = self.equations
        with numpy.errstate(all="ignore"):
            return equations.needed(
                equations.whole_states(states), inputs / equations.input_sizes, equations.whole_states(after)
            )

    def are_explained(self, states: Reals, acting: Reals, after: Reals, inputs: Optional[Reals] = None) -> Flags:
        """Which steps the equations explain from states in the domain, under inputs that may act otherwise than they
        are given."""
        equations = self.equations
        listed = equations.vectors(acting if inputs is None else inputs) >= 0
        _, beyond = self.beyond(states, acting, after)
        explained: Flags = (abs(beyond) < 1).all(axis=0)
        return listed & equations.are_inside(equations.whole_states(states)) & explained


class Diagnosis:
    """The mistakes of a log."""

    def __init__(self, conformity: Conformity) -> None:
        self.conformity, self.plant, self.units = conformity, conformity.plant, conformity.plant.units
        steps = conformity.candidates
        self.looked = Looked(conformity, steps[:: -(-steps.size // LOOKED)] if steps.size else steps)
        self.names = [state[0] for state in self.plant.states]
        self.input_names = [name for name, _ in self.plant.inputs]
        looked = self.looked
        self.widths = numpy.array([float(state[3] * self.units.size(state[0])) for state in self.plant.states])
        self.explained = looked.are_explained(looked.states, looked.inputs, looked.after)
        self.middles = column([(low + high) / 2 for low, high in conformity.stated()])
        self.halves = column([(high - low) / 2 for low, high in conformity.stated()])

    def causes(self) -> list[Cause]:
        """What explains clearly more, the best first: of those that explain nearly as much the simplest stand first."""
        if self.explained.all():
            return []
        found = [
            cause
            for kind in (self.signs, self.factors, self.late, self.gains, self.offsets)
            for cause in kind()
            if self.is_clear(cause)
        ]
        best = max((cause.share for cause in found), default=0.0)
        return [cause for cause in found if cause.share >= best - BESIDE]

    @staticmethod
    def is_clear(cause: Cause) -> bool:
        gained = cause.share - cause.before
        return 1 - cause.share <= LEFT * (1 - cause.before) and gained >= GAINED and gained * cause.steps > FEWEST - 0.5

    def cause(self, said: str, explained: Flags, among: Optional[Flags] = None) -> Cause:
        before = self.explained if among is None else self.explained[among]
        return Cause(said, float(explained.mean()), float(before.mean()), explained.size)

    # Signs and units

    def signs(self) -> Iterator[Cause]:
        for name, scaled in self.scalings(-1.0):
            yield self.cause(f"{name} with the other sign", scaled)

    def factors(self) -> Iterator[Cause]:
        for factor in (one for pair in FACTORS for one in (pair, 1 / pair)):
            many = short_number(max(factor, 1 / factor))
            said = f"{many} times as {'large' if factor > 1 else 'small'}"
            for name, scaled in self.scalings(factor):
                yield self.cause(f"{name} {said} in the log as in the model: other units", scaled)

    def scalings(self, factor: float) -> Iterator[tuple[str, Flags]]:
        """Which steps are explained with one variable, with all states and with all variables divided by a factor."""
        looked, none = self.looked, list[int]()
        every, all_inputs = list(range(len(self.names))), list(range(len(self.input_names)))
        chosen = [([i], none) for i in every] + [(none, [k]) for k in all_inputs]
        words = self.names + self.input_names
        if len(every) > 1:
            chosen.append((every, none))
            words.append("each state")
        if all_inputs:
            chosen.append((every, all_inputs))
            words.append("each state and input")
        for name, (states, inputs) in zip(words, chosen):
            one, other = numpy.ones((len(self.names), 1)), numpy.ones((len(self.input_names), 1))
            one[states], other[inputs] = factor, factor
            # A state that hardly moves says nothing of a factor by which it would move still less.
            if abs(factor) <= 1 or (numpy.ptp(looked.states / one, axis=1)[states] >= self.widths[states]).all():
                yield name, looked.are_explained(looked.states / one, looked.inputs / other, looked.after / one)

    # Time

    def late(self) -> Iterator[Cause]:
        """Inputs of other samples of the same run, those from which so many are there."""
        log, looked = self.conformity.log, self.looked
        runs = log.run_numbers()
        for samples in LATE if self.input_names else ():
            others = numpy.clip(looked.at - samples, 0, log.lines.size - 1)
            among = (
                (others == looked.at - samples)
                & (runs[others] == runs[looked.at])
                & ~numpy.isnan(log.inputs[:, others]).any(axis=0)
            )
            if among.any():
                explained = looked.are_explained(
                    looked.states[:, among], log.inputs[:, others[among]], looked.after[:, among]
                )
                count = "one sample" if abs(samples) == 1 else f"{samples} samples"
                yield self.cause(
                    f"inputs that act {count} {'late' if samples > 0 else 'before they are logged'}", explained, among
                )

    # Gains and offsets

    def gains(self) -> Iterator[Cause]:
        """An input that acts stronger or weaker than it is given."""
        for k, name in enumerate(self.input_names):
            gain, explained = self.best(self.acting(k, 0.0), 1.0, 0.05)
            if explained is not None and min(abs(gain - 1), abs(gain + 1)) > NEAR_ONE:
                yield self.cause(f"{name} that acts about {gain:.3g} times as strong as it is logged", explained)

    def offsets(self) -> Iterator[Cause]:
        """A sensor that shows too much, and an input that acts beside its value."""
        for i, (name, *_, width) in enumerate(self.plant.states):
            size = float(self.units.size(name))
            offset, explained = self.best(self.measured(i), 0.0, width * size)
            if explained is not None and abs(offset) > size / 2:
                way = "high" if offset > 0 else "low"
                yield self.cause(f"{name} that is measured about {self.offset_said(name, offset)} too {way}", explained)
        for k, name in enumerate(self.input_names):
            offset, explained = self.best(self.acting(k, 1.0), 0.0, float(self.units.size(name)))
            if explained is not None and offset:
                way = "above" if offset > 0 else "below"
                said = f"{name} that acts about {self.offset_said(name, offset)} {way} what is logged"
                yield self.cause(said, explained)

    def offset_said(self, name: str, value: float) -> str:
        return f"{abs(value):.3g}{self.units.word(name)}"

    def acting(self, k: int, more: float) -> Moved:
        """The steps with an input multiplied by a number, or with it added."""
        looked = self.looked
        return lambda value: (
            looked.states,
            raised(looked.inputs, k, value, 1.0) if more else raised(looked.inputs, k, 0.0, value),
            looked.after,
        )

    def measured(self, i: int) -> Moved:
        """The steps with a number taken from a state."""
        looked = self.looked
        return lambda value: (raised(looked.states, i, -value), looked.inputs, raised(looked.after, i, -value))

    def best(self, moved: Moved, start: float, step: float) -> tuple[float, Optional[Flags]]:
        """The number with which most steps are explained, near what least squares give, and which these are; None where
        the equations don't depend on it."""
        fitted = self.fitted(moved, start, step)
        if fitted is None:
            return start, None
        near = [fitted + ABOUT * (fitted - start) * k / TRIED for k in range(-TRIED, TRIED + 1)]
        tried = [self.looked.are_explained(*moved(value), self.looked.inputs) for value in near]
        most = max(one.sum() for one in tried)
        at = [k for k, one in enumerate(tried) if one.sum() == most]
        middle = at[len(at) // 2]
        return near[middle], tried[middle]

    def fitted(self, moved: Moved, start: float, step: float) -> Optional[float]:
        """The number by which what has to be added to the equations comes nearest to the middles of the noises' ranges,
        by least squares over the steps that lie within thrice the usual distance; None where the equations don't depend
        on it."""
        value, weights = start, 1 / (self.halves + 1)
        for _ in range(ROUNDS):
            here, there = (
                ((self.looked.beyond(*moved(value + more))[0] - self.middles) * weights) for more in (0.0, step)
            )
            slope = (there - here) / step
            near = abs(here) <= 3 * numpy.median(abs(here)) + 3
            slope, here = slope[near & numpy.isfinite(slope)], here[near & numpy.isfinite(slope)]
            square = float((slope * slope).sum())
            if square * step * step < 1e-3 * max(slope.size, 1):
                return None
            value -= float((slope * here).sum()) / square
            if not math.isfinite(value):
                return None
        return value

    # Single steps

    def events(self) -> list[str]:
        """What befalls single steps: a state that wraps, samples that are missing, a state that jumps."""
        conformity, said = self.conformity, []
        bad = numpy.flatnonzero(~conformity.explained)
        wrapped, words = self.wraps(bad)
        said += words
        bad = bad[~wrapped]
        skipped = self.skips(bad)
        if skipped.any() and skipped.mean() >= LEFT:
            said.append(
                f"samples that are missing: {count_said(skipped.sum())} fit two samples instead of one, "
                f"{self.lines_said(bad[skipped])}"
            )
            bad = bad[~skipped]
        return said + self.jumps(bad)

    def wraps(self, bad: Wholes) -> tuple[Flags, list[str]]:
        """Which unexplained steps are explained with a state a turn on, and what is said of them."""
        conformity, done, said = self.conformity, numpy.zeros(bad.size, dtype=bool), []
        for i, (name, low, high, _) in enumerate(self.plant.states):
            size = float(self.units.size(name))
            others = ~numpy.delete(conformity.beyond[:, bad], i, axis=0).any(axis=0)
            for turn in (*TURNS, (high - low + 1) * size) if self.plant.periods[i] is None else ():
                first, last = conformity.stated()[i]
                away = numpy.abs(conformity.needed[i, bad]) - turn / size
                # A turn isn't a whole number of units.
                near = (away > min(first, -last) - 2) & (away < max(last, -first) + 2)
                over = others & ~done & near & (turn / size > 4 * (last - first + 2))
                if over.any():
                    done |= over
                    said.append(
                        f"an angle that wraps: at {count_said(over.sum())} {name} is a turn of "
                        f"{short_number(turn)} on, {self.lines_said(bad[over])}; unwrap it, or give the "
                        "model a "
                        f"line `wrap {name}`"
                    )
        return done, said

    def skips(self, bad: Wholes) -> Flags:
        """Which of the first unexplained steps are explained by two samples, under the step's input and then any other
        one, and lie farther beyond the ranges than these samples' noises reach."""
        done = numpy.zeros(bad.size, dtype=bool)
        some = bad[:LOOKED]
        if not some.size:
            return done
        looked = Looked(self.conformity, self.conformity.steps[some])
        equations, states = looked.equations, looked.equations.whole_states(looked.states)
        inputs, after = looked.inputs / equations.input_sizes, equations.whole_states(looked.after)
        with numpy.errstate(all="ignore"):
            middle = -equations.needed(states, inputs, numpy.zeros_like(after))[0] + self.middles
            for number in range(self.plant.vectors) if self.plant.vectors <= VECTORS else ():
                second = inputs * 0 + column(self.plant.vector(number)).reshape(-1, 1)
                away = abs(equations.needed(middle, second, after)[0] - self.middles)
                reach = (
                    self.halves
                    + 1
                    + sum(
                        abs(
                            equations.needed(middle + move, second, after)[0]
                            - equations.needed(middle, second, after)[0]
                        )
                        for move in numpy.diag((self.halves + 1).ravel())[:, :, None]
                    )
                )
                is_far = (abs(self.conformity.beyond[:, some]) > reach).any(axis=0)
                done[: some.size] |= (away <= reach).all(axis=0) & is_far
        return done

    def jumps(self, bad: Wholes) -> list[str]:
        """A state that jumps at few steps, far beyond its range."""
        said, judged = [], self.conformity.steps.size
        for i, (name, low, high, width) in enumerate(self.plant.states):
            first, last = self.conformity.stated()[i]
            beyond = abs(self.conformity.beyond[i, bad])
            far = beyond > FAR * (last - first + 1) + width
            if far.any() and far.sum() <= max(2, judged // 50) and far.sum() >= LEFT * numpy.count_nonzero(beyond):
                size = self.units.size_said(name, int(beyond.max()))
                said.append(
                    f"a state that jumps: {name} at {count_said(far.sum())}, by up to {size} beyond its range, "
                    f"{self.lines_said(bad[far])}"
                )
        return said

    def lines_said(self, steps: Wholes) -> str:
        """The first lines of steps, in words."""
        lines = self.conformity.log.lines[self.conformity.steps[steps[:LISTED]] + 1].tolist()
        return f"line{'s' * (len(lines) > 1)} {', '.join(map(str, lines))}" + " .." * (steps.size > LISTED)


def raised(rows: Reals, at: int, more: float = 0.0, factor: float = 1.0) -> Reals:
    """Rows of which one is multiplied and raised."""
    moved = numpy.array(rows)
    moved[at] = moved[at] * factor + more
    return moved


def short_number(value: float) -> str:
    return f"{value:.4g}"


def count_said(count: int) -> str:
    return f"{count} step{'s' * (count != 1)}"


def diagnosed(conformity: Conformity) -> list[str]:
    """What may be wrong with a log, in words, the likeliest first: only what explains clearly more steps."""
    are_judged = conformity.steps.size == conformity.candidates.size
    if not conformity.candidates.size or are_judged and conformity.explained.all():
        return []
    diagnosis = Diagnosis(conformity)
    causes = [
        f"{cause.said}: that would explain {cause.share:.1%} of the steps, and {cause.before:.1%} are"
        for cause in diagnosis.causes()
    ]
    return causes or diagnosis.events()
