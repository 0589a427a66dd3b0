"""Writes a model, or a plant text, with the ranges of noises that a log needs. Needs numpy."""

from __future__ import annotations

import math
import random
from fractions import Fraction
from typing import Optional

import numpy

from ..faults import Failure, Trouble
from ..models import polynomial
from ..models.arithmetic import Floats
from ..models.best_plant import planted
from ..models.formula import value_of
from ..models.kinds import Side
from ..models.model import Model, read_model
from ..plants.array_kinds import Flags
from ..plants.plant import Plant
from ..plants.reader import read_plant
from ..plants.units import decimal
from .conformity import Conformity, conform
from .logs import Log

# Rounds in which ranges grow until the log is explained, and the digits of what is written.
ROUNDS, DIGITS = 16, 3
NOTE = "# found by tools/conform"


class Ranges:
    """For the name of a noise its ends as they are to be written; added: new ones, by the state whose equation has
    it."""

    def __init__(self) -> None:
        self.noises: dict[str, tuple[Fraction, Fraction]] = {}
        self.added: dict[str, str] = {}

    def widen(self, name: str, low: Fraction, high: Fraction) -> None:
        """Adds to the ends of a noise, outwards."""
        least, most = self.noises[name]
        self.noises[name] = -up(-(least + low)) if low else least, up(most + high) if high else most


def up(value: Fraction) -> Fraction:
    """The least number of few digits that isn't below a value."""
    if not value:
        return value
    unit = Fraction(10) ** (math.floor(math.log10(abs(value))) + 1 - DIGITS)
    return Fraction(math.ceil(value / unit)) * unit


def with_ranges(data: bytes, conformity: Conformity) -> str:
    """The text of a model, or of a plant, in which the noises' ranges are as wide as all steps of a log need; where an
    equation has no noise that is only added, it gets one. Ranges aren't made narrower: a log shows only what has
    happened. Raises Trouble where that explains not all of the steps."""
    text, units = data.decode("utf-8", "replace"), conformity.plant.units
    edited = PlantText(text) if is_plant(text) else ModelText(text)
    left, found = ~conformity.explained, conformity
    for _ in range(ROUNDS):
        try:
            plant = edited.plant()
        except Failure as failure:
            raise Trouble(f"with the ranges that were found: {failure.said()}") from None
        found = conform(plant, with_steps(conformity, left), units)
        if found.explained.all():
            # Ranges that are wider may give a plant of other coefficients.
            found = conform(plant, conformity.log, units)
            left |= ~found.explained
        if found.explained.all():
            return edited.text()
        edited.widen(found)
    raise Trouble("no ranges of noises were found that explain all steps: the equations are others than the plant's")


def is_plant(text: str) -> bool:
    return (
        next((line.split()[0] for line in text.splitlines() if line.strip() and not line.lstrip().startswith("#")), "")
        == "plant"
    )


def with_steps(conformity: Conformity, chosen: Flags) -> Log:
    """A log of some of the judged steps alone."""
    log, at = conformity.log, conformity.steps[chosen]
    pairs = numpy.stack([at, at + 1], axis=1).ravel()
    return Log(
        log.states[:, pairs], log.inputs[:, pairs], None, log.lines[pairs], numpy.arange(pairs.size) % 2 == 0, log.path
    )


class Edited:
    """A text whose noises are widened. lines: its lines; ranges: what has been found."""

    def __init__(self, text: str) -> None:
        self.lines, self.ranges = text.splitlines(), Ranges()

    def widen(self, found: Conformity) -> None:
        """Widens the noise of the state that lies farthest beyond its range, on the average and beside its cells."""
        far = [float(abs(row).sum()) / state[3] for row, state in zip(found.beyond, found.plant.states)]
        i = max(range(len(far)), key=far.__getitem__)
        low, high = int(found.beyond[i].min(initial=0)), int(found.beyond[i].max(initial=0))
        self.widen_state(i, min(low, 0), max(high, 0))

    def widen_state(self, i: int, low: int, high: int) -> None:
        raise NotImplementedError

    def plant(self) -> Plant:
        raise NotImplementedError

    def fresh(self, state: str, taken: list[str]) -> str:
        """A new name for a noise of a state's equation."""
        name = f"e_{state}"[:32]
        while name in taken:
            name = "e" + name[:31]
        self.ranges.added[state] = name
        self.ranges.noises[name] = Fraction(0), Fraction(0)
        return name

    def text(self) -> str:
        lines = []
        for number, line in enumerate(self.lines, 1):
            bare, mark, comment = line.partition("#")
            kept = f"  {mark}{comment}" if mark else ""
            made = self.written(number, bare.rstrip(), kept)
            lines += [line if one == bare.rstrip() + kept else one for one in made]
        return "\n".join(lines) + "\n"

    def written(self, number: int, bare: str, comment: str) -> list[str]:
        """What becomes of a line."""
        words = bare.split()
        if words[:1] == ["noise"] and words[1:2] and words[1] in self.ranges.noises:
            return [f"noise {words[1]} {' '.join(map(decimal, self.ranges.noises[words[1]]))}  {NOTE}"]
        if words[:1] in (["next"], ["d"]) and words[1:2] and words[1] in self.ranges.added:
            return [f"{bare} + {self.ranges.added[words[1]]}{comment}"]
        return [bare + comment]

    def new_lines(self) -> list[str]:
        return [
            f"noise {name} {' '.join(map(decimal, self.ranges.noises[name]))}  {NOTE}"
            for name in self.ranges.added.values()
        ]


class ModelText(Edited):
    """The text of a model."""

    def __init__(self, text: str) -> None:
        super().__init__(text)
        self.model: Model = read_model(text.encode())
        self.last = max(self.model.variable_lines.values())
        self.rows = [list(row) for row in self.model.rows["w"]]
        self.time = self.model.time if self.model.flows else Fraction(1)

    def plant(self) -> Plant:
        """The plant of the text as it is by now."""
        return planted(read_model(self.text().encode())).plant

    def widen_state(self, i: int, low: int, high: int) -> None:
        name, *_, unit = self.model.states[i]
        if self.model.rows["A"]:
            self.rows = self.rows or [[Fraction(0), Fraction(0)] for _ in self.model.states]
            least, most = self.rows[i]
            self.rows[i] = [-up(-(least + low * unit)), up(most + high * unit)]
            return
        noise, weight = self.noise_of(i) or (
            self.ranges.added.get(name) or self.fresh(name, self.model.names()),
            Fraction(1),
        )
        ends = sorted(end * unit / self.time / weight for end in (low, high))
        self.ranges.noises.setdefault(
            noise, next((entry[1:] for entry in self.model.noises if entry[0] == noise), (Fraction(0), Fraction(0)))
        )
        self.ranges.widen(noise, *ends)

    def noise_of(self, i: int) -> Optional[tuple[str, Fraction]]:
        """The noise that a state's equation only adds, the one of the greatest weight, and its weight; None where it
        adds none."""
        weights = {noise[0]: self.weight_of(i, noise[0]) for noise in self.model.noises}
        name = max(weights, key=lambda one: abs(weights[one] or 0), default=None)
        weight = weights.get(name) if name else None
        return (name, Fraction(str(round(weight, 9)))) if name and weight else None

    def weight_of(self, i: int, name: str) -> Optional[float]:
        """By how much an equation grows with a noise, if by the same everywhere; tried at some random points."""
        model, draws, slopes = self.model, random.Random(1), []
        side = (model.flows or model.equations)[i]
        for _ in range(9):
            values = {
                one: float(low + (high - low) * Fraction(draws.random()))
                for one, low, high, *_ in model.states + model.noises
            }
            values |= {one: float(draws.choice(choices)) for one, _, choices in model.inputs}
            low, high = (sided(side, values | {name: values[name] + more}) for more in (0.0, 1.0))
            slopes.append(high - low)
        return slopes[0] if max(slopes) - min(slopes) < 1e-9 else None

    def written(self, number: int, bare: str, comment: str) -> list[str]:
        words = bare.split()
        if words[:1] == ["w"] and self.rows:
            at = sum(line.split()[:1] == ["w"] for line in self.lines[: number - 1])
            return [self.row(at) + comment]
        lines = super().written(number, bare, comment)
        if number == self.last:
            lines += self.new_lines()
        if number == self.model.equation_lines[-1] and self.rows and not self.model.rows["w"]:
            lines += [self.row(at) for at in range(len(self.rows))]
        return lines

    def row(self, at: int) -> str:
        return f"w {' '.join(map(decimal, self.rows[at]))}"


def sided(side: Side, values: dict[str, float]) -> float:
    """A right side at a point."""
    return (
        float(polynomial.value_of(side, values)) if isinstance(side, dict) else float(value_of(side, values, Floats()))
    )


class PlantText(Edited):
    """A plant text, whose numbers are whole units."""

    def __init__(self, text: str) -> None:
        super().__init__(text)
        self.first = read_plant(text.encode())

    def plant(self) -> Plant:
        return read_plant(self.text().encode())

    def widen_state(self, i: int, low: int, high: int) -> None:
        plant, (name, *_) = self.first, self.first.states[i]
        before = len(plant.states) + len(plant.inputs)
        own = [plant.noises[one - before][0] for one in plant.uses[i] if one >= before]
        if not own and plant.equations[i][0] == "lut" and plant.periods[i] is not None:
            raise Trouble(f"the equation of {name}, which comes round, has no noise to widen; give --model the model")
        alone = [one for one in own if is_added(plant, i, before + [noise[0] for noise in plant.noises].index(one))]
        noise = alone[0] if alone else self.ranges.added.get(name) or self.fresh(name, plant.names())
        self.ranges.noises.setdefault(
            noise,
            next(
                ((Fraction(low), Fraction(high)) for one, low, high in plant.noises if one == noise),
                (Fraction(0), Fraction(0)),
            ),
        )
        least, most = self.ranges.noises[noise]
        self.ranges.noises[noise] = least + low, most + high

    def written(self, number: int, bare: str, comment: str) -> list[str]:
        is_first = bare.startswith("next ") and not any(line.startswith("next ") for line in self.lines[: number - 1])
        lines = super().written(number, bare, comment)
        return (self.new_lines() if is_first else []) + [line.replace(f"  {NOTE}", "") for line in lines]

    def new_lines(self) -> list[str]:
        return [line.replace(f"  {NOTE}", "") for line in super().new_lines()]


def is_added(plant: Plant, i: int, variable: int) -> bool:
    """Whether an equation adds a noise, with a plus and no factor."""
    node = plant.rolled.equations[i]
    while node[0] in ("add", "sub"):
        if node[2] == ("var", variable):
            return bool(node[0] == "add")
        node = node[1]
    return bool(node == ("var", variable))
