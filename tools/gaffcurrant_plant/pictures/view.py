"""What a picture shows of a table: which states are its axes, where the others are fixed, and in which units."""

from __future__ import annotations

from fractions import Fraction
from typing import Iterable, Optional, Sequence

from ..faults import Trouble
from ..models.kinds import Real
from ..plants.kinds import Box
from ..plants.plant import Plant
from ..plants.units import Units, decimal


class View:
    """axes: the numbers of the states along the axes; fixed: for others the index at which they are fixed, values: the
    number, said: that in words."""

    def __init__(
        self, plant: Plant, units: Units, names: Optional[Sequence[str]] = None, fix: Iterable[str] = ()
    ) -> None:
        known = [state[0] for state in plant.states]
        self.plant, self.units = plant, units
        self.axes = [self.number(known, name) for name in names or known[:2]]
        if len(self.axes) > 3 or len(set(self.axes)) < len(self.axes):
            raise Trouble("--axes takes one, two or three states", 2)
        self.fixed: dict[int, int] = {}
        self.values: dict[int, int] = {}
        self.said: dict[int, str] = {}
        for entry in fix:
            self.fix(known, entry)

    def fix(self, known: Sequence[str], entry: str) -> None:
        name, sign, word = entry.partition("=")
        i = self.number(known, name)
        if not sign:
            raise Trouble(f"--fix takes NAME=X, as --fix {name}={self.said_at(name, self.plant.states[i][1])}", 2)
        _, low, high, width = self.plant.states[i]
        value = self.units.whole(name, word)
        if not low <= value <= high:
            raise Trouble(f"--fix {entry}: it is outside {self.range_said(i)}", 2)
        if i in self.axes:
            raise Trouble(f"--fix {entry}: {name} is an axis", 2)
        self.fixed[i], self.values[i] = (value - low) // width, value
        is_real = self.units.sizes and name not in self.units.exact
        self.said[i] = f"{name} = {word}{self.units.word(name)}" if is_real else self.units.said(name, value)

    def number(self, names: Sequence[str], name: str) -> int:
        if name not in names:
            raise Trouble(f"`{name}` is no state of the plant (they are {', '.join(names)})", 2)
        return names.index(name)

    def name(self, axis: int) -> str:
        return self.plant.states[self.axes[axis]][0]

    def label(self, axis: int) -> str:
        return self.units.label(self.name(axis))

    def at(self, axis: int, whole: Real) -> float:
        """Where on an axis the unit of a number of its state begins. What is a whole number by itself is a point, and
        has its number in the middle."""
        name = self.name(axis)
        return self.units.value(name, whole - Fraction(1, 2) if name in self.units.exact else whole)

    def period(self, axis: int) -> Optional[float]:
        """After how much along an axis its state comes round, or None."""
        period = self.plant.periods[self.axes[axis]]
        return period and self.units.value(self.name(axis), period)

    def range(self, axis: int) -> tuple[float, float]:
        _, low, high, _ = self.plant.states[self.axes[axis]]
        return self.at(axis, low), self.at(axis, high + 1)

    def meets(self, box: Box) -> bool:
        """Whether a box has a point where the other states are fixed."""
        return all(box[i][0] <= value <= box[i][1] for i, value in self.values.items())

    def covers(self, box: Box) -> bool:
        """Whether a box holds all values of the states that are projected."""
        return all(
            box[i][0] <= low and high <= box[i][1]
            for i, (_, low, high, _) in enumerate(self.plant.states)
            if i in self.projected()
        )

    def projected(self) -> list[int]:
        """The states that are neither axes nor fixed."""
        return [i for i in range(len(self.plant.states)) if i not in self.axes and i not in self.fixed]

    def note(self, is_share: bool) -> str:
        """In words, what is done with the states that are no axes."""
        said = [self.said[i] for i in sorted(self.values)]
        names = ", ".join(self.plant.states[i][0] for i in self.projected())
        if names:
            said.append(f"share of the places of {names} that are kept" if is_share else f"best over {names}")
        return ", ".join(said)

    def state(self, words: Sequence[str], option: str) -> list[int]:
        """A state by its words; raises Trouble where it isn't one of the domain."""
        plant = self.plant
        if len(words) != len(plant.states):
            names = " ".join(name for name, *_ in plant.states)
            raise Trouble(f"{option} takes {len(plant.states)} numbers, one for each state ({names})", 2)
        state = [self.units.whole(name, word) for (name, *_), word in zip(plant.states, words)]
        if plant.cell_of(state) is None:
            out = [
                f"{name} is {self.range_said(i)}"
                for i, (name, low, high, _) in enumerate(plant.states)
                if not low <= state[i] <= high
            ]
            raise Trouble(f"{option} {' '.join(words)}: the state is outside the domain, where {', '.join(out)}")
        return state

    def said_at(self, name: str, whole: int) -> str:
        """A number of a state as a word gives it."""
        return decimal(whole * self.units.size(name))

    def range_said(self, i: int) -> str:
        """The range of a state, with what its numbers are counted in."""
        name, low, high, _ = self.plant.states[i]
        if not self.units.sizes:
            return f"{low} to {high} in the plant's whole units; --model makes these numbers those of the model"
        word = self.units.words.get(name)
        return (
            f"{self.said_at(name, low)} to {self.said_at(name, high + (name not in self.units.exact))} in the "
            f"units of the model{f', {word}' if word else ''}"
        )

    def input_said(self, number: int) -> str:
        """An input vector in words, in the model's units."""
        said = [self.units.said(name, value) for (name, _), value in zip(self.plant.inputs, self.plant.vector(number))]
        return ", ".join(said) if said else "no input"
