"""Tables asked in a model's own units, as metres and seconds."""

from __future__ import annotations

import math
from fractions import Fraction
from typing import TYPE_CHECKING, Iterable, Optional, SupportsFloat

from .table import NoRow

if TYPE_CHECKING:
    from ..plants.kinds import Row
    from ..plants.units import Units
    from .table import Patrol, Table


class Real:
    """The rows of a table, a stay text or a turn of a patrol, asked with real states. A float counts as the decimal
    number that it is printed as."""

    def __init__(self, table: Table, units: Units) -> None:
        self.table, self.units = table, units

    def whole(self, state: Iterable[SupportsFloat]) -> list[int]:
        """The plant's whole numbers of a real state: those of the units in which its values lie."""
        values = list(state)
        names = [name for name, *_ in self.table.plant.states]
        if len(values) != len(names):
            raise ValueError(f"a state has {len(names)} numbers ({', '.join(names)}), here are {len(values)}")
        return [math.floor(exact(value) / self.units.size(name)) for value, name in zip(values, names)]

    def middle(self, whole: Iterable[int]) -> tuple[float, ...]:
        """A state in the model's units: the middles of the units of its whole numbers, and what is a whole number by
        itself as it is."""
        return tuple(
            float((2 * number + (name not in self.units.exact)) * self.units.size(name) / 2)
            for number, (name, *_) in zip(whole, self.table.plant.states)
        )

    def rank(self, state: Iterable[SupportsFloat]) -> Optional[int]:
        """The number of samples that suffice from a real state, or None with goal keep; raises NoRow."""
        return self.row(state)[0]

    def choice(self, state: Iterable[SupportsFloat]) -> Optional[tuple[float, ...]]:
        """The values to apply at a real state, in the model's units, or None in a target; raises NoRow."""
        number = self.row(state)[1]
        if number is None:
            return None
        plant = self.table.plant
        return tuple(
            float(value * self.units.size(name)) for value, (name, _) in zip(plant.vector(number), plant.inputs)
        )

    def row(self, state: Iterable[SupportsFloat]) -> Row:
        """Rank and input of the row of a real state's cell; raises NoRow, which says the state in the model's units."""
        whole, plant = self.whole(state), self.table.plant
        row = self.table.row_at(plant.cell_of(whole))
        if row is None:
            said = ", ".join(self.units.said(name, value) for (name, *_), value in zip(plant.states, whole))
            raise NoRow(f"{said} has no row")
        return row


class RealPatrol:
    """A patrol asked with real states. turns: a Real for each of its turns."""

    def __init__(self, patrol: Patrol, units: Units) -> None:
        self.patrol, self.turns = patrol, [Real(turn, units) for turn in patrol.turns]

    def turn_after(self, number: int, state: Iterable[SupportsFloat]) -> int:
        """The turn after a sample in a real state: the next one where the state has come to the turn's target, else the
        same."""
        return self.patrol.turn_after(number, self.turns[number].whole(state))


def exact(value: SupportsFloat) -> Fraction:
    """A number as a fraction; a float as the decimal number that it is printed as. NaN and infinities are a
    ValueError."""
    if isinstance(value, (int, Fraction)):
        return Fraction(value)
    if not math.isfinite(value):
        raise ValueError(f"{value} is no state")
    return Fraction(repr(float(value)))
