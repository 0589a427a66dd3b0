"""Half-planes as obstacles of a model: those cells that a linear inequality of one or two states meets, covered by
boxes of cells."""

from __future__ import annotations

from fractions import Fraction
from typing import Iterable, Optional, Sequence, Tuple

from ..faults import Fault
from .kinds import Ends, ModelState, Polynomial


# The first and the last index along the first axis, and along the second.
Met = Tuple[int, int, int, int]


class HalfPlane:
    """Where the sum of weights times states, and a constant, is below 0."""

    def __init__(self, polynomial: Polynomial, states: Sequence[ModelState]) -> None:
        names = [state[0] for state in states]
        if any(len(monomial) > 1 or any(name not in names for name in monomial) for monomial in polynomial):
            raise Fault("the sides of an inequality are sums of states and numbers, each state times a number")
        self.axes = sorted(names.index(monomial[0]) for monomial in polynomial if monomial)
        if not 1 <= len(self.axes) <= 2:
            raise Fault("an inequality names one or two states")
        self.weights = [polynomial[names[i],] for i in self.axes]
        self.constant = polynomial.get((), Fraction(0))
        self.states = states

    def least(self, indices: Iterable[int]) -> Fraction:
        """The least value over the cell at these indices of its axes."""
        total = self.constant
        for i, weight, index in zip(self.axes, self.weights, indices):
            _, low, _, width, _ = self.states[i]
            total += weight * (low + width * (index if weight > 0 else index + 1))
        return total

    def count(self, axis: int) -> int:
        _, low, high, width, _ = self.states[self.axes[axis]]
        return int((high - low) / width)

    def columns(self) -> list[Met]:
        """Runs of indices (first, last) of the first axis, each with the first and the last index that is met along the
        second."""
        columns: list[Met] = []
        for index in range(self.count(0)):
            met = self.met(index)
            if met and columns and columns[-1][1] == index - 1 and columns[-1][2:] == met:
                columns[-1] = (columns[-1][0], index, *met)
            elif met:
                columns.append((index, index, *met))
        return columns

    def met(self, index: int) -> Optional[tuple[int, int]]:
        """The ends of the indices along the second axis that are met, which begin or end with the axis; None where
        there are none."""
        if len(self.axes) == 1:
            return (0, 0) if self.least((index,)) < 0 else None
        last = self.count(1) - 1
        is_met = [self.least((index, other)) < 0 for other in range(last + 1)]
        if not any(is_met):
            return None
        return (0, last - is_met[::-1].index(True)) if self.weights[1] > 0 else (is_met.index(True), last)

    def boxes(self, most: int) -> list[list[Ends]]:
        """At most so many boxes in the model's units that cover every cell that is met; others are taken in where there
        are too few."""
        columns = self.columns()
        while len(columns) > most:
            k = min(range(len(columns) - 1), key=lambda k: added(columns[k], columns[k + 1]))
            columns[k : k + 2] = [joined(columns[k], columns[k + 1])]
        return [self.box(column) for column in columns]

    def box(self, column: Met) -> list[Ends]:
        ends = [(low, high) for _, low, high, _, _ in self.states]
        for i, (first, last) in zip(self.axes, (column[:2], column[2:])):
            _, low, _, width, _ = self.states[i]
            ends[i] = (low + first * width, low + (last + 1) * width)
        return ends


def joined(one: Met, other: Met) -> Met:
    return one[0], other[1], min(one[2], other[2]), max(one[3], other[3])


def cells_of(column: Met) -> int:
    return (column[1] - column[0] + 1) * (column[3] - column[2] + 1)


def added(one: Met, other: Met) -> int:
    """How many cells one box in index of two takes in beside them."""
    return cells_of(joined(one, other)) - cells_of(one) - cells_of(other)
