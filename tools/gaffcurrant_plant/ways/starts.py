"""Draws the first states and the disturbances of runs in doubles. Needs numpy."""

from __future__ import annotations

from typing import TYPE_CHECKING, Callable

from ..faults import Trouble
from ..models.trial import PARTS
from .doubles import column, numpy

if TYPE_CHECKING:
    from numpy.random import Generator
    from ..plants.array_kinds import Flags, Reals, Wholes
    from ..texts.arrays import Rows
    from .doubles import RealPlant

# Kinds of starts, and of disturbances, which the runs take in turn.
STARTS = ("within cells", "on corners", "on whole units", "with states at 0")
WITHIN, CORNER, WHOLE, REST = range(len(STARTS))
PUSHES = ("random", "ends", "held", "switching", "still")


class Starts:
    """First states: within cells with a row, on their corners by either way of computing these, on whole units, and
    with states at 0. kinds: for each run the number of its kind in STARTS."""

    def __init__(self, real: RealPlant, rows: Rows, exact: Flags, draws: Generator) -> None:
        self.real, self.rows, self.exact, self.draws = real, rows, exact, draws
        self.sizes = [state[4] for state in real.model.states]
        self.widths = column([state[3] for state in real.model.states])

    def states(self, turns: Wholes, measured: Callable[[Reals], Wholes]) -> Reals:
        """A state for each turn of the runs; measured gives the whole numbers of states."""
        cells = self.cells(turns)
        indices = numpy.array(numpy.unravel_index(cells, self.rows.plant.counts))
        firsts = self.rows.low + indices * self.rows.width
        shares = self.draws.random(firsts.shape)
        corners = numpy.where(
            self.draws.random(len(cells)) < 0.5, self.nearest(firsts), self.real.lows + self.widths * indices
        )
        at_zero = (self.rows.low <= 0) & (self.rows.high >= 0) & (self.draws.random(firsts.shape) < 0.7)
        within = self.within(firsts, shares)
        self.kinds = numpy.arange(len(cells)) % len(STARTS)
        # Where no state was put at 0 the run begins on a corner.
        self.kinds[(self.kinds == REST) & ~at_zero.any(axis=0)] = CORNER
        states = numpy.select(
            [self.kinds == WITHIN, self.kinds == CORNER, self.kinds == WHOLE],
            [within, corners, self.nearest(firsts + numpy.floor(shares * self.rows.width).astype(int))],
            numpy.where(at_zero, 0.0, corners),
        )
        for other, kind in ((corners, CORNER), (within, WITHIN)):
            has_row = self.rows.won[turns, self.rows.cell_of(measured(states))]
            states = numpy.where(has_row, states, other)
            self.kinds[~has_row] = kind
        return states

    def cells(self, turns: Wholes) -> Wholes:
        """A cell with a row for each run, in the run's turn; one that isn't in the target where there is one."""
        cells = numpy.zeros(len(turns), dtype=int)
        for turn in range(len(self.rows.won)):
            won = self.rows.won[turn]
            found = numpy.flatnonzero(won & (self.rows.ranks[turn] != 0))
            found = found if found.size else numpy.flatnonzero(won)
            if not found.size:
                raise Trouble("no cell has a row, so there is nothing to drive")
            mine = turns == turn
            cells[mine] = self.draws.choice(found, mine.sum())
        return cells

    def nearest(self, whole: Wholes) -> Reals:
        """The doubles nearest to whole numbers of units."""
        return numpy.array(
            [
                [value * size.numerator / size.denominator for value in row]
                for row, size in zip(whole.tolist(), self.sizes)
            ]
        )

    def within(self, firsts: Wholes, shares: Reals) -> Reals:
        """States within cells, a little off their bounds; exact states on a whole number."""
        width = self.rows.width
        inside = numpy.where(self.exact, numpy.floor(shares * width), (0.001 + 0.998 * shares) * width)
        states: Reals = (firsts + inside) * self.real.units
        return states


class Pushes:
    """The disturbances of runs: random, at ends, held at ends, switching from end to end, and still: 0, or the end that
    is nearest to it."""

    def __init__(self, real: RealPlant, runs: int, draws: Generator) -> None:
        self.real, self.draws = real, draws
        self.is_high = draws.random((len(real.noise_names), runs)) < 0.5
        self.kinds = numpy.arange(runs) // len(STARTS) % len(PUSHES)

    def parts(self, runs: Wholes, time: int) -> list[Reals]:
        """The disturbances of a sample of these runs, part by part; where the model knows samples alone, the same in
        each part."""
        is_steady = not self.real.is_flow or self.real.of_matrix
        parts = [self.part(runs, time + part // 2) for part in range(1 if is_steady else PARTS)]
        return parts * PARTS if is_steady else parts

    def part(self, runs: Wholes, beat: int) -> Reals:
        low, high = self.real.noise_ends
        held, kinds = self.is_high[:, runs], self.kinds[runs]
        shares = self.draws.random(held.shape)
        return numpy.select(
            [kinds == 0, kinds == 1, kinds == 2, kinds == 3],
            [
                low + shares * (high - low),
                numpy.where(shares < 0.5, low, high),
                numpy.where(held, low, high),
                numpy.where(held ^ (beat % 2 == 1), low, high),
            ],
            numpy.clip(0.0, low, high) + 0.0 * shares,
        )
