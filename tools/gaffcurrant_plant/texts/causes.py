"""Why cells of a table have no row: what stops each input of the lost cells, the nearest causes behind them, what stops
the cells next to those that are won, and the rounds in which cells fall that are to be kept. All lost cells are worked
out at once; needs numpy."""

from __future__ import annotations

from typing import TYPE_CHECKING, Optional, Tuple, Union

import numpy

from ..plants.array_kinds import Extents, Flags, Wholes
from ..plants.batch import Sums, cells_that_meet, cells_within, fans, summed
from ..plants.kinds import Cell, Vector
from .arrays import RowArrays

if TYPE_CHECKING:
    from ..progress import Progress
    from .table import Table

EDGE, OBSTACLE, STILL, ITSELF, ONWARD = "edge", "obstacle", "still", "itself", "onward"
# Causes that lie at the cell itself, in the order in which they are told.
CAUSES = (EDGE, OBSTACLE, STILL, ITSELF)
# Numbers of what stops an input: none, those of CAUSES from 1, and that it leads to other lost cells.
FREE, LEADS_ON = 0, len(CAUSES) + 1
NEVER = -1
# What chooses pairs among those of the lost cells and the input vectors; how many steps away a cause lies, its cell and
# its input.
Chosen = Union[Wholes, Tuple[Wholes, Wholes], Tuple[int, int]]
Nearest = Tuple[int, Cell, Vector]


def number_of(cause: str) -> int:
    return CAUSES.index(cause) + 1


class Lost:
    """The cells without a row that are no obstacles, with what stops each of their inputs. `stops` has for each of
    these cells and each input vector a number; `lost` and `fan` how many successors have no row and how many there are;
    `promising` whether the input leads the cell's middle into a cell with a row; `causes` for each of CAUSES whether it
    lies at the cell itself."""

    def __init__(self, table: Table, progress: Optional[Progress] = None) -> None:
        self.table, self.plant, self.batch = table, table.plant, table.plant.arrays
        rows = RowArrays.of(table)
        self.has = rows.won | rows.arrivals
        self.blocked = cells_that_meet(self.plant, self.plant.obstacles)
        self.cells = numpy.flatnonzero(~rows.won & ~self.blocked)
        self.at = numpy.full(self.plant.cells, NEVER)
        self.at[self.cells] = numpy.arange(len(self.cells))
        shape = (len(self.cells), self.plant.vectors)
        self.stops, self.promising = numpy.zeros(shape, dtype=numpy.int8), numpy.zeros(shape, dtype=bool)
        self.lost, self.fan = numpy.zeros(shape, dtype=numpy.int32), numpy.zeros(shape, dtype=numpy.int32)
        self.is_still = numpy.zeros(len(self.cells), dtype=bool)
        self.ends = [
            numpy.zeros((2, *shape), dtype=numpy.int16 if count < 2**15 else numpy.int32)
            for count in self.plant.counts
        ]
        counts = self.plant.counts
        sums = Sums(self.has, counts), Sums(self.blocked & ~self.has, counts)
        for begin, cells, vectors in self.batch.blocks(self.cells):
            self.look(begin, cells, vectors, *sums)
            if progress:
                progress.show(begin / max(1, len(self.cells)))
        self.causes = [
            self.is_still if cause == STILL else numpy.any(self.stops == number_of(cause), axis=1) for cause in CAUSES
        ]

    def look(self, begin: int, cells: Wholes, vectors: Wholes, won: Sums, blocked: Sums) -> None:
        """Works out a block of cells."""
        indices, part = self.batch.indices(cells), slice(begin, begin + len(cells))
        lows = self.batch.lows(indices)
        extents, inside = self.batch.extents(self.batch.boxes(lows, vectors))
        for ends, (first, last) in zip(self.ends, extents):
            ends[0, part], ends[1, part] = first, last
        fan = fans(extents)
        lost = fan - won.over(extents)
        self.fan[part], self.lost[part] = numpy.where(inside, fan, 0), numpy.where(inside, lost, 0)
        comes_back = ~self.has[cells] & numpy.array(True)
        for (first, last), index in zip(extents, indices):
            comes_back = comes_back & (first <= index) & (index <= last)
        if self.table.keeps:
            comes_back = comes_back & (lost == 1)
        stops = numpy.where(comes_back, number_of(ITSELF), LEADS_ON)
        stops = numpy.where(blocked.over(extents) > 0, number_of(OBSTACLE), stops)
        self.stops[part] = numpy.where(inside, numpy.where(lost > 0, stops, FREE), number_of(EDGE))
        if not self.table.keeps:
            self.is_still[part] = (
                numpy.any(inside, axis=-1).reshape(-1)
                & numpy.all(comes_back | ~inside, axis=-1).reshape(-1)
                & numpy.ones(len(cells), bool)
            )
        middles, within = self.batch.extents([(middle, middle) for middle in self.batch.middles(lows, vectors)])
        cell = sum(index * stride for (index, _), stride in zip(middles, self.batch.strides))
        self.promising[part] = within & self.has[cell]

    def extents(self, chosen: Chosen) -> Extents:
        """For each state the first and last indices of the boxes of chosen pairs, which a subscript of `stops`
        selects."""
        return [(ends[0][chosen].astype(numpy.int64), ends[1][chosen].astype(numpy.int64)) for ends in self.ends]

    def marks(self, numbers: Union[Flags, Wholes]) -> Sums:
        """Sums over boxes of what is said of each lost cell."""
        whole = numpy.zeros(self.plant.cells, dtype=numpy.int32)
        whole[self.cells] = numbers
        return Sums(whole, self.plant.counts)

    def vector_of(self, at: int, cause: str) -> Vector:
        """The first input with a cause at a cell."""
        return int(
            numpy.argmax(self.stops[at] != number_of(EDGE) if cause == STILL else self.stops[at] == number_of(cause))
        )

    # From lost cell to lost cell

    def reached(self, ring: Wholes) -> Flags:
        """Which cells without a row the inputs of some cells may lead to."""
        shape = [count + 1 for count in self.plant.counts]
        rows, vectors = numpy.nonzero(self.lost[ring] > 0)
        extents = self.extents((ring[rows], vectors))
        paint = numpy.zeros(int(numpy.prod(shape)), dtype=numpy.int64)
        for corner in range(2 ** len(shape)):
            bits = [corner >> i & 1 for i in range(len(shape))]
            index = numpy.zeros(len(rows), dtype=numpy.int64)
            for bit, (first, last), count in zip(bits, extents, shape):
                index = index * count + (last + 1 if bit else first)
            paint += (-1) ** sum(bits) * numpy.bincount(index, minlength=len(paint))
        paint = paint.reshape(shape)
        for axis in range(len(shape)):
            summed(paint, axis)
        inner = paint[tuple(slice(count) for count in self.plant.counts)].reshape(-1)
        reached: Flags = (inner > 0) & ~self.has
        return reached

    def nearest(self, start: Cell) -> tuple[dict[str, Nearest], int]:
        """For each kind of cause the nearest lost cell with it, as (how many steps away, the cell, the input), going
        from lost cell to lost cell; and how many cells were looked at."""
        found: dict[str, Nearest] = {}
        seen: Flags = numpy.zeros(self.plant.cells, dtype=bool)
        ring: Wholes = numpy.array([start])
        steps = 0
        while len(ring):
            seen[ring] = True
            ring = self.at[ring]
            ring = ring[ring != NEVER]
            for cause, has in zip(CAUSES, self.causes):
                if cause not in found and numpy.any(has[ring]):
                    at = ring[int(numpy.argmax(has[ring]))]
                    found[cause] = steps, int(self.cells[at]), self.vector_of(at, cause)
            if len(found) == len(CAUSES) or not len(ring):
                break
            ring, steps = numpy.flatnonzero(self.reached(ring) & ~seen), steps + 1
        return found, int(numpy.count_nonzero(seen))

    def behind(self) -> Wholes:
        """For each lost cell the number of the cause behind it: of a cell without one itself, that which is most
        frequent among the cells with the nearest ones to which its inputs may lead."""
        label = numpy.zeros(len(self.cells), dtype=numpy.int64)
        new = numpy.zeros(len(self.cells), dtype=bool)
        for number in range(len(CAUSES), 0, -1):
            label[self.causes[number - 1]] = number
            new |= self.causes[number - 1]
        marks = [self.marks(has) for has in self.causes]
        while numpy.any(new):
            left = self.touching(numpy.flatnonzero(label == 0), self.marks(new))
            counts = numpy.stack([self.total(left, mark) for mark in marks])
            new = numpy.zeros(len(self.cells), dtype=bool)
            chosen = counts.max(axis=0) > 0
            new[left[chosen]] = True
            label[left[chosen]] = counts.argmax(axis=0)[chosen] + 1
            marks = [self.marks(new & (label == number)) for number in range(1, len(CAUSES) + 1)]
        return label

    def touching(self, rows: Wholes, marks: Sums) -> Wholes:
        """Those of some lost cells whose boxes, taken together, meet a cell that is marked."""
        if not len(rows):
            return rows
        extents = [
            (numpy.min(ends[0][rows], axis=1).astype(numpy.int64), numpy.max(ends[1][rows], axis=1).astype(numpy.int64))
            for ends in self.ends
        ]
        return rows[marks.over(extents) > 0]

    def total(self, rows: Wholes, marks: Sums) -> Wholes:
        """For each of some lost cells how many marked cells the boxes of its inputs meet in all."""
        if not len(rows):
            return numpy.zeros(0, dtype=numpy.int64)
        total: Wholes = numpy.sum(numpy.where(self.lost[rows] > 0, marks.over(self.extents(rows)), 0), axis=1)
        return total


class Frontier:
    """The lost cells at which an input's middle leads into a cell with a row, counted by what stops the input of them
    that has the least share of successors without one; where these are other lost cells alone, by the nearest cause
    behind them. A count's key is the cause, and whether it lies farther on."""

    def __init__(self, lost: Lost) -> None:
        self.counts: dict[tuple[str, bool], int] = {}
        rows = numpy.flatnonzero(numpy.any(lost.promising, axis=1))
        self.cells = len(rows)
        for number in range(1, len(CAUSES) + 1):
            self.count(CAUSES[number - 1], False, numpy.zeros(0, bool))
        still = lost.is_still[rows]
        self.count(STILL, False, still)
        rows = rows[~still]
        stopped = lost.promising[rows] & (lost.stops[rows] != FREE)
        share = numpy.where(lost.fan[rows] > 0, lost.lost[rows] / numpy.maximum(lost.fan[rows], 1), 2)
        vectors = numpy.where(stopped, share, numpy.inf).argmin(axis=1) if len(rows) else numpy.zeros(0, dtype=int)
        kinds = numpy.where(stopped.any(axis=1), lost.stops[rows, vectors], FREE)
        for number, cause in enumerate(CAUSES, 1):
            self.count(cause, False, kinds == number)
        self.count(ONWARD, False, kinds == FREE)
        farther = kinds == LEADS_ON
        for number, cause in enumerate((ONWARD, *CAUSES)):
            self.count(cause, True, self.farther(lost, rows[farther], vectors[farther]) == number)

    def count(self, cause: str, is_farther: bool, which: Flags) -> None:
        total = int(numpy.count_nonzero(which))
        if total:
            self.counts[cause, is_farther] = self.counts.get((cause, is_farther), 0) + total

    def farther(self, lost: Lost, rows: Wholes, vectors: Wholes) -> Wholes:
        """The numbers of the causes behind the lost successors of pairs: of the nearest ones the most frequent."""
        if not hasattr(self, "found"):
            label, chosen = lost.behind(), numpy.zeros(len(rows), dtype=numpy.int64)
            extents = lost.extents((rows, vectors))
            for marks in (
                [lost.marks(has) for has in lost.causes],
                [lost.marks(label == number) for number in range(1, len(CAUSES) + 1)],
            ):
                counts = numpy.stack([mark.over(extents) for mark in marks])
                chosen = numpy.where((chosen == 0) & (counts.max(axis=0) > 0), counts.argmax(axis=0) + 1, chosen)
            self.found = chosen
        return self.found


class Rounds:
    """For each cell of a keep table without a row the round in which it falls. Obstacles and cells without an enabled
    input fall in round 0, and a cell behind the round in which the last of its inputs is cut. `number` has NEVER for
    other cells."""

    def __init__(self, lost: Lost, progress: Optional[Progress] = None) -> None:
        self.lost, self.plant = lost, lost.plant
        self.number = numpy.where(lost.blocked & ~lost.has, 0, NEVER)
        left = lost.fan > 0
        fallen = lost.cells[~left.any(axis=1)]
        self.number[fallen] = 0
        standing = numpy.flatnonzero(left.any(axis=1))
        new, round_number = self.number == 0, 0
        while numpy.any(new):
            round_number += 1
            marks = Sums(new, self.plant.counts)
            met = lost.touching(standing, marks)
            left[met] &= marks.over(lost.extents(met)) == 0 if len(met) else True
            fallen = met[~left[met].any(axis=1)]
            new = numpy.zeros(self.plant.cells, dtype=bool)
            new[lost.cells[fallen]] = True
            self.number[new] = round_number
            standing = standing[left[standing].any(axis=1)]
            if progress:
                progress.show(1 - len(standing) / max(1, len(lost.cells)))

    def counts(self) -> list[int]:
        counts: list[int] = numpy.bincount(self.number[self.number != NEVER]).tolist()
        return counts

    def way(self, cell: Cell) -> list[tuple[Cell, Optional[Vector]]]:
        """The cells behind a fallen one, each with the input of the one before that was cut last, down to one that fell
        in round 0."""
        way: list[tuple[Cell, Optional[Vector]]] = [(cell, None)]
        grid = self.number.reshape(self.plant.counts)
        while self.number[cell]:
            cuts = []
            for vector in numpy.flatnonzero(self.lost.fan[self.lost.at[cell]] > 0):
                part = tuple(
                    slice(int(first), int(last) + 1) for first, last in self.lost.extents((self.lost.at[cell], vector))
                )
                numbers = grid[part]
                least = numbers[numbers != NEVER].min(initial=numpy.iinfo(numbers.dtype).max)
                if least <= self.number[cell]:
                    indices = numpy.argwhere(numbers == least)[0] + [one.start for one in part]
                    cuts.append((self.plant.cell_at(indices.tolist()), int(vector)))
            cell, vector = max(cuts, key=lambda cut: int(self.number[cut[0]]))
            way.append((cell, vector))
        return way


class Round:
    """Why a patrol without rows has none. alone: for each target which of its cells can be left, and reached again for
    sure; cells: how many lie in it whole and in no obstacle."""

    def __init__(self, lost: Lost, progress: Optional[Progress] = None) -> None:
        self.lost, self.plant, self.progress = lost, lost.plant, progress
        goals = [cells_within(self.plant, [box]) & ~lost.blocked for box in self.plant.targets]
        self.cells = [int(numpy.count_nonzero(goal)) for goal in goals]
        self.alone = [self.returning(goal) for goal in goals]

    def returning(self, goal: Flags) -> Flags:
        """Which cells of a goal have a strategy that leads back to such cells again and again, after a sample or more
        each time."""
        while numpy.any(goal):
            kept = goal & self.led(goal)
            if numpy.array_equal(kept, goal):
                break
            goal = kept
        return goal

    def led(self, goal: Flags) -> Flags:
        """Which cells have a strategy that leads into a goal for sure, after a sample or more."""
        led, reached, new = numpy.zeros(self.plant.cells, dtype=bool), goal.copy(), goal
        standing = numpy.flatnonzero(numpy.any(self.lost.fan > 0, axis=1))
        while numpy.any(new):
            met = self.lost.touching(standing, Sums(new, self.plant.counts))
            inside = (
                Sums(reached, self.plant.counts).over(self.lost.extents(met))
                if len(met)
                else numpy.zeros((0, self.plant.vectors))
            )
            found = met[numpy.any((inside == self.lost.fan[met]) & (self.lost.fan[met] > 0), axis=1)]
            led[self.lost.cells[found]] = True
            new = led & ~reached
            reached |= new
            standing = numpy.setdiff1d(standing, found, assume_unique=True)
            if self.progress:
                self.progress.say("following the targets back")
        return led

    def first_without(self) -> Optional[int]:
        """The first target that can't be reached from itself, or None."""
        return next((number for number, cells in enumerate(self.alone) if not numpy.any(cells)), None)

    def first_apart(self) -> Optional[int]:
        """The first target from whose cells, of those that can be reached again, the next target's can't be reached, or
        None."""
        behind = self.alone[1:] + self.alone[:1]
        return next(
            (
                number
                for number, (cells, others) in enumerate(zip(self.alone, behind))
                if not numpy.any(cells & self.led(others))
            ),
            None,
        )
