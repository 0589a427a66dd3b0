"""The rows of a table, a stay text or a patrol text as arrays, for texts of a million cells. Needs numpy."""

from __future__ import annotations

import re
import warnings
from typing import TYPE_CHECKING, Any, Iterable, NamedTuple, Optional, Sequence, Union

import numpy
from numpy.typing import ArrayLike, NDArray

from ..faults import Refused
from ..plants.array_kinds import Flags, Reals, Wholes
from ..plants.batch import OUTSIDE, cells_at
from ..plants.kinds import Cell, Input, Row, State
from ..plants.plant import Plant, holds
from ..plants.units import Units
from .promise import turn_after
from .rows import VERSIONS, Front, front_of

from .table import Table, Text, Turn, parts_of

if TYPE_CHECKING:
    from .solver import Sample

NONE = -1
# An array of which some lines have no value.
Masked = numpy.ma.MaskedArray[Any, numpy.dtype[Any]]
KINDS = tuple(VERSIONS)


class RowArrays:
    """The rows of a text, of a patrol text those of one turn, over the cells. won: whether a cell has a row; ranks and
    inputs: NONE where there is no row, no rank or no input; arrivals: of a Turn, whether it is one of its arrivals."""

    won: Flags
    ranks: Wholes
    inputs: Wholes
    arrivals: Flags

    def __init__(self, plant: Plant, cells: ArrayLike, ranks: ArrayLike, inputs: ArrayLike) -> None:
        self.plant = plant
        self.won = numpy.zeros(plant.cells, dtype=bool)
        self.ranks, self.inputs = numpy.full((2, plant.cells), NONE)
        self.won[cells] = True
        self.ranks[cells], self.inputs[cells] = ranks, inputs

    @classmethod
    def of(cls, table: Table) -> RowArrays:
        """Those of a Table, a Stay or a Turn, with its arrivals."""
        cells = numpy.fromiter(table.rows, dtype=numpy.int64, count=len(table.rows))
        ranks, inputs = (filled([row[k] for row in table.rows.values()]) for k in (0, 1))
        arrays = cls(table.plant, cells, ranks, inputs)
        arrays.arrivals = numpy.zeros(table.plant.cells, dtype=bool)
        arrays.arrivals[list(table.arrivals) if isinstance(table, Turn) else []] = True
        return arrays


class Rows:
    """The rows of all turns of a Table, a Stay or a Patrol: RowArrays with a line for each turn, and a cell OUTSIDE
    without a row behind the last one."""

    def __init__(self, text: Text) -> None:
        self.plant, self.kind = text.plant, text.kind
        self.keeps = text.kind == "table" and text.keeps
        parts = [RowArrays.of(part) for part in parts_of(text)]
        self.won, self.arrivals = (stacked(parts, name, False) for name in ("won", "arrivals"))
        self.ranks, self.inputs = (stacked(parts, name, NONE) for name in ("ranks", "inputs"))
        self.low, self.high, self.width = (
            numpy.array([state[k] for state in self.plant.states]).reshape(-1, 1) for k in (1, 2, 3)
        )

    def cell_of(self, whole: Wholes) -> Wholes:
        """The cells of columns of whole numbers, OUTSIDE where one is outside of the domain."""
        return cells_at(self.plant, whole)


def stacked(parts: Iterable[RowArrays], name: str, outside: int) -> NDArray[Any]:
    """An array of each of some RowArrays, a line each, with a value behind the last cell's."""
    return numpy.stack([numpy.append(getattr(part, name), outside) for part in parts])


class Cells(RowArrays):
    """The RowArrays of the bytes of a text, of a patrol text those of one turn, asked with many states at once."""

    def __init__(self, data: bytes, turn: int = 0, turns: Optional[Turns] = None) -> None:
        self.turn, self.turns = turn, turns or Turns(data)
        front = self.turns.front
        self.kind, self.version = front.kind, front.version
        firsts, lasts, ranks, inputs = columns_of(data, front, turn)
        lengths = lasts - firsts + 1
        cells = numpy.arange(lengths.sum()) + numpy.repeat(firsts - numpy.cumsum(lengths) + lengths, lengths)
        super().__init__(front.plant, cells, numpy.repeat(ranks, lengths), numpy.repeat(inputs, lengths))

    def row_of(self, cell: Cell) -> Optional[Row]:
        """The row of a cell as a pair, or None."""
        if not self.won[cell]:
            return None
        rank, choice = int(self.ranks[cell]), int(self.inputs[cell])
        return None if rank == NONE else rank, None if choice == NONE else choice

    def cell_of(self, states: ArrayLike) -> Wholes:
        """The cells of states, an array of one line each, or OUTSIDE where one is outside of the domain."""
        states = numpy.asarray(states)
        wide = len(self.plant.states)
        if states.ndim != 2 or states.shape[1] != wide:
            raise ValueError(f"states are an array of {wide} columns, here is one of the shape {states.shape}")
        if not numpy.issubdtype(states.dtype, numpy.integer):
            raise ValueError("states are whole numbers; whole_states makes them of real ones")
        return cells_at(self.plant, states.T)

    def rank(self, states: ArrayLike) -> Wholes:
        """The ranks at states; NONE where there is no row, and with goal keep."""
        cells = self.cell_of(states)
        return numpy.where(cells == OUTSIDE, NONE, self.ranks[cells])

    def choice(self, states: ArrayLike) -> Masked:
        """The values to apply at states, a line for each, masked where there is no row, and in the target of a
        table."""
        cells = self.cell_of(states)
        numbers = numpy.where(cells == OUTSIDE, NONE, self.inputs[cells])
        vectors = numpy.array(
            [self.plant.vector(number) for number in range(self.plant.vectors)], dtype=numpy.int64
        ).reshape(self.plant.vectors, -1)
        mask = numpy.broadcast_to((numbers == NONE)[:, None], (len(numbers), vectors.shape[1]))
        return masked(vectors[numbers], mask)

    def of_turn(self, turn: int) -> Cells:
        """The cells of another turn of the same patrol."""
        return self.turns.cells(turn)

    def is_arrival(self, turn: int, cell: int) -> bool:
        """Whether a cell lies in the target of a turn, and has a row for the next one."""
        plant = self.plant
        is_inside = holds(plant.targets[turn], plant.low(cell), plant.high(cell))
        return is_inside and bool(self.of_turn(turn_after(turn, True, len(plant.targets))).won[cell])

    def arranged(self, values: NDArray[Any], axes: Sequence[int], fixed: dict[int, int]) -> NDArray[Any]:
        """Values of cells over the indices of some axes, and behind them over those of the other states that aren't
        fixed."""
        counts = self.plant.counts
        others = [i for i in range(len(counts)) if i not in axes]
        chosen = tuple([slice(None)] * len(axes) + [fixed.get(i, slice(None)) for i in others])
        part = values.reshape(counts).transpose(list(axes) + others)[chosen]
        return part.reshape([counts[i] for i in axes] + [-1])

    def seen(self, axes: Sequence[int], fixed: dict[int, int]) -> tuple[Wholes, Wholes, Flags]:
        """Rank, input and whether there is a row, over the indices of some axes. The other states are fixed at an
        index, or the cell of the least rank is taken over all of their indices."""
        won = self.arranged(self.won, axes, fixed)
        ranks = self.arranged(self.ranks, axes, fixed)
        best = numpy.where(won, ranks, numpy.iinfo(numpy.int64).max).argmin(axis=-1)[..., None]
        inputs = self.arranged(self.inputs, axes, fixed)
        rank, choice, has_row = (numpy.take_along_axis(part, best, -1)[..., 0] for part in (ranks, inputs, won))
        return rank, choice, has_row

    def share(self, axes: Sequence[int], fixed: dict[int, int]) -> Reals:
        """Over the indices of some axes, the share of the indices of the other states that have a row."""
        shares: Reals = self.arranged(self.won, axes, fixed).mean(axis=-1)
        return shares


def whole_states(plant: Plant, units: Units, states: ArrayLike) -> Wholes:
    """The whole numbers of real states, an array of one line each, in a model's units. A value within 10^-9 of a unit's
    end counts as at that end."""
    scaled = numpy.asarray(states, dtype=numpy.float64) / sizes_of(units, plant.states)
    whole: Wholes = numpy.floor(scaled + 1e-9).astype(numpy.int64)
    return whole


def masked(values: ArrayLike, mask: ArrayLike) -> Masked:
    return numpy.ma.masked_array(values, mask)  # type: ignore[no-untyped-call] # numpy gives it no types


class Run(NamedTuple):
    """A run as arrays: the times, the states and the inputs, a line each, and the ranks and turns, NONE where there is
    none."""

    times: Wholes
    states: Union[Wholes, Reals]
    ranks: Wholes
    inputs: Masked
    turns: Wholes


def run_of(samples: Sequence[Sample], units: Optional[Units] = None, plant: Optional[Plant] = None) -> Run:
    """The Run of what `simulate` gives. With a plant's units states and inputs are in these: states at the middles of
    their units, what is a whole number by itself as it is."""
    states = numpy.array([sample.state for sample in samples])
    inputs = inputs_of(samples)
    if units and plant:
        halves = numpy.array([0.5 * (name not in units.exact) for name, *_ in plant.states])
        states = (states + halves) * sizes_of(units, plant.states)
        inputs = inputs * sizes_of(units, plant.inputs)[: inputs.shape[-1]]
    ranks, turns = (filled([getattr(sample, name) for sample in samples]) for name in ("rank", "turn"))
    return Run(numpy.array([sample.time for sample in samples]), states, ranks, inputs, turns)


def inputs_of(samples: Sequence[Sample]) -> Masked:
    """The inputs of samples, a line each, masked where none were applied."""
    wide = max((len(sample.inputs) for sample in samples if sample.inputs is not None), default=0)
    applied = [sample.inputs or (0,) * wide for sample in samples]
    return masked(applied, [[sample.inputs is None] * wide for sample in samples])


def sizes_of(units: Units, entries: Iterable[Union[State, Input]]) -> Reals:
    """What the number 1 of each state, or of each input, stands for."""
    return numpy.array([float(units.size(entry[0])) for entry in entries])


def filled(numbers: Iterable[Optional[int]]) -> Wholes:
    """An array with NONE in the place of None."""
    return numpy.array([NONE if number is None else number for number in numbers])


class Turns:
    """The turns of a patrol text; any other text counts as one."""

    def __init__(self, data: bytes) -> None:
        self.data, self.front = data, front_of(data, KINDS)
        self.known: dict[int, Cells] = {}
        self.is_patrol = self.front.kind == "patrol"
        self.count = len(self.front.plant.targets) if self.is_patrol else 1

    def cells(self, turn: int) -> Cells:
        if turn not in self.known:
            self.known[turn] = Cells(self.data, turn, self)
        return self.known[turn]


def rows_at(data: bytes, front: Front, turn: int) -> tuple[int, int, int]:
    """The line, the byte and the number of the first row line, of a patrol text in one turn; raises Refused."""
    at, line = front.at, front.line
    for number in range(turn + 1):
        before = f"turn {number} rows" if front.kind == "patrol" else "rows"
        counted = re.compile(rf"{before} (0|[1-9][0-9]{{0,8}})\n".encode()).match(data, at)
        if not counted:
            raise Refused(f"malformed: line {line}", f"`{before} N` is due")
        at, line, count = counted.end(), line + 1, int(counted.group(1))
        if number < turn:
            for _ in range(count):
                at, line = data.find(b"\n", at) + 1 or len(data), line + 1
    return line, at, count


def end_of(data: bytes, at: int) -> int:
    """The byte at which a turn's row lines, or the text's, end."""
    behind = re.compile(rb"(?:turn |end\n)").search(data, at)
    return behind.start() if behind else len(data)


def columns_of(data: bytes, front: Front, turn: int) -> tuple[Wholes, Wholes, Wholes, Wholes]:
    """The first and last cells, ranks and inputs of the row lines; raises Refused where they are none."""
    line, at, count = rows_at(data, front, turn)
    end, wide = end_of(data, at), 3 + front.in_runs()
    if not data.endswith(b"\nend\n"):
        raise Refused(f"malformed: line {data.count(10) + 1}", "the text is cut off: its last line isn't `end`")
    with warnings.catch_warnings():
        warnings.simplefilter("error")
        try:
            numbers = numpy.fromstring(data[at:end].replace(b"-", b"-1"), dtype=numpy.int64, sep=" ")
        except (DeprecationWarning, ValueError):
            raise Refused(f"malformed: line {line}", "the row lines aren't of their form") from None
    if numbers.size != wide * count or data.count(b"\n", at, end) != count:
        raise Refused(f"malformed: line {line + count}", f"{count} row lines are due")
    columns = numbers.reshape(-1, wide).T
    firsts, lasts, ranks, inputs = columns[0], columns[wide - 3], columns[-2], columns[-1]
    if count and (
        numpy.any(firsts[1:] <= lasts[:-1])
        or numpy.any(lasts < firsts)
        or firsts[0] < 0
        or lasts[-1] >= front.plant.cells
        or not are_pairs(front, ranks, inputs)
    ):
        raise Refused(
            f"malformed: line {line}",
            "the cells of the row lines don't rise below the number of cells, or a rank or an input is none",
        )
    return firsts, lasts, ranks, inputs


def are_pairs(front: Front, ranks: Wholes, inputs: Wholes) -> bool:
    """Whether ranks and inputs are those that rows of a text may have, as rows.pair_fault says of each."""
    plant, least = front.plant, int(front.kind == "patrol")
    right: Flags = (inputs >= 0) & (inputs < plant.vectors)
    if front.kind == "table" and plant.goal == "keep":
        right &= ranks == NONE
    else:
        if front.kind == "table":
            right = numpy.where(ranks == 0, inputs == NONE, right)
        right &= (ranks >= least) & (ranks < plant.cells + least)
    return bool(right.all())
