"""What the program writes of a plant, to be asked for rows, ranks and inputs: a table, a stay text that brings the
plant into its target and keeps it there, and a patrol text that visits the targets in turn. docs/FORMATS.md gives the
texts."""

from __future__ import annotations

import contextlib
from typing import TYPE_CHECKING, Iterable, Literal, Mapping, Optional, Sequence, SupportsInt, TypeVar, Union

from ..plants.kinds import Box, Cell, Row, RowRun
from ..plants.plant import Plant, holds
from .promise import turn_after
from .rows import Front, Lines, front_of

if TYPE_CHECKING:
    from ..plants.units import Units
    from .real_states import Real, RealPatrol


class NoRow(LookupError):
    """A state is outside the domain, or its cell has no row: the table promises nothing there."""


def whole_of(value: SupportsInt) -> int:
    """A value of a state as an int; raises ValueError where it is none: a fraction, an infinity, no number."""
    number = None
    with contextlib.suppress(OverflowError, ValueError):
        number = int(value)
    if number is None or number != value:
        raise ValueError(f"{value} is no whole number; a state is told in whole units, floor(value / unit)")
    return number


def whole_state(plant: Plant, state: Iterable[SupportsInt]) -> list[int]:
    """The numbers of a state as ints; raises ValueError where one is no whole number, or where there isn't one for each
    of the plant's states."""
    whole = [whole_of(value) for value in state]
    if len(whole) != len(plant.states):
        names = ", ".join(name for name, *_ in plant.states)
        raise ValueError(f"a state has {len(plant.states)} numbers ({names}), here are {len(whole)}")
    return whole


class Table:
    """rows: for a cell with a row its rank (None with goal keep) and its input (None at rank 0)."""

    kind: Literal["table", "stay", "turn"] = "table"

    def __init__(self, plant: Plant, rows: Mapping[Cell, Row], version: int = 1) -> None:
        self.plant, self.rows, self.version = plant, rows, version

    @property
    def keeps(self) -> bool:
        """Whether the plant is to be kept, and has no target to come to."""
        return self.kind == "table" and self.plant.goal == "keep"

    def row(self, state: Iterable[SupportsInt]) -> Row:
        """Rank and input of the row of a state's cell; raises NoRow. A state has a whole number for each of the
        plant's."""
        whole = whole_state(self.plant, state)
        row = self.row_at(self.plant.cell_of(whole))
        if row is None:
            raise NoRow(f"{whole} has no row")
        return row

    def row_at(self, cell: Optional[Cell]) -> Optional[Row]:
        """The row of a cell; None where it has none, and outside of the domain, which is no cell."""
        return None if cell is None else self.rows.get(cell)

    def rank(self, state: Iterable[SupportsInt]) -> Optional[int]:
        """The number of samples that suffice from a state, or None with goal keep; raises NoRow."""
        return self.row(state)[0]

    def choice(self, state: Iterable[SupportsInt]) -> Optional[tuple[int, ...]]:
        """The values to apply at a state, one for each input, or None in a target, where nothing has to be; raises
        NoRow."""
        number = self.row(state)[1]
        return None if number is None else tuple(self.plant.vector(number))

    def in_units(self, units: Units) -> Real:
        """The same rows, asked in a model's units, by what `read_units` reads."""
        from .real_states import Real

        return Real(self, units)

    def has(self, cell: Optional[Cell]) -> bool:
        """Whether a step into a cell goes on well."""
        return cell in self.rows

    def left(self, cell: Cell) -> Optional[int]:
        """How many samples suffice from a cell with a row, or None with goal keep."""
        return self.rows[cell][0]


class Stay(Table):
    """A stay text: at rank 0 too a row has an input, which keeps the plant in cells of rank 0."""

    kind = "stay"


class Turn(Table):
    """The rows of one turn of a patrol, and its arrivals: the cells of its target that have a row for the next turn."""

    kind = "turn"

    def __init__(self, plant: Plant, rows: Mapping[Cell, Row], number: int, arrivals: set[Cell]) -> None:
        super().__init__(plant, rows)
        self.number, self.arrivals = number, arrivals

    def has(self, cell: Optional[Cell]) -> bool:
        return cell in self.arrivals or cell in self.rows

    def left(self, cell: Cell) -> Optional[int]:
        return 0 if cell in self.arrivals else self.rows[cell][0]


class Patrol:
    """A patrol text: a Turn for each target, in order."""

    kind: Literal["patrol"] = "patrol"

    def __init__(self, plant: Plant, rows: Sequence[Mapping[Cell, Row]], version: int = 1) -> None:
        self.plant, self.version = plant, version
        count = len(rows)
        arrivals = [
            arrivals_of(plant, box, rows[turn_after(turn, True, count)]) for turn, box in enumerate(plant.targets)
        ]
        self.turns = [Turn(plant, of_turn, turn, cells) for turn, (of_turn, cells) in enumerate(zip(rows, arrivals))]

    def in_units(self, units: Units) -> RealPatrol:
        """The same turns, asked in a model's units, by what `read_units` reads."""
        from .real_states import RealPatrol

        return RealPatrol(self, units)

    def turn_after(self, number: int, state: Sequence[int]) -> int:
        """The turn after a sample: the next one where the state has come to the turn's target, else the same."""
        return self.visit(number, state)[1]

    def visit(self, number: int, state: Sequence[int]) -> tuple[bool, int]:
        """Whether a state has come to the target of a turn, and the turn after it."""
        has_arrived = self.plant.cell_of(state) in self.turns[number].arrivals
        return has_arrived, turn_after(number, has_arrived, len(self.turns))


def parts_of(text: Text) -> Sequence[Table]:
    """What has rows of its own: the turns of a patrol, else the text itself."""
    if text.kind == "patrol":
        return text.turns
    return [text]


def arrivals_of(plant: Plant, box: Box, next_rows: Mapping[Cell, Row]) -> set[Cell]:
    """The cells with a row for the next turn all of whose points lie in a box."""
    return {cell for cell in next_rows if holds(box, plant.low(cell), plant.high(cell))}


Text = Union[Table, Patrol]
OnePart = TypeVar("OnePart", bound=Table)


def read_table(data: bytes) -> Table:
    """The table that the bytes spell, or raises Refused for the first line that is none of a table."""
    return of_one_part(Table, data, front_of(data, ("table",)))


def read_stay(data: bytes) -> Stay:
    """The same of a stay text."""
    return of_one_part(Stay, data, front_of(data, ("stay",)))


def read_patrol(data: bytes) -> Patrol:
    """The same of a patrol text."""
    return patrol_of(data, front_of(data, ("patrol",)))


def read_text(data: bytes, kinds: Sequence[str] = ("table", "stay", "patrol")) -> Text:
    """What the bytes spell, a Table, a Stay or a Patrol, or raises Refused for the first line that is none of such a
    text."""
    front = front_of(data, kinds)
    if front.kind == "patrol":
        return patrol_of(data, front)
    return of_one_part(Stay if front.kind == "stay" else Table, data, front)


def of_one_part(kind: type[OnePart], data: bytes, front: Front) -> OnePart:
    """The Table or the Stay of the bytes, by the front of them."""
    lines = Lines(data, front)
    rows = lines.rows("rows ")
    lines.finish()
    return kind(front.plant, rows, front.version)


def patrol_of(data: bytes, front: Front) -> Patrol:
    """The Patrol of the bytes, by the front of them."""
    lines = Lines(data, front)
    turns = [lines.rows(f"turn {number} rows ") for number in range(len(front.plant.targets))]
    lines.finish()
    return Patrol(front.plant, turns, front.version)


def runs_of(rows: Mapping[Cell, Row]) -> list[RowRun]:
    """The rows as maximal runs (first, last, rank, input), in rising order."""
    runs: list[RowRun] = []
    for cell in sorted(rows):
        goes_on = runs and runs[-1][1] == cell - 1 and runs[-1][2:] == rows[cell]
        first = runs.pop()[0] if goes_on else cell
        runs.append((first, cell, *rows[cell]))
    return runs


def said(lines: Iterable[Iterable[Optional[int]]]) -> list[str]:
    """Row lines as they are written."""
    return [" ".join("-" if word is None else str(word) for word in line) for line in lines]


def text_of_table(plant: Plant, rows: Mapping[Cell, Row], version: int = 2) -> str:
    """The text of a plant and its rows in either version."""
    lines = said(runs_of(rows)) if version > 1 else said((cell, *rows[cell]) for cell in sorted(rows))
    return "\n".join([f"table {version}", plant.text() + f"rows {len(lines)}", *lines, "end", ""])


def text_of_stay(plant: Plant, rows: Mapping[Cell, Row]) -> str:
    """The stay text of a plant and its rows."""
    lines = said(runs_of(rows))
    return "\n".join(["stay 1", plant.text() + f"rows {len(lines)}", *lines, "end", ""])


def text_of_patrol(plant: Plant, turns: Iterable[Mapping[Cell, Row]]) -> str:
    """The patrol text of a plant and its rows, turn by turn."""
    lines = []
    for number, rows in enumerate(turns):
        of_turn = said(runs_of(rows))
        lines += [f"turn {number} rows {len(of_turn)}"] + of_turn
    return "\n".join(["patrol 1", plant.text() + "\n".join(lines + ["end", ""])])
