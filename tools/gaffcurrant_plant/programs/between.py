"""Lists the cells from which the way of a sample may touch an obstacle of the model, or leave its domain, between two \
samples."""

from __future__ import annotations

import argparse
from collections import Counter
from functools import partial
from typing import TYPE_CHECKING, Iterator, Optional, Sequence

from ..command import Arguments, need, read_bytes, start
from ..faults import Refused, Trouble
from ..models.agreement import check_model, model_at
from ..plants.units import units_of
from ..progress import Progress

if TYPE_CHECKING:
    from ..plants.array_kinds import Flags
    from ..texts.arrays import Cells
    from ..ways.enclosure import Touch, Walls

# Cells of each kind, and inputs of a wall, that are listed.
LISTED, INPUTS = 20, 4
FORMAT = """
For each cell with a row, its input and all disturbances the way of a whole sample is enclosed by intervals over \
substeps, rounded outward (Picard and
Lindeloef: R. E. Moore, Interval Analysis, 1966; N. S. Nedialkov, K. R. Jackson, G. F. Corliss, Validated solutions of \
initial value problems for
ordinary differential equations, 1999). A cell that isn't listed has no way that touches. One that is listed may have \
none either: its enclosure is wider
than its ways. The obstacles are told first, and behind them the bounds of the domain, each with the inputs under \
which ways may touch it, in the
model's units. The ways of `next` lines aren't known, and taken as straight. What this says is tested and not proved. \
It needs numpy (Debian: apt-get
install python3-numpy). Obstacles that are half-planes count as the boxes that cover them.

`tools/scale --between MODEL`, or a line `between` in the model, widens the obstacles of the plant until no cell is \
listed.
Status 0: no way touches; 1: some may, or the text or the model can't be read; 2: wrong words.
"""


def main(arguments: list[str]) -> int:
    parser = Arguments(
        prog="between", description=__doc__, epilog=FORMAT, formatter_class=argparse.RawDescriptionHelpFormatter
    )
    parser.add_argument("text", metavar="TEXT", help="a table, a stay text or a patrol text, `-` for standard input")
    parser.add_argument("--model", metavar="MODEL", required=True, help="its model, with the obstacles as they are")
    parser.add_argument("--all", action="store_true", help=f"list all cells, and not the first {LISTED}")
    given = parser.parse_args(arguments)
    need("this", "numpy")
    from ..texts.arrays import Turns
    from ..ways.enclosure import Looked

    model = model_at(given.model)
    try:
        read = Turns(read_bytes(given.text))
        turns = [read.cells(turn) for turn in range(read.count)]
    except Refused as refusal:
        raise Trouble(f"{given.text}: {refusal.answer}: {refusal.reason}") from None
    if not turns:
        raise Trouble(f"{given.text}: the patrol has no target, so it has no rows")
    plant = turns[0].plant
    check_model(given.model, model, plant)
    plant.units = units_of(model)
    with Progress("between", has_lines=True).during("enclosing ways"):
        looked = Looked(model, plant)
        found = [looked.touch(cells.won, cells.inputs, turn) for turn, cells in enumerate(turns)]
    print("\n".join(Said(looked.walls, turns, found).lines(None if given.all else LISTED)))
    return 1 if any(touch.cells.size for touch in found) else 0


class Said:
    """What is said of touching ways: the obstacles first, and behind them the bounds of the domain."""

    def __init__(self, walls: Walls, turns: Sequence[Cells], found: Sequence[Touch]) -> None:
        self.walls, self.turns, self.found, self.plant = walls, turns, found, turns[0].plant
        self.obstacles = len(walls.boxes)

    def lines(self, most: Optional[int]) -> Iterator[str]:
        """All lines, with at most so many cells of each kind, or with all of them."""
        at_obstacles = [touch.walls[: self.obstacles].any(axis=0) for touch in self.found]
        at_bounds = [touch.walls[self.obstacles :].any(axis=0) for touch in self.found]
        total, touched, left = (
            sum(int(one.sum()) for one in some)
            for some in ([cells.won for cells in self.turns], at_obstacles, at_bounds)
        )
        yield (
            f"{total} rows: the ways of {sum(touch.cells.size for touch in self.found)} may touch, of {touched} "
            f"an obstacle, of {left} a bound of the domain"
        )
        yield from filter(None, map(self.wall_said, range(self.walls.count)))
        yield from self.cell_lines("may touch an obstacle", at_obstacles, most)
        yield from self.cell_lines(
            "may leave the domain alone", [left & ~touched for left, touched in zip(at_bounds, at_obstacles)], most
        )
        yield from self.cell_lines(
            "isn't known, since no enclosure was found",
            [touch.lost & ~touch.walls.any(axis=0) for touch in self.found],
            most,
        )

    def wall_said(self, wall: int) -> Optional[str]:
        """How many ways may touch a wall, and under which inputs; None where none may."""
        inputs = [cells.inputs[touch.cells[touch.walls[wall]]].tolist() for touch, cells in zip(self.found, self.turns)]
        under = Counter(vector for some in inputs for vector in some)
        said = "; ".join(
            f"{count} under {self.plant.input_said(vector)}" for vector, count in under.most_common(INPUTS)
        )
        more = f"; and {len(under) - INPUTS} more" if len(under) > INPUTS else ""
        return f"{self.walls.said(wall)}: the ways of {sum(under.values())} ({said}{more})" if under else None

    def cell_lines(self, what: str, chosen: Sequence[Flags], most: Optional[int]) -> Iterator[str]:
        """The cells of one kind, chosen by an array for each turn."""
        pairs = [(touch, int(k)) for touch, mine in zip(self.found, chosen) for k in mine.nonzero()[0]]
        if pairs:
            yield f"cells whose way {what}:"
        yield from (self.cell_said(*pair) for pair in pairs[:most])
        if most is not None and len(pairs) > most:
            yield f"  and {len(pairs) - most} more; --all lists them"

    def cell_said(self, touch: Touch, k: int) -> str:
        cells, cell = self.turns[touch.turn], int(touch.cells[k])
        what = (
            ", ".join(self.walls.name(int(wall)) for wall in touch.walls[:, k].nonzero()[0]) or "no enclosure was found"
        )
        turn = f"turn {touch.turn}, " if cells.kind == "patrol" else ""
        return f"  {turn}{self.plant.cell_said(cell)} under {self.plant.input_said(int(cells.inputs[cell]))}: {what}"


run = partial(start, "between", main)
