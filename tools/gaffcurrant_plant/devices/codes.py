"""The rows of a text as numbers for a device: what stands for each cell, cell by cell or in runs, and the indices of a
patrol's targets."""

from __future__ import annotations

from typing import Sequence
from ..texts.table import Table, Text, parts_of

LINE = 24


class Codes:
    """The number that stands for each cell's row, turn by turn: that of the input vector, or one of the two greatest.
    ranks: the rank of each cell's row, 0 where there is none."""

    def __init__(self, text: Text) -> None:
        self.bits = 16 if text.plant.vectors > 254 else 8
        self.none = 2**self.bits - 1
        self.arrived = self.none - 1
        self.of_parts = [self.of_part(part) for part in parts_of(text)]
        self.ranks = [ranks_of(part) for part in parts_of(text)]
        self.rank_bits = 16 if max(max(ranks, default=0) for ranks in self.ranks) < 2**16 else 32

    def of_part(self, part: Table) -> list[int]:
        codes = [self.none] * part.plant.cells
        for cell, (_, choice) in part.rows.items():
            codes[cell] = self.arrived if choice is None else choice
        return codes

    def flat(self) -> tuple[list[int], list[int]]:
        """The numbers and the ranks of all cells, turn by turn."""
        return [number for part in self.of_parts for number in part], [rank for part in self.ranks for rank in part]

    def runs(self, with_ranks: bool) -> tuple[list[int], list[int], list[int], list[int]]:
        """The first cell of each run of cells with one number, and where ranks are asked for with one rank; the
        numbers, the ranks, and for each part the number of its first run, and behind all."""
        firsts: list[int] = []
        numbers: list[int] = []
        ranks: list[int] = []
        begins = [0]
        for codes, of_cells in zip(self.of_parts, self.ranks):
            pairs = list(zip(codes, of_cells if with_ranks else [0] * len(codes)))
            changes = [cell for cell, pair in enumerate(pairs) if cell == 0 or pair != pairs[cell - 1]]
            firsts += changes
            numbers += [pairs[cell][0] for cell in changes]
            ranks += [pairs[cell][1] for cell in changes]
            begins.append(len(firsts))
        return firsts, numbers, ranks, begins


def ranks_of(part: Table) -> list[int]:
    ranks = [0] * part.plant.cells
    for cell, (rank, _) in part.rows.items():
        ranks[cell] = rank or 0
    return ranks


def target_indices(patrol: Text) -> tuple[list[list[int]], list[list[int]]]:
    """The indices that fill each target, from the first to the last along each state; the first is behind the last
    where there are none."""
    firsts: list[list[int]] = []
    lasts: list[list[int]] = []
    for box in patrol.plant.targets:
        indices = patrol.plant.inner_extents(box)
        whole = all(first <= last for first, last in indices)
        firsts.append([first if whole else 1 for first, _ in indices])
        lasts.append([last if whole else 0 for _, last in indices])
    return firsts, lasts


WHAT = {"table": "A table", "stay": "A stay text", "patrol": "A patrol text"}


def about(text: Text, checksum: int) -> list[str]:
    """Lines on the text, as far as its numbers need words."""
    plant, counts = text.plant, [len(part.rows) for part in parts_of(text)]
    goal = (
        plant.goal
        if text.kind == "table"
        else "reach and stay"
        if text.kind == "stay"
        else f"patrol of {len(counts)} targets"
    )
    lines = [
        f"goal {goal}; {plant.cells} cells, {', '.join(map(str, counts)) or 0} of them with a row; "
        f"{plant.vectors} input vectors.",
        "states: " + ", ".join(state[0] for state in plant.states),
    ]
    if plant.inputs:
        lines.append("inputs: " + ", ".join(name for name, _ in plant.inputs))
    return lines + [f"checksum of the text {checksum:08x} (CRC-32)"]


def broken(values: Sequence[int], size: int = LINE) -> list[str]:
    """Values in lines of so many."""
    said = list(map(str, values))
    return [",".join(said[at : at + size]) for at in range(0, len(said), size)]
