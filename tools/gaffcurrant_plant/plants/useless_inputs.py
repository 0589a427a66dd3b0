"""Input vectors without which the same cells are won with the same ranks, or the same are kept. Needs numpy."""

from __future__ import annotations

from typing import TYPE_CHECKING, Sequence

import numpy

from .array_kinds import Flags, Wholes
from .batch import cells_that_meet, cells_within
from .kinds import Vector

if TYPE_CHECKING:
    from .batch import Batch
    from .plant import Plant

# So many vectors are compared with each other, at first on so many cells.
COMPARED, TRIED = 256, 200


class Boxes:
    """The indices that the boxes under one input vector meet along each state, as arrays over the grid, of one index
    along states that the equation doesn't name."""

    def __init__(self, batch: Batch, vector: Vector) -> None:
        plant, wide = batch.plant, len(batch.plant.counts)
        values = [column[vector] for column in batch.values]
        self.extents: list[list[Wholes]] = []
        self.inside: Flags = numpy.array(True)
        for i in range(wide):
            lows = [
                low
                + numpy.arange(count if j in plant.uses[i] else 1).reshape([-1 if k == j else 1 for k in range(wide)])
                * width
                for j, ((_, low, _, width), count) in enumerate(zip(plant.states, plant.counts))
            ]
            (extent,), inside = batch.extents([batch.box(i, lows, values, batch.moves[i][vector])], [i])
            kind = numpy.int16 if max(plant.counts) < 2**15 else numpy.int32
            self.extents.append(
                [numpy.broadcast_to(end, numpy.broadcast_shapes(end.shape, (1,) * wide)).astype(kind) for end in extent]
            )
            self.inside = self.inside & inside

    def back(self, counts: Sequence[int]) -> Flags:
        """Where a box holds its own cell."""
        own = numpy.array(True)
        for i, ((first, last), count) in enumerate(zip(self.extents, counts)):
            index = numpy.arange(count).reshape([-1 if k == i else 1 for k in range(len(counts))])
            own = own & (first <= index) & (index <= last)
        return own

    def within(self, other: Boxes) -> Flags:
        """Where its boxes lie within those of another vector."""
        held = self.inside
        for (first, last), (least, most) in zip(self.extents, other.extents):
            held = held & (least <= first) & (last <= most)
        return held


def useless(plant: Plant) -> tuple[list[Vector], list[Vector]]:
    """The numbers of the vectors that never help: those that lead back into the cell or leave the domain everywhere,
    and those dominated by another one, whose boxes lie within theirs wherever they are enabled."""
    batch = plant.arrays
    boxes = [Boxes(batch, vector) for vector in range(plant.vectors)]
    fixed = (cells_that_meet(plant, plant.obstacles) | cells_within(plant, plant.targets)).reshape(plant.counts)
    wanted = [box.inside & ~fixed for box in boxes]
    if plant.goal == "reach":
        wanted = [want & ~box.back(plant.counts) for want, box in zip(wanted, boxes)]
    idle = [vector for vector, want in enumerate(wanted) if not want.any()]
    left = [vector for vector in range(plant.vectors) if vector not in idle]
    return idle, dominated(boxes, wanted, left) if len(left) <= COMPARED else []


def dominated(boxes: Sequence[Boxes], wanted: Sequence[Flags], left: Sequence[Vector]) -> list[Vector]:
    """Those of some vectors of which another one that stays does at least as well at each cell where they may help."""
    gone = []
    for vector in left:
        cells = numpy.argwhere(wanted[vector])
        few = tuple(cells[:: max(1, len(cells) // TRIED)].T)
        for other in left:
            if other == vector or other in gone or not does_at(boxes, vector, other, few):
                continue
            if not (wanted[vector] & ~boxes[other].within(boxes[vector])).any():
                gone.append(vector)
                break
    return gone


def does_at(boxes: Sequence[Boxes], vector: Vector, other: Vector, cells: tuple[Wholes, ...]) -> bool:
    """Whether the boxes of another vector lie within at some cells."""
    return all(
        numpy.all(at(first, cells) <= at(start, cells)) and numpy.all(at(end, cells) <= at(last, cells))
        for (first, last), (start, end) in zip(boxes[vector].extents, boxes[other].extents)
    )


def at(array: Wholes, cells: tuple[Wholes, ...]) -> Wholes:
    """What an array over the grid has at some cells."""
    held = tuple(indices if size > 1 else numpy.zeros_like(indices) for indices, size in zip(cells, array.shape))
    found: Wholes = array[held]
    return found
