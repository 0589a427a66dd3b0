"""The successor boxes of many pairs at once, and sums over boxes of cells. Needs numpy."""

from __future__ import annotations

import math
from typing import TYPE_CHECKING, Any, Iterable, Iterator, Optional, Sequence, Union

import numpy

from ..faults import Overflow
from .array_kinds import Column, Ends, Extents, Flags, Numbers, Wholes
from .bounds import SHAPES, SPANS, bounds_of, compiled, compiled_span
from .expression import walk
from .kinds import Box, Cell, Corners, Functions, Interval, Node, Points, Vector

if TYPE_CHECKING:
    from .plant import Plant

# The number in the place of a cell's where a state is outside of the domain.
OUTSIDE = -1
# Numbers up to here, and their sums, fit into 64 bits; plants with greater ones are worked out by Python's integers.
SAFE = 2**62
# Pairs that are worked out at once, so that the arrays stay in a processor's cache.
BLOCK = 2**17
# From so many neighbours on layers are added one by one, which is faster than numpy's sum along an axis.
LAYER = 256

ARRAY_SHAPES = SHAPES | {"min": "minimum({1}, {2})", "max": "maximum({1}, {2})", "lut": "values_at({2}, {1})"}
ARRAY_SPANS = SPANS | {
    "abs": "l{0}, h{0} = where(l{1} >= 0, l{1}, where(h{1} <= 0, -h{1}, 0)), maximum(-l{1}, h{1})",
    "mul": "e, f, g, k = l{1} * l{2}, l{1} * h{2}, h{1} * l{2}, h{1} * h{2}; l{0}, h{0} = minimum(minimum(e, f), "
    "minimum(g, k)), maximum(maximum(e, f), maximum(g, k))",
    "min": "l{0}, h{0} = minimum(l{1}, l{2}), minimum(h{1}, h{2})",
    "max": "l{0}, h{0} = maximum(l{1}, l{2}), maximum(h{1}, h{2})",
    "lut": "l{0}, h{0} = lut_span({2}, l{1}, h{1})",
}


def values_at(points: Points, at: Numbers) -> Numbers:
    """The values of `lut` with these points, as bounds.value_at gives them one by one."""
    kind = numpy.asarray(at).dtype
    xs, ys = (numpy.array(column, dtype=kind) for column in zip(*points))
    inside = numpy.minimum(numpy.maximum(at, xs[0]), xs[-1])
    k = numpy.minimum(numpy.searchsorted(xs, inside, side="right"), len(points) - 1)
    x, y = xs[k - 1], ys[k - 1]
    values: Numbers = y + (ys[k] - y) * (inside - x) // (xs[k] - x)
    return values


def lut_span(points: Points, low: Numbers, high: Numbers) -> Ends:
    """The ends of the spans of `lut` over ranges of its argument."""
    ends = values_at(points, low), values_at(points, high)
    least, most = numpy.minimum(*ends), numpy.maximum(*ends)
    ys = [y for _, y in points]
    for k, (x, y) in enumerate(points):
        beside = ys[max(k - 1, 0) : k] + ys[k + 1 : k + 2]
        # Points that no neighbour exceeds to either side are the only ones at which the values turn.
        if all(y <= other for other in beside):
            least = numpy.where((low <= x) & (x <= high), numpy.minimum(least, y), least)
        if all(y >= other for other in beside):
            most = numpy.where((low <= x) & (x <= high), numpy.maximum(most, y), most)
    return least, most


ROOM: Functions = {
    "abs": abs,
    "minimum": numpy.minimum,
    "maximum": numpy.maximum,
    "where": numpy.where,
    "values_at": values_at,
    "lut_span": lut_span,
}


class Batch:
    """The boxes of a plant's pairs. Cells are a column and input vectors a row, so that an equation that names no input
    is worked out once for each cell: what is answered for each state is an array of one column, of one row, or of
    both."""

    def __init__(self, plant: Plant) -> None:
        self.plant = plant
        self.kind = numpy.int64 if fits(plant) else object
        self.functions = [compiled(node, ARRAY_SHAPES, ROOM) for node in plant.equations]
        self.spans = [compiled_span(node, ARRAY_SPANS, ROOM) for node in plant.equations]
        self.values = [self.numbers(column) for column in zip(*map(plant.vector, range(plant.vectors)))]
        self.moves = [
            self.numbers([plant.bounds(i, vector)[2] for vector in range(plant.vectors)])
            for i in range(len(plant.states))
        ]
        self.strides = [int(numpy.prod(plant.counts[i + 1 :], dtype=numpy.int64)) for i in range(len(plant.counts))]

    def numbers(self, values: Sequence[int]) -> Numbers:
        return numpy.array(values, dtype=self.kind)

    def indices(self, cells: Wholes) -> tuple[Wholes, ...]:
        """For each state the indices of cells."""
        return numpy.unravel_index(cells, self.plant.counts)

    def lows(self, indices: Iterable[Wholes]) -> list[Numbers]:
        """For each state the least number of the cells at these indices."""
        return [low + index.astype(self.kind) * width for index, (_, low, _, width) in zip(indices, self.plant.states)]

    def middles(self, lows: Sequence[Numbers], vectors: Wholes) -> list[Numbers]:
        """For each state the centre's step."""
        variables = (
            [low + radius for low, radius in zip(lows, self.plant.radii)]
            + [values[vectors] for values in self.values]
            + self.plant.rest
        )
        return [function(variables) for function in self.functions]

    def boxes(self, lows: Sequence[Numbers], vectors: Wholes) -> list[Ends]:
        """For each state the ends of the boxes of cells with these least numbers under input vectors."""
        values = [values[vectors] for values in self.values]
        return [self.box(i, lows, values, moves[vectors]) for i, moves in enumerate(self.moves)]

    def box(self, i: int, lows: Sequence[Column], values: Sequence[Column], moves: Column) -> Ends:
        """The ends of boxes along one state, of cells by their least numbers, under values of the inputs."""
        middles = [low + radius for low, radius in zip(lows, self.plant.radii)]
        middle = self.functions[i]([*middles, *values, *self.plant.rest])
        low, high = middle - moves, middle + moves
        if self.plant.version > 1:
            area = [(low, low + state[3] - 1) for low, state in zip(lows, self.plant.states)]
            area += [(one, one) for one in values]
            least, most = self.spans[i]([*area, *(noise[1:] for noise in self.plant.noises)])
            low, high = numpy.maximum(low, least), numpy.minimum(high, most)
        return low, high

    def extents(self, ends: Sequence[Ends], states: Optional[Iterable[int]] = None) -> tuple[Extents, Flags]:
        """For each state, or for some, the first and the last index of boxes, clipped to the domain, and whether they
        lie in it."""
        extents = []
        inside: Flags = numpy.array(True)
        for (low, high), i in zip(ends, states or range(len(ends))):
            (_, least, most, width), count = self.plant.states[i], self.plant.counts[i]
            inside = inside & numpy.asarray((low >= least) & (high <= most), dtype=bool)
            extents.append(
                [
                    numpy.clip((numpy.asarray(end) - least) // width, 0, count - 1).astype(numpy.int64)
                    for end in (low, high)
                ]
            )
        return extents, inside

    def blocks(self, cells: Wholes) -> Iterator[tuple[int, Wholes, Wholes]]:
        """Arrays of cells as columns, few enough for one block each, with the row of all input vectors."""
        vectors = numpy.arange(self.plant.vectors)[None, :]
        step = max(1, BLOCK // self.plant.vectors)
        for begin in range(0, len(cells), step):
            yield begin, cells[begin : begin + step, None], vectors

    def edges(self) -> int:
        """The number of successors of all pairs: the sum over all indices and values of the product of the indices met
        along each axis."""
        sizes = self.plant.counts + [len(values) for _, values in self.plant.inputs]
        tables = [self.met(i, sizes) for i in range(len(self.plant.states))]
        unused = set(range(len(sizes))) - {name for _, names in tables for name in names}
        factors: list[Any] = [factor for table in tables for factor in table]
        total = numpy.einsum(*factors, [], optimize="greedy")
        return int(total) * math.prod(sizes[i] for i in unused)

    def met(self, i: int, sizes: Sequence[int]) -> tuple[Wholes, list[int]]:
        """How many indices boxes meet along one state, over the variables that its equation names, and these; 0 where a
        box leaves the domain."""
        names = [name for name in sorted(self.plant.uses[i]) if name < len(sizes)]
        if not names:
            extents, inside = self.extents([self.box(i, *self.first_of(), self.moves[i][0])], [i])
            return numpy.array(fans(extents) * inside, dtype=numpy.int64), names
        met = numpy.zeros([sizes[name] for name in names], dtype=numpy.int64)
        step = max(1, BLOCK * met.shape[0] // met.size)
        for begin in range(0, met.shape[0], step):
            firsts = numpy.arange(begin, min(begin + step, met.shape[0]))
            lows, values, numbers = self.pairs_by(names, sizes, firsts)
            extents, inside = self.extents([self.box(i, lows, values, self.moves[i][numbers])], [i])
            met[begin : begin + step] = fans(extents) * inside
        return met, names

    def pairs_by(
        self, names: Sequence[int], sizes: Sequence[int], firsts: Wholes
    ) -> tuple[list[Column], list[Column], Column]:
        """The least numbers of cells, the values of inputs and the input vectors of the pairs that differ in some
        variables, an axis for each; the first of them has these indices, the others all."""
        plant, wide, (lows, values) = self.plant, len(self.plant.counts), self.first_of()
        numbers: Column = 0
        for at, name in enumerate(names):
            indices = numpy.arange(sizes[name]) if at else firsts
            indices = indices.reshape([-1 if k == at else 1 for k in range(len(names))])
            if name < wide:
                lows[name] = plant.states[name][1] + indices.astype(self.kind) * plant.states[name][3]
            else:
                values[name - wide] = self.numbers(plant.inputs[name - wide][1])[indices]
                numbers = numbers + indices * math.prod(sizes[name + 1 :])
        return lows, values, numbers

    def first_of(self) -> tuple[list[Column], list[Column]]:
        """The least numbers and the values of the first pair."""
        return [low for _, low, *_ in self.plant.states], [values[0] for _, values in self.plant.inputs]

    def pairs(self, cells: Sequence[Cell], vectors: Sequence[Vector]) -> list[Corners]:
        """The two corners of the boxes of all pairs of some cells and vectors, as lists, cell by cell."""
        ends = self.boxes(
            self.lows(self.indices(numpy.array(cells, dtype=numpy.int64)[:, None])),
            numpy.array(vectors, dtype=numpy.int64)[None, :],
        )
        shape = (len(cells), len(vectors))
        columns = [
            numpy.broadcast_to(numpy.asarray(end), shape).reshape(-1).tolist() for side in zip(*ends) for end in side
        ]
        half = len(columns) // 2
        return list(zip(zip(*columns[:half]), zip(*columns[half:])))


def cells_at(plant: Plant, whole: Wholes) -> Wholes:
    """The cells of columns of whole numbers, OUTSIDE where one is outside of the domain."""
    low, high, width = (numpy.array([state[k] for state in plant.states]).reshape(-1, 1) for k in (1, 2, 3))
    cells = numpy.ravel_multi_index(tuple((whole - low) // width), plant.counts, mode="clip")
    return numpy.where(numpy.all((low <= whole) & (whole <= high), axis=0), cells, OUTSIDE)


def cells_in(plant: Plant, extents: Iterable[Interval]) -> Flags:
    """Which cells have their indices within these, a first and a last one for each state."""
    mask: Flags = numpy.zeros(plant.counts, dtype=bool)
    mask[tuple(slice(max(first, 0), max(last + 1, 0)) for first, last in extents)] = True
    return mask.reshape(-1)


def cells_that_meet(plant: Plant, boxes: Iterable[Box]) -> Flags:
    """Which cells meet one of these boxes."""
    return in_one_of(plant, [plant.met_extents(box) for box in boxes])


def cells_within(plant: Plant, boxes: Iterable[Box]) -> Flags:
    """Which cells lie whole in one of these boxes."""
    return in_one_of(plant, [plant.inner_extents(box) for box in boxes])


def in_one_of(plant: Plant, ranges: Iterable[list[Interval]]) -> Flags:
    """Which cells have their indices within one of these ranges, a first and a last index for each state."""
    found: Flags = numpy.zeros(plant.cells, dtype=bool)
    for extents in ranges:
        found |= cells_in(plant, extents)
    return found


def fans(extents: Extents) -> Wholes:
    """How many cells meet boxes."""
    total: Wholes = numpy.array(1)
    for first, last in extents:
        total = total * (last - first + 1)
    return total


def fits(plant: Plant) -> bool:
    """Whether 64 bits hold what comes up in the equations over the domain."""
    nodes = (node for equation in plant.equations for node in walk(equation))
    try:
        return all(size_of(node, plant) < SAFE for node in nodes) and all(
            max(-low, high) * 4 < SAFE for _, low, high, _ in plant.states
        )
    except Overflow:
        return False


def size_of(node: Node, plant: Plant) -> int:
    """At least the size of the numbers by which a node is worked out over the domain; raises Overflow."""
    low, high, moves = bounds_of(node, plant.area, plant.variable_radii)
    points: Points = node[2] if node[0] == "lut" else ()
    return max(-low, high) + moves + 4 * max((abs(number) for point in points for number in point), default=0) ** 2


def summed(array: Wholes, axis: int) -> None:
    """Sums an array up along an axis, in place."""
    if math.prod(array.shape[axis + 1 :]) < LAYER:
        numpy.cumsum(array, axis=axis, out=array)
        return
    layers = numpy.moveaxis(array, axis, 0)
    for before, layer in zip(layers, layers[1:]):
        layer += before


class Sums:
    """Sums of a number of each cell over boxes of indices."""

    def __init__(self, numbers: Union[Flags, Wholes], counts: Sequence[int]) -> None:
        padded = numpy.zeros([count + 1 for count in counts], dtype=numpy.int32)
        padded[(slice(1, None),) * len(counts)] = numbers.reshape(counts)
        for axis in range(len(counts)):
            summed(padded, axis)
        self.flat = padded.reshape(-1)
        self.strides = [
            int(numpy.prod([count + 1 for count in counts[i + 1 :]], dtype=numpy.int64)) for i in range(len(counts))
        ]

    def over(self, extents: Extents, i: int = 0, index: Column = 0) -> Wholes:
        """The sums over boxes from their first to their last indices."""
        if i == len(extents):
            sums: Wholes = self.flat[index]
            return sums
        first, last = extents[i]
        return self.over(extents, i + 1, index + (last + 1) * self.strides[i]) - self.over(
            extents, i + 1, index + first * self.strides[i]
        )
