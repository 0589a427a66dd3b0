"""Counts the edges of a plant exactly, axis by axis: how many indices a box meets along an axis rests on the variables
of that state's equation alone, and the sum over all pairs of the products is taken variable by variable."""

from __future__ import annotations

import itertools
from typing import TYPE_CHECKING, Dict, List, Sequence, Tuple

from ..faults import TooMuch
from .kinds import Area, Vector

if TYPE_CHECKING:
    from .plant import Plant

WORK = 1_200_000
# The indices of some variables, and for these variables a number for each of their indices.
Indices = Tuple[int, ...]
Table = Tuple[List[int], Dict[Indices, int]]


def edges_of(plant: Plant) -> int:
    """The number of successors of all pairs, or raises TooMuch."""
    sizes = plant.counts + [len(values) for _, values in plant.inputs]
    tables = [_axis_table(plant, axis, sizes) for axis in range(len(plant.states))]
    for variable in sorted(range(len(sizes)), key=lambda one: sum(one in names for names, _ in tables)):
        tables = _without(variable, tables, sizes)
    total = 1
    for _, table in tables:
        total *= table.get((), 0)
    return total


def _axis_table(plant: Plant, axis: int, sizes: Sequence[int]) -> Table:
    """For the indices and inputs that an equation names, how many indices the box meets along its axis; 0 left out."""
    names = [i for i in sorted(plant.uses[axis]) if i < len(sizes)]
    _check(names, sizes)
    _, least, most, width = plant.states[axis]
    values, table = [0] * len(sizes) + list(plant.rest), {}
    for indices in itertools.product(*(range(sizes[i]) for i in names)):
        for i, index in zip(names, indices):
            values[i] = _value(plant, i, index)
        area = _area(plant, names, values) if plant.version > 1 else None
        moves = plant.bounds(axis, _vector(plant, names, indices))[2]
        low, high = plant.side(axis, plant.functions[axis](values), moves, area)
        if low >= least and high <= most:
            table[indices] = (high - least) // width - (low - least) // width + 1
    return names, table


def _value(plant: Plant, variable: int, index: int) -> int:
    """The value of an input, or the centre of a state's cell, by its index."""
    wide = len(plant.states)
    if variable >= wide:
        return plant.inputs[variable - wide][1][index]
    _, low, _, width = plant.states[variable]
    return low + index * width + plant.radii[variable]


def _vector(plant: Plant, names: Sequence[int], indices: Sequence[int]) -> Vector:
    """The number of an input vector by the indices of the inputs among some variables, the others' being 0."""
    chosen, number = dict(zip(names, indices)), 0
    for i, (_, values) in enumerate(plant.inputs, len(plant.states)):
        number = number * len(values) + chosen.get(i, 0)
    return number


def _area(plant: Plant, names: Sequence[int], values: Sequence[int]) -> Area:
    """The cell's area where the variables that an equation names have these values, states at their centres; the
    others, on which its span doesn't rest, have their whole ranges."""
    wide = len(plant.states)
    area = list(plant.area)
    for i in names:
        low = values[i] - plant.radii[i] if i < wide else values[i]
        area[i] = (low, low + (plant.states[i][3] - 1 if i < wide else 0))
    return area


def _check(names: Sequence[int], sizes: Sequence[int]) -> None:
    work = 1
    for i in names:
        work *= sizes[i]
    if work > WORK:
        raise TooMuch


def _without(variable: int, tables: list[Table], sizes: Sequence[int]) -> list[Table]:
    """The tables with one variable summed out of the product of those that name it."""
    naming = [one for one in tables if variable in one[0]]
    rest = [one for one in tables if variable not in one[0]]
    if not naming:
        return rest + [([], {(): sizes[variable]})]
    product = naming[0]
    for other in naming[1:]:
        product = _product(product, other, sizes)
    names, table = product
    at = names.index(variable)
    summed: dict[Indices, int] = {}
    for indices, count in table.items():
        left = indices[:at] + indices[at + 1 :]
        summed[left] = summed.get(left, 0) + count
    return rest + [(names[:at] + names[at + 1 :], summed)]


def _product(first: Table, second: Table, sizes: Sequence[int]) -> Table:
    """The product of two tables over the variables of both."""
    names, more = first[0], [i for i in second[0] if i not in first[0]]
    _check(names + more, sizes)
    shared = [i for i in second[0] if i in names]
    grouped: dict[Indices, list[tuple[Indices, int]]] = {}
    for indices, count in second[1].items():
        added = _picked(indices, second[0], more)
        grouped.setdefault(_picked(indices, second[0], shared), []).append((added, count))
    table = {}
    for indices, count in first[1].items():
        for added, times in grouped.get(_picked(indices, names, shared), ()):
            table[indices + added] = count * times
    return names + more, table


def _picked(indices: Indices, names: Sequence[int], some: Sequence[int]) -> Indices:
    """The indices of some of the variables that they belong to."""
    return tuple(indices[names.index(name)] for name in some)
