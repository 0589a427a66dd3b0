"""Samples a linear differential equation x' = A x + B u with the input held: the exponential of its matrix, by its
series."""

from __future__ import annotations

import math
from fractions import Fraction
from typing import TYPE_CHECKING, Iterable, List, Optional, Sequence, TypeVar, Union

from ..faults import Trouble
from ..plants.units import decimal

if TYPE_CHECKING:
    from .model import Model

PLACES, KEPT, MOST_NORM = 80, 20, 50
Matrix = List[List[Fraction]]
# Entries of matrices that are exact, or whole numbers of a small part.
Entry = TypeVar("Entry", int, Fraction)
# In how many parts of a sample the weight of a disturbance is looked at, and the share that rounding may come to.
PARTS, ROUNDED = 32, Fraction(1, 10**12)
# Beside what a sampling time is too long.
SYSTEM = " beside the fastest time of the system"


def too_long(model: Model, times: Fraction, said: str = "", does: str = "would") -> Trouble:
    """What is wrong with a sampling time, and a shorter one, so many times shorter or a little more."""
    shorter = model.time / times
    places = 1 - math.floor(math.log10(shorter))
    shorter = math.floor(shorter * Fraction(10) ** places) / Fraction(10) ** places
    return Trouble(
        f"line {model.sample_line}: the sampling time is too long{said}; `sample {decimal(shorter)}` {does} do"
    )


def sampled(states: Matrix, inputs: Matrix, time: Fraction, model: Model) -> tuple[Matrix, Matrix]:
    """The matrices of a time, where states and inputs are the rows of A and B: exact where a power of A is 0, else to
    KEPT decimals."""
    norm = max(sum((abs(entry * time) for entry in row), Fraction(0)) for row in states)
    if norm > MOST_NORM:
        raise too_long(model, norm / MOST_NORM, SYSTEM)
    return exact_sum(states, inputs, time) or rounded_sum(states, inputs, time)


def exact_sum(states: Matrix, inputs: Matrix, time: Fraction) -> Optional[tuple[Matrix, Matrix]]:
    """The matrices by a series that ends; None where it doesn't."""
    size = range(len(states))
    power = [[Fraction(i == j) for j in size] for i in size]
    of_states, of_inputs = power, [[Fraction(0)] * len(inputs[0]) for _ in size]
    for number in range(1, len(states) + 1):
        of_inputs = plus(of_inputs, times(product(power, inputs), time**number / math.factorial(number)))
        power = product(power, states)
        if not any(map(any, power)):
            return of_states, of_inputs
        of_states = plus(of_states, times(power, time**number / math.factorial(number)))
    return None


def product(one: Sequence[Sequence[Entry]], other: Sequence[Sequence[Entry]]) -> list[list[Entry]]:
    return [[weighed(row, column) for column in zip(*other)] for row in one]


def weighed(row: Iterable[Entry], column: Iterable[Entry]) -> Entry:
    """The product of a row and a column, which have an entry at least."""
    products: list[Entry] = [x * y for x, y in zip(row, column)]
    return sum(products[1:], products[0])


def plus(one: Sequence[Sequence[Entry]], other: Sequence[Sequence[Entry]]) -> list[list[Entry]]:
    return [[x + y for x, y in zip(*rows)] for rows in zip(one, other)]


def times(matrix: Sequence[Sequence[Union[int, Fraction]]], factor: Fraction) -> Matrix:
    return [[entry * factor for entry in row] for row in matrix]


def rounded_sum(states: Matrix, inputs: Matrix, time: Fraction) -> tuple[Matrix, Matrix]:
    """The matrices by the series to KEPT decimals."""
    wide, one = len(states), 10**PLACES
    rows = [list(a) + list(b) for a, b in zip(states, inputs)] + [[0] * (wide + len(inputs[0]))] * len(inputs[0])
    matrix = [[round(entry * time * one) for entry in row] for row in rows]
    power = total = [[one * (i == j) for j in range(len(rows))] for i in range(len(rows))]
    number = 0
    while any(map(any, power)):
        number += 1
        power = [[quotient(entry, one * number) for entry in row] for row in product(power, matrix)]
        total = plus(total, power)
    kept = kept_matrix(times(total[:wide], Fraction(1, one)))
    return [row[:wide] for row in kept], [row[wide:] for row in kept]


def quotient(dividend: int, divisor: int) -> int:
    """Rounded towards zero, so that the powers of the series end at zero."""
    return dividend // divisor if dividend >= 0 else -(-dividend // divisor)


def kept_of(value: Fraction) -> Fraction:
    return Fraction(round(value * 10**KEPT), 10**KEPT)


def held_integrals(states: Matrix, columns: Matrix, time: Fraction, model: Model) -> list[Fraction]:
    """For each state at least the integral over a time of the size of its entry in e^(A s) times a column, summed up
    over the columns: by how much disturbances of these weights move it that may vary at any time. The entries' size is
    integrated exactly over parts in which their sign is known."""
    part = time / PARTS
    start = [list(row) for row in zip(*columns)]
    step, whole = sampled(states, start, part, model)
    grown, _ = sampled(sizes_of(states), start, part, model)
    total = [Fraction(0)] * len(states)
    for _ in range(PARTS):
        total = [one + other for one, other in zip(total, part_integrals(whole, sizes_of(start), grown, part))]
        start, whole = (kept_matrix(product(step, matrix)) for matrix in (start, whole))
    return [one * (1 + ROUNDED) + ROUNDED * max(total) if one else one for one in total]


def part_integrals(whole: Matrix, sizes: Matrix, grown: Matrix, part: Fraction) -> list[Fraction]:
    """The integrals over a part: an entry moves by at most what the greatest size is above its own."""
    rows = zip(whole, sizes, product(grown, sizes))
    return [
        sum((abs(way) if 2 * size >= top else part * top for way, size, top in zip(*row)), Fraction(0)) for row in rows
    ]


def sizes_of(matrix: Matrix) -> Matrix:
    return [[abs(entry) for entry in row] for row in matrix]


def kept_matrix(matrix: Matrix) -> Matrix:
    return [[kept_of(entry) for entry in row] for row in matrix]
