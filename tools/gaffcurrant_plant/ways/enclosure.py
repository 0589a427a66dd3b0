"""Encloses the ways of whole samples: for many cells at once, under an input and all disturbances, boxes that hold
every state on the way, by interval arithmetic in doubles whose ends are rounded outward. Needs numpy.

Of differential equations a sample is cut into substeps, and a box for each is found as in the proof of Picard and
Lindeloef: a box B with D + [0, h] f(B) within B holds every solution from D up to the time h, and D + h f(B) holds the
states behind it (R. E. Moore, Interval Analysis, 1966; N. S. Nedialkov, K. R. Jackson, G. F. Corliss, Validated
solutions of initial value problems for ordinary differential equations, 1999). The ways of `next` lines aren't known,
and taken as straight."""

from __future__ import annotations

from fractions import Fraction
from typing import TYPE_CHECKING, Iterator, Mapping, Optional, Sequence

from ..faults import Trouble
from ..models.formula import polynomial_of, value_of
from ..models.polynomial import added
from ..models.taylor_sampling import BESIDE
from ..plants.units import short, units_of
from .doubles import numpy
from .spans import Span, Spans, around, down, up

if TYPE_CHECKING:
    from ..models.kinds import Node, Polynomial, Side
    from ..models.model import Model
    from ..plants.array_kinds import Flags, RealColumn, Wholes
    from ..plants.kinds import Vector
    from ..plants.plant import Plant

# Substeps that are tried one after the other, each of the cells that the one before leaves, and the trials for a box.
SUBSTEPS, TRIALS = (1, 4, 16), 12
WIDER = 1 / 16
# A box comes to rest where errors grow by less than this factor in a substep; cells at which that is looked at.
AT_REST, SAMPLED = 0.8, 64
# Cells along each state that are enclosed together, where these boxes are fewer than the cells by this factor; columns
# that are enclosed at once, so that arrays stay in a processor's cache, and so few that aren't halved any more.
SIZES, FEWER = (8, 4, 2), 2
COLUMNS, FEWEST = 2**14, 2**8
UNKNOWN = -1
# More than the rounding of how many turns on a state that comes round is.
ROUNDED = 2.0**-40


class Ways:
    """The ways of a model."""

    def __init__(self, model: Model) -> None:
        self.model, self.maths = model, Spans()
        self.names = [state[0] for state in model.states]
        self.noises = {name: Span(around(low).low, around(high).high) for name, low, high in model.noises}
        self.of_matrix = bool(model.rows["A"]) and bool(model.sample)
        self.is_flow = bool(model.flows) or self.of_matrix
        self.sides: Sequence[Side] = model.flows
        if self.of_matrix:
            self.sides = self.matrix_sides()
        self.moves = [] if self.is_flow else [self.move(*pair) for pair in zip(self.names, model.equations)]

    def matrix_sides(self) -> list[Polynomial]:
        """The right sides of lines A, B and c, as polynomials; what w adds in a sample comes evenly."""
        rows, names = self.model.rows, self.names
        inputs, constants = rows["B"] or [[]] * len(names), rows["c"] or [[Fraction(0)]] * len(names)
        return [
            added(
                {(name,): a for name, a in zip(names, of_states)},
                {(entry[0],): b for entry, b in zip(self.model.inputs, of_inputs)} | {(): c},
            )
            for of_states, of_inputs, (c,) in zip(rows["A"], inputs, constants)
        ]

    def move(self, name: str, equation: Side) -> tuple[Polynomial, dict[str, Node]]:
        """By how much a sample moves a state: a polynomial of variables and of functions, whose nodes stand in it as
        names."""
        functions: dict[str, Node] = {}

        def named(node: Node) -> Polynomial:
            functions[f"@{len(functions)}"] = node
            return {(f"@{len(functions) - 1}",): Fraction(1)}

        polynomial = equation if isinstance(equation, dict) else polynomial_of(equation, named)
        return added(polynomial, {(name,): Fraction(-1)}), functions

    def substeps(self, plant: Plant) -> Sequence[int]:
        """The numbers of substeps that are tried: without those at which boxes can't be expected to come to rest."""
        if not self.is_flow:
            return SUBSTEPS
        growth = float(self.model.time) * self.growth(plant)
        return [count for count in SUBSTEPS if growth <= AT_REST * count] or SUBSTEPS[-1:]

    def growth(self, plant: Plant) -> float:
        """About how fast errors grow at some cells: the spectral radius of the matrix of how much wider each slope is
        over cells that are wider in a state."""
        draws = numpy.random.default_rng(1)
        indices = numpy.array([draws.integers(0, count, SAMPLED) for count in plant.counts])
        lows = numpy.array([low for _, low, *_ in plant.states]).reshape(-1, 1) + indices * numpy.array(
            [state[3] for state in plant.states]
        ).reshape(-1, 1)
        highs = lows + numpy.array([state[3] - 1 for state in plant.states]).reshape(-1, 1)
        inputs = {name: around(values[0]) for name, _, values in self.model.inputs} | self.noises
        area, widths = self.areas(lows, highs), [float(state[3]) for state in self.model.states]
        try:
            before = self.sizes(area, inputs)
            wider = [
                self.sizes([*area[:j], Span(one.low - width, one.high + width), *area[j + 1 :]], inputs)
                for j, (one, width) in enumerate(zip(area, widths))
            ]
        except Trouble:
            return 0.0
        rates = numpy.array(
            [
                [numpy.max(after[i] - before[i]) / (2 * width) for after, width in zip(wider, widths)]
                for i in range(len(widths))
            ]
        )
        return float(max(abs(numpy.linalg.eigvals(rates)))) if numpy.isfinite(rates).all() else 0.0

    def sizes(self, area: Sequence[Span], values: dict[str, Span]) -> list[RealColumn]:
        """How wide the slopes over an area are."""
        slopes = [self.value(side, values | dict(zip(self.names, area))) for side in self.sides]
        return [slope.high - slope.low for slope in slopes]

    def value(self, side: Side, values: Mapping[str, Span]) -> Span:
        return self.sum_of(side, values) if isinstance(side, dict) else value_of(side, values, self.maths)

    def sum_of(self, polynomial: Polynomial, values: Mapping[str, Span]) -> Span:
        total = Span(0.0, 0.0)
        for monomial, coefficient in polynomial.items():
            product = around(coefficient)
            for name in sorted(set(monomial)):
                for _ in range(monomial.count(name) // 2):
                    product = product * self.maths.square(values[name])
                if monomial.count(name) % 2:
                    product = product * values[name]
            total = total + product
        return total

    def areas(self, lows: Wholes, highs: Wholes) -> list[Span]:
        """Spans for cells whose ends are whole numbers, in rows for the states: a measurement may be a rounding
        beside."""
        spans = []
        for (name, *_, unit), low, high in zip(self.model.states, lows, highs):
            beside = 0 if name in self.model.exact else 1
            size, rest = around(unit), around(unit * BESIDE * beside)
            ends = Span(low.astype(float), high.astype(float) + beside) * size
            spans.append(Span(down(ends.low - rest.high), up(ends.high + rest.high)))
        return spans

    def boxes(
        self, area: Sequence[Span], inputs: Mapping[str, Fraction], count: int
    ) -> Iterator[tuple[list[Span], Flags]]:
        """For each of so many substeps the spans of the states on the way, and which columns have one. inputs: the
        values by name."""
        values = {name: around(value) for name, value in inputs.items()} | self.noises
        yield from (self.flow_boxes if self.is_flow else self.straight_boxes)(area, values, count)

    def straight_boxes(
        self, area: Sequence[Span], values: dict[str, Span], count: int
    ) -> Iterator[tuple[list[Span], Flags]]:
        values = values | dict(zip(self.names, area))
        moves = []
        for polynomial, functions in self.moves:
            moves.append(
                self.sum_of(
                    polynomial, values | {name: value_of(node, values, self.maths) for name, node in functions.items()}
                )
            )
        known = numpy.ones(numpy.shape(area[0].low), dtype=bool)
        for k in range(count):
            share = Span(down(k / count), up((k + 1) / count))
            yield [start + share * move for start, move in zip(area, moves)], known

    def flow_boxes(
        self, area: Sequence[Span], values: dict[str, Span], count: int
    ) -> Iterator[tuple[list[Span], Flags]]:
        time = around(self.model.time / count)
        known, start = numpy.ones(numpy.shape(area[0].low), dtype=bool), area
        shifts = (
            [self.noises[f"w_{name}"] for name in self.names]
            if self.of_matrix and self.model.rows["w"]
            else [Span(0.0, 0.0)] * len(area)
        )
        for k in range(count):
            box, slopes, found = self.enclosure(start, values, time)
            known = known & found
            share = Span(down(k / count), up((k + 1) / count))
            yield [one + share * shift for one, shift in zip(box, shifts)], known
            start = [one + time * slope for one, slope in zip(start, slopes)]

    def enclosure(
        self, start: Sequence[Span], values: dict[str, Span], time: Span
    ) -> tuple[Sequence[Span], list[Span], Flags]:
        """A box for each column that holds the solutions up to a time, the slopes over it, and whether it was found."""
        whole, box = Span(0.0, time.high), start
        done: Flags = numpy.zeros(numpy.shape(start[0].low), dtype=bool)
        for _ in range(TRIALS):
            slopes = [self.value(side, values | dict(zip(self.names, box))) for side in self.sides]
            after = [one + whole * slope for one, slope in zip(start, slopes)]
            done = numpy.logical_and.reduce([one.lies_in(other) for one, other in zip(after, box)])
            if done.all():
                break
            wider = [
                Span(
                    new.low - ((old.low - new.low) * WIDER + 1e-12),
                    new.high + ((new.high - old.high) * WIDER + 1e-12),
                )
                for new, old in zip(after, start)
            ]
            box = [old.chosen(done, new) for old, new in zip(box, wider)] if done.any() else wider
        return box, slopes, done


class Walls:
    """Where a way may not come: the obstacles as the model has them, and outside of its domain where has_bounds says
    so. What lies in them by no more than a measurement may be beside isn't counted: so cells beside an obstacle don't
    touch it. A state that comes round meets an obstacle in each turn of its range."""

    def __init__(self, model: Model, has_bounds: bool = True) -> None:
        grazes = [unit * 2 * BESIDE for *_, unit in model.states]
        self.boxes = [
            [(lower(low + graze), upper(high - graze)) for (low, high), graze in zip(box, grazes)]
            for keyword, box in model.boxes
            if keyword == "obstacle"
        ]
        self.ranges = [float(high - low) if name in model.wraps else None for name, low, high, *_ in model.states]
        self.domain = (
            [
                (-numpy.inf, numpy.inf) if name in model.wraps else (upper(low - graze), lower(high + graze))
                for (name, low, high, *_), graze in zip(model.states, grazes)
            ]
            if has_bounds
            else []
        )
        self.count = len(self.boxes) + 2 * len(self.domain)
        self.model, self.units = model, units_of(model)

    def name(self, number: int) -> str:
        """A wall in words, by its number: an obstacle, or behind all of them a bound."""
        at = number - len(self.boxes)
        return (
            f"obstacle {number + 1}"
            if at < 0
            else f"the {('low', 'high')[at % 2]} bound of {self.model.states[at // 2][0]}"
        )

    def said(self, number: int) -> str:
        """The same with where it lies, along the states that an obstacle doesn't take up whole."""
        at = number - len(self.boxes)
        if at >= 0:
            name, low, high, *_ = self.model.states[at // 2]
            return f"{self.name(number)}, {short((low, high)[at % 2])}{self.units.word(name)}"
        box = [box for keyword, box in self.model.boxes if keyword == "obstacle"][number]
        ends = [
            f"{name} {short(low)} to {short(high)}{self.units.word(name)}"
            for (name, least, most, *_), (low, high) in zip(self.model.states, box)
            if low > least or high < most
        ]
        return self.name(number) + (f" ({', '.join(ends)})" if ends else "")

    def met(self, box: Sequence[Span]) -> Flags:
        """For each obstacle, and behind them for each side of the domain, which columns of a box may touch it."""
        met = numpy.zeros((self.count, numpy.size(box[0].low)), dtype=bool)
        for number, columns in enumerate(self.touched(box) + self.left(box)):
            met[number] = columns
        return met

    def touched(self, box: Sequence[Span]) -> list[Flags]:
        """For each obstacle which columns of a box may touch it."""
        return [
            numpy.logical_and.reduce([meets(one, *ends, turn) for one, ends, turn in zip(box, wall, self.ranges)])
            for wall in self.boxes
        ]

    def left(self, box: Sequence[Span]) -> list[Flags]:
        """For each state and side of the domain, low then high, which columns may leave it."""
        sides = (
            # What is no number may leave it.
            (~numpy.greater_equal(one.low, low), ~numpy.less_equal(one.high, high))
            for one, (low, high) in zip(box, self.domain)
        )
        return [part for pair in sides for part in pair]


def meets(one: Span, low: float, high: float, turn: Optional[float]) -> Flags:
    """Which columns of a span meet what lies between two ends, and again each turn on, where there is one; those whose
    ends are no numbers do."""
    beside: Flags
    if turn is None:
        beside = numpy.logical_or(one.low >= high, one.high <= low)
    else:
        first, last = (one.low - high) / turn - ROUNDED, (one.high - low) / turn + ROUNDED
        beside = numpy.greater_equal(numpy.floor(first) + 1, last)
    return ~beside


def lower(value: Fraction) -> float:
    """The double that is a fraction, or the next one below."""
    return float(around(value).low)


def upper(value: Fraction) -> float:
    """The double that is a fraction, or the next one above."""
    return float(around(value).high)


class Touch:
    """cells: those with a row whose way may touch something; walls: for each of these, which obstacles it may touch,
    and behind them which sides of the domain it may leave; lost: whether no enclosure was found for it. turn: of a
    patrol."""

    def __init__(self, cells: Wholes, walls: Flags, lost: Flags, turn: int) -> None:
        self.cells, self.walls, self.lost, self.turn = cells, walls, lost, turn


class Looked:
    """What the ways of pairs, of a cell and an input, may touch. Each pair is enclosed once, whichever tables have it
    as a row: first together with its neighbours, and alone where these together may touch something. kinds: for each
    pair the number of what it may touch in `patterns`, whose first is nothing, or UNKNOWN; a pattern tells of each
    wall, and behind them whether no enclosure was found."""

    def __init__(self, model: Model, plant: Plant, has_bounds: bool = True) -> None:
        self.model, self.plant = model, plant
        self.ways, self.walls = Ways(model), Walls(model, has_bounds)
        self.counts = self.ways.substeps(plant)
        self.kinds = numpy.full((plant.vectors, plant.cells), UNKNOWN, dtype=numpy.int32)
        self.patterns = numpy.zeros((1, self.walls.count + 1), dtype=bool)
        self.numbers = {numpy.packbits(self.patterns[0]).tobytes(): 0}
        self.low, self.high, self.width = (
            numpy.array([state[k] for state in plant.states]).reshape(-1, 1) for k in (1, 2, 3)
        )

    def touch(self, won: Flags, inputs: Wholes, turn: int = 0) -> Touch:
        """The Touch of rows: for each cell whether it has one, and its input, below 0 where nothing is applied."""
        cells = numpy.flatnonzero(won & (inputs >= 0))
        vectors = inputs[cells]
        for vector in range(self.plant.vectors):
            mine = cells[vectors == vector]
            self.look(mine[self.kinds[vector, mine] == UNKNOWN], vector)
        kinds = self.kinds[vectors, cells]
        found = self.patterns[kinds[kinds > 0]].T
        return Touch(cells[kinds > 0], found[:-1], found[-1], turn)

    def look(self, cells: Wholes, vector: Vector) -> None:
        """Encloses the ways of cells under an input."""
        inputs = {name: value * unit for (name, unit, _), value in zip(self.model.inputs, self.plant.vector(vector))}
        self.kinds[vector, cells] = 0
        for size in SIZES:
            cells = self.left_together(cells, inputs, size)
        for count in self.counts:
            if not cells.size:
                return
            indices = self.indices(cells)
            found = self.patterns_of(indices, indices, inputs, count)
            is_left = found.any(axis=0)
            cells, found = cells[is_left], found[:, is_left]
        if cells.size:
            self.kinds[vector, cells] = self.numbers_of(found)

    def left_together(self, cells: Wholes, inputs: Mapping[str, Fraction], size: int) -> Wholes:
        """Those of some cells whose ways may touch something when they are enclosed together, in boxes of so many cells
        along each state."""
        blocks = self.indices(cells) // size
        counts = [-(-count // size) for count in self.plant.counts]
        numbers, at = numpy.unique(numpy.ravel_multi_index(tuple(blocks), counts), return_inverse=True)
        if numbers.size * FEWER > cells.size:
            return cells
        firsts = numpy.array(numpy.unravel_index(numbers, counts)) * size
        lasts = numpy.minimum(firsts + size, numpy.array(self.plant.counts).reshape(-1, 1)) - 1
        left: Wholes = cells[self.patterns_of(firsts, lasts, inputs, self.counts[0]).any(axis=0)[at]]
        return left

    def indices(self, cells: Wholes) -> Wholes:
        return numpy.array(numpy.unravel_index(cells, self.plant.counts))

    def patterns_of(self, firsts: Wholes, lasts: Wholes, inputs: Mapping[str, Fraction], count: int) -> Flags:
        """For each wall which ways from boxes of cells may touch it, by so many substeps, and behind these for which no
        enclosure was found. firsts and lasts: the indices of the boxes' corners, in columns."""
        found = numpy.zeros((self.walls.count + 1, firsts.shape[1]), dtype=bool)
        for begin in range(0, firsts.shape[1], COLUMNS):
            part = slice(begin, begin + COLUMNS)
            lows, highs = self.low + firsts[:, part] * self.width, self.low + (lasts[:, part] + 1) * self.width - 1
            self.enclose(lows, highs, inputs, count, found[:, part])
        return found

    def enclose(self, lows: Wholes, highs: Wholes, inputs: Mapping[str, Fraction], count: int, found: Flags) -> None:
        """Puts what the ways may touch into `found`. Where something can't be evaluated at a column, the columns are
        halved until they are few."""
        size = lows.shape[1]
        try:
            found[:-1] = False
            for box, known in self.ways.boxes(self.ways.areas(lows, highs), inputs, count):
                found[:-1] |= self.walls.met(box)
            found[-1] = ~known
        except Trouble:
            found[...] = True
            for part in (slice(0, size // 2), slice(size // 2, size)) if size > FEWEST else ():
                self.enclose(lows[:, part], highs[:, part], inputs, count, found[:, part])

    def numbers_of(self, found: Flags) -> Wholes:
        """The numbers of patterns, in columns, that a pair may touch; new ones are added."""
        packed = numpy.ascontiguousarray(numpy.packbits(found, axis=0).T)
        _, firsts, at = numpy.unique(
            packed.view(f"V{packed.shape[1]}").reshape(-1), return_index=True, return_inverse=True
        )
        numbers = []
        for first in firsts:
            key = packed[first].tobytes()
            if key not in self.numbers:
                self.numbers[key] = len(self.patterns)
                self.patterns = numpy.vstack([self.patterns, found[:, first]])
            numbers.append(self.numbers[key])
        of_columns: Wholes = numpy.array(numbers, dtype=numpy.int32)[at.reshape(-1)]
        return of_columns
