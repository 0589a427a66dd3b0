"""A plant, its cells and its successor boxes: the words of docs/DEFINITIONS.md as functions."""

from __future__ import annotations

import importlib.util
import math
import random
from functools import cached_property
from typing import TYPE_CHECKING, Iterable, Optional, Sequence

from ..faults import Overflow, Refused, TooMuch
from .bounds import TOP, bounds_of, compiled, compiled_span
from .edge_count import edges_of
from .expression import text_of, uses_of
from .kinds import Area, Bounds, Box, Cell, Corners, Input, Interval, Node, Noise, State, Vector
from .periods import periods_of, rolled_out
from .units import Units

if TYPE_CHECKING:
    from .batch import Batch

CELLS, VECTORS, PAIRS, EDGES = 2**20, 4096, 2**22, 2**25


class Plant:
    """states: (name, least, greatest, width); inputs: (name, values); noises: (name, least, greatest);
    targets and obstacles: a list of the two ends for each state."""

    def __init__(
        self,
        states: list[State],
        inputs: list[Input],
        noises: list[Noise],
        equations: list[Node],
        targets: list[Box],
        obstacles: list[Box],
        goal: str,
        version: int = 1,
    ) -> None:
        self.version = version
        self.states, self.inputs, self.noises = states, inputs, noises
        self.equations, self.targets, self.obstacles, self.goal = equations, targets, obstacles, goal
        self.lows, self.highs, self.widths = (
            [state[1] for state in states],
            [state[2] for state in states],
            [state[3] for state in states],
        )
        self.counts = [(high - low + 1) // width for _, low, high, width in states]
        self.radii = [width // 2 for *_, width in states]
        self.cells = math.prod(self.counts)
        self.vectors = math.prod(len(values) for _, values in inputs)
        self.pairs = self.cells * self.vectors
        self.rest = [(low + high) // 2 for _, low, high in noises]
        self.functions, self.spans = [compiled(node) for node in equations], [compiled_span(node) for node in equations]
        self.uses = [uses_of(node) for node in equations]
        # In which words of the plant are told: in its whole numbers, or in a model's units.
        self.units = Units()
        self._bounds: dict[tuple[int, tuple[int, ...]], Bounds] = {}

    # Names and texts

    def names(self) -> list[str]:
        return names_of(self.states, self.inputs, self.noises)

    def state_names(self) -> list[str]:
        return [state[0] for state in self.states]

    def input_names(self) -> list[str]:
        return [name for name, _ in self.inputs]

    def text(self) -> str:
        """The canonical text."""
        names = self.names()
        lines = [f"plant {self.version}"]
        lines += [f"state {name} {low} {high} {width}" for name, low, high, width in self.states]
        lines += [" ".join(["input", name, *map(str, values)]) for name, values in self.inputs]
        lines += ["noise " + " ".join(map(str, noise)) for noise in self.noises]
        lines += [f"next {state[0]} = {text_of(node, names)}" for state, node in zip(self.states, self.equations)]
        for keyword, boxes in (("target", self.targets), ("obstacle", self.obstacles)):
            lines += [" ".join([keyword] + [f"{low} {high}" for low, high in box]) for box in boxes]
        return "\n".join(lines + ["goal " + self.goal, "end", ""])

    # States that come round

    @cached_property
    def periods(self) -> list[Optional[int]]:
        """For each state after how many numbers it comes round, None of a state that doesn't."""
        return periods_of(self)

    @cached_property
    def rolled(self) -> Plant:
        """The same plant with states that come round counted on behind their ranges' ends; the plant itself where there
        are none."""
        equations = rolled_out(self)
        return self if equations == self.equations else Rolled(self, equations)

    # Ranges

    @cached_property
    def area(self) -> list[Interval]:
        """The two ends of each variable's range."""
        return (
            [(low, high) for _, low, high, _ in self.states]
            + [(min(values), max(values)) for _, values in self.inputs]
            + [(low, high) for _, low, high in self.noises]
        )

    @cached_property
    def variable_radii(self) -> list[int]:
        """The radius of each variable: of states half a cell, of inputs 0, of noises how far they go from their
        rest."""
        noises = [high - rest for (_, _, high), rest in zip(self.noises, self.rest)]
        return self.radii + [0] * len(self.inputs) + noises

    # Inputs and steps

    def vector(self, number: Vector) -> list[int]:
        """The values of the inputs under an input vector, the first input varying slowest."""
        values = []
        for _, choices in reversed(self.inputs):
            values.append(choices[number % len(choices)])
            number //= len(choices)
        return values[::-1]

    def input_said(self, number: Vector) -> str:
        """An input vector in words: u = 3, v = 0."""
        said = ", ".join(self.units.said(name, value) for (name, _), value in zip(self.inputs, self.vector(number)))
        return said if said else "no input"

    def ranges_said(self, low: Sequence[int], high: Sequence[int]) -> str:
        """Two corners in words: p 200 to 209, v 80 to 89; or in the model's units."""
        return ", ".join(
            f"{state[0]} {self.range_said(state, period, *ends)}"
            for state, period, *ends in zip(self.states, self.periods, low, high)
        )

    def range_said(self, state: State, period: Optional[int], low: int, high: int) -> str:
        """A state's numbers from low to high; of a state that comes round `170 to -170 round the end` where they lie
        across its range's end."""
        name, least, most, _ = state
        if period is None or least <= low <= high <= most:
            return self.units.span_said(name, low, high)
        if high - low + 1 >= period:
            return self.units.span_said(name, least, most)
        low, high = (least + (end - least) % period for end in (low, high))
        return self.units.span_said(name, low, high) + " round the end" * (low > high)

    def cell_said(self, cell: Cell) -> str:
        return f"cell {cell} ({self.ranges_said(self.low(cell), self.high(cell))})"

    def step(self, state: Iterable[int], values: Iterable[int], noise: Iterable[int]) -> list[int]:
        variables = list(state) + list(values) + list(noise)
        return [function(variables) for function in self.functions]

    # Cells

    def indices_of(self, cell: Cell) -> list[int]:
        indices = []
        for count in reversed(self.counts):
            indices.append(cell % count)
            cell //= count
        return indices[::-1]

    def cell_at(self, indices: Iterable[int]) -> Cell:
        cell = 0
        for index, count in zip(indices, self.counts):
            cell = cell * count + index
        return cell

    def cell_of(self, state: Sequence[int]) -> Optional[Cell]:
        """The cell of a state, or None outside the domain."""
        if any(not low <= value <= high for value, (_, low, high, _) in zip(state, self.states)):
            return None
        return self.cell_at([(value - low) // width for value, (_, low, _, width) in zip(state, self.states)])

    def low(self, cell: Cell) -> list[int]:
        return [low + index * width for index, (_, low, _, width) in zip(self.indices_of(cell), self.states)]

    def centre(self, cell: Cell) -> list[int]:
        return [low + radius for low, radius in zip(self.low(cell), self.radii)]

    def high(self, cell: Cell) -> list[int]:
        return [low + width - 1 for low, (*_, width) in zip(self.low(cell), self.states)]

    def is_obstacle(self, cell: Cell) -> bool:
        low, high = self.low(cell), self.high(cell)
        return any(meets(box, low, high) for box in self.obstacles)

    def is_goal(self, cell: Cell) -> bool:
        low, high = self.low(cell), self.high(cell)
        return any(holds(box, low, high) for box in self.targets) and not self.is_obstacle(cell)

    def met_extents(self, box: Box) -> list[Interval]:
        """For each state the first and the last index of the cells that meet a box; the first is above the last where
        there are none."""
        return [
            ((max(low, least) - least) // width, (min(high, most) - least) // width)
            for (low, high), (_, least, most, width) in zip(box, self.states)
        ]

    def inner_extents(self, box: Box) -> list[Interval]:
        """For each state the first and the last index of the cells that lie whole in a box; the first is above the last
        where there are none."""
        return [
            (-((least - max(low, least)) // width), (min(high, most) + 1 - least) // width - 1)
            for (low, high), (_, least, most, width) in zip(box, self.states)
        ]

    # Boxes

    def bounds(self, equation: int, vector: Vector) -> Bounds:
        """The span's ends and the deviation of an equation under an input vector; raises Overflow."""
        values, first = self.vector(vector), len(self.states)
        named = tuple(value for i, value in enumerate(values) if first + i in self.uses[equation])
        if (equation, named) not in self._bounds:
            area = self.area[:first] + [(value, value) for value in values] + self.area[first + len(values) :]
            self._bounds[equation, named] = bounds_of(self.equations[equation], area, self.variable_radii)
        return self._bounds[equation, named]

    def deviations(self, vector: Vector) -> list[int]:
        return [self.bounds(equation, vector)[2] for equation in range(len(self.equations))]

    def box(self, cell: Cell, vector: Vector) -> Corners:
        """The two corners of the successor box, whether it lies in the domain or not."""
        values, moves = self.vector(vector), self.deviations(vector)
        middle = self.step(self.centre(cell), values, self.rest)
        area = self.cell_area(self.low(cell), values) if self.version > 1 else None
        return corners([self.side(i, one, move, area) for i, (one, move) in enumerate(zip(middle, moves))])

    def growth(self, cell: Cell, vector: Vector) -> Corners:
        """The two corners of the growth bound: the centre's step, less and plus the deviations."""
        middle = self.step(self.centre(cell), self.vector(vector), self.rest)
        return corners([(one - move, one + move) for one, move in zip(middle, self.deviations(vector))])

    def span(self, cell: Cell, vector: Vector) -> Corners:
        """The two corners of what the equations' spans over a cell are."""
        area = self.cell_area(self.low(cell), self.vector(vector))
        return corners([span(area) for span in self.spans])

    def cell_area(self, lows: Iterable[int], values: Iterable[int]) -> list[Interval]:
        """The ends of each variable's range over a cell, given by its least point, and under the values of the
        inputs."""
        return (
            [(low, low + state[3] - 1) for low, state in zip(lows, self.states)]
            + [(value, value) for value in values]
            + [noise[1:] for noise in self.noises]
        )

    def side(self, equation: int, middle: int, moves: int, area: Optional[Area]) -> Interval:
        """The ends of a box along one state: about the middle, and where the cell's area is given, as from version 2
        on, within the span over it."""
        low, high = middle - moves, middle + moves
        if area is not None:
            least, most = self.spans[equation](area)
            low, high = max(low, least), min(high, most)
        return low, high

    def leaves(self, low: Sequence[int], high: Sequence[int]) -> list[int]:
        """The states in which a box leaves the domain, as their numbers."""
        return [i for i, (_, first, last, _) in enumerate(self.states) if low[i] < first or high[i] > last]

    def extents(self, low: Sequence[int], high: Sequence[int]) -> list[Interval]:
        """The first and the last index of a box in the domain, in each state."""
        return [
            ((low[i] - first) // width, (high[i] - first) // width)
            for i, (_, first, _, width) in enumerate(self.states)
        ]

    def fan(self, low: Sequence[int], high: Sequence[int]) -> int:
        """How many cells meet a box in the domain."""
        return math.prod(last - first + 1 for first, last in self.extents(low, high))

    def successors(self, cell: Cell, vector: Vector) -> list[Cell]:
        """The cells that meet the box of a pair, in rising order; none where it leaves the domain."""
        low, high = self.box(cell, vector)
        if self.leaves(low, high):
            return []
        cells = [0]
        for (first, last), count in zip(self.extents(low, high), self.counts):
            cells = [cell * count + index for cell in cells for index in range(first, last + 1)]
        return cells

    def boxes(self, cells: Sequence[Cell], vectors: Sequence[Vector]) -> Sequence[Corners]:
        """The boxes of all pairs of some cells and input vectors, cell by cell: by numpy where it is there, else one by
        one."""
        batch = self.batch()
        return (
            batch.pairs(cells, vectors) if batch else [self.box(cell, vector) for cell in cells for vector in vectors]
        )

    def batch(self) -> Optional[Batch]:
        """What works out many boxes at once; None without numpy."""
        return self.arrays if importlib.util.find_spec("numpy") else None

    @cached_property
    def arrays(self) -> Batch:
        """The same, for what needs numpy anyway."""
        from .batch import Batch

        return Batch(self)

    # Limits

    def check_limits(self, refused: type[Refused]) -> None:
        for what, size, most in (
            ("vectors", self.vectors, VECTORS),
            ("cells", self.cells, CELLS),
            ("pairs", self.pairs, PAIRS),
        ):
            if size > most:
                raise refused(f"limit: {what}", f"{size} {what}, and {most} are the most")

    def fits_for_all_inputs(self, equation: int) -> bool:
        """Whether the bounds stay in range with each input anywhere between its least and greatest value. Then they
        do under each input vector, since a wider area gives wider bounds."""
        try:
            low, high, moves = bounds_of(self.equations[equation], self.area, self.variable_radii)
        except Overflow:
            return False
        return low - moves >= -TOP and high + moves <= TOP

    def check_overflow(self, refused: type[Refused]) -> None:
        for equation in range(len(self.equations)):
            if self.fits_for_all_inputs(equation):
                continue
            for vector in range(self.vectors):
                try:
                    low, high, moves = self.bounds(equation, vector)
                    if low - moves < -TOP or high + moves > TOP:
                        raise Overflow
                except Overflow:
                    raise refused(
                        f"overflow: equation {equation} input {vector}",
                        f"the equation of {self.states[equation][0]} under {self.input_said(vector)} leaves the "
                        "range of 127 bits and a sign: choose coarser units or fewer digits",
                    ) from None

    def edges(self, sample: int = 20000) -> tuple[int, bool]:
        """The number of successors of all pairs, and whether it is exact or, without numpy, estimated from a sample of
        pairs."""
        if batch := self.batch():
            return batch.edges(), True
        try:
            return edges_of(self), True
        except TooMuch:
            draws = random.Random(1)
        total = 0
        for _ in range(sample):
            low, high = self.box(*divmod(draws.randrange(self.pairs), self.vectors))
            if not self.leaves(low, high):
                total += self.fan(low, high)
        return total * self.pairs // sample, False


class Rolled(Plant):
    """A plant whose states that come round are counted on behind their ranges' ends: there its boxes leave no
    domain."""

    def __init__(self, plant: Plant, equations: list[Node]) -> None:
        super().__init__(
            plant.states,
            plant.inputs,
            plant.noises,
            equations,
            plant.targets,
            plant.obstacles,
            plant.goal,
            plant.version,
        )
        self.periods = plant.periods
        self.is_rolled = [one is not other for one, other in zip(equations, plant.equations)]

    def leaves(self, low: Sequence[int], high: Sequence[int]) -> list[int]:
        return [i for i in super().leaves(low, high) if not self.is_rolled[i]]


def names_of(states: Iterable[State], inputs: Iterable[Input], noises: Iterable[Noise]) -> list[str]:
    return [state[0] for state in states] + [name for name, _ in inputs] + [noise[0] for noise in noises]


def meets(box: Box, low: Iterable[int], high: Iterable[int]) -> bool:
    """Whether a box has a number from one corner to another."""
    return all(first <= top and bottom <= last for (first, last), bottom, top in zip(box, low, high))


def holds(box: Box, low: Iterable[int], high: Iterable[int]) -> bool:
    """Whether a box has all numbers from one corner to another."""
    return all(first <= bottom and top <= last for (first, last), bottom, top in zip(box, low, high))


def corners(ends: Iterable[Interval]) -> tuple[list[int], list[int]]:
    """The least and the greatest point of a box by its ends along each state."""
    return [low for low, _ in ends], [high for _, high in ends]
