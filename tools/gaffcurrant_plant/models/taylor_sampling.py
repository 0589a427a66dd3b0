"""Samples differential equations x' = f(x, u, w) with the input held, in one step or in several: each by a Taylor
polynomial of f, with a bound of all that it leaves out.

The bound is that of Taylor's theorem with its remainder over an enclosure of the states on the way, which is found as
in the proof of Picard and Lindeloef: a box B with D + [0, T] f(B) within B holds every solution from D up to the time T
(R. E. Moore, Interval Analysis, 1966; N. S. Nedialkov, K. R. Jackson, G. F. Corliss, Validated solutions of initial
value problems for ordinary differential equations, 1999). A disturbance may vary at any time: by how much it moves a
state is bounded by the linear system whose matrix bounds the derivatives of f (a growth bound, as in the method of the
program)."""

from __future__ import annotations

import itertools
import math
from fractions import Fraction
from typing import TYPE_CHECKING, Iterable, Iterator, Mapping, Optional, Sequence

from ..faults import Trouble
from .formula import add, derivative, is_smooth, mul, names_of, number, replaced, value_of
from .kinds import Area, Course, Ends, Interval, Node
from .linear_sampling import SYSTEM, too_long

if TYPE_CHECKING:
    from .arithmetic import Intervals
    from .linear import Block
    from .model import Model

# How far a measurement may be beside its real value, in units of the state, as by the rounding of doubles.
BESIDE = Fraction(1, 1000)
MOST_TRIALS, TERMS, FASTEST, HALVINGS = 30, 24, 100, 12
TINY = Fraction(1, 10**12)
# In how many parts a box for a step is looked for, one after the other: more give a narrower box.
PARTS = (1, 4, 16)


class NoBox(Trouble):
    """No box was found that holds the solutions from an area up to the end of a step. fault: what is wrong with an
    equation on the way, or None."""

    def __init__(self, area: Area, fault: Optional[Trouble] = None) -> None:
        super().__init__("no box")
        self.area, self.fault = area, fault


class Flow:
    """The right sides of the states' equations, the ranges of all variables, and the steps of a sample: polynomials has
    for each state that of a step, course for each step the ends of what these leave out, and of the states behind
    it. halvings: how many areas are halved, those from which the most is left out."""

    def __init__(
        self,
        model: Model,
        maths: Intervals,
        order: int,
        count: int,
        block: Optional[Block],
        boxes: tuple[int, int],
        halvings: int = 0,
    ) -> None:
        self.model, self.maths, self.order, self.count, self.block = model, maths, order, count, block
        # How often a box was tried, by which the cost is known.
        self.time, self.trials = model.time / count, 0
        self.found: dict[tuple[int, str], Node] = {}
        self.names = [state[0] for state in model.states]
        self.sides = model.flows
        middles = {name: number((low + high) / 2) for name, low, high in model.noises}
        self.held = [replaced(side, middles) for side in self.sides]
        if self.order > 1 and not all(is_smooth(side, held_names(model)) for side in self.sides):
            raise Trouble(
                f"line {model.order_line}: with min, max, abs or lut of what varies a differential equation is "
                "sampled by order 1 alone"
            )
        self.derivatives = [self.held]
        for _ in range(self.order):
            self.derivatives.append([self.along(node) for node in self.derivatives[-1]])
        self.polynomials = [self.polynomial(i, name) for i, name in enumerate(self.names)]
        self.slopes = [[derivative(node, name) for name in self.names] for node in self.polynomials]
        self.parts = PARTS[1:] if halvings else PARTS
        try:
            courses = self.courses(self.areas(*boxes), halvings)
        except NoBox as no_box:
            raise self.shorter(no_box, self.areas(*boxes)) from None
        self.course = [tuple(map(self.hulls, zip(*step))) for step in zip(*courses)]

    def nodes(self, step: int, before: Mapping[str, Node]) -> list[Node]:
        """The formulas of the states behind a step, where others stand for those behind the step before; of those of
        the block since the sample's beginning."""
        time = self.time * step
        return [
            self.block.node(name, time) if self.block and name in self.block else replaced(node, before)
            for name, node in zip(self.names, self.polynomials)
        ]

    def rests(self, step: int) -> list[Ends]:
        """For each state the ends of what its formula behind a step leaves out."""
        rests, time = self.course[step - 1][0], self.time * step
        return [
            self.block.rest(name, time) if self.block and name in self.block else rest
            for name, rest in zip(self.names, rests)
        ]

    def along(self, node: Node) -> Node:
        """The derivative of a node along the solutions."""
        total = number(0)
        for name, side in zip(self.names, self.held):
            total = add(total, mul(derivative(node, name), side))
        return total

    def polynomial(self, i: int, name: str) -> Node:
        """The Taylor polynomial of a state's step."""
        total: Node = ("var", name)
        for k in range(self.order):
            total = add(total, mul(number(self.time ** (k + 1) / math.factorial(k + 1)), self.derivatives[k][i]))
        return total

    def hulls(self, found: Iterable[Sequence[Ends]]) -> list[Ends]:
        """For each state the least and the greatest of the ends that were found from all areas."""
        return [(min(low for low, _ in ends), max(high for _, high in ends)) for ends in zip(*found)]

    def courses(self, areas: Iterable[Area], halvings: int) -> list[Course]:
        """The courses from all areas; with so many halvings from halves of those from which the most is left out."""
        found = [(area, self.course_from(area)) for area in areas]
        for _ in range(halvings):
            at = self.worst([course for _, course in found])
            try:
                found[at : at + 1] = [(half, self.course_from(half)) for half in self.halves(found[at][0])]
            except Trouble:
                break
        return [course for _, course in found]

    def worst(self, courses: Sequence[Course]) -> int:
        """The number of the course whose formulas leave out the most, beside the cells."""
        sizes = [
            max(
                max(-low, high) / state[3]
                for rests, _ in course
                for state, (low, high) in zip(self.model.states, rests)
                if not self.is_in_block(state[0])
            )
            for course in courses
        ]
        return sizes.index(max(sizes))

    def halves(self, area: Area) -> list[Area]:
        """The halves of an area along the state that is widest beside its range, of those on which it depends what the
        formulas leave out."""
        rests = [node for name, node in zip(self.names, self.derivatives[self.order]) if not self.is_in_block(name)]
        names = set().union(*map(names_of, rests))
        ranges = {name: high - low for name, low, high, *_ in self.model.states}
        ends = {name: self.maths.ends(area[name]) for name in self.names}
        name = max(
            [name for name in self.names if name in names] or self.names,
            key=lambda one: (ends[one][1] - ends[one][0]) / ranges[one],
        )
        low, high = ends[name]
        middle = (low + high) / 2
        return [area | {name: self.maths.between(*pair)} for pair in ((low, middle), (middle, high))]

    def is_in_block(self, name: str) -> bool:
        """Whether a state is one of those that are sampled exactly."""
        return self.block is not None and name in self.block

    def course_from(self, area: Area) -> Course:
        """For each step from an area, with its inputs and disturbances: the ends of what the polynomials leave out, and
        of the states behind it."""
        course = []
        for step in range(self.count):
            box, end = self.enclosure(area)
            rests = self.rests_in(box)
            course.append((rests, [self.ends(name, end[name]) for name in self.names]))
            if step + 1 < self.count:
                area = self.narrowed(area, end, rests)
                course[-1] = rests, [self.ends(name, area[name]) for name in self.names]
        return course

    def narrowed(self, area: Area, end: Area, rests: Sequence[Ends]) -> Area:
        """The common part of a box of the states behind a step and of what the polynomials give from the area, by the
        mean value theorem: the value at the middle, and the derivatives times the way from it."""
        maths = self.maths
        middle = {name: maths.number(sum(self.ends(name, area[name]), Fraction(0)) / 2) for name in self.names}
        at_middle, narrow = area | middle, dict(end)
        known: dict[int, Interval] = {}
        middle_known: dict[int, Interval] = {}
        for polynomial, slopes, name, rest in zip(self.polynomials, self.slopes, self.names, rests):
            moved = self.value(name, polynomial, at_middle, middle_known) + maths.between(*rest)
            for other, slope in zip(self.names, slopes):
                moved += self.value(name, slope, area, known) * (area[other] - middle[other])
            narrow[name] = maths.common(end[name], moved)
        return narrow

    def slope(self, side: Node, name: str) -> Node:
        """The derivative of a side, found once."""
        if (id(side), name) not in self.found:
            self.found[id(side), name] = derivative(side, name)
        return self.found[id(side), name]

    def value(self, name: str, node: Node, area: Area, known: dict[int, Interval]) -> Interval:
        """The value over an area of a node that a state's equation gave; known has those that were found before.
        Trouble names the equation's line."""
        with self.model.at_equation(self.names.index(name)):
            return value_of(node, area, self.maths, known)

    def ends(self, name: str, interval: Interval) -> Ends:
        """The ends of an interval that a state's equation gave."""
        with self.model.at_equation(self.names.index(name)):
            return self.maths.ends(interval)

    def bound(self, state: str, node: Node, box: Area, known: dict[int, Interval], signed: bool = False) -> Fraction:
        """The greatest absolute value of a node over a box; with `signed` the greatest value, or 0 where that is below
        it."""
        low, high = self.ends(state, self.value(state, node, box, known))
        return max(high, Fraction(0)) if signed else max(abs(low), abs(high))

    def areas(self, most_boxes: int, most_vectors: int) -> Iterator[Area]:
        """The domain in boxes, with each input vector, or with the inputs' ranges where these are too many."""
        maths, model = self.maths, self.model
        choices = [[(value, value) for value in values] for _, _, values in model.inputs]
        if math.prod(map(len, choices)) > most_vectors:
            choices = [[(min(values), max(values))] for _, _, values in model.inputs]
        vectors = list(itertools.product(*choices))
        parts = max(1, int((most_boxes / len(vectors)) ** (1 / len(model.states))))
        ranges = [(low - BESIDE * unit, high + BESIDE * unit) for _, low, high, _, unit in model.states]
        cuts = [
            [(low + (high - low) * k / parts, low + (high - low) * (k + 1) / parts) for k in range(parts)]
            for low, high in ranges
        ]
        noises = {name: maths.between(low, high) for name, low, high in model.noises}
        for box in itertools.product(*cuts):
            for vector in vectors:
                area = {name: maths.between(*ends) for name, ends in zip(self.names, box)}
                yield area | {name: maths.between(*ends) for (name, *_), ends in zip(model.inputs, vector)} | noises

    def enclosure(self, area: Area) -> tuple[Area, Area]:
        """A box that holds the solutions from an area up to the end of a step, and one that holds their ends, found in
        one part or in several."""
        fault: Optional[Trouble] = None
        for parts in self.parts:
            try:
                return self.enclosure_in(parts, area, self.time)
            except Trouble as trouble:
                fault = None if isinstance(trouble, NoBox) else trouble
        raise NoBox(area, fault)

    def enclosure_in(self, parts: int, area: Area, time: Fraction) -> tuple[Area, Area]:
        """The same up to a time, found in so many parts."""
        box, end = self.short_enclosure(area, time / parts)
        for _ in range(parts - 1):
            one, end = self.short_enclosure(end, time / parts)
            box = {name: self.maths.hull(box[name], one[name]) for name in one}
        return box, end

    def shorter(self, no_box: NoBox, areas: Iterable[Area]) -> Trouble:
        """The fault of a sampling time up to which no box was found, with one for which there is a box; or what is
        wrong with an equation where a sample begins, in one of all areas."""
        said = ": no box was found that holds the solutions up to it"
        if no_box.fault:
            try:
                for area in areas:
                    self.slopes_over(area)
            except Trouble as trouble:
                return trouble
            said = f": on the way {str(no_box.fault).partition(': ')[2]}"
        for halvings in range(1, HALVINGS):
            try:
                self.enclosure_in(PARTS[-1], no_box.area, self.time / 2**halvings)
                return too_long(self.model, 2**halvings, said, "may")
            except Trouble:
                continue
        return Trouble(f"line {self.model.sample_line}: the sampling time is too long{said}")

    def slopes_over(self, box: Area) -> Area:
        """The slopes of the states over a box."""
        known: dict[int, Interval] = {}
        return {name: self.value(name, side, box, known) for name, side in zip(self.names, self.sides)}

    def short_enclosure(self, area: Area, time: Fraction) -> tuple[Area, Area]:
        """A box that holds the solutions from an area up to a time, and one that holds their ends."""
        maths, box = self.maths, dict(area)
        whole, end = maths.between(Fraction(0), time), maths.number(time)
        for _ in range(MOST_TRIALS):
            self.trials += 1
            slopes = self.slopes_over(box)
            after = {name: area[name] + whole * slope for name, slope in slopes.items()}
            if all(box[name].a <= one.a and one.b <= box[name].b for name, one in after.items()):
                return box, area | {name: area[name] + end * slope for name, slope in slopes.items()}
            for name, one in after.items():
                box[name] = one + (one - area[name]) / 20 + maths.between(-TINY, TINY)
        raise NoBox(area)

    def rests_in(self, box: Area) -> list[Ends]:
        """For each state the ends of what the polynomial of a step leaves out, where a box holds the solutions."""
        known: dict[int, Interval] = {}
        share = number(self.time ** (self.order + 1) / math.factorial(self.order + 1))
        rests = [
            self.ends(name, self.value(name, mul(share, node), box, known))
            for name, node in zip(self.names, self.derivatives[self.order])
        ]
        moved = self.disturbed(box, known)
        return [(low - more, high + more) for (low, high), more in zip(rests, moved)]

    def disturbed(self, box: Area, known: dict[int, Interval]) -> list[Fraction]:
        """By how much disturbances move each state within a step. known has the values of nodes over the box."""
        size = len(self.names)
        pushes = [
            sum(
                (
                    self.bound(state, self.slope(side, name), box, known) * (high - low) / 2
                    for name, low, high in self.model.noises
                ),
                Fraction(0),
            )
            for state, side in zip(self.names, self.sides)
        ]
        if not any(pushes):
            return [Fraction(0)] * size
        matrix = [
            [self.bound(state, self.slope(side, name), box, known, signed=state == name) for name in self.names]
            for state, side in zip(self.names, self.sides)
        ]
        norm = max(sum(row, Fraction(0)) for row in matrix)
        if self.time * norm > FASTEST:
            # Over the boxes of other areas, and of another time, the bound is another one.
            raise too_long(self.model, self.time * norm / FASTEST, SYSTEM, "may")
        power, total = [push * self.time for push in pushes], [Fraction(0)] * size
        for k in range(2, TERMS + 2 * math.ceil(self.time * norm)):
            total = [rounded_up(a + b) for a, b in zip(total, power)]
            power = [
                rounded_up(sum((a * b for a, b in zip(row, power)), Fraction(0)) * self.time / k) for row in matrix
            ]
        # The terms that are left are below a geometric series of a half; a state that no disturbance has reached by
        # now, none reaches.
        return [a + 2 * max(power) if a else a for a in total]


def held_names(model: Model) -> list[str]:
    """The variables that stay as they are within a sample: the inputs."""
    return [name for name, *_ in model.inputs]


def rounded_up(value: Fraction) -> Fraction:
    """A fraction of few digits that isn't less."""
    return Fraction(math.ceil(value * 10**24), 10**24)
