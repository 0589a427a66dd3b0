"""Chooses the plant of a model: the order and the steps of its sampling, the form of its polynomials and the number of
straight pieces, by the size of the boxes that come out."""

from __future__ import annotations

import math
import random
from fractions import Fraction
from typing import Hashable, Iterable, Optional, Sequence

from ..faults import Failure, Trouble
from ..plants.expression import NODES
from . import polynomial
from .arithmetic import Floats, is_exact
from .curves import intervals
from .formula import is_smooth, value_of
from .linear import Block
from .model import Model, at_line
from .plant_text import Planting, Tried
from .taylor_sampling import Flow, held_names

# Straight pieces that are tried, most first: as many as a lut has, and as many as fit into an equation.
PIECES = {1: (8, 7, 6, 5, 4, 3, 2), 2: (31, 24, 16, 10, 6)}
# Orders of the Taylor polynomial that are tried, the last one where what the others leave out is much of a cell; and
# how many steps of a sample: more where that is so, as long as the boxes become less by a factor. So do polynomials
# about the middles of the ranges.
ORDERS, LAST, STEPS = (1, 2, 3), 4, (2, 3, 4)
WORTH, SIMPLER = Fraction(9, 10), Fraction(19, 20)
# Boxes on the way that are tried before nothing more is that isn't asked for.
MOST_TRIALS = 10_000
# The share of a cell that may be left out before areas are halved, and how many are.
MUCH, HALVINGS = Fraction(1), 60
# Boxes in which the domain is looked at, and the most input vectors for which it is each time: at first, and again for
# the planting that is chosen.
COARSE, FINE = (96, 12), (288, 64)


def planted(model: Model) -> Planting:
    """The plant of a model whose boxes are the least beside the cells; raises Trouble with the model's line, where what
    is wrong belongs to one."""
    try:
        with at_line(None):
            check_wraps(model)
            planting = Chooser(model).chosen()
    except Trouble:
        raise
    except Failure as failure:
        with at_line(failure.model_line):
            raise Trouble(f"the plant would be refused, {failure.said()}") from None
    if model.goal == "reach" and all(keyword != "target" for keyword, _ in model.boxes):
        raise Trouble(
            "the model has `goal reach` and no `target` line, so there is nothing to reach: a line `target LO HI "
            "..`, or `goal keep`, is due"
        )
    return planting


def needs_mpmath(model: Model) -> bool:
    """Whether sampling or functions of a model need intervals."""
    if model.flows:
        return not Block(model).is_whole()
    return any(not isinstance(equation, dict) and not is_exact(equation) for equation in model.equations)


class Chooser:
    """Tries plantings of a model, and keeps the best one. tried: what was tried, in words, and the planting or what is
    wrong with it; halvings: how many areas are halved in which a sampling leaves out much."""

    def __init__(self, model: Model, halvings: int = 0) -> None:
        self.model, self.halvings = model, halvings
        self.best: Optional[Planting] = None
        self.tried: list[Tried] = []
        self.block = Block(model) if model.flows else None
        self.trials = 0
        # Whether polynomials as they are, and those about the middles of the ranges, are tried.
        self.forms = [False, True]

    def chosen(self) -> Planting:
        """The best planting, whose text tells what else was tried."""
        if self.block is None or self.block.is_whole():
            self.take("as the equations are", None)
        else:
            self.take_samplings()
            self.look_closer()
        if not self.best:
            raise self.first_fault()
        if self.best.is_rest_wide() and self.trials <= MOST_TRIALS:
            self.sharpen()
        if self.model.flows or self.best.room.is_nested:
            self.best.tell(self.words_of_best(), [pair for pair in self.tried if pair[1] is not self.best])
        return self.best

    def take_samplings(self) -> None:
        """Tries the orders and the steps that the model allows."""
        model = self.model
        is_free = not model.order and all(is_smooth(node, held_names(model)) for node in model.flows)
        orders = ORDERS if is_free else [model.order or ORDERS[0]]
        self.take_orders(orders, model.steps or 1)
        if is_free and (not self.best or self.best.is_rest_wide()):
            self.take_orders([LAST], model.steps or 1)
        for steps in () if model.steps else STEPS:
            if not self.best or not self.best.is_rest_wide() or not self.take_finer(steps):
                break

    def first_fault(self) -> Failure:
        """What is wrong with the first planting that was tried, where each has a fault."""
        return next(one for _, one in self.tried if isinstance(one, Failure))

    def look_closer(self) -> None:
        """Where even the best sampling leaves out much tries all again with areas halved, and takes over what is
        better."""
        if not self.best or not self.best.is_rest_wide(MUCH):
            return
        closer = Chooser(self.model, HALVINGS)
        closer.take_samplings()
        if closer.best and box_size(closer.best) < box_size(self.best):
            self.best, self.tried, self.trials, self.halvings = closer.best, closer.tried, closer.trials, HALVINGS

    def words_of_best(self) -> str:
        return next(words for words, one in self.tried if one is self.best)

    def take_finer(self, steps: int) -> bool:
        """Tries one step more, by the orders that may fit; whether the boxes become less by enough."""
        before = self.best
        if before is None or before.flow is None:
            return False
        orders = [before.flow.order - 1] * (before.flow.order > 1 and not self.model.order) + [before.flow.order]
        self.take_orders([order for order in orders if self.may_fit(order, steps)], steps, WORTH)
        return self.best is not before

    def may_fit(self, order: int, steps: int) -> bool:
        """Whether an expression of so many steps may have few enough nodes, by what those of one step have: each names
        the ones before it."""
        plantings = [
            one
            for _, one in self.tried
            if isinstance(one, Planting) and one.flow and (one.flow.order, one.flow.count) == (order, 1)
        ]
        return not plantings or min(one.nodes_in(steps) for one in plantings) <= 2 * NODES

    def take_orders(self, orders: Iterable[int], steps: int, worth: Fraction = Fraction(1)) -> None:
        """Tries orders in so many steps; another planting is kept where its boxes are less than the best one's by a
        factor."""
        bound = box_size(self.best) * worth if self.best else None
        for order in orders:
            if self.best and self.trials > MOST_TRIALS:
                return
            words = f"order {order}" + (f" in {steps} steps" if steps > 1 else "")
            try:
                flow = flow_of(self.model, order, steps, self.block, COARSE, self.halvings)
                self.trials += flow.trials
            except Failure as failure:
                self.tried.append((words, failure))
                continue
            if bound is None or rest_size(self.model, flow) < bound:
                self.take(words, flow, bound)

    def take(self, words: str, flow: Optional[Flow], bound: Optional[float] = None) -> None:
        """Tries one sampling, with polynomials as they are and, where there are products, about the middles of the
        ranges."""
        plain = self.tried_with(words, flow, False) if False in self.forms else None
        may_be_nested = plain.is_curved() if plain else not self.model.denominator
        nested = self.tried_with(f"{words}, about the middles", flow, True) if may_be_nested else None
        if plain and nested and box_size(nested) <= SIMPLER * box_size(plain):
            # Polynomials of more terms do no better as they are.
            self.forms, plain = [True], None
        found = plain or nested
        if (
            found
            and (bound is None or box_size(found) <= bound)
            and (not self.best or box_size(found) < box_size(self.best))
        ):
            self.best = found

    def tried_with(self, words: str, flow: Optional[Flow], is_nested: bool) -> Optional[Planting]:
        try:
            planting = with_pieces(self.model, flow, self.block, is_nested)
        except Failure as failure:
            self.tried.append((words, failure))
            return None
        self.tried.append((words, planting))
        return planting

    def sharpen(self) -> None:
        """Makes the best planting once more, with what its formulas leave out looked at in more and smaller boxes."""
        best = self.best
        if best is None or best.flow is None:
            return
        try:
            sharper = with_pieces(
                self.model,
                flow_of(self.model, best.flow.order, best.flow.count, self.block, FINE, self.halvings),
                self.block,
                best.room.is_nested,
            )
        except Failure:
            return
        if box_size(sharper) < box_size(best):
            self.best = sharper
            self.tried = [(words, sharper if one is best else one) for words, one in self.tried]


FLOWS: dict[tuple[Hashable, ...], Flow] = {}


def flow_of(
    model: Model, order: int, steps: int, block: Optional[Block], boxes: tuple[int, int] = COARSE, halvings: int = 0
) -> Flow:
    """The Flow of a model by an order and in steps, which doesn't depend on its cells unless areas are halved: the same
    one is made once."""
    key = (
        *(tuple(state[:4] if halvings else state[:3]) for state in model.states),
        *((name, tuple(values)) for name, _, values in model.inputs),
        *model.noises,
        *model.flows,
        model.sample,
        order,
        steps,
        boxes,
        halvings,
    )
    if key not in FLOWS:
        FLOWS[key] = Flow(model, intervals(), order, steps, block, boxes, halvings)
    return FLOWS[key]


def rest_size(model: Model, flow: Flow) -> Fraction:
    """The share of the cells that a Flow's formulas leave out: less than the boxes that come of it."""
    shares = ((high - low) / 2 / state[3] for (low, high), state in zip(flow.rests(flow.count), model.states))
    return sum(shares, Fraction(0))


def box_size(planting: Planting) -> float:
    """The sum of the greatest deviations beside the widths of cells; of a state that comes round the noise's share of
    it."""
    if planting.size is None:
        plant, wraps = planting.plant, planting.model.wraps
        planting.size = sum(
            (ends[1] - ends[0]) / 2 / state[3]
            if state[0] in wraps
            else max(plant.bounds(i, vector)[2] for vector in range(plant.vectors)) / state[3]
            for i, (state, ends) in enumerate(zip(plant.states, planting.ranges))
        )
    return planting.size


def with_pieces(
    model: Model, flow: Optional[Flow], block: Optional[Block], is_nested: bool, pieces: Sequence[int] = ()
) -> Planting:
    """The plant with as many straight pieces as fit, of these numbers or those that the model allows; raises a
    Failure."""
    number, *fewer = pieces or ([model.pieces] if model.pieces else PIECES[model.version])
    try:
        return Planting(model, number, flow, block, is_nested)
    except Trouble:
        raise
    except Failure as failure:
        # The points of a lut are no nodes.
        is_helped = failure.said().startswith("limit: plant text") or model.version == 1 and "nodes" in failure.said()
        if not fewer or not is_helped:
            raise told(failure) from None
    return with_pieces(model, flow, block, is_nested, fewer)


def told(failure: Failure) -> Trouble:
    """The Trouble of a plant that would be refused, with the model's line."""
    reason = getattr(failure, "reason", failure.said())
    if failure.model_line:
        return Trouble(
            f"line {failure.model_line}: the plant would be refused, in what becomes of this line: {reason}"
            + "; coarser units help" * ("digits" in reason)
        )
    return Trouble(f"the plant would be refused, {failure.said()}")


def check_wraps(model: Model) -> None:
    """Whether the equations are the same a turn on for each state that comes round and isn't exact, at some random
    points by floats."""
    draws = random.Random(1)
    for name, line in model.wraps.items():
        if name in model.exact:
            continue
        with at_line(line):
            if model.version == 1:
                raise Trouble(f"`wrap {name}` needs a plant of version 2, whose boxes lie within the spans")
            ((low, high),) = [state[1:3] for state in model.states if state[0] == name]
            for _ in range(20):
                ranges = [state[:3] for state in model.states] + model.noises
                values = {one: float(least + (most - least) * draws.random()) for one, least, most in ranges}
                values |= {one: float(draws.choice(choices)) for one, _, choices in model.inputs}
                ends = [sides_at(model, values | {name: float(end)}) for end in (low, high)]
                check_turn(model, name, float(high - low), *ends)


def sides_at(model: Model, values: dict[str, float]) -> list[float]:
    """The right sides of all equations at a point, by floats."""
    return [
        float(polynomial.value_of(side, values) if isinstance(side, dict) else value_of(side, values, Floats()))
        for side in model.flows or model.equations
    ]


def check_turn(model: Model, name: str, turn: float, before: Sequence[float], after: Sequence[float]) -> None:
    """Whether right sides a turn apart are the same, but for a turn that a `next` line itself adds to the state."""
    for (state, *_), one, other in zip(model.states, before, after):
        difference = other - one
        if not math.isfinite(difference):
            # The ranges will be said to be too wide for a function.
            continue
        turns = round(difference / turn) if state == name and not model.flows else 0
        if abs(difference - turns * turn) > 1e-7 * max(1.0, abs(one)):
            raise Trouble(
                f"`wrap {name}`: the equation of {state} isn't the same a turn, {turn:g}, on: it differs by "
                f"{difference:.3g}. Count an angle in degrees or turns, as in cos(pi/180 * h) with h "
                "from -180 "
                "to 180"
            )
