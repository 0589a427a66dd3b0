"""What a page gets of a plant, as trees and numbers, and of a model: its units and its differential equations."""

from __future__ import annotations

from fractions import Fraction
from typing import Any, Callable, Dict, List, Optional, Sequence, Union

from ..faults import Refused, Trouble
from ..models import formula
from ..models.agreement import check_steps
from ..models.kinds import Node as RealNode
from ..models.model import Model, read_model
from ..plants.bounds import deviation_of_parts, span_of_parts
from ..plants.expression import parts_of
from ..plants.kinds import Area, Bounds, Box, Node
from ..plants.plant import Plant
from ..plants.reader import lines_of, read_lines
from ..plants.units import decimal, read_units

# What JSON has; and what a plant's whole numbers are in it.
Json = Union[None, bool, int, float, str, List[Any], Dict[str, Any]]
Data = Dict[str, Json]
Number = Callable[[int], Json]
# Doubles count whole numbers up to here.
EXACT = 2**53


# Plants


def plant_data(plant: Plant) -> Data:
    """A plant for the page. Its numbers are strings where doubles can't count all that steps and bounds come to."""
    number = str if widest(plant) >= EXACT else int
    return {
        "version": plant.version,
        "goal": plant.goal,
        "states": [[name, *map(number, rest)] for name, *rest in plant.states],
        "inputs": [[name, list(map(number, values))] for name, values in plant.inputs],
        "noises": [[name, *map(number, ends)] for name, *ends in plant.noises],
        "equations": [tree(node, number) for node in plant.equations],
        "targets": [box_data(plant, box, number) for box in plant.targets],
        "obstacles": [box_data(plant, box, number) for box in plant.obstacles],
        "comesRound": [period is not None for period in plant.periods],
    }


def box_data(plant: Plant, box: Box, number: Number) -> list[Json]:
    """The ends of a box, cut off a cell outside of the domain."""
    near = [(low - width, high + width) for _, low, high, width in plant.states]
    return [[number(min(max(end, low), high)) for end in ends] for ends, (low, high) in zip(box, near)]


def tree(node: Node, number: Number) -> list[Json]:
    """A node as lists, with its numbers as the page reads them."""
    kind = node[0]
    if kind == "num":
        return [kind, number(node[1])]
    if kind == "var":
        return list(node)
    if kind == "div":
        return [kind, tree(node[1], number), number(node[2])]
    if kind == "lut":
        return [kind, tree(node[1], number), [list(map(number, point)) for point in node[2]]]
    return [kind, *(tree(part, number) for part in node[1:])]


def widest(plant: Plant) -> int:
    """At least the size of each number that steps from the domain and bounds of successors come to, for any input."""
    ends = [state[1:3] for state in plant.states], [noise[1:] for noise in plant.noises]
    values = [(min(values), max(values)) for _, values in plant.inputs]
    radii = plant.radii + [0] * len(values) + [high - rest for (_, high), rest in zip(ends[1], plant.rest)]
    # A sum of ends, and how far they are apart, come in halves of ranges, in indices and in draws.
    seen = [2 * (max(abs(low), abs(high)) + 1) for low, high in ends[0] + ends[1]]
    seen += [2 * state[3] for state in plant.states]
    for node in plant.equations:
        low, high, moves = sized(node, ends[0] + values + ends[1], radii, seen)
        seen.append(max(abs(low), abs(high)) + moves)
    return max(seen)


def sized(node: Node, area: Area, radii: Sequence[int], seen: list[int]) -> Bounds:
    """The span's ends and the deviation of a node; seen gets what its value and its bounds are worked out by."""
    kind = node[0]
    bounds: Bounds
    if kind == "num":
        bounds = node[1], node[1], 0
    elif kind == "var":
        bounds = *area[node[1]], radii[node[1]]
    else:
        parts = [sized(part, area, radii, seen) for part in parts_of(node)]
        bounds = *span_of_parts(node, [part[:2] for part in parts]), deviation_of_parts(node, parts)
        if kind == "div":
            seen.append(max(abs(one) for one in parts[0]) + node[2])
        if kind == "lut":
            seen += [piece_size(*piece, parts[0][2]) for piece in zip(node[2], node[2][1:])]
    seen += map(abs, bounds)
    return bounds


def piece_size(point: tuple[int, int], next_point: tuple[int, int], moves: int) -> int:
    """At least the size of what a piece of a `lut` is worked out by."""
    (x, y), (next_x, next_y) = point, next_point
    return abs(next_y - y) * max(next_x - x, moves) + max(abs(y), abs(next_y)) + next_x - x


# Models


def model_data(path: str, data: bytes, plant: Plant) -> Data:
    """The units of a model or of a plant text with comments, and a model's differential equations; raises Trouble where
    it isn't of the plant."""
    units, flow = read_units(path, data), None
    if first_word(data) in ("plant", "table"):
        check_plant(path, data, plant)
    else:
        model = read_model(data)
        check_model(path, model, plant)
        check_steps(path, model, plant)
        flow = flow_data(model)
    sizes = {name: float(size) for name, size in units.sizes.items()}
    return {"units": {"sizes": sizes, "words": units.words, "exact": sorted(units.exact)}, "flow": flow}


def first_word(data: bytes) -> str:
    lines = [line.split() for line in data.decode("utf-8", "replace").lstrip("\ufeff").splitlines()]
    return next((words[0] for words in lines if words and not words[0].startswith("#")), "")


def check_plant(path: str, data: bytes, plant: Plant) -> None:
    try:
        states = read_lines(lines_of(data)).states
    except Refused as refusal:
        raise Trouble(f"{path}: {refusal.answer}: {refusal.reason}") from None
    if states != plant.states:
        raise Trouble(f"{path}: its `state` lines aren't those of the text")


def check_model(path: str, model: Model, plant: Plant) -> None:
    """Whether the model has the text's states and inputs, in its units."""
    for what, of_model, of_plant in (
        ("states", model.state_names(), plant.state_names()),
        ("inputs", model.input_names(), plant.input_names()),
    ):
        names, wanted = (", ".join(some) or "none" for some in (of_model, of_plant))
        if names != wanted:
            raise Trouble(f"{path}: the model's {what} are {names}, those of the text {wanted}")
    for (name, low, high, width, unit), (_, *numbers) in zip(model.states, plant.states):
        found = [low / unit, high / unit - 1, width / unit]
        if found != numbers:
            ours, theirs = " ".join(map(decimal, found)), " ".join(map(str, numbers))
            raise Trouble(f"{path}: by the model {name} has LO HI WIDTH {ours} in its units, by the text {theirs}")
    for (name, unit, values), (_, whole) in zip(model.inputs, plant.inputs):
        if any(value != number * unit for value, number in zip(values, whole)) or len(values) != len(whole):
            raise Trouble(f"{path}: the values of {name} aren't those of the text")


def flow_data(model: Model) -> Optional[Data]:
    """The right sides of a model's differential equations as trees of doubles, and its sampling time; None where it has
    none."""
    sides = model.flows or (linear_sides(model) if model.rows["A"] and model.sample else None)
    if not sides:
        return None
    names = model.names()
    return {
        "time": float(model.time),
        "sides": [real_tree(side, names) for side in sides],
        "noises": [float((low + high) / 2) for _, low, high in model.noises],
    }


def linear_sides(model: Model) -> list[RealNode]:
    """The sides A x + B u + c of a linear model, as formulas."""
    of_inputs = model.rows["B"] or [[]] * len(model.states)
    constants = model.rows["c"] or [[Fraction(0)]] * len(model.states)
    names, sides = model.state_names() + model.input_names(), []
    for of_state, of_input, (constant,) in zip(model.rows["A"], of_inputs, constants):
        side = formula.number(constant)
        for name, factor in zip(names, of_state + of_input):
            side = formula.add(side, formula.mul(formula.number(factor), ("var", name)))
        sides.append(side)
    return sides


def real_tree(node: RealNode, names: Sequence[str]) -> list[Json]:
    """A formula as lists: numbers as doubles, variables by their numbers, a function and a power before their part."""
    kind = node[0]
    if kind == "num":
        return [kind, float(node[1])]
    if kind == "var":
        return [kind, names.index(node[1])]
    if kind == "call" and node[1][0] == "lut":
        return ["lut", real_tree(node[2], names), *(float(end) for point in node[1][1] for end in point)]
    if kind == "call":
        part = real_tree(node[2], names)
        return ["call", node[1], part] if isinstance(node[1], str) else ["power", float(node[1][1]), part]
    return [kind, *(real_tree(part, names) for part in node[1:])]
