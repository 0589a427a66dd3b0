"""Whether a table is of a model, or of a plant text: names, order, ranges, cells and values."""

from __future__ import annotations

import importlib.util
import math
import random
import re
from fractions import Fraction
from typing import List, Sequence, Tuple, Union

from ..command import read_bytes
from ..faults import Refused, Trouble
from ..plants.bounds import span_of
from ..plants.kinds import Input, Noise, State
from ..plants.plant import Plant
from ..plants.reader import read_plant
from ..plants.units import short
from .best_plant import planted
from .kinds import Real
from .model import Model, read_model
from .trial import Point, around, real_steps

# A state and an input of a model in units, which a table's plant has as whole numbers.
RealState = Tuple[str, Fraction, Fraction, Fraction]
RealInput = Tuple[str, List[Fraction]]
# The comment of tools/scale on a state that its model calls exact.
EXACT = re.compile(rb"^# unit ([A-Za-z][A-Za-z0-9_]*) .*: a whole number by itself$", re.M)
# Random states whose step is looked at, and units by which it may lie beside the table's: older tools rounded in other
# ways.
TRIED, BESIDE = 40, 2


def states_of(model: Model) -> list[RealState]:
    """The states of a model's plant: (name, least, greatest, width) in units."""
    return [(name, low / unit, high / unit - 1, width / unit) for name, low, high, width, unit in model.states]


def inputs_of(model: Model) -> list[RealInput]:
    return [(name, [value / unit for value in values]) for name, unit, values in model.inputs]


def model_at(path: str) -> Model:
    """The model in a file; raises Trouble."""
    data = read_bytes(path)
    try:
        return read_model(data)
    except Trouble as trouble:
        raise Trouble(f"{path}: {trouble}", trouble.status) from None


def check_model(path: str, model: Model, plant: Plant) -> None:
    """Raises Trouble where a model's states and inputs aren't those of a table's plant."""
    check_variables(path, "model", states_of(model), inputs_of(model), plant)


def check_equations(path: str, model: Model, plant: Plant) -> None:
    """Raises Trouble where a model's equations and noises in whole units aren't a table's, as where all its units are
    ten times those. Where mpmath is missing, which they may need, they aren't compared."""
    if importlib.util.find_spec("mpmath") is None:
        return
    model.version = plant.version
    ours, theirs = (equations_of(one) for one in (planted(model).plant, plant))
    for name, one, other in zip([state[0] for state in plant.states], ours, theirs):
        if one != other:
            raise Trouble(
                f"{path}: the model isn't the table's: the equation of {name} or its noise in whole units is "
                "another one; are the units others?"
            )


def check_steps(path: str, model: Model, plant: Plant) -> None:
    """Raises Trouble where the step of a model from a random state isn't one that a table's plant allows, as where all
    its units are ten times those."""
    draws = random.Random(1)
    points = [Point(model, draws) for _ in range(TRIED)]
    for i, (state, real) in enumerate(zip(model.states, real_steps(model, points))):
        name, *_, unit = state
        for point, value in zip(points, real):
            low, high = span_of(
                plant.equations[i],
                [(value, value) for value in point.whole + point.inputs] + [ends[1:] for ends in plant.noises],
            )
            beside: Real = value / float(unit) - low
            if name in model.wraps:
                # Up to a turn above the low end, since the span may be all of the circle.
                beside = (beside + BESIDE) % float((state[2] - state[1]) / unit) - BESIDE
            if not -BESIDE <= beside <= high - low + 1 + BESIDE:
                beside = around(beside, model, state) if name in model.wraps else beside
                away = (
                    f"{short(abs(Fraction(beside)) * unit)} away from where"
                    if math.isfinite(beside)
                    else "elsewhere than"
                )
                raise Trouble(
                    f"{path}: the model isn't the table's: by the model a sample leads {name} {away} the table's "
                    "plant leads it; are the units or the equations others?"
                )


def equations_of(plant: Plant) -> list[tuple[str, list[Noise]]]:
    """For each state the line of its equation, and the ranges of the noises that it names."""
    names, lines = plant.names(), [line for line in plant.text().splitlines() if line.startswith("next ")]
    return [
        (line, [noise for noise in plant.noises if names.index(noise[0]) in uses])
        for line, uses in zip(lines, plant.uses)
    ]


def check_plant(path: str, other: Plant, plant: Plant) -> None:
    """Raises Trouble where a plant text isn't that of a table."""
    check_variables(path, "plant text", other.states, other.inputs, plant)
    if other.text() != plant.text():
        raise Trouble(f"{path}: the table is of another plant: equations, noises, targets or obstacles differ")


def check_units(path: str, data: bytes, plant: Plant) -> set[str]:
    """Raises Trouble where a file with units, a model or a plant text that tools/scale made of one, isn't that of a
    table's plant. Answers the names of the exact states."""
    if not is_plant_text(data):
        model = read_model(data)
        check_model(path, model, plant)
        check_equations(path, model, plant)
        return model.exact
    try:
        check_plant(path, read_plant(data), plant)
    except Refused as refusal:
        raise Trouble(f"{path}: {refusal.answer}: {refusal.reason}") from None
    return {name.decode() for name in EXACT.findall(data)}


def check_variables_of(path: str, data: bytes, plant: Plant) -> None:
    """Raises Trouble where the states and inputs of a model, or of a plant text that tools/scale made of one, aren't
    those of a table's plant."""
    if not is_plant_text(data):
        model = read_model(data)
        check_model(path, model, plant)
        check_steps(path, model, plant)
        return
    try:
        other = read_plant(data)
    except Refused as refusal:
        raise Trouble(f"{path}: {refusal.answer}: {refusal.reason}") from None
    check_variables(path, "plant text", other.states, other.inputs, plant)
    if equations_of(other) != equations_of(plant):
        raise Trouble(f"{path}: the table is of another plant: equations or noises differ")


def is_plant_text(data: bytes) -> bool:
    lines = [line.split() for line in data.decode("utf-8", "replace").lstrip("\ufeff").splitlines()]
    first = next((words for words in lines if words and not words[0].startswith("#")), [""])
    return first[0] in ("plant", "table")


def check_variables(
    path: str,
    what: str,
    states: Sequence[Union[State, RealState]],
    inputs: Sequence[Union[Input, RealInput]],
    plant: Plant,
) -> None:
    for kind, names, others in (
        ("states", [state[0] for state in states], plant.state_names()),
        ("inputs", [name for name, _ in inputs], plant.input_names()),
    ):
        if names != others:
            raise Trouble(
                f"{path}: the {what} isn't the table's: its {kind} are {', '.join(names) or 'none'}, those of "
                f"the table {', '.join(others) or 'none'}"
            )
    for one, other in zip(states, plant.states):
        if tuple(one) != tuple(other):
            raise Trouble(
                f"{path}: the {what} isn't the table's: {one[0]} has {one[1]} to {one[2]} in cells of {one[3]} "
                f"units, and in the table {other[1]} to {other[2]} in cells of {other[3]}"
            )
    for (name, ours), (_, theirs) in zip(inputs, plant.inputs):
        if list(ours) != list(theirs):
            raise Trouble(
                f"{path}: the {what} isn't the table's: the values of {name} are {words(ours)} in units, and in "
                f"the table {words(theirs)}"
            )


def words(values: Sequence[object]) -> str:
    return " ".join(map(str, values[:12])) + " .." * (len(values) > 12)
