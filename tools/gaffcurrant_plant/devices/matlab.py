"""A text as a function file of MATLAB, which Octave reads too."""

from __future__ import annotations

from argparse import Namespace
from typing import List, Optional, Sequence, Tuple

from ..faults import Trouble
from ..plants.plant import Plant
from ..plants.units import Units
from ..texts.table import Text, parts_of
from .codes import WHAT, Codes, about, broken, target_indices
from .sizes import double_of

# The name, the type and the values of an array.
Array = Tuple[str, str, List[int]]
# Whole numbers up to here are exact in doubles.
TOP = 2**53
TURN = (
    "TURN is the turn of the sample before, from 0, and [] at the first sample; the second TURN is that of this "
    "sample.",
)


def function_file(text: Text, codes: Codes, checksum: int, given: Namespace, units: Optional[Units]) -> list[str]:
    """The lines of NAME.m."""
    plant, of_turns = text.plant, text.kind == "patrol"
    check_size(plant)
    name = given.prefix or "controller"
    results = ["status", "input"] + ["turn"] * of_turns + ["rank"] * given.ranks
    head = [
        f"function [{', '.join(results)}] = {name}(state{', turn' * of_turns})",
        f"% {WHAT[text.kind]} of Gaffcurrant, made by tools/header --matlab.",
    ] + [f"% {line}" for line in about(text, checksum)]
    head += [
        "% STATE is a vector of whole numbers, floor(value ./ unit). STATUS 1: apply INPUT; 0: the state is in "
        "the target, nothing has to be applied;",
        "% -1: there is no row, or a number isn't whole, infinite or no number, so nothing is promised. A state "
        "of the wrong length is an error.",
    ] + [f"% {line}" for line in TURN * of_turns]
    if given.ranks:
        head.append(
            "% RANK, where there is a row, falls by one at least from sample to sample; where it doesn't, stop safely."
        )
    if units:
        head += [
            f"% the number 1 of {units.label(one)} is {double_of(units.size(one))}, exactly {units.size(one)}"
            for one in plant.names()
            if one in units.sizes
        ]
    arrays = rows_of(codes, given)
    kept = (
        ["low", "high", "width", "count"] + ["target_first", "target_last"] * of_turns + [entry[0] for entry in arrays]
    )
    body = (
        [f"persistent {' '.join(kept)}", "if isempty(low)"]
        + [f"    {line}" for line in constants(text, arrays)]
        + ["end"]
    )
    return head + body + reader(text, codes, given) + ["end"]


def check_size(plant: Plant) -> None:
    numbers = [end for state in plant.states for end in state[1:3]] + [
        value for _, values in plant.inputs for value in values
    ]
    if any(abs(number) >= TOP for number in numbers):
        raise Trouble("a range or a value doesn't fit into the whole numbers of doubles, of 53 bits; coarser units do")


def rows_of(codes: Codes, given: Namespace) -> list[Array]:
    """The arrays that hold the rows: name, type and values."""
    kind, rank_kind = f"uint{codes.bits}", f"uint{codes.rank_bits}"
    if given.runs:
        firsts, numbers, ranks, begins = codes.runs(given.ranks)
        arrays = [("begin_of", "double", begins), ("first", "uint32", firsts), ("row", kind, numbers)]
    else:
        numbers, ranks = codes.flat()
        arrays = [("row", kind, numbers)]
    return arrays + [("ranks", rank_kind, ranks)] * given.ranks


def constants(text: Text, arrays: list[Array]) -> list[str]:
    plant, lines = text.plant, []
    for name, values in (
        ("low", [state[1] for state in plant.states]),
        ("high", [state[2] for state in plant.states]),
        ("width", [state[3] for state in plant.states]),
        ("count", plant.counts),
    ):
        lines.append(f"{name} = {listed(values)};")
    if text.kind == "patrol":
        for name, indices in zip(("target_first", "target_last"), target_indices(text)):
            lines.append(f"{name} = [{'; '.join(' '.join(map(str, one)) for one in indices)}];")
    for name, kind, values in arrays:
        said = broken(values)
        lines += (
            [f"{name} = {kind}([ ..."]
            + [f"    {line}{',' * (k + 1 < len(said))} ..." for k, line in enumerate(said)]
            + ["    ]);"]
        )
    return lines


def listed(values: Sequence[int]) -> str:
    return "[" + " ".join(map(str, values)) + "]"


def reader(text: Text, codes: Codes, given: Namespace) -> list[str]:
    """The lines that look for the row of a state."""
    plant, of_turns = text.plant, text.kind == "patrol"
    lines = (
        ["status = -1;", "input = [];"]
        + ["rank = [];"] * given.ranks
        + ["is_first = false;", "if isempty(turn)", "    turn = 0;", "    is_first = true;", "end"] * of_turns
    )
    lines += [
        "state = reshape(state, 1, []);",
        f"if numel(state) ~= {len(plant.states)}",
        f"    error('a state of this table has {len(plant.states)} numbers "
        f"({' '.join(state[0] for state in plant.states)})');",
        "end",
        "if any(state ~= floor(state)) || any(state < low) || any(state > high)",
        "    return",
        "end",
        "places = floor((state - low) ./ width);",
        "cell_number = 0;",
        "for i = 1:numel(low)",
        "    cell_number = cell_number * count(i) + places(i);",
        "end",
    ]
    if of_turns:
        inner = (
            ["after = mod(turn + 1, " + str(len(parts_of(text))) + ");"]
            + looked_up("after", plant, given, True)
            + [f"if number ~= {codes.none}", "    turn = after;", "end"]
        )
        lines += (
            ["if ~is_first && all(places >= target_first(turn + 1, :)) && all(places <= target_last(turn + 1, :))"]
            + [f"    {line}" for line in inner]
            + ["end"]
        )
    lines += looked_up("turn", plant, given, of_turns) + [f"if number == {codes.none}", "    return", "end"]
    lines += ["rank = double(ranks(place + 1));"] * given.ranks + [
        f"if number == {codes.arrived}",
        "    status = 0;",
        "    return",
        "end",
        f"input = zeros({len(plant.inputs)}, 1);",
    ]
    for i, (_, values) in reversed(list(enumerate(plant.inputs, 1))):
        lines += [
            f"values = {listed(values)};",
            f"input({i}) = values(mod(number, {len(values)}) + 1);",
            f"number = floor(number / {len(values)});",
        ]
    return lines + ["status = 1;"]


def looked_up(turn: str, plant: Plant, given: Namespace, of_turns: bool) -> list[str]:
    last = ["number = double(row(place + 1));"]
    if not given.runs:
        return [f"place = {f'{turn} * {plant.cells} + ' if of_turns else ''}cell_number;"] + last
    at = turn if of_turns else "0"
    return [
        f"place = begin_of({at} + 1);",
        f"behind = begin_of({at} + 2);",
        "while behind - place > 1",
        "    middle = floor((place + behind) / 2);",
        "    if first(middle + 1) <= cell_number",
        "        place = middle;",
        "    else",
        "        behind = middle;",
        "    end",
        "end",
    ] + last
