"""Compares two tables, stay texts or patrol texts over one grid: which cells are won or kept by one and not by the
other, their ranks and their inputs; patrols turn by turn."""

from __future__ import annotations


from argparse import Namespace
from functools import partial
from typing import Sequence

from ..command import Arguments, read_bytes, start
from ..faults import Refused, Trouble
from ..plants.kinds import Cell
from ..plants.plant import Plant
from ..plants.units import MODEL_HELP, units_for
from ..progress import Progress
from ..texts.table import Table, Text, parts_of, read_text

SHOWN = 6


def text_of(path: str) -> Text:
    try:
        return read_text(read_bytes(path))
    except Refused as refusal:
        raise Trouble(f"{path}: {refusal.answer}: {refusal.reason}") from None


def cells_said(plant: Plant, cells: Sequence[Cell]) -> list[str]:
    return [f"  {plant.cell_said(cell)}" for cell in cells[:SHOWN]] + [f"  and {len(cells) - SHOWN} more"] * (
        len(cells) > SHOWN
    )


def pairs_of(one: Text, other: Text) -> list[tuple[str, Table, Table]]:
    """The tables to compare, each with a line before: of two patrols those of each turn."""
    if one.kind != "patrol" and other.kind != "patrol":
        kinds = f"a {one.kind} and a {other.kind}: " if one.kind != other.kind else ""
        return [(kinds, one, other)]
    if one.kind != other.kind:
        raise Trouble(
            "a patrol text is compared with a patrol text alone, and not with a "
            f"{other.kind if one.kind == 'patrol' else one.kind}"
        )
    turns, others = parts_of(one), parts_of(other)
    if len(turns) != len(others):
        raise Trouble(f"the patrols have {len(turns)} and {len(others)} turns")
    return [(f"turn {number}: ", *pair) for number, pair in enumerate(zip(turns, others))]


def compared(one: Table, other: Table) -> list[str]:
    """What differs, in lines."""
    lines = [f"{one.plant.cells} cells; rows: {len(one.rows)} and {len(other.rows)}"]
    for word, first, second in (("first", one, other), ("second", other, one)):
        alone = sorted(first.rows.keys() - second.rows.keys())
        lines.append(f"rows in the {word} alone: {len(alone)}")
        lines += cells_said(one.plant, alone)
    both = sorted(one.rows.keys() & other.rows.keys())
    return lines + ranks_compared(one, other, both) + inputs_compared(one, other, both)


def ranks_compared(one: Table, other: Table, both: Sequence[Cell]) -> list[str]:
    if not one.plant.goal == other.plant.goal == "reach":
        return []
    steps = [(one.left(cell) or 0) - (other.left(cell) or 0) for cell in both]
    less, more = [step for step in steps if step < 0], [step for step in steps if step > 0]
    by = [
        f" (by up to {max(part)}, {sum(part) / len(part):.3g} on the average)" if part else ""
        for part in ([-step for step in less], more)
    ]
    return [
        f"ranks in both: {len(both)}; the same at {len(both) - len(less) - len(more)}, lesser in the first at "
        f"{len(less)}{by[0]}, lesser in the second at {len(more)}{by[1]}"
    ]


def inputs_compared(one: Table, other: Table, both: Sequence[Cell]) -> list[str]:
    if one.plant.inputs != other.plant.inputs:
        return ["the inputs of the plants differ"]
    return [f"other inputs in both: {sum(one.rows[cell][1] != other.rows[cell][1] for cell in both)}"]


def main(arguments: list[str]) -> None:
    parser = Arguments(
        prog="diff",
        description=__doc__,
        epilog="Status 0: compared, whether they differ or not; 1: a table isn't readable, or the grids differ; 2: "
        "wrong words.",
    )
    parser.add_argument(
        "tables", metavar="TEXT", nargs=2, help="a table, a stay text or a patrol text, `-` for standard input"
    )
    parser.add_argument("--model", metavar="FILE", help=MODEL_HELP)
    given = parser.parse_args(arguments)
    with Progress("diff").during("comparing"):
        lines = lines_of(given)
    print("\n".join(lines))


def lines_of(given: Namespace) -> list[str]:
    """What is said of two texts."""
    one, other = map(text_of, given.tables)
    if one.plant.states != other.plant.states:
        raise Trouble("the tables have no grid in common: their `state` lines differ")
    one.plant.units = units_for(given.model, one.plant)
    lines: list[str] = []
    for head, first_table, second_table in pairs_of(one, other):
        first, *rest = compared(first_table, second_table)
        lines += (
            [head + first]
            + ([plants_said(one.plant, other.plant)] if not lines and one.plant.text() != other.plant.text() else [])
            + rest
        )
    return lines


def plants_said(one: Plant, other: Plant) -> str:
    return "the plants differ" + (f": goal {one.goal} and goal {other.goal}" if one.goal != other.goal else "")


run = partial(start, "diff", main)
