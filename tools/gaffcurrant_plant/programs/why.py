"""Says of one cell of a table what each input does there, and what stops it from winning or keeping."""

from __future__ import annotations


from argparse import Namespace
from functools import partial
from typing import TYPE_CHECKING, Iterator, Optional, Sequence

from ..command import Arguments, need, read_bytes, start
from ..faults import Refused, Trouble
from ..plants.kinds import Cell, Vector
from ..plants.plant import Plant, meets
from ..plants.units import MODEL_HELP, outside_said, state_of, units_for
from ..progress import Progress
from ..texts.table import Table, Text, Turn, read_text

if TYPE_CHECKING:
    from ..texts.causes import Frontier, Lost, Round, Rounds

SHOWN = 8


def cells_said(plant: Plant, cells: Sequence[Cell]) -> str:
    said = "; ".join(plant.cell_said(cell) for cell in cells[:SHOWN])
    return said + (f"; and {len(cells) - SHOWN} more" if len(cells) > SHOWN else "")


def row_said(table: Table, cell: Cell) -> str:
    """The row of a cell in words, or why it has none, as far as the cell itself shows it."""
    plant = table.plant
    if cell in table.rows:
        rank, choice = table.rows[cell]
        if choice is None:
            return "its row: rank 0, the cell lies in a target"
        applied = f"apply input {choice} ({plant.input_said(choice)})"
        if rank is None:
            return f"its row: kept, {applied}"
        return f"its row: rank {rank}, {'the cell is held, ' if table.kind == 'stay' and rank == 0 else ''}{applied}"
    for number, box in enumerate(plant.obstacles, 1):
        if meets(box, plant.low(cell), plant.high(cell)):
            return f"no row: it meets obstacle {number} ({plant.ranges_said(*zip(*box))}), so no input helps"
    return "no row"


def leaving(plant: Plant, low: Sequence[int], high: Sequence[int]) -> str:
    """Which states the box takes out of the domain."""
    said = []
    for i in plant.leaves(low, high):
        name, first, last, _ = plant.states[i]
        value, side, end = (low[i], "below", first) if low[i] < first else (high[i], "above", last)
        past = f"{plant.units.size_said(name, value)} is {side} {plant.units.size_said(name, end)}"
        said.append(f"in {name} ({past})")
    return "stopped: the box leaves the domain " + " and ".join(said)


def stops(table: Table, cell: Cell, cells: Sequence[Cell]) -> Iterator[str]:
    """What stops an input whose successors are these cells; nothing where each of them has a row."""
    without = [one for one in cells if not table.has(one)]
    obstacles = list(filter(table.plant.is_obstacle, without))
    others = [one for one in without if one not in obstacles and one != cell]
    if obstacles:
        yield "it may meet an obstacle: " + cells_said(table.plant, obstacles)
    if may_come_back(table, cell, without, obstacles):
        yield "it may come back to the cell itself"
    if others:
        yield "it may lead to cells without a row: " + cells_said(table.plant, others)


def may_come_back(table: Table, cell: Cell, without: Sequence[Cell], obstacles: Sequence[Cell]) -> bool:
    """Whether a cell itself stops an input that leads to these cells without a row."""
    return cell in without and cell not in obstacles and (not table.keeps or len(without) == 1)


def judged(table: Table, cell: Cell, cells: Sequence[Cell]) -> str:
    """What an input is good for at a cell, in words."""
    said = list(stops(table, cell, cells))
    if said:
        return "stopped: " + "; and ".join(said)
    if table.plant.is_obstacle(cell):
        return "each successor has a row, but the cell itself meets an obstacle"
    if table.keeps:
        return "keeps: each successor is kept"
    within = 1 + max(table.left(one) or 0 for one in cells)
    if table.kind == "stay" and within == 1 and table.rows.get(cell, (1, None))[0] == 0:
        return "stays: each successor is held"
    return f"{GOOD[table.kind]} within {within} sample{'s' * (within > 1)}"


# What an input is good for, by what the text promises.
GOOD = {"table": "wins", "stay": "comes to held cells", "turn": "arrives"}


def input_said(table: Table, cell: Cell, vector: Vector) -> list[str]:
    plant = table.plant
    low, high = plant.box(cell, vector)
    moves = ", ".join(
        f"{name} {plant.units.size_said(name, move)}"
        for (name, *_), move in zip(plant.states, plant.rolled.deviations(vector))
    )
    lines = [
        f"input {vector} ({plant.input_said(vector)})",
        f"  deviation: {moves}",
        *parts_said(plant, cell, vector),
        f"  successor box: {plant.ranges_said(low, high)}{across_said(plant, cell, low, high, vector)}",
    ]
    if plant.leaves(low, high):
        return lines + ["  " + leaving(plant, low, high)]
    cells = plant.successors(cell, vector)
    return lines + [f"  successors: {len(cells)}", "  " + judged(table, cell, cells)]


def parts_said(plant: Plant, cell: Cell, vector: Vector) -> Iterator[str]:
    """In version 2, what the box is the common part of."""
    if plant.version > 1:
        rolled = plant.rolled
        yield (
            f"  growth bound: {plant.ranges_said(*rolled.growth(cell, vector))}; span over the cell: "
            f"{plant.ranges_said(*rolled.span(cell, vector))}"
        )


def across_said(plant: Plant, cell: Cell, low: Sequence[int], high: Sequence[int], vector: Vector) -> str:
    """The states that come round whose whole range the box has since it reaches across the range's end."""
    rolled = zip(*plant.rolled.box(cell, vector))
    names = [
        name
        for (name, *_), ends, (first, last), period in zip(plant.states, zip(low, high), rolled, plant.periods)
        if period and ends != (first, last) and ends[1] - ends[0] + 1 == period > last - first + 1
    ]
    return f" (the whole of {' and '.join(names)}, since it reaches across the range's end)" if names else ""


# What lies deeper

WAY = 12


def said_of(cause: str) -> str:
    """A cause in words."""
    return {
        "edge": "the edge: the box leaves the domain",
        "obstacle": "an obstacle: the box meets it",
        "still": "no input moves the cell farther than its box overhangs",
        "itself": "the input may come back to the cell itself",
        "onward": "nothing that was met",
    }[cause]


def deep_said(text: Text, table: Table, cell: Cell) -> list[str]:
    """The nearest causes behind a lost cell, or the round in which it falls, and what stops the cells next to those
    with a row; of a patrol without rows at which target it fails."""
    from ..texts import causes

    progress = Progress("why")
    lost, lines = causes.Lost(table, progress), []
    if text.kind == "patrol" and not any(turn.rows for turn in text.turns):
        lines += round_said(causes.Round(lost, progress))
    if cell not in table.rows and not table.plant.is_obstacle(cell):
        lines += nearest_said(lost, cell)
        if table.keeps:
            lines += fall_said(causes.Rounds(lost, progress), cell)
    progress.end()
    return lines + frontier_said(causes.Frontier(lost), table)


def round_said(found: Round) -> list[str]:
    """At which target a patrol without rows fails."""
    first, count = found.first_without(), len(found.alone)
    if first is not None:
        where = (
            f"from none of its {found.cells[first]} cells"
            if found.cells[first]
            else "since no cell lies in it whole and off the obstacles"
        )
        return [
            f"no turn has a row: target {first} of 0 to {count - 1} is the first that can't be reached from "
            f"itself, {where}"
        ]
    apart = found.first_apart()
    said = (
        "each target can be reached from itself, and the next from it, but not all in turn"
        if apart is None
        else f"each target can be reached from itself, but from target {apart} no way leads to target "
        f"{(apart + 1) % count} for sure"
    )
    return [f"no turn has a row: {said}"]


def nearest_said(lost: Lost, cell: Cell) -> list[str]:
    from ..texts.causes import CAUSES

    found, seen = lost.nearest(cell)
    lines = [f"the nearest causes, going from lost cell to lost cell ({seen} looked at):"]
    for cause in filter(found.get, CAUSES):
        steps, at, vector = found[cause]
        where = "here" if not steps else f"{steps} sample{'s' * (steps > 1)} on, at {lost.plant.cell_said(at)}"
        lines.append(f"  {said_of(cause)}: {where}, input {vector} ({lost.plant.input_said(vector)})")
    return lines if found else lines + ["  none was met"]


def fall_said(rounds: Rounds, cell: Cell) -> list[str]:
    """The round in which a cell falls that is to be kept, and the cells by which its inputs were cut last."""
    plant, numbers = rounds.plant, rounds.number
    if numbers[cell] < 0:
        return ["it never falls, so the table isn't its plant's: `check` tells"]
    way = rounds.way(cell)
    behind = "; the last of its inputs is cut by the cell below, and so on:" if numbers[cell] else ""
    lines = [f"it falls in round {numbers[cell]} of {max(numbers)}{behind}"]
    for one, vector in way[1 : WAY + 1]:
        applied = "" if vector is None else f"by input {vector} ({plant.input_said(vector)}): "
        lines.append(f"  {applied}{plant.cell_said(one)}, round {numbers[one]}")
    if len(way) > WAY + 1:
        lines.append(f"  and {len(way) - WAY - 1} more")
    last = way[-1][0]
    first = "it meets an obstacle" if plant.is_obstacle(last) else "every input leaves the domain there"
    return lines + [
        f"  round 0: {first}",
        "cells that fall in round 0, 1, ..: " + ", ".join(map(str, rounds.counts()[:WAY])),
    ]


def frontier_said(frontier: Frontier, table: Table) -> list[str]:
    has = "is kept" if table.keeps else "is won"
    lines = [f"lost cells next to what {has}: {frontier.cells}; an input leads their middle there, and is stopped by"]
    for (kind, is_farther), count in sorted(frontier.counts.items(), key=lambda item: (-item[1], item[0])):
        lines.append(f"  {count}: {said_of(kind)}" + (", behind other lost cells" if is_farther else ""))
    return lines if frontier.cells else [f"no lost cell has an input that leads its middle into a cell that {has}"]


def cell_asked(plant: Plant, given: Namespace) -> Cell:
    """The cell that the words ask for."""
    if given.cell is not None:
        if given.state:
            raise Trouble("give a state or --cell, not both", 2)
        if not 0 <= given.cell < plant.cells:
            raise Trouble(f"there are {plant.cells} cells, from 0; {given.cell} is none")
        return int(given.cell)
    state = state_of(plant, given.state, plant.units)
    cell = plant.cell_of(state)
    if cell is None:
        raise Trouble(f"the state is outside the domain: {outside_said(plant, state, plant.units)}")
    return cell


def turn_of(text: Text, given: Optional[int]) -> Table:
    """A table or a stay text as it is, and of a patrol text the turn that is asked for."""
    if text.kind != "patrol":
        if given is not None:
            raise Trouble("--turn is for patrol texts", 2)
        return text
    if not 0 <= (given or 0) < len(text.turns):
        raise Trouble(f"there are {len(text.turns)} turns, from 0; {given or 0} is none")
    return text.turns[given or 0]


def name_said(table: Table, cell: Cell) -> str:
    """A cell, and of a turn whether it is one of its arrivals."""
    if not isinstance(table, Turn):
        return table.plant.cell_said(cell)
    return f"turn {table.number}, {table.plant.cell_said(cell)}" + (", an arrival" if cell in table.arrivals else "")


def main(arguments: list[str]) -> None:
    parser = Arguments(
        prog="why",
        description=__doc__,
        epilog="Status 0: answered; 1: the table isn't readable or the state is outside the domain; 2: wrong words.",
    )
    parser.add_argument("table", metavar="TABLE", help="the table, stay or patrol text, `-` for standard input")
    parser.add_argument("state", metavar="X", nargs="*", help="the state, one number for each of the plant's states")
    parser.add_argument("--model", metavar="FILE", help=MODEL_HELP)
    parser.add_argument("--cell", type=int, metavar="C", help="a cell by its number, instead of a state")
    parser.add_argument("--input", type=int, metavar="U", help="this input vector alone")
    parser.add_argument(
        "--deep",
        action="store_true",
        help="follow lost cells to the nearest causes, count what stops the cells next to those with a row, and with "
        "goal keep tell the round in which the cell falls",
    )
    parser.add_argument("--turn", type=int, metavar="J", help="this turn of a patrol text, from 0 (0)")
    given = parser.parse_args(arguments)
    if given.deep:
        need("--deep", "numpy")
    data = read_bytes(given.table)
    try:
        with Progress("why").during("reading the rows"):
            text = read_text(data)
    except Refused as refusal:
        raise Trouble(f"{given.table}: {refusal.answer}: {refusal.reason}") from None
    table = turn_of(text, given.turn)
    plant = table.plant
    plant.check_overflow(Refused)
    plant.units = units_for(given.model, plant)
    cell = cell_asked(plant, given)
    if given.input is not None and not 0 <= given.input < plant.vectors:
        raise Trouble(f"there are {plant.vectors} input vectors, from 0; {given.input} is none")
    print(f"{name_said(table, cell)}: {row_said(table, cell)}")
    if given.deep:
        print("\n".join(deep_said(text, table, cell)))
        return
    for vector in range(plant.vectors) if given.input is None else [given.input]:
        print("\n".join(input_said(table, cell, vector)))


run = partial(start, "why", main)
