"""Solves a model at several sampling times, orders, numbers of steps and widths of cells, and prints a line for each:
cells, pairs, edges, what is won, the greatest rank, seconds. By --stay or --patrol as the program's words of that name
do."""

from __future__ import annotations

import itertools
import time
from argparse import Namespace
from fractions import Fraction
from functools import partial
from typing import Callable, Iterator, List, Mapping, Optional, Sequence

from ..command import Arguments, prefer, read_bytes, start
from ..faults import Fault, Refused, Trouble
from ..models.best_plant import planted
from ..models.model import Model, common_unit, read_model
from ..models.polynomial import number_of
from ..plants.plant import EDGES
from ..plants.units import decimal, short
from ..progress import Progress
from ..texts.solver import patrol, solve, stay
from ..texts.table import Text, parts_of

# What solves a plant text with so many workers; and the values of what is swept, None for the model's own.
Solver = Callable[[str, int], Text]
Values = List[Optional[Fraction]]
# What may be swept, each a column where it is, and the columns of every line.
SWEPT = {"time": 8, "order": 5, "steps": 5, "width": 7}
COLUMNS = {"cells": 9, "pairs": 9, "edges": 10, "won": 9, "rank": 6, "seconds": 8}


def positive(words: Sequence[str], option: str) -> list[Fraction]:
    """Numbers above 0."""
    try:
        values = [number_of(word) for word in words]
    except Fault as fault:
        raise Trouble(f"{option}: {fault}", 2) from None
    if wrong := [word for word, value in zip(words, values) if value <= 0]:
        raise Trouble(f"{option}: {wrong[0]} isn't above 0", 2)
    return values


class Variant:
    """Values in the place of a model's own: its sampling time, order and steps, None for those that stay, and what
    widths are multiplied by."""

    def __init__(
        self, time: Optional[Fraction], order: Optional[Fraction], steps: Optional[Fraction], width: Fraction
    ) -> None:
        self.swept = {"sample": time, "order": order, "steps": steps}
        self.width = Fraction(width)

    def lines(self, lines: Sequence[str], parameters: Mapping[str, Fraction]) -> Iterator[str]:
        """The model's lines with these values."""
        own = {line.split("#")[0].split()[0] for line in lines if line.split("#")[0].split()}
        for line in lines:
            words = line.split("#")[0].split()
            value = self.swept.get(words[0]) if words else None
            if value is not None:
                yield f"{words[0]} {decimal(value)}"
            elif words[:1] == ["state"] and self.width != 1 and len(words) > 5:
                yield self.state(words, parameters)
            else:
                yield line
        yield from (
            f"{keyword} {decimal(value)}"
            for keyword, value in self.swept.items()
            if value is not None and keyword not in own
        )

    def state(self, words: Sequence[str], parameters: Mapping[str, Fraction]) -> str:
        """A line `state` with other widths, and with a finer unit where the line's own doesn't divide them."""
        low, high = (number_in(word, parameters) for word in words[2:4])
        by_number = words[4] == "cells"
        width = self.width * (
            (high - low) / number_in(words[5], parameters) if by_number else number_in(words[4], parameters)
        )
        if by_number and (high - low) % width:
            raise Trouble(
                f"the {words[5]} cells of {words[1]} can't be {decimal(self.width)} times as wide: that would be "
                f"{short((high - low) / width)}"
            )
        if by_number and len(words) == 6:
            return " ".join([*words[:5], decimal((high - low) / width)])
        unit = common_unit([low, width, number_in(words[6 if by_number else 5], parameters)])
        return f"state {words[1]} {words[2]} {words[3]} " + (
            f"cells {decimal((high - low) / width)} {decimal(unit)}"
            if by_number
            else f"{decimal(width)} {decimal(unit)}"
        )


def number_in(word: str, parameters: Mapping[str, Fraction]) -> Fraction:
    """The number of a word, which may be a parameter."""
    if word in parameters:
        return parameters[word]
    return -parameters[word[1:]] if word[:1] == "-" and word[1:] in parameters else number_of(word)


def won_of(text: Text) -> tuple[str, str]:
    """How many cells are won, and the greatest rank: of a patrol for each turn."""
    parts = parts_of(text)
    ranks = [max((rank for rank, _ in part.rows.values() if rank is not None), default=0) for part in parts]
    keeps = text.kind == "table" and text.keeps
    return "/".join(str(len(part.rows)) for part in parts), "-" if keeps else "/".join(map(str, ranks))


def row_of(
    lines: Sequence[str], parameters: Mapping[str, Fraction], variant: Variant, workers: int, solver: Solver
) -> list[str]:
    """The row of one model: its numbers, or why it has none."""
    try:
        plant = planted(read_model("\n".join(variant.lines(lines, parameters)).encode())).plant
    except (Trouble, Fault) as trouble:
        return [str(trouble).replace("the plant would be refused, ", "")]
    edges, is_exact = plant.edges()
    if edges > EDGES:
        return [f"limit: edges: {'' if is_exact else 'about '}{edges} edges, and {EDGES} are the most"]
    begin = time.monotonic()
    try:
        text = solver(plant.text(), workers)
    except Refused as refusal:
        return [f"{refusal.answer}: {refusal.reason}"]
    seconds = time.monotonic() - begin
    counts = str(plant.cells), str(plant.pairs), f"{'' if is_exact else '~'}{edges}"
    return [*counts, *won_of(text), f"{seconds:.2f}"]


def parser_of_arguments() -> Arguments:
    parser = Arguments(
        prog="sweep",
        description=__doc__,
        epilog="A model past a limit isn't solved: its line tells the limit and the number. `~` stands before edges "
        "that are counted by a sample of pairs. A line `between` of the model isn't followed: the obstacles "
        "are the model's own. With goal keep `won` counts what is kept. The program is ./gaffcurrant, or what "
        "the environment variable GAFFCURRANT names. Status 0: all lines were printed; 1: the model can't be "
        "read; 2: wrong words.",
    )
    parser.add_argument("model", metavar="MODEL", help="a model of tools/scale, `-` for standard input")
    parser.add_argument(
        "--times", metavar="T", nargs="+", default=[], help="sampling times; the model has a line `sample`"
    )
    parser.add_argument(
        "--orders", metavar="K", nargs="+", default=[], help="orders of the Taylor polynomials; the model has lines `d`"
    )
    parser.add_argument(
        "--steps", metavar="N", nargs="+", default=[], help="numbers of steps of a sample; the model has lines `d`"
    )
    parser.add_argument(
        "--widths",
        metavar="FACTOR",
        nargs="+",
        default=["1"],
        help="what the widths of all cells are multiplied by; a state gets a finer unit where it needs one",
    )
    parser.add_argument("--workers", metavar="N", type=int, default=1, help="workers that solve the game")
    which = parser.add_mutually_exclusive_group()
    which.add_argument(
        "--stay", action="store_true", help="solve by `stay`: what comes to the target and stays there; rank 0 is held"
    )
    which.add_argument(
        "--patrol",
        action="store_true",
        help="solve by `patrol`; what is won and the greatest rank stand for each turn, as 120/80",
    )
    return parser


def swept_of(given: Mapping[str, list[Fraction]], model: Model) -> dict[str, Values]:
    """What is swept, each with its values; raises Trouble where the model has no lines for it."""
    if given["times"] and not model.sample:
        raise Trouble("--times needs a model with a line `sample`", 2)
    if (given["orders"] or given["steps"]) and not model.flows:
        raise Trouble("--orders and --steps need a model with lines `d`", 2)
    return {
        "time": [*given["times"]] or [model.sample],
        "order": [*given["orders"]] or [None],
        "steps": [*given["steps"]] or [None],
        "width": [*given["widths"]],
    }


def model_of(path: str, data: bytes) -> Model:
    try:
        return read_model(data)
    except Trouble as trouble:
        raise Trouble(f"{path}: {trouble}", trouble.status) from None


def main(arguments: list[str]) -> None:
    given = parser_of_arguments().parse_args(arguments)
    solver: Solver = solve
    if given.stay:
        solver = stay
    elif given.patrol:
        solver = patrol
    prefer("mpmath", "numpy")
    numbers = {name: positive(getattr(given, name), f"--{name}") for name in ("times", "orders", "steps", "widths")}
    if not 1 <= given.workers <= 64:
        raise Trouble("--workers takes a number from 1 to 64", 2)
    data = read_bytes(given.model)
    model = model_of(given.model, data)
    swept = swept_of(numbers, model)
    print_rows(given, model, data.decode("utf-8", "replace").lstrip("\ufeff").splitlines(), swept, solver)


def print_rows(
    given: Namespace, model: Model, lines: Sequence[str], swept: Mapping[str, Values], solver: Solver
) -> None:
    """Prints the heading, and a row for each variant."""
    shown = [name for name in SWEPT if name in ("time", "width") or swept[name] != [None]]
    columns = [SWEPT[name] for name in shown] + list(COLUMNS.values())
    print_row(shown + list(COLUMNS), columns)
    variants, progress = list(itertools.product(*swept.values())), Progress("sweep")
    for number, values in enumerate(variants, 1):
        with progress.during(f"{number} of {len(variants)}"):
            row = row_of(lines, model.parameters, Variant(*values), given.workers, solver)
        print_row(
            [decimal(value) if value else "-" for name, value in zip(SWEPT, values) if name in shown] + row, columns
        )


def print_row(row: Sequence[str], columns: Sequence[int]) -> None:
    print(" ".join(f"{word:>{wide}}" for word, wide in zip(map(str, row), columns)), flush=True)


run = partial(start, "sweep", main)
