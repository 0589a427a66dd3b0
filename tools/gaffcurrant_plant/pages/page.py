"""Puts a page together that shows texts: their rows as packed runs, with what page_data makes of their plants and their
model, and the page's own files, which stand in parts/."""

from __future__ import annotations

import base64
import html
import json
import re
import sys
import zlib
from array import array
from itertools import islice
from operator import eq, le, lt, sub
from pathlib import Path
from typing import Optional, Sequence

from ..faults import Trouble
from ..plants.kinds import Cell
from ..texts.rows import VERSIONS, Front, Lines, front_of
from .data import Data, plant_data

FILES = Path(__file__).resolve().parent / "parts"
# In this order: a script names what stands in those before it.
SCRIPTS = (
    "numbers",
    "expression",
    "plant",
    "rows",
    "causes",
    "runs",
    "way",
    "units",
    "colours",
    "layers",
    "map",
    "tracks",
    "chart",
    "view",
    "said",
    "panel",
    "legend",
    "controls",
    "starting",
    "desk",
    "pointer",
    "start",
)
# Row lines of their form, whatever rules they break.
CELL, WORD = "(?:0|[1-9][0-9]{0,7})", "(?:-|0|[1-9][0-9]{0,7})"
ROWS = re.compile(rf"(?:{CELL} {CELL} {WORD} {WORD}(?:\n|\Z))*\Z")


class Text:
    """A text to be shown: its front, and for each turn its packed runs. Raises Refused and Trouble."""

    def __init__(self, name: str, data: bytes) -> None:
        self.name, self.front = name, front_of(data, tuple(VERSIONS))
        lines, self.plant = Lines(data, self.front), self.front.plant
        self.turns = []
        for before in self.headings():
            self.turns.append(packed(*(columns_at_once(lines, before) or columns_by_line(lines, before))))
        lines.finish()
        if not self.turns:
            raise Trouble(f"{name}: the patrol has no target, so there is nothing to show")

    def headings(self) -> list[str]:
        """What stands before the number of row lines, of a patrol of each turn."""
        if self.front.kind != "patrol":
            return ["rows "]
        return [f"turn {number} rows " for number in range(len(self.plant.targets))]

    def data(self) -> Data:
        """What the page gets of the text."""
        return {"name": self.name, "kind": self.front.kind, "plant": plant_data(self.plant), "turns": self.turns}


def columns_by_line(lines: Lines, before: str) -> list[list[int]]:
    """First and last cells, ranks and inputs of the runs behind a line, -1 for `-`; raises Refused with the first line
    that is wrong."""
    runs = [[-1 if word is None else word for word in run] for run in lines.runs(before)]
    return [list(column) for column in zip(*runs)] or [[], [], [], []]


def columns_at_once(lines: Lines, before: str) -> Optional[list[list[int]]]:
    """The same many times as fast; None, and no line taken, where a line is or may be wrong."""
    front, at = lines.front, lines.at
    if not front.in_runs():
        return None
    count = lines.counted(before, f"`{before.strip()} N` is due here, with at most {front.plant.cells} lines behind it")
    text = "\n".join(lines.lines[lines.at : lines.at + count])
    lines.at += count
    if ROWS.match(text) and lines.at < len(lines.lines):
        numbers = list(map(int, text.replace("-", "-1").split()))
        columns = [numbers[k::4] for k in range(4)]
        if len(columns[0]) == count and are_runs(front, *columns) and are_pairs(front, *columns[2:]):
            return columns
    lines.at = at
    return None


def are_runs(
    front: Front, firsts: Sequence[Cell], lasts: Sequence[Cell], ranks: Sequence[int], inputs: Sequence[int]
) -> bool:
    """Whether cells rise below their number, and no run goes on the one before."""
    if firsts and lasts[-1] >= front.plant.cells or not all(map(le, firsts, lasts)):
        return False
    if not all(map(lt, lasts, islice(firsts, 1, None))):
        return False
    rows = list(zip(ranks, inputs))
    nexts = zip(islice(firsts, 1, None), islice(rows, 1, None))
    return not any(last + 1 == first and row == other for last, row, (first, other) in zip(lasts, rows, nexts))


def are_pairs(front: Front, ranks: Sequence[int], inputs: Sequence[int]) -> bool:
    """Whether ranks and inputs are those that rows of the text may have."""
    plant, least = front.plant, int(front.kind == "patrol")
    if not ranks:
        return True
    if max(inputs) >= plant.vectors:
        return False
    if front.kind == "table" and plant.goal == "keep":
        return set(ranks) == {-1} and min(inputs) >= 0
    if min(ranks) < least or max(ranks) >= plant.cells + least:
        return False
    if front.kind == "table":
        return all(map(eq, map((0).__eq__, ranks), map((-1).__eq__, inputs)))
    return min(inputs) >= 0


def packed(firsts: Sequence[Cell], lasts: Sequence[Cell], ranks: Sequence[int], inputs: Sequence[int]) -> Data:
    """Runs as four columns, one behind the other: how far each run begins behind the one before, its length less one,
    rank and input plus one."""
    ends = [0, *(last + 1 for last in lasts)]
    numbers = map(sub, firsts, ends), map(sub, lasts, firsts), map((1).__add__, ranks), map((1).__add__, inputs)
    columns = [narrow(list(column)) for column in numbers]
    data = zlib.compress(b"".join(column.tobytes() for column in columns), 9)
    widths = [column.itemsize for column in columns]
    return {"count": len(firsts), "widths": widths, "rows": base64.b64encode(data).decode()}


def narrow(numbers: Sequence[int]) -> array[int]:
    """Numbers as an array of one, two or four bytes each, the least byte first."""
    most = max(numbers, default=0)
    column = array("B" if most < 2**8 else "H" if most < 2**16 else "I", numbers)
    if sys.byteorder == "big":
        column.byteswap()
    return column


def page_of(texts: Sequence[Text], title: str, model: Optional[Data]) -> str:
    """The whole page as a text: its files in one, and the data that they show."""
    data = {"texts": [text.data() for text in texts], "units": None, "flow": None} | (model or {})
    parts = {
        "@TITLE@": html.escape(title),
        "@STYLE@": file_of("page.css"),
        "@SCRIPT@": "\n".join(file_of(f"{name}.js") for name in SCRIPTS),
        "@DATA@": json.dumps(data, separators=(",", ":")).replace("<", "\\u003c"),
    }
    return re.sub("@[A-Z]+@", lambda word: parts[str(word[0])], file_of("page.html"))


def file_of(name: str) -> str:
    return (FILES / name).read_text(encoding="utf-8")
