"""Reads the lines behind the plant of a table, of a stay text and of a patrol text: which rows they give to which
cells."""

from __future__ import annotations

import re
from operator import le, lt
from typing import Iterator, NoReturn, Optional, Sequence

from ..faults import Refused
from ..plants.kinds import Cell, Rank, Row, RowRun, Vector
from ..plants.plant import Plant
from ..plants.reader import lines_of, read_lines

NUMBER = re.compile(r"(0|[1-9][0-9]*)\Z")
# Row lines whose numbers are written as they have to be, of runs of cells and of single cells.
WORD = "(?:0|[1-9][0-9]{0,8})"
IN_RUNS = re.compile(f"(?:{WORD} {WORD} (?:{WORD}|-) (?:{WORD}|-)\n)*")
SINGLE = re.compile(f"(?:{WORD} (?:{WORD}|-) (?:{WORD}|-)\n)*")
VERSIONS = {"table": (1, 2), "stay": (1,), "patrol": (1,)}


class Front:
    """A text up to its plant's `end`: its kind, its version and its plant, and the line and the byte that come next."""

    def __init__(self, kind: str, version: int, plant: Plant, line: int, at: int) -> None:
        self.kind, self.version, self.plant, self.line, self.at = kind, version, plant, line, at

    def in_runs(self) -> bool:
        """Whether a row line is about a run of cells, and not about one."""
        return self.kind != "table" or self.version > 1


def front_of(data: bytes, kinds: Sequence[str] = ("table",)) -> Front:
    """The front of a text of one of these kinds, or raises Refused."""
    head = re.match(rb"([a-z]+) ([0-9]+)\n", data)
    kind, version = (head.group(1).decode(), int(head.group(2))) if head else ("", 0)
    if kind not in kinds or version not in VERSIONS[kind]:
        raise Refused("malformed: line 1", wrong_head(data, kinds, kind), 1)
    found = re.search(rb"^end\n", data, re.MULTILINE)
    if not found:
        raise Refused(f"malformed: line {len(lines_of(data)) + 1}", f"the plant of the {kind} has no end")
    front = lines_of(data[: found.end()])
    try:
        plant = read_lines(front[1:])
    except Refused as refusal:
        line = (refusal.line or 0) + 1
        raise Refused(f"malformed: line {line}", refusal.reason, line) from None
    plant.check_limits(Refused)
    return Front(kind, version, plant, len(front) + 1, found.end())


def wrong_head(data: bytes, kinds: Sequence[str], kind: Optional[str]) -> str:
    """Why a text is of none of these kinds."""
    heads = [f"`{one} {version}`" for one in kinds for version in VERSIONS[one]]
    due = f"it begins with {' or '.join(heads)}"
    if not data:
        return f"the text is empty, and a run that is refused leaves such a file: {due}"
    if data.startswith(b"\xef\xbb\xbf"):
        return "the text begins with a byte order mark; save it without one, as the program writes it"
    if b"\r\n" in data[:80]:
        return f"the lines end as on Windows; {kinds[0]} lines end with a line feed alone, as the program writes them"
    if data.lstrip().startswith((b"plant ", b"#")):
        return f"the text is a plant text, not a {kinds[0]}, which the program makes of it: {due}"
    if kind in VERSIONS and kind not in kinds:
        return f"the text is a {kind} text: {due}"
    return f"the text is no {kinds[0]}: {due}"


class Lines:
    """The lines behind a front, one by one."""

    def __init__(self, data: bytes, front: Front) -> None:
        self.front, self.lines, self.at = front, lines_of(data[front.at :]), 0
        self.is_whole = data.endswith(b"\n")

    def refuse(self, reason: str, back: int = 0) -> NoReturn:
        number = self.front.line + self.at - back
        raise Refused(f"malformed: line {number}", reason, number)

    def take(self, due: str) -> str:
        """The next line; due says what is wrong where there is none."""
        if self.at == len(self.lines) or self.at + 1 == len(self.lines) and not self.is_whole:
            self.refuse(due)
        self.at += 1
        return self.lines[self.at - 1]

    def counted(self, before: str, due: str) -> int:
        """The number behind the words `before` of the next line."""
        line = self.take(due)
        number = line.removeprefix(before)
        if number == line or not NUMBER.match(number) or int(number) > self.front.plant.cells:
            self.refuse(due, 1)
        return int(number)

    def rows(self, before: str) -> dict[Cell, Row]:
        """The rows by the row lines behind a line of the words `before` and their number."""
        count = self.row_count(before)
        quick = (
            quick_rows(self.lines[self.at : self.at + count], self.front) if self.at + count < len(self.lines) else None
        )
        if quick is not None:
            self.at += count
            return quick
        # Some line is wrong: the first one is looked for.
        rows: dict[Cell, Row] = {}
        for first, last, rank, choice in self.run_lines(before, count):
            rows.update(dict.fromkeys(range(first, last + 1), (rank, choice)))
        return rows

    def runs(self, before: str) -> Iterator[RowRun]:
        """The first and last cell, rank and input of each row line behind a line of the words `before` and their
        number."""
        return self.run_lines(before, self.row_count(before))

    def row_count(self, before: str) -> int:
        return self.counted(
            before, f"`{before.strip()} N` is due here, with at most {self.front.plant.cells} lines behind it"
        )

    def run_lines(self, before: str, count: int) -> Iterator[RowRun]:
        """The first and last cell, rank and input of each of so many row lines."""
        last = -1
        words: Optional[list[str]] = None
        for k in range(count):
            row_words = self.take(f"{count} row lines are due behind `{before}{count}`, here are {k}").split(" ")
            wrong = row_fault(row_words, self.front, last, words)
            if wrong:
                self.refuse(wrong, 1)
            first, last, words = int(row_words[0]), int(row_words[-3]), row_words[-2:]
            rank, choice = (None if word == "-" else int(word) for word in words)
            yield first, last, rank, choice

    def finish(self) -> None:
        """Takes the last line, `end`."""
        if self.take("`end` is due") != "end":
            self.refuse("`end` is due behind the row lines that are counted", 1)
        if self.at < len(self.lines):
            self.refuse("nothing follows `end`")


def quick_rows(lines: Sequence[str], front: Front) -> Optional[dict[Cell, Row]]:
    """The rows of row lines that are all right, or None."""
    wide, numbers = 3 + front.in_runs(), numbers_in(lines, front.in_runs())
    if numbers is None:
        return None
    firsts, lasts = numbers[::wide], numbers[wide - 3 :: wide]
    pairs = list(zip(numbers[wide - 2 :: wide], numbers[wide - 1 :: wide]))
    are_right = do_rise(firsts, lasts, front.plant.cells) and not any(
        is_wrong_pair(*pair, front) for pair in set(pairs)
    )
    if not are_right or wide == 4 and does_one_go_on(firsts, lasts, pairs):
        return None
    rows: dict[Cell, Row] = {}
    for first, last, (rank, choice) in zip(firsts, lasts, pairs):
        row: Row = None if rank < 0 else rank, None if choice < 0 else choice
        rows.update(dict.fromkeys(range(first, last + 1), row) if first < last else {first: row})
    return rows


def numbers_in(lines: Sequence[str], in_runs: bool) -> Optional[list[int]]:
    """The numbers of row lines, -1 for `-`; None where one of them isn't written as it has to be."""
    text = "".join([f"{line}\n" for line in lines])
    is_right = (IN_RUNS if in_runs else SINGLE).fullmatch(text)
    return list(map(int, text.replace("-", "-1").split())) if is_right else None


def do_rise(firsts: Sequence[Cell], lasts: Sequence[Cell], cells: int) -> bool:
    """Whether the cells of row lines rise from line to line, and are below their number."""
    is_below = not lasts or lasts[-1] < cells
    return is_below and all(map(le, firsts, lasts)) and all(map(lt, lasts, firsts[1:]))


def does_one_go_on(firsts: Sequence[Cell], lasts: Sequence[Cell], pairs: Sequence[tuple[Rank, Vector]]) -> bool:
    """Whether some run begins behind the one before, and has its row."""
    nexts = zip(firsts[1:], lasts, pairs[1:], pairs)
    return any(first == last + 1 and pair == before for first, last, pair, before in nexts)


def is_wrong_pair(rank: Rank, choice: Vector, front: Front) -> bool:
    """Whether two numbers, -1 for `-`, are no rank and input of a row."""
    said, of_input = ("-" if word < 0 else str(word) for word in (rank, choice))
    return pair_fault(said, of_input, front) is not None


def row_fault(words: Sequence[str], front: Front, last: Cell, row: Optional[Sequence[str]]) -> Optional[str]:
    """Why the words are no row line behind the one before, which had this last cell and these words for rank and input;
    or None."""
    runs = front.in_runs()
    if len(words) != 3 + runs or not all(map(NUMBER.match, words[: 1 + runs])):
        return "a row line has the words FIRST LAST RANK INPUT" if runs else "a row has the words CELL RANK INPUT"
    first, end = int(words[0]), int(words[-3])
    if end >= front.plant.cells:
        return f"there are {front.plant.cells} cells, from 0"
    if first > end:
        return "the first cell of a run is at most its last"
    if first <= last:
        return "cells rise from row line to row line"
    if runs and first == last + 1 and words[-2:] == row:
        return "the run goes on the one before, and would be one with it"
    return pair_fault(words[-2], words[-1], front)


def pair_fault(rank: str, choice: str, front: Front) -> Optional[str]:
    """Why two words are no rank and input of a row, or None."""
    plant, least = front.plant, int(front.kind == "patrol")
    if front.kind == "table" and plant.goal == "keep":
        if rank != "-":
            return "a row of a keep table has `-` as its rank"
    elif not (NUMBER.match(rank) and least <= int(rank) < plant.cells + least):
        return "a rank of a patrol is from 1 to the number of cells" if least else "a rank is below the number of cells"
    if front.kind == "table" and rank == "0":
        return None if choice == "-" else "a row of rank 0 has `-` as its input"
    if not (NUMBER.match(choice) and int(choice) < plant.vectors):
        return "an input is below the number of input vectors"
    return None
