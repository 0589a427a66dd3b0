"""A text as a function block in structured text of IEC 61131-3, for programmable controllers: numbers of 32 bits, no
pointers, no library but the conversions of numbers."""

from __future__ import annotations

from argparse import Namespace
from typing import Iterable, Iterator, Optional, Sequence

from ..faults import Trouble
from ..plants.plant import Plant
from ..plants.units import Units
from ..texts.table import Text, parts_of
from .codes import WHAT, Codes, about, broken, target_indices
from .sizes import double_of

TOP = 2**31


class Block:
    """The lines of a function block."""

    def __init__(self, text: Text, codes: Codes, checksum: int, given: Namespace, units: Optional[Units]) -> None:
        self.text, self.plant, self.codes, self.checksum, self.units = text, text.plant, codes, checksum, units
        self.name, self.in_runs, self.with_ranks = given.prefix or "CONTROLLER", given.runs, given.ranks
        self.of_turns = text.kind == "patrol"
        self.count, self.inputs = len(self.plant.states), len(self.plant.inputs)
        self.most = max([len(values) for _, values in self.plant.inputs], default=1)
        check_size(self.plant)

    def lines(self) -> list[str]:
        return (
            self.comment()
            + [f"FUNCTION_BLOCK {self.name}"]
            + self.variables()
            + self.constants()
            + self.body()
            + ["END_FUNCTION_BLOCK"]
        )

    def comment(self) -> list[str]:
        lines = [f"(* {WHAT[self.text.kind]} of Gaffcurrant, made by tools/header --st."] + [
            f"   {line}" for line in about(self.text, self.checksum)
        ]
        lines.append(
            "   Tested by a parser and interpreter of Gaffcurrant's own, not by a compiler of IEC 61131-3. Try "
            "this block before you rely on it."
        )
        lines.append(
            "   STATUS 1: apply INPUTS; 0: the state is in the target, nothing has to be applied; -1: there is "
            "no row, so nothing is promised."
        )
        if self.with_ranks:
            lines.append(
                "   FALLS is FALSE where the rank hasn't fallen as promised since the call before: a disturbance "
                "outside of its range, or a sensor."
            )
        if units := self.units:
            lines += [
                f"   the number 1 of {units.label(name)} is {double_of(units.size(name))}, exactly {units.size(name)}"
                for name in self.plant.names()
                if name in units.sizes
            ]
        return lines[:-1] + [lines[-1] + " *)"]

    def variables(self) -> list[str]:
        own = (
            ["I, CELL, PLACE, NUMBER : DINT;"]
            + ["LOWEST, HIGHEST, MIDDLE : DINT;"] * self.in_runs
            + ["IS_INSIDE, HAS_BEGUN, IS_FIRST : BOOL;", "AFTER : DINT;"] * self.of_turns
            + ["RANK : DINT;", "LAST_RANK : DINT := -1;"] * self.with_ranks
        )
        outputs = (
            ["STATUS : DINT;", f"INPUTS : ARRAY[0..{max(self.inputs, 1) - 1}] OF DINT;"]
            + ["FALLS : BOOL;"] * self.with_ranks
            + ["TURN : DINT;"] * self.of_turns
        )
        return (
            section("VAR_INPUT", [f"STATE : ARRAY[0..{self.count - 1}] OF DINT;"])
            + section("VAR_OUTPUT", outputs)
            + section("VAR", own)
        )

    def constants(self) -> list[str]:
        """The arrays; of a patrol the rows of one turn behind those of the other."""
        lines = [line for entry in self.grid() for line in array(entry[0], "DINT", entry[1])]
        if self.of_turns:
            for name, indices in zip(("TARGET_FIRST", "TARGET_LAST"), target_indices(self.text)):
                lines += array(name, "DINT", [index for one in indices for index in one])
        return section("VAR CONSTANT", lines + self.rows())

    def grid(self) -> Iterator[tuple[str, list[int]]]:
        """The ranges, cells and values by their arrays' names; where an input has fewer values than another, 0 is
        filled in."""
        inputs = [values for _, values in self.plant.inputs]
        yield from (("LOW", self.plant.lows), ("HIGH", self.plant.highs), ("WIDTH", self.plant.widths))
        yield "COUNT", self.plant.counts
        yield "VALUES", [len(values) for values in inputs] or [1]
        yield "VALUE", [value for values in inputs for value in values + [0] * (self.most - len(values))] or [0]

    def rows(self) -> list[str]:
        """The arrays that hold the rows."""
        codes, lines = self.codes, []
        if self.in_runs:
            firsts, numbers, ranks, begins = codes.runs(self.with_ranks)
            lines = array("BEGIN", "DINT", begins) + array("FIRST", "DINT", firsts)
        else:
            numbers, ranks = codes.flat()
        lines += array("ROW", "USINT" if codes.bits == 8 else "UINT", numbers)
        if self.with_ranks:
            lines += array("RANKS", "UINT" if codes.rank_bits == 16 else "DINT", ranks)
        return lines

    def body(self) -> list[str]:
        head = ["STATUS := -1;"] + ["FALLS := FALSE;"] * self.with_ranks
        if self.of_turns:
            head += ["IS_FIRST := NOT HAS_BEGUN;", "HAS_BEGUN := TRUE;"]
        return (
            head
            + [
                "CELL := 0;",
                f"FOR I := 0 TO {self.count - 1} DO",
                "    IF (STATE[I] < LOW[I]) OR (STATE[I] > HIGH[I]) THEN",
                "        RETURN;",
                "    END_IF;",
                "    CELL := CELL * COUNT[I] + (STATE[I] - LOW[I]) / WIDTH[I];",
                "END_FOR;",
            ]
            + (self.visit() if self.of_turns else [])
            + self.lookup("TURN")
            + ["IF NUMBER = " + str(self.codes.none) + " THEN", "    RETURN;", "END_IF;"]
            + (self.monitor() if self.with_ranks else [])
            + self.answer()
        )

    def visit(self) -> list[str]:
        """The next turn begins where the target of the turn was reached, and the cell has a row for it."""
        inner = (
            ["AFTER := (TURN + 1) MOD " + str(len(parts_of(self.text))) + ";"]
            + self.lookup("AFTER")
            + [f"IF NUMBER <> {self.codes.none} THEN", "    TURN := AFTER;"]
            + ["    LAST_RANK := -1;"] * self.with_ranks
            + ["END_IF;"]
        )
        return (
            [
                "IS_INSIDE := NOT IS_FIRST;",
                f"FOR I := 0 TO {self.count - 1} DO",
                "    PLACE := (STATE[I] - LOW[I]) / WIDTH[I];",
                f"    IF (PLACE < TARGET_FIRST[TURN * {self.count} + I]) OR (PLACE > TARGET_LAST[TURN * "
                f"{self.count} + I]) THEN",
                "        IS_INSIDE := FALSE;",
                "    END_IF;",
                "END_FOR;",
                "IF IS_INSIDE THEN",
            ]
            + [f"    {line}" for line in inner]
            + ["END_IF;"]
        )

    def lookup(self, turn: str) -> list[str]:
        """Sets PLACE and NUMBER to the row of CELL."""
        kind = "USINT" if self.codes.bits == 8 else "UINT"
        last = [f"NUMBER := {kind}_TO_DINT(ROW[PLACE]);"]
        if not self.in_runs:
            return [f"PLACE := {f'{turn} * {self.plant.cells} + ' if self.of_turns else ''}CELL;"] + last
        at = turn if self.of_turns else "0"
        return [
            f"LOWEST := BEGIN[{at}];",
            f"HIGHEST := BEGIN[{at} + 1];",
            "WHILE HIGHEST - LOWEST > 1 DO",
            "    MIDDLE := (LOWEST + HIGHEST) / 2;",
            "    IF FIRST[MIDDLE] <= CELL THEN",
            "        LOWEST := MIDDLE;",
            "    ELSE",
            "        HIGHEST := MIDDLE;",
            "    END_IF;",
            "END_WHILE;",
            "PLACE := LOWEST;",
        ] + last

    def monitor(self) -> list[str]:
        rank = "UINT_TO_DINT(RANKS[PLACE])" if self.codes.rank_bits == 16 else "RANKS[PLACE]"
        return [
            f"RANK := {rank};",
            "FALLS := (LAST_RANK < 0) OR (RANK < LAST_RANK) OR ((RANK = 0) AND (LAST_RANK = 0));",
            "LAST_RANK := RANK;",
            f"IF NUMBER = {self.codes.arrived} THEN",
            "    LAST_RANK := -1;",
            "END_IF;",
        ]

    def answer(self) -> list[str]:
        lines = [f"IF NUMBER = {self.codes.arrived} THEN", "    STATUS := 0;", "    RETURN;", "END_IF;"]
        if self.inputs:
            lines += [
                f"FOR I := {self.inputs - 1} TO 0 BY -1 DO",
                f"    INPUTS[I] := VALUE[I * {self.most} + (NUMBER MOD VALUES[I])];",
                "    NUMBER := NUMBER / VALUES[I];",
                "END_FOR;",
            ]
        return lines + ["STATUS := 1;"]


def check_size(plant: Plant) -> None:
    """Raises Trouble where a number doesn't fit into 32 bits."""
    for name, low, high, _ in plant.states:
        if not -TOP <= low <= high < TOP or high - low >= TOP:
            raise Trouble(
                f"the range of {name}, {low} to {high}, doesn't fit into numbers of 32 bits; coarser units do"
            )
    for name, values in plant.inputs:
        if not all(-TOP <= value < TOP for value in values):
            raise Trouble(f"the values of {name} don't fit into numbers of 32 bits; coarser units do")


def section(head: str, lines: Iterable[str]) -> list[str]:
    return [head] + [f"    {line}" for line in lines] + ["END_VAR"]


def array(name: str, kind: str, values: Sequence[int]) -> list[str]:
    said = broken(values)
    head = f"{name} : ARRAY[0..{len(values) - 1}] OF {kind} := ["
    if len(said) == 1:
        return [f"{head}{said[0]}];"]
    return [head] + [f"    {line}," for line in said[:-1]] + [f"    {said[-1]}];"]


def function_block(text: Text, codes: Codes, checksum: int, given: Namespace, units: Optional[Units]) -> list[str]:
    return Block(text, codes, checksum, given, units).lines()
