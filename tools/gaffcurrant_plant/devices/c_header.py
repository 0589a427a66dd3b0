"""A text as a C header of constant arrays."""

from __future__ import annotations

import zlib
from fractions import Fraction
from typing import Container, Optional, Sequence

from .codes import WHAT, Codes, about, broken, target_indices
from .sizes import double_of, fraction_of

from ..plants.units import Units
from ..texts.table import Text


def list_of(values: Sequence[object]) -> str:
    """Values in braces; one 0 where there are none, since C knows no empty arrays."""
    return "{" + ", ".join(map(str, values)) + "}" if values else "{0}"


class Header:
    """The lines of a header. Each name has the prefix and `_` before it, where there is one. exact: the states that are
    whole numbers by themselves."""

    def __init__(
        self,
        text: Text,
        codes: Codes,
        checksum: int,
        prefix: str = "",
        in_runs: bool = False,
        with_ranks: bool = False,
        units: Optional[Units] = None,
        exact: Container[str] = (),
    ) -> None:
        self.text, self.plant, self.codes, self.checksum = text, text.plant, codes, checksum
        self.before = f"{prefix}_" if prefix else ""
        self.in_runs, self.with_ranks, self.units, self.exact = in_runs, with_ranks, units, exact
        self.of_turns = text.kind == "patrol"
        self.bytes = bytearray()
        self.fractions = (
            [fraction_of(units.size(name)) for name, *_ in self.plant.states + self.plant.inputs] if units else [None]
        )

    def lines(self) -> list[str]:
        for number in (self.codes.none, self.codes.arrived):
            self.bytes += number.to_bytes(4, "little")
        arrays = self.grid() + (self.turns() if self.of_turns else []) + self.rows() + self.unit_lines()
        comment = [f"/* {WHAT[self.text.kind]} of Gaffcurrant as constant arrays, made by tools/header."] + [
            f"   {line}" for line in about(self.text, self.checksum)
        ]
        defines = [
            ("STATES", len(self.plant.states)),
            ("INPUTS", len(self.plant.inputs)),
            ("NO_ROW", self.codes.none),
            ("ARRIVED", self.codes.arrived),
            ("HAS_RUNS", int(self.in_runs)),
            ("HAS_TURNS", int(self.of_turns)),
            ("HAS_RANKS", int(self.with_ranks)),
            ("HAS_SIZES", int(bool(self.units))),
            ("HAS_FRACTIONS", int(None not in self.fractions)),
            ("CHECKSUM", f"0x{self.checksum:08x}u"),
            ("ARRAYS_CHECKSUM", f"0x{zlib.crc32(self.bytes):08x}u"),
        ]
        return (
            comment[:-1]
            + [comment[-1] + " */", "#include <stdint.h>"]
            + [self.define(*pair) for pair in defines]
            + arrays
        )

    def define(self, name: str, value: object) -> str:
        return f"#define {self.before}{name} {value}"

    def array(self, kind: str, name: str, sizes: str, values: Sequence[int], lines: Optional[str] = None) -> list[str]:
        """An array, whose values count for the arrays' checksum: 8, 4, 2 or 1 bytes each, the lowest first."""
        size = {"int64_t": 8, "uint32_t": 4, "uint16_t": 2, "uint8_t": 1}[kind]
        for value in values:
            self.bytes += (value % 2**64).to_bytes(8, "little")[:size]
        head = f"static const {kind} {self.before}{name}{sizes} = "
        if lines is not None:
            return [f"{head}{lines};"]
        return [head + "{"] + [f"    {line}," for line in broken(values)] + ["};"]

    def sized(self, name: str) -> str:
        return f"[{self.before}{name}]"

    def grid(self) -> list[str]:
        """The ranges, cells and values; where an input has fewer values than another, C fills up with 0."""
        plant, lines = self.plant, []
        for name, values in (("LOW", plant.lows), ("HIGH", plant.highs), ("WIDTH", plant.widths)):
            lines += self.array("int64_t", name, self.sized("STATES"), values, list_of(values))
        lines += self.array("uint32_t", "COUNT", self.sized("STATES"), plant.counts, list_of(plant.counts))
        lengths, most = [len(values) for _, values in plant.inputs], max(
            [len(values) for _, values in plant.inputs], default=1
        )
        lines += self.array("uint32_t", "VALUES", "[]", lengths or [0], list_of(lengths))
        choices = [list_of(values) for _, values in plant.inputs] or ["{0}"]
        filled = [value for _, values in plant.inputs for value in values + [0] * (most - len(values))] or [0]
        return lines + self.array("int64_t", "VALUE", f"[][{most}]", filled, "{" + ", ".join(choices) + "}")

    def turns(self) -> list[str]:
        firsts, lasts = target_indices(self.text)
        lines = [self.define("TURNS", len(firsts)), self.define("CELLS", self.plant.cells)]
        for name, indices in (("TARGET_FIRST", firsts), ("TARGET_LAST", lasts)):
            flat = [index for one in indices for index in one]
            lines += self.array(
                "uint32_t",
                name,
                self.sized("TURNS") + self.sized("STATES"),
                flat,
                "{" + ", ".join(map(list_of, indices)) + "}",
            )
        return lines

    def rows(self) -> list[str]:
        """The arrays that hold the rows: one number a cell, or the first cells and the numbers of runs; those of a
        patrol turn by turn."""
        codes, kind, rank_kind = self.codes, f"uint{self.codes.bits}_t", f"uint{self.codes.rank_bits}_t"
        if self.in_runs:
            firsts, numbers, ranks, begins = codes.runs(self.with_ranks)
            size, lines = self.sized("RUNS"), [self.define("RUNS", len(firsts))] + self.array(
                "uint32_t", "FIRST", self.sized("RUNS"), firsts
            )
        else:
            numbers, ranks = codes.flat()
            size, lines = f"[{self.before}TURNS * {self.before}CELLS]" if self.of_turns else f"[{len(numbers)}]", []
        lines += self.array(kind, "ROW", size, numbers)
        if self.with_ranks:
            lines += self.array(rank_kind, "RANK", size, ranks)
        if self.in_runs and self.of_turns:
            lines += self.array("uint32_t", "TURN", f"[{self.before}TURNS + 1]", begins, list_of(begins))
        return lines

    def unit_lines(self) -> list[str]:
        """What the number 1 of each state and input stands for: a state is floor(value / UNIT), an input's value is
        number * INPUT_UNIT. As doubles, and as fractions where they are numbers of 64 bits."""
        units = self.units
        if not units:
            return []
        words = ", ".join(units.label(name) for name in self.plant.names() if name in units.words)
        lines = [f"/* {words} */"] * bool(words)
        lines += self.sizes("UNIT", self.sized("STATES"), [units.size(name) for name, *_ in self.plant.states])
        lines += self.sizes("INPUT_UNIT", "[]", [units.size(name) for name, _ in self.plant.inputs] or [Fraction(0)])
        exact = [int(state[0] in self.exact) for state in self.plant.states]
        return lines + self.array("uint8_t", "EXACT", self.sized("STATES"), exact, list_of(exact))

    def sizes(self, name: str, size: str, sizes: Sequence[Fraction]) -> list[str]:
        """The arrays of what the number 1 of each state, or of each input, stands for."""
        doubles = list_of([double_of(one) for one in sizes])
        lines = [f"static const double {self.before}{name}{size} = {doubles};"]
        if None not in self.fractions:
            pairs = [pair for pair in map(fraction_of, sizes) if pair]
            flat, said = [number for pair in pairs for number in pair], f"{{{', '.join(map(list_of, pairs))}}}"
            lines += self.array("int64_t", f"{name}_FRACTION", "[][2]", flat, said)
        return lines
