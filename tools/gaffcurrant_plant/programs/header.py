"""Writes a table, a stay text or a patrol text for a device: as a C header of constant arrays for the few lines of
examples/device/control.c, as structured text of IEC 61131-3, or as a function file of MATLAB."""

from __future__ import annotations

import re
import zlib
from argparse import Namespace
from functools import partial
from typing import Optional

from ..command import Arguments, prefer, read_bytes, start
from ..devices.c_header import Header
from ..devices.codes import Codes
from ..devices.matlab import function_file
from ..devices.structured_text import function_block
from ..faults import Refused, Trouble
from ..models.agreement import check_units
from ..plants.plant import Plant
from ..plants.units import Units, read_units
from ..texts.table import Text, parts_of, read_text

PREFIX = re.compile(r"[A-Za-z][A-Za-z0-9_]{0,30}\Z")


def main(arguments: list[str]) -> None:
    parser = Arguments(
        prog="header",
        description=__doc__,
        epilog="A cell takes one byte, or two where there are more than 254 input vectors; with --runs a run takes "
        "four bytes more, and control.c looks for it by halving; a rank takes two bytes. Status 0: written; "
        "1: the table isn't readable, or the model isn't its own; 2: wrong words.",
    )
    parser.add_argument("table", metavar="TABLE", help="the table, stay or patrol text, `-` for standard input")
    parser.add_argument(
        "--runs", action="store_true", help="runs of cells with one row in place of a number for each cell"
    )
    parser.add_argument(
        "--ranks",
        action="store_true",
        help="adds the ranks, by which control.c tells whether they fall as the table promises",
    )
    parser.add_argument(
        "--prefix",
        metavar="NAME",
        default="",
        help="begin each name with NAME_, so that several tables go into one program",
    )
    parser.add_argument(
        "--model",
        metavar="FILE",
        help="the model, or the plant text that tools/scale made of it: adds UNIT[], what the number 1 of each state "
        "stands for, and INPUT_UNIT[], also as fractions; refused where it isn't the table's",
    )
    kind = parser.add_mutually_exclusive_group()
    kind.add_argument(
        "--st",
        action="store_true",
        help="write a function block in structured text of IEC 61131-3, with numbers of 32 bits",
    )
    kind.add_argument(
        "--matlab",
        action="store_true",
        help="write a function file of MATLAB and Octave, `[status, input] = NAME(state)`",
    )
    given = parser.parse_args(arguments)
    check_arguments(given)
    if given.model is not None:
        prefer("mpmath")
    data = read_bytes(given.table)
    try:
        text = read_text(data)
    except Refused as refusal:
        raise Trouble(f"{given.table}: {refusal.answer}: {refusal.reason}") from None
    if not parts_of(text):
        raise Trouble(f"{given.table}: the patrol has no target, so there is nothing to apply")
    units, given.exact = units_of(given.model, text.plant) if given.model is not None else (None, ())
    write = function_block if given.st else function_file if given.matlab else header
    print("\n".join(write(text, Codes(text), zlib.crc32(data), given, units)))


def check_arguments(given: Namespace) -> None:
    if given.prefix and not PREFIX.match(given.prefix):
        raise Trouble("--prefix takes a letter, then letters, digits and `_`, at most 31", 2)


def units_of(path: str, plant: Plant) -> tuple[Units, set[str]]:
    """The units and the exact states of a model or of a plant text by tools/scale, which has to be the table's own."""
    data = read_bytes(path)
    units = read_units(path, data)
    return units, check_units(path, data, plant)


def header(text: Text, codes: Codes, checksum: int, given: Namespace, units: Optional[Units]) -> list[str]:
    return Header(text, codes, checksum, given.prefix, given.runs, given.ranks, units, given.exact).lines()


run = partial(start, "header", main)
