"""What a table, a stay text or a patrol text promises, beside a log: where a row's input was applied, the next state
has a row, and the rank falls. Needs numpy."""

from __future__ import annotations

from typing import NamedTuple

import numpy

from ..plants.array_kinds import Flags, Wholes
from ..texts.arrays import Rows
from ..texts.promise import has_fallen
from ..texts.table import Text
from .conformity import Conformity


class Promises(NamedTuple):
    """Of the judged steps of a Conformity: applied: at which the row's input was applied; broken: at which it was, and
    the next state has no row, or its rank hasn't fallen as it is promised."""

    applied: Flags
    broken: Flags


def promises_of(conformity: Conformity, text: Text, turn: int = 0) -> Promises:
    """The Promises of a Table, a Stay or a Patrol; each run of a log by a patrol begins in this turn."""
    rows, steps = Rows(text), conformity.steps
    whole = numpy.nan_to_num(conformity.whole, nan=-(2.0**52)).astype(numpy.int64)
    cells = rows.cell_of(whole)
    turns = turns_of(conformity, rows, cells, turn) if rows.kind == "patrol" else numpy.zeros(cells.size, dtype=int)
    here, there = cells[steps], cells[steps + 1]
    now, then = turns[steps], turns[steps + 1]
    applied = (
        rows.won[now, here] & (rows.inputs[now, here] == conformity.vectors[steps]) & (conformity.vectors[steps] >= 0)
    )
    good = rows.won[then, there]
    if not rows.keeps:
        falls = has_fallen(rows.ranks[now, here], rows.ranks[then, there])
        good &= falls | (now != then)
    return Promises(applied, applied & ~good)


def turns_of(conformity: Conformity, rows: Rows, cells: Wholes, turn: int) -> Wholes:
    """The turn at each sample: the next one begins where a sample behind a run's first lies in an arrival of the
    turn."""
    count = len(rows.won)
    arrivals = [numpy.flatnonzero(goals[cells]) for goals in rows.arrivals]
    turns = numpy.zeros(cells.size, dtype=int)
    ends = numpy.flatnonzero(~conformity.log.goes_on) + 1
    for begin, end in zip([0, *ends[:-1].tolist()], ends.tolist()):
        at, now = begin, turn
        while at < end:
            k = int(numpy.searchsorted(arrivals[now], at + 1))
            until = min(int(arrivals[now][k]), end) if k < arrivals[now].size else end
            turns[at:until] = now
            at, now = until, (now + 1) % count
    return turns
