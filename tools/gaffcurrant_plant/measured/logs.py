"""Logs of a plant: CSV with a heading, a line for each sample, runs apart by blank lines, as columns of numbers. Needs
numpy."""

from __future__ import annotations

import difflib
import re
import warnings
from typing import NamedTuple, Optional, Sequence

import numpy
from numpy.typing import ArrayLike

from ..faults import Trouble
from ..plants.array_kinds import Flags, Reals, Wholes
from ..plants.units import Units

TIMES = ("time", "t")
SEPARATORS = (",", ";", "\t")
# A name at the beginning of a heading's word, and what may stand behind it as its unit: `v [m/s]`, `v (m/s)`, `v in
# m/s`.
NAMED = re.compile(r"([A-Za-z][A-Za-z0-9_]*)\s*(?:[\[(](.*)[\])]|in\s+(\S+))?\Z")
# Fields without a number: nothing, or a minus, as for the input behind the last sample of a run.
EMPTY = (
    (b",-,", b",,"),
    (b",-,", b",,"),
    (b",-\n", b",\n"),
    (b"\n-,", b"\n,"),
    (b",,", b",nan,"),
    (b",,", b",nan,"),
    (b",\n", b",nan\n"),
    (b"\n,", b"\nnan,"),
)
BESIDE = re.compile(rb"[ \t]*([,\n])[ \t]*")


class Log(NamedTuple):
    """states and inputs: a row for each variable and a column for each sample, in the model's units, NaN where a field
    has no number; times: of the samples, None without such a column; lines: their line numbers in the file; goes_on:
    whether the next sample belongs to the same run; path: what the log is called."""

    states: Reals
    inputs: Reals
    times: Optional[Reals]
    lines: Wholes
    goes_on: Flags
    path: str = "the log"

    def runs(self) -> int:
        return int(self.lines.size - self.goes_on.sum())

    def run_numbers(self) -> Wholes:
        """For each sample the number of its run, from 0."""
        return (
            numpy.concatenate([[0], numpy.cumsum(~self.goes_on[:-1])]) if self.lines.size else numpy.zeros(0, dtype=int)
        )


def log_of(
    states: ArrayLike, inputs: ArrayLike, times: Optional[ArrayLike] = None, begins: Sequence[int] = (0,)
) -> Log:
    """A Log of arrays in the model's units with a line for each sample, as a notebook has them; begins has the samples
    with which runs begin. Its `lines` are the samples' numbers from 0."""
    rows, values = (numpy.atleast_2d(numpy.asarray(one, dtype=float)) for one in (states, inputs))
    if len(values) != len(rows):
        raise ValueError(f"there are {len(rows)} lines of states and {len(values)} of inputs")
    goes_on = numpy.ones(len(rows), dtype=bool)
    goes_on[[begin - 1 for begin in begins if begin > 0] + [-1]] = False
    at = None if times is None else numpy.asarray(times, dtype=float)
    log = Log(rows.T, values.T, at, numpy.arange(len(rows)), goes_on)
    check_times(log)
    return log


def read_log(data: bytes, states: Sequence[str], inputs: Sequence[str], units: Units, path: str = "the log") -> Log:
    """The log that the bytes spell, with a column for each of the named states and inputs; raises Trouble with the line
    where there is none."""
    if b"\0" in data[:4096]:
        raise Trouble(f"{path}: the log has bytes of zero, as text in UTF-16 has; it is to be CSV in UTF-8")
    text = data.removeprefix(b"\xef\xbb\xbf").replace(b"\r\n", b"\n").replace(b"\r", b"\n")
    first = len(text) - len(text.lstrip())
    heading, _, body = text[first:].partition(b"\n")
    if not heading:
        raise Trouble(f"{path}: the log is empty; its first line names the columns")
    line = text[:first].count(b"\n") + 1
    said = heading.decode("utf-8", "replace").lstrip("# ")
    separator = next((one for one in SEPARATORS if one in said), ",")
    columns = columns_of(
        path, [word.strip().strip('"').strip() for word in said.split(separator)], states, inputs, units
    )
    time = next((columns[name] for name in TIMES if name in columns and name not in (*states, *inputs)), None)
    looked_at = [columns[name] for name in (*states, *inputs)] + ([] if time is None else [time])
    table, lines, goes_on = numbers_of(path, body, line + 1, separator, len(said.split(separator)), looked_at)
    picked = [table[:, [columns[name] for name in names]].T for names in (states, inputs)]
    log = Log(picked[0], picked[1], None if time is None else table[:, time], lines, goes_on, path)
    check_times(log)
    return log


def columns_of(
    path: str, words: Sequence[str], states: Sequence[str], inputs: Sequence[str], units: Units
) -> dict[str, int]:
    """For each name of a heading its column; raises Trouble where a variable has none, has two, or another unit than
    the model's."""
    columns: dict[str, int] = {}
    for at, word in enumerate(words):
        found = NAMED.match(word)
        name = found[1] if found else word
        if name in columns and name in (*states, *inputs):
            raise Trouble(f"{path}: the heading has {name} twice")
        unit = (found[2] or found[3]) if found else None
        if unit and units.words.get(name, unit) != unit:
            raise Trouble(f"{path}: the heading has {name} in {unit}, and the model in {units.words[name]}")
        columns[name] = at
    missing = [name for name in (*states, *inputs) if name not in columns]
    if missing:
        small = {name.lower(): name for name in columns}
        near = difflib.get_close_matches(missing[0].lower(), list(small), 1, 0.5)
        meant = f"; is `{small[near[0]]}` meant?" if near else "."
        raise Trouble(
            f"{path}: the heading, `{', '.join(words)[:120]}`, has no column {', '.join(missing)}{meant} The "
            f"states are {', '.join(states)}, the inputs {', '.join(inputs) or 'none'}"
        )
    return columns


def numbers_of(
    path: str, body: bytes, first: int, separator: str, wide: int, looked_at: Sequence[int]
) -> tuple[Reals, Wholes, Flags]:
    """The numbers of the lines below a heading, which begin with this line, in the columns that are looked at; their
    line numbers; and whether the next one belongs to the same run."""
    text = b"\n" + body + b"\n" * (not body.endswith(b"\n"))
    if separator != ",":
        text = text.replace(b",", b".").replace(separator.encode(), b",")
    text = with_nan(text, wide)
    marks = numpy.frombuffer(text, dtype=numpy.uint8)
    ends = numpy.flatnonzero(marks == ord("\n"))
    begins, ends = ends[:-1] + 1, ends[1:]
    is_full = ends > begins
    commas = numpy.searchsorted(numpy.flatnonzero(marks == ord(",")), numpy.stack([begins, ends]))
    wrong = numpy.flatnonzero(is_full & (commas[1] - commas[0] != wide - 1))
    if wrong.size:
        at = int(wrong[0])
        has = int(commas[1][at] - commas[0][at]) + 1
        raise Trouble(f"{path}: line {first + at}: the heading has {wide} column{'s' * (wide > 1)}, this line {has}")
    rows = numpy.flatnonzero(is_full)
    if rows.size < 2:
        raise Trouble(f"{path}: there are no two samples below the heading")
    goes_on = numpy.concatenate([numpy.diff(rows) == 1, [False]])
    numbers = parsed(text, text.count(b",") + rows.size)
    if numbers is None:
        numbers = parsed_by_line(
            path, [text[begins[row] : ends[row]] for row in rows.tolist()], first + rows, looked_at
        )
    return numbers.reshape(-1, wide), first + rows, goes_on


def with_nan(text: bytes, wide: int) -> bytes:
    """The text with `nan` in fields without a number, and lines without any as blank ones."""
    if b" " in text or b"\t" in text:
        text = BESIDE.sub(rb"\1", text)
    if wide > 1:
        for _ in range(2):
            text = text.replace(b"\n" + b"," * (wide - 1) + b"\n", b"\n\n")
    for old, new in EMPTY:
        text = text.replace(old, new)
    return text


def parsed(text: bytes, count: int) -> Optional[Reals]:
    """The numbers of a text that has so many and nothing else; None of another one."""
    with warnings.catch_warnings():
        warnings.simplefilter("error")
        try:
            numbers = numpy.fromstring(text.replace(b",", b" "), dtype=float, sep=" ")
        except (DeprecationWarning, ValueError):
            return None
    return numbers if numbers.size == count else None


def parsed_by_line(path: str, rows: Sequence[bytes], lines: Wholes, looked_at: Sequence[int]) -> Reals:
    """The numbers of lines in the columns that are looked at, NaN in the others, whatever stands there; raises Trouble
    with the first line that has something else."""
    table = numpy.full((len(rows), rows[0].count(b",") + 1), numpy.nan)
    for place, row in enumerate(rows):
        words = row.split(b",")
        for at in looked_at:
            try:
                table[place, at] = float(words[at].replace(b"_", b"?"))
            except ValueError:
                said = words[at].decode("utf-8", "replace").strip()[:40]
                raise Trouble(f"{path}: line {lines[place]}: `{said}` is no number") from None
    return table


def check_times(log: Log) -> None:
    """Raises Trouble where a run's times don't rise."""
    if log.times is None:
        return
    back = numpy.flatnonzero(log.goes_on[:-1] & ~(numpy.diff(log.times) > 0))
    if back.size:
        at = int(back[0])
        before, after = log.times[at : at + 2].tolist()
        what = "goes back" if after < before else "stands still" if after == before else "is missing"
        raise Trouble(
            f"{log.path}: line {int(log.lines[at + 1])}: the time {what}, {before:g} and then {after:g}; a blank "
            "line begins another run"
        )


def sampling_of(log: Log, sample: Optional[float]) -> tuple[Optional[float], Flags]:
    """The sampling time of a log, None where it has no times, and whether samples are missing behind each sample.
    Raises Trouble where it isn't the model's."""
    gaps = numpy.zeros(log.lines.size, dtype=bool)
    if log.times is None or not log.goes_on.any():
        return None, gaps
    steps = numpy.diff(log.times, append=numpy.nan)
    usual = float(numpy.median(steps[log.goes_on]))
    if sample and abs(usual - sample) > 0.02 * sample:
        factor = sample / usual
        hint = ""
        if not 1 / 900 < factor < 900:
            hint = "; is the time in other units?"
        elif factor > 1.5 and abs(factor - round(factor)) < 0.02 * factor:
            hint = f"; one line in {round(factor)} would fit"
        raise Trouble(f"{log.path}: its samples are {usual:.6g} apart, and the model's {sample:.6g}{hint}")
    gaps[log.goes_on] = abs(steps[log.goes_on] - usual) > usual / 2
    return usual, gaps
