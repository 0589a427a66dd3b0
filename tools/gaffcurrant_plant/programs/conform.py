"""Says which steps of a measured log a plant's equations explain, and which ranges of disturbances the log needs."""

from __future__ import annotations

import argparse
import re
from fractions import Fraction
from functools import partial
from typing import TYPE_CHECKING, Iterable, Optional, Sequence

from ..command import Arguments, check_there, prefer, read_bytes, start
from ..faults import Refused, Trouble
from ..plants.reader import read_plant
from ..progress import Progress

if TYPE_CHECKING:
    from ..models.kinds import Real
    from ..plants.array_kinds import Flags, Wholes
    from ..plants.plant import Plant
    from ..texts.table import Text

WORST = 10
FORMAT = """
LOG is CSV. Its first line names the columns: the states and inputs by their names, in the model's units (in whole
units for a plant text without the comments of tools/scale), and `time` or `t` if it is there; other columns aren't
looked at. Each line is a sample: the state, and the input that is applied from then on. A blank line begins another
run. A field may be empty or `-`, as the input behind a run's last sample. `tools/sim --real MODEL TEXT --log LOG`
writes such a file.

A step leads from a sample to the next one. What would have to be added to a state's equation, its noises being 0, to
give the next state is what the equation leaves unexplained: a whole number of units, in which rounding and quantising
are included. The stated ranges explain a step if for each state this lies between the ends of what its noises add.
The noises of two states count as independent, as in the boxes. A step whose next state lies in the box of the state's
cell is followed, as gaffcurrant_follows of the C library says: that is what a text's promise rests on. A step isn't
judged if its state lies outside of the ranges, its input has none of its values, or a number or a sample is missing.

Usual mistakes are named if the steps are explained clearly better without them: a sign, other units, inputs that act
a sample late, a gain, an offset, an angle that wraps, a state that jumps, missing samples. An offset of a state on
which no equation depends but by adding to it can't be seen.

A range holds what has happened in the log, and nothing says that more can't happen: a promise rests on the outermost
disturbance that will ever come. This needs numpy (Debian: apt-get install python3-numpy), and -o needs matplotlib
(python3-matplotlib). Status 0: all judged steps are explained, and with --table no promise was broken at one that is
followed; 1: they aren't, or a file can't be read; 2: wrong words.
"""


def main(arguments: list[str]) -> int:
    parser = Arguments(
        prog="conform", description=__doc__, epilog=FORMAT, formatter_class=argparse.RawDescriptionHelpFormatter
    )
    parser.add_argument("log", metavar="LOG", help="the log, `-` for standard input")
    parser.add_argument("--model", metavar="MODEL", required=True, help="the model, or a plant text")
    parser.add_argument(
        "--table",
        metavar="TEXT",
        help="a table, a stay text or a patrol text of the plant: whether its promises were kept",
    )
    parser.add_argument(
        "--turn", metavar="J", type=int, help="the turn of a patrol with which each run begins, from 0 (0)"
    )
    parser.add_argument(
        "--write", metavar="FILE", help="write the model, or the plant text, with ranges that explain all judged steps"
    )
    parser.add_argument(
        "-o",
        "--output",
        metavar="FILE",
        help="a picture, FILE.png or FILE.svg, of what the steps need, over the log and as histograms",
    )
    given = parser.parse_args(arguments)
    if given.output and not given.output.endswith((".png", ".svg")):
        raise Trouble("the output's name ends in .png or .svg", 2)
    if given.turn is not None and given.table is None:
        raise Trouble("--turn goes with --table", 2)
    drawing = ["matplotlib"] * bool(given.output)
    prefer("numpy", "mpmath", *drawing)
    data = read_bytes(given.model)
    check_there("this", "numpy", *["mpmath"] * is_of_functions(data), *drawing)
    return Run(given, data).told()


def is_of_functions(data: bytes) -> bool:
    """Whether a text is a model that needs mpmath."""
    from ..models.agreement import is_plant_text
    from ..models.best_plant import needs_mpmath
    from ..models.model import read_model

    try:
        return not is_plant_text(data) and needs_mpmath(read_model(data))
    except Trouble:
        # It can't be read, which is said next.
        return False


class Run:
    """One call: the plant, the log, and what is said of them."""

    def __init__(self, given: argparse.Namespace, data: bytes) -> None:
        from ..measured.conformity import conform
        from ..measured.logs import read_log

        self.given, self.data, self.progress = given, data, Progress("conform")
        self.plant, self.sample = plant_of(given.model, self.data)
        self.text = text_of(given, self.plant)
        with self.progress.during("reading the log"):
            states, inputs = [state[0] for state in self.plant.states], [name for name, _ in self.plant.inputs]
            log = read_log(read_bytes(given.log), states, inputs, self.plant.units, given.log)
        self.found = conform(self.plant, log, sample=self.sample, tell=self.progress.show)
        self.progress.end()

    def told(self) -> int:
        """Prints what is found, writes what is asked for, and answers the status."""
        from ..measured.diagnosis import diagnosed

        found = self.found
        with self.progress.during("looking for mistakes"):
            mistakes = diagnosed(found)
        status = 0 if found.explained.all() and found.steps.size else 1
        for part in (self.counts(), self.ranges() if found.steps.size else [], self.worst(), self.mistakes(mistakes)):
            print("\n".join(part)) if part else None
        if self.text is not None:
            lines, is_broken = self.promises(self.text)
            print("\n".join(lines))
            status = status or int(is_broken)
        if self.given.output:
            self.draw()
        if self.given.write:
            self.write()
        return status

    def counts(self) -> list[str]:
        found, log = self.found, self.found.log
        count, runs = found.steps.size, log.runs()
        spaced = f", {found.sample:.6g} apart" if found.sample else ""
        steps = int(log.goes_on.sum())
        said = [
            f"{log.lines.size} samples{spaced}, in {runs} run{'s' * (runs > 1)}: {steps} steps, {count} of them judged"
        ]
        said += [f"  not judged: {number}, since {reason}" for reason, number in found.left_out.items()]
        if found.gaps.size:
            said.append(f"  by the times samples are missing before {lines_said(log.lines[found.gaps + 1])}")
        if count:
            explained, followed = int(found.explained.sum()), int(found.followed.sum())
            said.append(f"explained by the stated ranges: {explained} of {count} steps, {percent(explained, count)}")
            said.append(
                f"followed, with the next state in its box: {followed} of {count} steps, {percent(followed, count)}"
            )
        return said

    def ranges(self) -> list[str]:
        """The table of ranges: in whole units, and behind them in the model's."""
        from ..measured.conformity import SHARES

        found, units = self.found, self.plant.units
        columns = [found.stated(), *(found.ranges(share) for share in SHARES)]
        rows = [["beside the equation of", "stated", "all steps need", "99.9 per cent", "99 per cent"]]
        for state, *ends in zip(self.plant.states, *columns):
            name = state[0]
            rows.append([units.label(name)] + [f"{low} to {high}" for low, high in ends])
            if units.sizes:
                sized = [tuple(short(end * units.size(name)) for end in pair) for pair in ends]
                rows.append([f"  times {units.size_said(name, 1)}:"] + [f"{low} to {high}" for low, high in sized])
        widths = [max(map(len, column)) for column in zip(*rows)]
        said = ["", *("  ".join(word.ljust(width) for word, width in zip(row, widths)).rstrip() for row in rows)]
        return said + [
            "A promise rests on the outermost disturbance that will ever come, and a log shows only what has come."
        ]

    def worst(self) -> list[str]:
        """The steps that lie farthest beyond the ranges."""
        found, lines = self.found, []
        for at in found.worst(WORST):
            entries = zip(self.plant.states, found.needed[:, at].tolist(), found.beyond[:, at].tolist(), found.stated())
            beyond = [
                f"{state[0]} needs {need} and has {low} to {high}" for state, need, much, (low, high) in entries if much
            ]
            sample = int(found.steps[at])
            lines.append(f"  line {found.log.lines[sample]}: {', '.join(beyond)}; {self.step_said(sample)}")
        return ["", "farthest beyond the ranges, in whole units:", *lines] if lines else []

    def step_said(self, at: int) -> str:
        """A step in the model's units."""
        log = self.found.log
        states, inputs = [state[0] for state in self.plant.states], [name for name, _ in self.plant.inputs]
        before = zip(states + inputs, [*log.states[:, at], *log.inputs[:, at]])
        return f"{values_said(before)} led to {values_said(zip(states, log.states[:, at + 1]))}"

    @staticmethod
    def mistakes(mistakes: Sequence[str]) -> list[str]:
        return ["", "what it looks like:", *(f"  {one}" for one in mistakes)] if mistakes else []

    def promises(self, text: Text) -> tuple[list[str], bool]:
        """What the text's promises came to, and whether one was broken at a step that is followed."""
        from ..measured.promises import promises_of

        found = self.found
        promises = promises_of(found, text, self.given.turn or 0)
        broken = promises.broken
        faults, good = broken & (found.followed | found.explained), promises.applied & ~broken & ~found.followed
        applied, broke, wrong, kept = (int(some.sum()) for some in (promises.applied, broken, faults, good))
        said = [
            "",
            f"the text: at {applied} of {found.steps.size} judged steps its input was applied; at {broke} of "
            "these the next state has no row, or its rank hasn't fallen",
        ]
        said += [f"  {self.lines_at(broken)}"] * (broke > 0)
        told = f": the text isn't one of this plant; {self.lines_at(faults)}" if wrong else ", as it has to be"
        said.append(f"  of them {wrong} are explained or followed{told}")
        said.append(f"  at {kept} steps that aren't followed the promise was kept all the same")
        return said, wrong > 0

    def lines_at(self, chosen: Flags) -> str:
        """The first lines of some steps, in words."""
        return lines_said(self.found.log.lines[self.found.steps[chosen]])

    def draw(self) -> None:
        import matplotlib

        matplotlib.use("Agg")
        from matplotlib.figure import Figure
        from ..pictures.residuals import draw_residuals

        figure = Figure(figsize=(9, 1 + 2 * len(self.plant.states)), layout="constrained")
        with self.progress.during("drawing"):
            draw_residuals(figure, self.found)
            figure.savefig(self.given.output, dpi=110)

    def write(self) -> None:
        from ..measured.ranges import with_ranges

        with self.progress.during("finding ranges"):
            text = with_ranges(self.data, self.found)
        with open(self.given.write, "w", encoding="utf-8", newline="\n") as file:
            file.write(text)


def values_said(values: Iterable[tuple[str, float]]) -> str:
    return ", ".join(f"{name} = {value:.6g}" for name, value in values)


def plant_of(path: str, data: bytes) -> tuple[Plant, Optional[float]]:
    """The plant of a model or of a plant text, with its units, and the sampling time where it is known."""
    from ..models.best_plant import planted
    from ..models.agreement import is_plant_text
    from ..models.model import read_model
    from ..plants.units import Units, read_units, units_of

    try:
        if not is_plant_text(data):
            model = read_model(data)
            plant, sample = planted(model).plant, model.sample
            plant.units = units_of(model)
            return plant, float(sample) if sample else None
        plant = read_plant(data)
        plant.check_limits(Refused)
        plant.check_overflow(Refused)
    except Trouble as trouble:
        raise Trouble(f"{path}: {trouble}", trouble.status) from None
    except Refused as refusal:
        raise Trouble(f"{path}: {refusal.answer}: {refusal.reason}") from None
    plant.units = read_units(path, data) if re.search(rb"^# unit ", data, re.M) else Units()
    sampled = re.search(rb"^# sampled with ([0-9.]+(?:e-?[0-9]+)?) ", data, re.M)
    return plant, float(Fraction(sampled[1].decode())) if sampled else None


def text_of(given: argparse.Namespace, plant: Plant) -> Optional[Text]:
    """The text of --table, of this plant; None without it."""
    if given.table is None:
        return None
    from ..models.agreement import check_variables
    from ..texts.table import parts_of, read_text

    try:
        text = read_text(read_bytes(given.table))
    except Refused as refusal:
        raise Trouble(f"{given.table}: {refusal.answer}: {refusal.reason}") from None
    check_variables(given.model, "model", plant.states, plant.inputs, text.plant)
    if not 0 <= (given.turn or 0) < len(parts_of(text)):
        raise Trouble("--turn is a turn of a patrol text, from 0", 2)
    return text


def lines_said(lines: Wholes) -> str:
    """The first line numbers of an array, in words."""
    first = lines[:4].tolist()
    return f"line{'s' * (len(first) > 1)} {', '.join(map(str, first))}" + " .." * (lines.size > 4)


def percent(part: int, whole: int) -> str:
    """A share in words, which says 100 only of all and 0 only of none."""
    share = 100 * part / whole
    if share in (0, 100) or 0.01 <= share <= 99.99:
        return f"{share:.4g} per cent"
    return "less than 0.01 per cent" if share < 1 else "more than 99.99 per cent"


def short(value: Real) -> str:
    from ..plants.units import short as shortened

    return shortened(value)


run = partial(start, "conform", main)
