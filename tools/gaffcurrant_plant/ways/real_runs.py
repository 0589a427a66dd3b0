"""Drives a model's own equations in doubles by a table, a stay text or a patrol text, many runs at once, and watches
what the text promises. Needs numpy."""

from __future__ import annotations

from collections import Counter
from typing import IO, TYPE_CHECKING, Iterable, Iterator, List, Optional, Sequence, SupportsFloat, Tuple, Union

from ..faults import Trouble
from ..models.agreement import check_model
from ..models.model import Model, read_model
from ..texts.promise import has_fallen, turn_after
from ..texts.table import Text, read_text
from .doubles import NEAR, RealPlant, column, numpy
from .starts import PUSHES, STARTS, Pushes, Starts

if TYPE_CHECKING:
    from ..plants.array_kinds import Flags, Reals, Wholes
    from ..texts.arrays import Rows

# Samples behind the greatest rank in which a plant is watched in its targets, those with goal keep, and the most of any
# run.
STAYED, KEPT, MOST = 50, 200, 2000
MOST_RUNS = 10**6


def longest(rows: Rows) -> int:
    """The samples after which each run has shown what is promised."""
    if rows.keeps:
        return KEPT
    if rows.kind == "patrol":
        return min(MOST, 2 * int(rows.ranks.max(axis=1).sum()))
    return int(rows.ranks.max()) + STAYED * (rows.kind == "stay")


# The time, the turn of a patrol, the state, the rank and the input vector of a sample.
Traced = Tuple[int, Optional[int], List[float], Optional[int], Optional[int]]


class Outcome:
    """What was seen of so many runs. violations counts the runs that broke a promise, by what they broke; first says
    what the first one broke, and trace has its samples (time, turn, state, rank, input). starts counts the runs by
    where they begin, and broken those of them that broke a promise; both are empty where the first state was given.
    touched and left count the runs whose way between samples lay in an obstacle or outside of the domain; touch has the
    time, the state and the run's number where that came first."""

    def __init__(self, runs: int) -> None:
        self.runs, self.samples, self.violations = runs, 0, Counter[str]()
        self.starts, self.broken = Counter[str](), Counter[str]()
        self.touched = self.left = 0
        self.first: Optional[str] = None
        self.trace: list[Traced] = []
        self.touch: Optional[tuple[int, list[float], int]] = None


class Record:
    """What a data logger writes of runs: each sample's time, state and applied input, and the state behind the last
    one. parts: of each sample the runs, the states, the numbers of the input vectors, and the states behind it."""

    def __init__(self, real: RealPlant, vectors: Reals) -> None:
        self.real, self.vectors = real, vectors
        self.parts: list[tuple[Wholes, Reals, Wholes, Reals]] = []

    def lines(self) -> Iterator[str]:
        """The lines of a log: a heading, and run by run a line for each sample, runs apart by a blank line."""
        model = self.real.model
        yield ",".join(["time", *self.real.names, *self.real.input_names])
        if not self.parts:
            return
        runs, states, inputs = (numpy.concatenate([part[k] for part in self.parts], axis=-1) for k in range(3))
        times = numpy.repeat(range(len(self.parts)), [part[0].size for part in self.parts])
        ends = {run: state for part in self.parts for run, state in zip(part[0].tolist(), part[3].T.tolist())}
        order, sample, run = numpy.lexsort((times, runs)), float(model.time), None
        for at in order.tolist():
            if run is not None and runs[at] != run:
                yield from (fields(time + sample, ends[run], ["-"] * len(self.vectors)), "")
            run, time = int(runs[at]), times[at] * sample
            yield fields(time, states[:, at].tolist(), self.vectors[:, inputs[at]].tolist())
        yield fields(time + sample, ends[run], ["-"] * len(self.vectors))


def fields(time: float, state: Sequence[float], inputs: Sequence[Union[str, float]]) -> str:
    """A line of a log."""
    return ",".join(
        one if isinstance(one, str) else repr(float(one)).removesuffix(".0")
        for one in [float(f"{time:.12g}"), *state, *inputs]
    )


class Loop:
    """Runs of the closed loop. record: where the samples are kept, if they are to be."""

    def __init__(self, model: Model, text: Text, runs: int, seed: int) -> None:
        self.real, self.outcome = RealPlant(model), Outcome(runs)
        from ..texts.arrays import Rows

        self.rows = Rows(text)
        self.exact, self.comes_round = (
            numpy.array([name in some for name in self.real.names]).reshape(-1, 1)
            for some in (model.exact, model.wraps)
        )
        sizes = [unit for _, unit, _ in model.inputs]
        vectors = [self.rows.plant.vector(k) for k in range(self.rows.plant.vectors)]
        self.vectors = (
            numpy.array([[float(value * size) for value, size in zip(vector, sizes)] for vector in vectors])
            .reshape(len(vectors), -1)
            .T
        )
        draws = numpy.random.default_rng(seed)
        # Each turn has runs of each kind of start and of disturbance.
        self.turns = numpy.arange(runs) // (len(STARTS) * len(PUSHES)) % len(self.rows.won)
        self.begins, self.pushes = Starts(self.real, self.rows, self.exact, draws), Pushes(self.real, runs, draws)
        self.has_touched, self.has_left, self.has_broken = numpy.zeros((3, runs), dtype=bool)
        self.history: list[tuple[Wholes, Wholes, Reals, Wholes, Wholes]] = []
        self.record: Optional[Record] = None

    def measured(self, states: Reals) -> Wholes:
        """The whole numbers that a device finds in doubles: those of the units that the values lie in; of an exact
        state the nearest. Those of a state that comes round are brought back into its range."""
        scaled = states / self.real.units
        whole = numpy.where(self.exact, numpy.round(scaled), numpy.floor(scaled))
        whole = numpy.nan_to_num(numpy.clip(whole, -(2.0**52), 2.0**52), nan=-(2.0**52)).astype(int)
        low, turn = self.rows.low, self.rows.high + 1 - self.rows.low
        return numpy.where(self.comes_round, low + (whole - low) % turn, whole)

    def drive(self, states: Optional[Reals], samples: int) -> Outcome:
        """Follows all runs, at most so many samples."""
        is_given = states is not None
        runs: Wholes = numpy.arange(self.outcome.runs)
        states = self.begins.states(self.turns, self.measured) if states is None else states
        cells = self.rows.cell_of(self.measured(states))
        if not self.rows.won[self.turns, cells].all():
            raise Trouble("no row: the first state is outside the domain, or no strategy was found from its cell")
        for time in range(samples + 1):
            turns = self.turns[runs]
            ranks, inputs = self.rows.ranks[turns, cells], self.rows.inputs[turns, cells]
            self.history.append((runs, turns, states, ranks, inputs))
            go_on = self.checked(time, runs, states, inputs) & (inputs >= 0)
            runs, states, ranks, inputs = runs[go_on], states[:, go_on], ranks[go_on], inputs[go_on]
            if not runs.size or time == samples:
                break
            self.outcome.samples += runs.size
            before, states = states, self.moved(time, runs, states, inputs)
            if self.record:
                self.record.parts.append((runs, before, inputs, states))
            cells = self.rows.cell_of(self.measured(states))
            go_on = self.follows(time + 1, runs, states, ranks, cells)
            runs, states, cells = runs[go_on], states[:, go_on], cells[go_on]
        self.outcome.touched, self.outcome.left = int(self.has_touched.sum()), int(self.has_left.sum())
        if not is_given:
            for kinds, counts in (
                (self.begins.kinds, self.outcome.starts),
                (self.begins.kinds[self.has_broken], self.outcome.broken),
            ):
                counts.update(STARTS[kind] for kind in kinds.tolist())
        return self.outcome

    def moved(self, time: int, runs: Wholes, states: Reals, inputs: Wholes) -> Reals:
        """The states behind a sample; notes which ways touch an obstacle or leave the domain."""
        real = self.real
        with numpy.errstate(all="ignore"):
            for at in real.way(states, self.vectors[:, inputs], self.pushes.parts(runs, time)):
                touch, leave = real.touches(at), real.leaves(at)
                if self.outcome.touch is None and touch.any():
                    first = int(numpy.argmax(touch))
                    self.outcome.touch = time, at[:, first].tolist(), int(runs[first])
                self.has_touched[runs] |= touch
                self.has_left[runs] |= leave
        return at

    def checked(self, time: int, runs: Wholes, states: Reals, inputs: Wholes) -> Flags:
        """Which runs are off the obstacles, and where nothing is left to apply or they are to stay, in a target."""
        rows, real = self.rows, self.real
        good = self.noted(time, "a sample lies in an obstacle", runs, states, real.touches(states))
        if rows.kind == "table" and not rows.keeps:
            good &= self.noted(
                time, "the state of rank 0 is in no target", runs, states, (inputs < 0) & ~real.is_in_target(states)
            )
        elif rows.kind == "stay":
            held = self.history[-1][3] == 0
            good &= self.noted(
                time, "the state of rank 0 is in no target", runs, states, held & ~real.is_in_target(states)
            )
        off = self.exact & (abs(states / real.units - numpy.round(states / real.units)) > NEAR)
        return good & self.noted(time, "an exact state is no whole number of units", runs, states, off.any(axis=0))

    def follows(self, time: int, runs: Wholes, states: Reals, ranks: Wholes, cells: Wholes) -> Flags:
        """Which runs have a row at a rank below the one before; a patrol's turn goes on where its target was
        reached."""
        rows = self.rows
        turns: Wholes = self.turns[runs]
        arrived = rows.arrivals[turns, cells]
        for turn in range(len(rows.won)) if rows.kind == "patrol" else ():
            wrong = arrived & (turns == turn) & ~self.real.is_in_target(states, turn)
            self.noted(time, "an arrival lies beside the turn's target", runs, states, wrong)
        turns = turn_after(turns, arrived, len(rows.won))
        self.turns[runs] = turns
        good = self.noted(time, "the state has no row", runs, states, ~rows.won[turns, cells])
        if rows.keeps:
            return good
        falls = has_fallen(ranks, rows.ranks[turns, cells])
        return good & self.noted(time, "the rank doesn't fall", runs, states, good & ~arrived & ~falls)

    def noted(self, time: int, what: str, runs: Wholes, states: Reals, wrong: Flags) -> Flags:
        """Counts what is wrong, and answers which runs are well; keeps the trace of the first that isn't."""
        if wrong.any():
            self.outcome.violations[what] += int(wrong.sum())
            self.has_broken[runs[wrong]] = True
            if self.outcome.first is None:
                at = int(numpy.argmax(wrong))
                self.outcome.first, self.outcome.trace = what, self.trace_of(time, int(runs[at]), states[:, at])
        return ~wrong

    def trace_of(self, time: int, run: int, state: Reals) -> list[Traced]:
        """The samples of a run, and the state that is wrong."""
        samples = []
        for before, (runs, turns, states, ranks, inputs) in enumerate(self.history[:time]):
            at = int(numpy.searchsorted(runs, run))
            samples.append(
                (
                    before,
                    int(turns[at]) if self.rows.kind == "patrol" else None,
                    states[:, at].tolist(),
                    int(ranks[at]),
                    int(inputs[at]),
                )
            )
        return samples + [(time, None, state.tolist(), None, None)]


def real_runs(
    model: Union[Model, str, bytes],
    text: Union[Text, str, bytes, bytearray],
    runs: int = 2000,
    samples: Optional[int] = None,
    seed: int = 1,
    state: Optional[Iterable[SupportsFloat]] = None,
    turn: Optional[int] = None,
    log: Optional[IO[str]] = None,
) -> Outcome:
    """The Outcome of so many runs of a model's own equations by a Table, a Stay or a Patrol, in doubles. model is a
    Model, or its text; text may be str or bytes too; samples is the most of a run, as many as the ranks ask for where
    it is left out; state is the first state of all runs in the model's units, and turn the turn of a patrol with which
    they all begin, where else they begin with all turns; log is a file, open for text, for a log of the runs. Raises
    Trouble where the text is of another model, and Refused where it is none."""
    if not isinstance(model, Model):
        model = read_model(bytes_of(model))
    if isinstance(text, (str, bytes, bytearray)):
        text = read_text(bytes_of(text))
    if not 1 <= runs <= MOST_RUNS:
        raise Trouble(f"runs are from 1 to {MOST_RUNS}", 2)
    check_model("the model", model, text.plant)
    loop = Loop(model, text, runs, seed)
    if turn is not None:
        if not 0 <= turn < len(loop.rows.won):
            raise Trouble(f"there are {len(loop.rows.won)} turns, from 0; {turn} is none", 2)
        loop.turns[:] = turn
    first = None if state is None else column(state) + numpy.zeros((1, runs))
    loop.record = record = Record(loop.real, loop.vectors) if log else None
    outcome = loop.drive(first, longest(loop.rows) if samples is None else samples)
    if log and record:
        log.writelines(f"{line}\n" for line in record.lines())
    return outcome


def bytes_of(text: Union[str, bytes, bytearray]) -> bytes:
    return text.encode() if isinstance(text, str) else bytes(text)
