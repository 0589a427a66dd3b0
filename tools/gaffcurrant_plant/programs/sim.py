"""Drives a plant by a stay text or a patrol text, and writes what happens; of a table what the program's `sim` \
writes. With --real it drives
the model's own equations in doubles, from many states, and counts the promises that are broken."""

from __future__ import annotations

import argparse
from functools import partial
from typing import TYPE_CHECKING, Iterable, Iterator, Optional, Sequence, Union

from ..command import Arguments, prefer, read_bytes, start
from ..faults import Fault, Refused, Trouble
from ..models.polynomial import number_of
from ..plants.kinds import Input, Row, State
from ..plants.plant import Plant
from ..plants.units import MODEL_HELP, decimal, outside_said, state_of, units_for
from ..texts.loop import noises
from ..texts.table import Text, parts_of, read_text

if TYPE_CHECKING:
    from ..models.model import Model
    from ..ways.real_runs import Outcome

# Runs of --real, and the most of them.
RUNS, MOST_RUNS = 2000, 10**6

FORMAT = """A line of a sample is T X1 .. Xn RANK INPUT, and of a patrol T TURN X1 .. Xn RANK INPUT: the time from 0, \
the turn whose target the plant
is on its way to, the state, and the row. Before the sample that has come to the target of a turn stands `visited TURN \
T`. The last line is
`stopped T`; `arrived T` of a table with goal reach; or `lost T X1 .. Xn` where the state has no row. Disturbances are \
those that the program draws
from the seed; `--worst` takes an end of each range, by the seed. With `--model` the first state is in the model's \
units, and so are the states and
the inputs that are printed: a first line names them, and a sample's line has the values to apply where the trace has \
INPUT.

  sim --real MODEL TEXT [N [SEED [X1 .. Xm]]]

drives the model in doubles: `d` lines by fine steps of Runge and Kutta's method, what is measured by floor(value / \
unit). The runs begin within cells,
on their corners, on whole units and with states at 0, or all at X1 .. Xm in the model's units; disturbances are \
random, at the ends of their
ranges, held there, switching or still. The lines tell how many runs broke a promise (a row for each sample, the rank \
falls, no sample in an obstacle, rank
0 in a target, turn for turn), how many of the runs begin in which way, and how many ways between samples touched an \
obstacle or left the domain; behind the
first broken promise stands its run.
The ways of `next` lines aren't known, and taken as straight. --log FILE writes what a data logger would: time, states \
and inputs in the model's units, for
tools/conform. This needs numpy (Debian: apt-get install python3-numpy).
Status 0: the trace was written, or no promise was broken; 1: the text isn't readable, the first state has no row, or \
a promise was broken; 2: wrong words."""


def row_of(table: Text, turn: Optional[int], state: Sequence[int]) -> Optional[Row]:
    """The row at a state, of a patrol in a turn, or None."""
    return parts_of(table)[turn or 0].row_at(table.plant.cell_of(state))


def reals(plant: Plant, kinds: Sequence[Union[State, Input]], values: Iterable[int]) -> list[str]:
    """Whole numbers of states or of inputs, in the plant's units."""
    return [decimal(value * plant.units.size(name)) for value, (name, *_) in zip(values, kinds)]


def sample_said(plant: Plant, time: int, turn: Optional[int], state: Sequence[int], row: Row) -> str:
    rank, choice = row
    said = (
        " ".join(reals(plant, plant.inputs, plant.vector(choice)))
        if plant.units.sizes and choice is not None
        else choice
    )
    words = [time, *([] if turn is None else [turn]), *reals(plant, plant.states, state), rank, said]
    return " ".join("-" if word is None else str(word) for word in words)


def head_said(plant: Plant, turn: Optional[int]) -> str:
    """The first line of a run."""
    if not plant.units.sizes:
        return "trace 1"
    states, inputs = [
        [plant.units.label(name) for name in names] for names in (plant.state_names(), plant.input_names())
    ]
    return "# " + ", ".join(["time", *([] if turn is None else ["turn"]), *states, "rank", *inputs])


def trace(
    table: Text, state: Sequence[int], turn: Optional[int], samples: int, drawn: Iterable[Sequence[int]]
) -> Iterator[str]:
    """The lines of a run."""
    plant = table.plant
    yield head_said(plant, turn)
    for time, noise in enumerate(drawn):
        if time and turn is not None and table.kind == "patrol":
            has_arrived, after = table.visit(turn, state)
            if has_arrived:
                yield f"visited {turn} {time}"
            turn = after
        row = row_of(table, turn, state)
        if row is None:
            yield " ".join(map(str, ["lost", time, *reals(plant, plant.states, state)]))
            return
        yield sample_said(plant, time, turn, state, row)
        if row[1] is None or time == samples:
            yield f"{'arrived' if row[1] is None else 'stopped'} {time}"
            return
        state = plant.step(state, plant.vector(row[1]), noise)


def worst(plant: Plant, seed: int) -> Iterator[list[int]]:
    """Disturbances that are each an end of its range."""
    for sample in noises(plant, seed):
        yield [low if value - low < high - value else high for value, (_, low, high) in zip(sample, plant.noises)]


def main(arguments: list[str]) -> int:
    parser = Arguments(
        prog="sim", description=__doc__, epilog=FORMAT, formatter_class=argparse.RawDescriptionHelpFormatter
    )
    parser.add_argument("text", metavar="TEXT", help="a table, a stay text or a patrol text, `-` for standard input")
    parser.add_argument(
        "samples",
        metavar="N",
        type=int,
        nargs="?",
        help="the most samples; with --real, where left out, as many as the ranks ask for",
    )
    parser.add_argument(
        "seed", metavar="SEED", type=int, nargs="?", help="what draws the disturbances; with --real, where left out, 1"
    )
    parser.add_argument(
        "state", metavar="X", nargs="*", help="the first state, one number for each of the plant's states"
    )
    parser.add_argument("--turn", metavar="J", type=int, help="the turn with which a patrol begins, from 0 (0)")
    parser.add_argument("--worst", action="store_true", help="disturbances at the ends of their ranges")
    parser.add_argument("--model", metavar="FILE", help=MODEL_HELP)
    parser.add_argument(
        "--real", metavar="MODEL", help="drive the equations of this model in doubles, from many states"
    )
    parser.add_argument("--runs", metavar="R", type=int, help="with --real, so many runs (2000)")
    parser.add_argument("--log", metavar="FILE", help="with --real, write a log of the runs as CSV")
    given = parser.parse_intermixed_args(arguments)
    check_arguments(given)
    if given.real is not None:
        prefer("numpy")
    try:
        table = read_text(read_bytes(given.text))
    except Refused as refusal:
        raise Trouble(f"{given.text}: {refusal.answer}: {refusal.reason}") from None
    turn = turn_asked(table, given.turn)
    return drive_model(given, table) if given.real is not None else drive_plant(given, table, turn)


def check_arguments(given: argparse.Namespace) -> None:
    """Raises Trouble where words are missing, out of their range or of the other kind."""
    if given.real is None:
        check_plant_arguments(given)
    elif given.worst:
        raise Trouble("--runs goes with --real, and --worst without it", 2)
    elif given.model is not None:
        raise Trouble("--real has the model already; --model is for runs of the plant", 2)
    if (given.samples or 0) < 0 or not 0 <= (given.seed or 0) < 2**64:
        raise Trouble("N is at least 0, and SEED from 0 to 2^64 - 1", 2)
    if given.runs is not None and not 1 <= given.runs <= MOST_RUNS:
        raise Trouble(f"--runs takes a number from 1 to {MOST_RUNS}", 2)


def check_plant_arguments(given: argparse.Namespace) -> None:
    """The same of words without --real."""
    if given.samples is None or given.seed is None or not given.state:
        raise Trouble("the words are TEXT N SEED X1 .. Xm, or --real MODEL TEXT; see --help", 2)
    if given.runs is not None:
        raise Trouble("--runs goes with --real, and --worst without it", 2)
    if given.log is not None:
        raise Trouble("--log goes with --real", 2)


def check_count(table: Text, state: Sequence[object]) -> None:
    if len(state) != len(table.plant.states):
        names = " ".join(name for name, *_ in table.plant.states)
        raise Trouble(
            f"a state of this plant has {len(table.plant.states)} numbers ({names}), here are {len(state)}", 2
        )


def drive_plant(given: argparse.Namespace, table: Text, turn: Optional[int]) -> int:
    """Writes the trace of the plant's whole numbers."""
    plant = table.plant
    plant.units = units_for(given.model, plant)
    state = state_of(plant, given.state, plant.units)
    if outside := outside_said(plant, state, plant.units):
        raise Trouble("no row: the state is outside the domain: " + outside)
    if row_of(table, turn, state) is None:
        raise Trouble("no row: no strategy was found from its cell; `tools/why` says why")
    for line in trace(table, state, turn, given.samples, (worst if given.worst else noises)(plant, given.seed)):
        print(line)
    return 0


def drive_model(given: argparse.Namespace, table: Text) -> int:
    """Drives the model in doubles, and writes what was seen."""
    from ..models.agreement import check_model, model_at
    from ..ways.real_runs import real_runs

    model = model_at(given.real)
    try:
        state = [number_of(word) for word in given.state] or None
    except Fault as fault:
        raise Trouble(f"a state is told in the model's units: {fault}", 2) from None
    check_model(given.real, model, table.plant)
    if state:
        check_count(table, state)
    drive = partial(
        real_runs,
        model,
        table,
        given.runs or RUNS,
        given.samples,
        1 if given.seed is None else given.seed,
        state,
        given.turn,
    )
    if given.log is None:
        outcome = drive()
    else:
        with open(given.log, "w", encoding="utf-8", newline="\n") as log:
            outcome = drive(log)
    for line in seen(model, table, outcome):
        print(line)
    return 1 if outcome.violations else 0


def seen(model: Model, table: Text, outcome: Outcome) -> Iterator[str]:
    """The lines that say what runs in doubles have shown."""
    broken = sum(outcome.violations.values())
    yield f"{outcome.runs} runs, {outcome.samples} samples: {broken} violation{'s' * (broken != 1)}"
    for what, count in outcome.violations.most_common():
        yield f"  {what}: {count}"
    if outcome.starts:
        yield "begun " + "; ".join(
            f"{kind}: {count} runs, {outcome.broken[kind]} broken" for kind, count in sorted(outcome.starts.items())
        )
    yield f"between samples: {outcome.touched} runs touch an obstacle, {outcome.left} leave the domain"
    if outcome.touch:
        time, state, run = outcome.touch
        yield f"  first behind sample {time} of run {run}: {named(model, state)}"
    if outcome.first:
        yield f"first violation: {outcome.first}"
        for time, turn, state, rank, choice in outcome.trace:
            row = (
                ""
                if rank is None or choice is None
                else f" rank {'-' if rank < 0 else rank}, "
                + (table.plant.input_said(choice) if choice >= 0 else "no input")
            )
            yield f"  {time}{'' if turn is None else f' turn {turn}'}: {named(model, state)}{row}"


def named(model: Model, state: Sequence[float]) -> str:
    return ", ".join(f"{name} = {value!r}" for (name, *_), value in zip(model.states, state))


def turn_asked(table: Text, given: Optional[int]) -> Optional[int]:
    """The turn with which a run begins, None where there are no turns."""
    if table.kind != "patrol":
        if given is not None:
            raise Trouble("--turn is for patrol texts", 2)
        return None
    turn = given or 0
    if not 0 <= turn < len(table.turns):
        raise Trouble(f"there are {len(table.turns)} turns, from 0; {turn} is none")
    return turn


run = partial(start, "sim", main)
