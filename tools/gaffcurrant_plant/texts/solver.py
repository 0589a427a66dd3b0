"""Scales models, solves plant texts by the program, and drives plants by what it wrote."""

from __future__ import annotations

import os
import shutil
import subprocess
from itertools import repeat
from pathlib import Path
from typing import Callable, Iterable, NamedTuple, Optional, SupportsInt, Union

from ..faults import Refused, Trouble
from ..plants.plant import Plant
from ..plants.reader import read_plant
from ..progress import Progress
from .loop import noises
from .table import Patrol, Stay, Table, read_patrol, read_stay, read_table

PACKAGE = Path(__file__).resolve().parents[1]
Disturbance = Callable[[int, tuple[int, ...], tuple[int, ...]], Iterable[SupportsInt]]


class Sample(NamedTuple):
    """One sample of a run: its time, the state, the rank (None with goal keep), the values applied (None in the target
    of a table with goal reach), and of a patrol the turn, whose target the plant is on its way to."""

    time: int
    state: tuple[int, ...]
    rank: Optional[int]
    inputs: Optional[tuple[int, ...]]
    turn: Optional[int] = None


def program() -> str:
    """The program: what GAFFCURRANT names, else the launcher of the repository in which this module lies or from which
    it was installed, which builds it where that is due, else the one that was installed with the module, else
    `gaffcurrant` as the shell finds it."""
    if named := os.environ.get("GAFFCURRANT"):
        if not shutil.which(named):
            raise Trouble(f"the environment variable GAFFCURRANT names `{named}`, and there is no such program")
        return named
    origin = PACKAGE / "ORIGIN"
    top = Path(origin.read_text().strip()) if origin.exists() else PACKAGE.parents[1]
    for launcher in (top / "gaffcurrant", PACKAGE.parents[2] / "bin" / "gaffcurrant"):
        if launcher.is_file():
            return str(launcher)
    return shutil.which("gaffcurrant") or "gaffcurrant"


def scale(model_text: Union[str, bytes], version: Optional[int] = None) -> str:
    """The plant text of a model, as tools/scale makes it; raises Trouble where the model can't be read or scaled."""
    from ..models.model import read_model
    from ..models.best_plant import planted

    model = read_model(model_text.encode() if isinstance(model_text, str) else bytes(model_text))
    model.version = version or model.version
    planting = planted(model)
    if model.between:
        from ..ways.wider_obstacles import text_between

        return str(text_between(planting, model.between, model.has_bounds, Progress("scale")))
    return str(planting.text)


def solve(plant_text: Union[str, bytes], workers: int = 1) -> Table:
    """The Table of a plant text; raises Refused where the program refuses it, with the reason."""
    return read_table(written("synth", plant_text, workers))


def stay(plant_text: Union[str, bytes], workers: int = 1) -> Stay:
    """The Stay of a plant text: brings the plant into its target and keeps it there. Refused as for solve."""
    return read_stay(written("stay", plant_text, workers))


def patrol(plant_text: Union[str, bytes], workers: int = 1) -> Patrol:
    """The Patrol of a plant text: visits its targets in turn for ever. Refused as for solve."""
    return read_patrol(written("patrol", plant_text, workers))


def written(word: str, plant_text: Union[str, bytes], workers: int) -> bytes:
    """The bytes that the program writes of a plant text at this word; raises Refused."""
    data = plant_text.encode() if isinstance(plant_text, str) else bytes(plant_text)
    done = subprocess.run([program(), word, str(workers)], input=data, capture_output=True, check=False)
    if done.returncode == 0:
        return done.stdout
    answer = (done.stderr.decode("utf-8", "replace").strip().splitlines() or [f"status {done.returncode}"])[-1]
    if answer.startswith(("malformed", "limit", "overflow")):
        read_plant(data)
    raise Refused(answer, f"the program ended with status {done.returncode}")


def simulate(
    table: Union[Table, Patrol],
    state: Iterable[SupportsInt],
    disturbance: Optional[Disturbance] = None,
    samples: int = 1000,
    seed: int = 0,
    turn: int = 0,
) -> list[Sample]:
    """A run of a plant from a state by its Table, Stay or Patrol, as a list of Samples: until the target of a table is
    reached, or for so many steps. disturbance is called with the time, the state and the inputs' values, and answers
    the noises of that sample, each within its range; where it is left out, they are those that the program's `sim`
    draws from the seed. A patrol begins with a turn, and goes over to the next where a later sample has come to the
    turn's target. Raises NoRow where a state has no row."""
    plant, run = table.plant, list[Sample]()
    whole = [int(value) for value in state]
    drawn: Iterable[list[int]] = noises(plant, seed) if disturbance is None else repeat([])
    for time, noise in zip(range(samples + 1), drawn):
        at = None
        if isinstance(table, Patrol):
            turn = at = table.turn_after(turn, whole) if time else turn
            rows: Table = table.turns[turn]
        else:
            rows = table
        inputs = rows.choice(whole)
        run.append(Sample(time, tuple(whole), rows.rank(whole), inputs, at))
        if inputs is None or time == samples:
            break
        if disturbance is not None:
            noise = checked(plant, disturbance(time, tuple(whole), inputs))
        whole = plant.step(whole, inputs, noise)
    return run


def checked(plant: Plant, noise: Iterable[SupportsInt]) -> list[int]:
    """The noises of a sample as whole numbers; raises ValueError where they aren't what the plant allows."""
    whole = [int(value) for value in noise]
    if len(whole) != len(plant.noises) or any(
        not low <= value <= high for value, (_, low, high) in zip(whole, plant.noises)
    ):
        wanted = ", ".join(f"{name} {low} to {high}" for name, low, high in plant.noises)
        raise ValueError(f"the disturbance {whole} isn't one of the plant's ({wanted or 'it has none'})")
    return whole
