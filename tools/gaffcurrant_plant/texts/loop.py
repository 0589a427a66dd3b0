"""Runs of the closed loop as the program's traces have them, and their text."""

from __future__ import annotations

from typing import Callable, Iterable, Iterator, Optional, Sequence

from ..faults import Refused
from ..plants.kinds import Cell, Row
from ..plants.plant import Plant
from ..plants.reader import lines_of
from .promise import turn_after

MULTIPLIER, INCREMENT = 6364136223846793005, 1442695040888963407


def noises(plant: Plant, seed: int) -> Iterator[list[int]]:
    """The disturbances of a run, sample by sample, from a linear congruential generator."""
    state = seed
    while True:
        sample = []
        for _, low, high in plant.noises:
            state = (state * MULTIPLIER + INCREMENT) % 2**64
            sample.append(low + (state >> 33) % (high - low + 1))
        yield sample


def run(
    plant: Plant, row_of: Callable[[Cell], Optional[Row]], start: Sequence[int], seed: int, most: int
) -> list[list[int]]:
    """The states of a run: until rank 0, a cell without a row, or `most` steps. row_of gives (rank, input) or None."""
    states, state = [list(start)], list(start)
    for _, noise in zip(range(most), noises(plant, seed)):
        cell = plant.cell_of(state)
        row = None if cell is None else row_of(cell)
        if row is None or row[1] is None:
            break
        state = plant.step(state, plant.vector(row[1]), noise)
        states.append(state)
    return states


def patrol_run(
    plant: Plant,
    row_of: Callable[[int, Cell], Optional[Row]],
    arrives: Callable[[int, Cell], bool],
    start: Sequence[int],
    seed: int,
    most: int,
    turn: int = 0,
) -> list[tuple[int, list[int]]]:
    """The samples of a run by a patrol as (turn, state), from a turn: until a cell without a row, or `most` steps.
    row_of gives the row of a cell in a turn, or None; arrives tells whether a cell is an arrival of a turn."""
    samples, state = [(turn, list(start))], list(start)
    for _, noise in zip(range(most), noises(plant, seed)):
        cell = plant.cell_of(state)
        row = None if cell is None else row_of(turn, cell)
        if row is None or row[1] is None:
            break
        state = plant.step(state, plant.vector(row[1]), noise)
        cell = plant.cell_of(state)
        turn = turn_after(turn, cell is not None and arrives(turn, cell), len(plant.targets))
        samples.append((turn, state))
    return samples


def stretches(samples: Iterable[tuple[int, list[int]]], turn: int) -> list[list[list[int]]]:
    """The parts of a run by a patrol in one turn, each up to the sample that has come to the turn's target."""
    parts: list[list[list[int]]] = []
    is_on = False
    for at, state in samples:
        if is_on:
            parts[-1].append(state)
        if at == turn and not is_on:
            parts.append([state])
        is_on = at == turn
    return [part for part in parts if len(part) > 1]


def read_trace(data: bytes, plant: Plant) -> list[list[int]]:
    """The states of a trace text, or raises Refused."""
    lines = lines_of(data)
    if not lines or lines[0] != "trace 1":
        raise Refused("malformed: line 1", "a trace begins with `trace 1`", 1)
    states: list[list[int]] = []
    wide = len(plant.states)
    for number, line in enumerate(lines[1:], 2):
        words = line.split(" ")
        if words[0] in ("arrived", "stopped"):
            break
        try:
            at = 2 if words[0] == "lost" else 1
            states.append([int(word) for word in words[at : at + wide]])
            if len(states[-1]) < wide or len(words) != wide + (2 if at == 2 else 3):
                raise ValueError
        except ValueError:
            raise Refused(
                f"malformed: line {number}", f"a sample has its time, {wide} states, a rank and an input", number
            ) from None
    if not states:
        raise Refused("malformed: line 2", "the trace has no sample", 2)
    return states
