"""The examples that stay and that patrol, driven for long: a stay text from each cell at the border of what is won, a
patrol text in each turn from some cells, under random disturbances and under extreme ones. The runs know nothing of the
tools' simulator."""

import os
import random
from pathlib import Path

from gaffcurrant_plant.plants.bounds import SHAPES, value_at
from gaffcurrant_plant.plants.expression import parts_of
from gaffcurrant_plant.plants.reader import read_plant

from .oracle import TableReader

EXAMPLES = Path(__file__).resolve().parents[2] / "examples"
SAMPLES = int(os.environ.get("GAFFCURRANT_SAMPLES", 100_000))
STAYING, PATROLLING, STARTS = ("boost_stay",), ("docks", "watch"), 12

STEP = """
def driven(state, turn, noises):
    {states}, = state
    cell = {cell}
    rank, vector = rows[turn][cell]
    left = rank
    for time, ({noises}) in enumerate(noises):
        {inputs}, = vectors[vector]
        {states}, = {equations},
        if not ({inside}) or {blocked}:
            return f"sample {{time}}: {{({states},)}} is outside or in an obstacle"
        cell = {cell}
        left -= 1
        {judge}
    return None
"""
# By a stay text the rank falls to 0 within itself, and at 0 the state lies in a target.
STAY = """if left < 0:
            left = 0
        row = rows[turn].get(cell)
        if row is None or row[0] > left or not left and not ({targets}):
            return f"sample {{time}}: {{({states},)}} with {{left}} samples left"
        rank, vector = row"""
# By a patrol text the state comes to the turn's target within the rank with which the turn began.
PATROL = """if cell in arrivals[turn]:
            if not in_target({states}, turn):
                return f"sample {{time}}: {{({states},)}} isn't in target {{turn}}"
            turn = (turn + 1) % {turns}
            left = rows[turn][cell][0]
        row = rows[turn].get(cell)
        if row is None or row[0] > left or left < 1:
            return f"sample {{time}}: {{({states},)}} in turn {{turn}} with {{left}} samples left"
        rank, vector = row"""


def python_of(node, names):
    """An equation in Python's words."""
    if node[0] == "var":
        return names[node[1]]
    parts = [python_of(part, names) for part in parts_of(node)]
    return "(" + SHAPES[node[0]].format(node[0], *parts, *node[1 + len(parts) :]) + ")"


def box_said(plant, box):
    return " and ".join(f"{low} <= {name} <= {high}" for (name, *_), (low, high) in zip(plant.states, box))


def driver(plant, rows):
    """A function that drives the plant from a state in a turn, and tells what is wrong, or None. rows: for each turn
    the rows of its cells."""
    is_patrol = len(rows) > 1 or rows[0] and min(rank for rank, _ in rows[0].values()) > 0
    said = words_of(plant) | {"turns": len(rows)}
    said["judge"] = (PATROL if is_patrol else STAY).format(**said)
    inside = [set(cells_in(plant, box)) for box in plant.targets]
    arrivals = [inside[turn] & rows[(turn + 1) % len(rows)].keys() for turn in range(len(rows))] if is_patrol else []

    def in_target(*ends):
        return all(low <= value <= high for value, (low, high) in zip(ends, plant.targets[ends[-1]]))

    vectors = [tuple(plant.vector(number)) or (None,) for number in range(plant.vectors)]
    room = {"rows": rows, "vectors": vectors, "value_at": value_at, "arrivals": arrivals, "in_target": in_target}
    exec(STEP.format(**said), room)
    return room["driven"]


def words_of(plant):
    """What of a plant stands in STEP, in Python's words."""
    names, cell = plant.names(), "0"
    for (name, low, _, width), count in zip(plant.states, plant.counts):
        cell = f"({cell}) * {count} + ({name} - {low}) // {width}"
    return {
        "states": ", ".join(name for name, *_ in plant.states),
        "cell": cell,
        "noises": "".join(f"{name}, " for name, *_ in plant.noises),
        "inputs": ", ".join(name for name, _ in plant.inputs) or "_",
        "equations": ", ".join(python_of(node, names) for node in plant.equations),
        "inside": box_said(plant, [state[1:3] for state in plant.states]),
        "blocked": any_said(plant, plant.obstacles),
        "targets": any_said(plant, plant.targets),
    }


def any_said(plant, boxes):
    """That a state lies in one of the boxes."""
    return " or ".join(f"({box_said(plant, box)})" for box in boxes) or "False"


def cells_in(plant, box):
    """The cells that lie in a box whole."""
    return (
        cell
        for cell in range(plant.cells)
        if all(
            low <= first and last <= high for (low, high), first, last in zip(box, plant.low(cell), plant.high(cell))
        )
    )


def border(plant, rows):
    """The cells with a row beside which, along some state, there is none."""
    for cell in rows:
        indices = plant.indices_of(cell)
        beside = [[*indices[:i], indices[i] + side, *indices[i + 1 :]] for i in range(len(indices)) for side in (-1, 1)]
        if not all(is_cell(plant, other) and plant.cell_at(other) in rows for other in beside):
            yield cell


def is_cell(plant, indices):
    return all(0 <= index < count for index, count in zip(indices, plant.counts))


def rows_of(text, word):
    """The rows of each turn of the text that the program wrote."""
    reader = TableReader(text)
    reader.line()
    reader.plant()
    rows = []
    while True:
        words = reader.line().split()
        if words == [b"end"]:
            return rows
        lines = [list(map(int, reader.line().split())) for _ in range(int(words[-1]))]
        rows.append({cell: (rank, vector) for first, last, rank, vector in lines for cell in range(first, last + 1)})


def noises(plant, draws, extreme):
    return [
        tuple(draws.choice(ends) if extreme else draws.randint(*ends) for _, *ends in plant.noises)
        for _ in range(SAMPLES)
    ]


def cases(program):
    for name in STAYING + PATROLLING:
        yield f"{name} for {SAMPLES} samples", judge(program, name, "stay" if name in STAYING else "patrol")


def judge(program, name, word):
    def judged():
        data, draws = (EXAMPLES / name / f"{name}.plant").read_bytes(), random.Random(1)
        status, text, line = program.end([word, "1"], data)
        if status:
            return line.decode()
        plant, rows = read_plant(data), rows_of(text, word)
        driven, drawn = driver(plant, rows), [noises(plant, draws, extreme) for extreme in (False, True)]
        for turn, of_turn in enumerate(rows):
            starts = list(border(plant, of_turn)) if word == "stay" else draws.sample(sorted(of_turn), STARTS)
            for cell in starts:
                start = [draws.choice(ends) for ends in zip(plant.low(cell), plant.high(cell))]
                for samples in drawn:
                    if wrong := driven(start, turn, samples):
                        return f"from {start} in turn {turn}: {wrong}"
        return None

    return judged
