"""The examples with `goal keep`, by a few lines that know nothing of the solver: runs of 10,000 samples under random
and extreme disturbances from each kept cell, and the kept cells once more, by taking cells away until none is left to
be taken. Of a plant with many kept cells a few are driven, for fewer samples."""

import functools
import itertools
import random

from gaffcurrant_plant.texts.table import read_table

from .tool_case import ToolCase

SAMPLES, FEW_SAMPLES = 10_000, 2_000
MANY, STARTS = 2_000, 60
RUNS = 16


class Keep(ToolCase):
    """Tables of plants that are to be kept."""

    def test_runs_stay(self):
        kept = [name for name in self.examples() if b"\ngoal keep\n" in self.plant_text(name)]
        self.holds("there are plants that are to be kept", kept)
        for name in kept:
            text = self.table_text(name)
            self.holds(f"{name}: is solved", text)
            if text:
                self.equal(f"{name}: runs from kept cells stay", [], lost_from(text.decode()))

    def test_kept_cells_again(self):
        table = read_table(self.table_text("lane"))
        self.equal("lane: the kept cells, found again", kept_again(table.plant), table.rows)


def lost_from(text):
    """The kept cells from which a run doesn't stay."""
    front, _, rows = text.partition("\nrows ")
    lines = [line.split() for line in front.splitlines()]
    words = [line.split() for line in rows.splitlines()[1:-1]]
    chosen = {cell: int(word[-1]) for word in words for cell in range(int(word[0]), int(word[-3]) + 1)}
    stays, draws, few = runner(lines, chosen), random.Random(1), len(chosen) > MANY
    noises = [
        [noise_of(lines, draws, run % 2 == 0) for _ in range(FEW_SAMPLES if few else SAMPLES)] for run in range(RUNS)
    ]
    starts = draws.sample(sorted(chosen), STARTS) if few else sorted(chosen)
    return [cell for k, cell in enumerate(starts) if not stays(start_in(lines, cell, draws), noises[k % RUNS])]


def runner(lines, chosen):
    """A function that says of a state and the noises of each sample whether the plant stays in its ranges, off its
    obstacles and in cells with rows; its body is made of the plant's lines, so that millions of samples take
    seconds."""
    states, inputs, noises, boxes, equations = map(
        functools.partial(lines_of, lines), ("state", "input", "noise", "obstacle", "next")
    )
    vectors = list(itertools.product(*[map(int, values) for _, *values in inputs]))
    names, inputs, noises = ("".join(f"{name}, " for name, *_ in part) or "_" for part in (states, inputs, noises))
    after = "".join(" ".join(words[2:]).replace("/", "//") + ", " for words in equations)
    cell, inside = cell_said(states), within(states, [number for _, *ends, _ in states for number in ends])
    off = "".join(f" and not ({within(states, box)})" for box in boxes)
    source = f"""
def stays(state, samples):
    {names}= state
    for {noises} in samples:
        row = rows.get({cell}) if {inside}{off} else None
        if row is None:
            return False
        {inputs}= row
        {names}= {after}
    return {inside}{off} and {cell} in rows
"""
    room = {"rows": {cell: vectors[number] for cell, number in chosen.items()}}
    exec(source, room)
    return room["stays"]


def lines_of(lines, keyword):
    return [words[1:] for words in lines if words[0] == keyword]


def cell_said(states):
    """The number of a state's cell, in Python's words."""
    said = "0"
    for name, low, high, width in states:
        said = f"({said}) * {(int(high) - int(low) + 1) // int(width)} + ({name} - {low}) // {width}"
    return said


def within(states, ends):
    """That a state lies in a box, in Python's words."""
    return " and ".join(f"{low} <= {name} <= {high}" for (name, *_), low, high in zip(states, ends[::2], ends[1::2]))


def noise_of(lines, draws, extreme):
    """The noises of one sample: an end of each range, or anything in it."""
    ranges = [(int(words[2]), int(words[3])) for words in lines if words[0] == "noise"]
    return tuple(draws.choice(ends) if extreme else draws.randint(*ends) for ends in ranges)


def start_in(lines, cell, draws):
    """A state of a cell, mostly one of its corners."""
    state = []
    for _, _, low, high, width in reversed([words for words in lines if words[0] == "state"]):
        cell, index = divmod(cell, (int(high) - int(low) + 1) // int(width))
        first = int(low) + index * int(width)
        last = first + int(width) - 1
        state.insert(0, draws.choice((first, last, draws.randint(first, last))))
    return state


def kept_again(plant):
    """For each kept cell no rank and the least input after which every cell is kept: from all cells that are no
    obstacle those are taken away that no input keeps among the rest, until there is none."""
    cells = [cell for cell in range(plant.cells) if not plant.is_obstacle(cell)]
    after = {cell: [plant.successors(cell, vector) for vector in range(plant.vectors)] for cell in cells}
    left = set(after)
    while True:
        keeping = {cell: keeping_inputs(after[cell], left) for cell in left}
        fallen = {cell for cell in left if not keeping[cell]}
        if not fallen:
            return {cell: (None, vectors[0]) for cell, vectors in keeping.items()}
        left -= fallen


def keeping_inputs(after, left):
    """The inputs whose successors there are, and are all among the cells that are left."""
    return [vector for vector, cells in enumerate(after) if cells and left.issuperset(cells)]
