"""Each example is solved, its README states its numbers, its plant is what tools/scale makes of its model, and the
table of one with `goal reach` drives it."""

import random
import re
import subprocess
import sys

from gaffcurrant_plant.plants.reader import read_plant
from gaffcurrant_plant.texts.table import read_text

from .driving import lies_in_any, runs_of
from .product import ran
from .tool_case import TOP, ToolCase, has

STARTS = 60


class Examples(ToolCase):
    """The examples that are plants."""

    def test_models(self):
        """The plant is what tools/scale makes of its model."""
        for name in self.examples():
            model = self.model_of(name)
            if model.exists() and can_be_scaled(model.read_text()):
                status, text, _ = self.tool("scale", model)
                wanted = (0, self.plant_text(name).decode())
                self.equal(f"{name}: the plant is that of its model", wanted, (status, text))

    def test_texts(self):
        for name in self.examples():
            self.text_is_that_of_readme(name, self.texts(name))

    def text_is_that_of_readme(self, name, texts):
        """A text is made, its plant and its numbers are those of the README, and it drives the plant."""
        self.holds(f"{name}: its README makes a text", texts)
        path, text = next(iter(texts.items()))
        if text is None and not path.endswith(".table"):
            self.left_out(f"the program doesn't make {path} yet")
            return
        self.holds(f"{name}: is solved", text)
        if not text:
            return
        table, said = read_text(text), stated(name)
        self.equal(f"{name}: the text has the plant", read_plant(self.plant_text(name)).text(), table.plant.text())
        self.equal(f"{name}: the numbers of its README", said, numbers_of(table, said))
        self.numbers_of_both_versions(name, texts)
        self.drives(name, table)

    def numbers_of_both_versions(self, name, texts):
        """The README's lines of both versions: edges, cells with a row, and the greatest rank."""
        row = re.compile(r"^\| ([12]) \| ([0-9,]+) \| ([0-9,]+) \| ([0-9]+) \|$", re.M)
        lines = row.findall((TOP / "examples" / name / "README.md").read_text())
        wanted = {int(version): [int(one.replace(",", "")) for one in numbers] for version, *numbers in lines}
        if wanted and (has("mpmath") and has("numpy") or all(texts.values())):
            tables = [read_text(text) for text in texts.values()]
            got = {one.plant.version: [one.plant.edges()[0], len(one.rows), greatest_rank(one)] for one in tables}
            self.equal(f"{name}: the numbers of both versions", wanted, got)

    def drives(self, name, table):
        """Runs from random cells keep what the text promises."""
        if table.kind != "table":
            faults, count = runs_of(table, random.Random(1), STARTS)
            self.equal(f"{name}: runs", [], faults[:2])
            self.holds(f"{name}: runs were driven", count >= STARTS, str(count))
        elif table.plant.goal == "reach":
            self.equal(f"{name}: runs arrive", [], [fault for fault in faults_of(table) if fault])


def can_be_scaled(model):
    """Whether the modules are there that a model needs."""
    needs_mpmath = re.search(r"^d |^next.*[a-z]\(", model, re.M)
    needs_numpy = re.search(r"^between", model, re.M)
    return (has("mpmath") or not needs_mpmath) and (has("numpy") or not needs_numpy)


def greatest_rank(table):
    return max(rank for rank, _ in table.rows.values())


def numbers_of(table, said):
    """The numbers of a text: for the edges those that are said, where they are counted by a sample alone and a fiftieth
    off at most."""
    plant = table.plant
    edges, exact = plant.edges()
    if not exact and said and abs(said[3] - edges) * 50 <= edges:
        edges = said[3]
    sizes = [plant.cells, plant.vectors, plant.pairs, edges]
    if table.kind == "patrol":
        rows = [rank for turn in table.turns for rank, _ in turn.rows.values()]
        return sizes + [len(table.turns), len(rows), max(rows)]
    ranks = [rank for rank, _ in table.rows.values()]
    held = [ranks.count(0)] if table.kind == "stay" else []
    return sizes + [len(ranks)] + held + ([] if table.keeps else [max(ranks)])


def stated(name):
    """The numbers of the table in an example's README."""
    lines = (TOP / "examples" / name / "README.md").read_text().splitlines()
    at = next((i for i, line in enumerate(lines) if line.startswith("| cells |")), None)
    if at is None:
        return None
    words = [word.strip().replace(",", "") for word in lines[at + 2].strip("|").split("|")]
    return [int(word) for word in words] if all(re.match(r"[0-9]+\Z", word) for word in words) else None


def faults_of(table):
    """Runs from corners of ranked cells under random and extreme disturbances: what is wrong with each, or None."""
    plant, draws = table.plant, random.Random(1)
    cells = sorted(table.rows)
    for cell in [cells[0], cells[-1]] + draws.choices(cells, k=STARTS):
        start = [draws.choice(ends) for ends in zip(plant.low(cell), plant.high(cell))]
        yield fault_of(table, cell, start, draws)


def fault_of(table, cell, start, draws):
    """Steps a run by hand: an obstacle, a state outside or a rank that doesn't fall is a fault."""
    plant, state, rank = table.plant, start, table.rows[cell][0]
    extreme = draws.random() < 0.5
    for left in range(rank, -1, -1):
        row = table.rows.get(plant.cell_of(state))
        if row is None or lies_in_any(state, plant.obstacles) or row[0] > left:
            return f"from {start}: {state} with {left} samples left"
        if row[1] is None:
            return None if lies_in_any(state, plant.targets) else f"from {start}: {state} is in no target"
        noise = [draws.choice([low, high]) if extreme else draws.randint(low, high) for _, low, high in plant.noises]
        state = plant.step(state, plant.vector(row[1]), noise)
    return f"from {start}: not there after {rank} samples"


class Compare(ToolCase):
    """examples/pendulum/compare."""

    def test_runs(self):
        status, _, error = ran(sys.executable, TOP / "examples/pendulum/compare", "2000")
        self.equal("examples/pendulum/compare", (0, ""), (status, error))

    def test_full_device(self):
        command = [sys.executable, TOP / "examples/pendulum/compare", "9"]
        with open("/dev/full", "wb") as full:
            done = subprocess.run(command, stdout=full, stderr=subprocess.PIPE, check=False)
        self.equal("to a full device", (1, 1), (done.returncode, done.stderr.count(b"\n")))
