"""A page in a browser beside the module and the program: rows, causes and runs of texts, two texts, ways between
samples, and how fast a slider moves."""

import json
import random
from typing import NamedTuple

from gaffcurrant_plant.models import formula
from gaffcurrant_plant.plants.bounds import TOP as TOP_OF_RANGE
from gaffcurrant_plant.models.arithmetic import Floats
from gaffcurrant_plant.models.model import read_model
from gaffcurrant_plant.plants.reader import read_plant
from gaffcurrant_plant.texts.table import read_text, text_of_table
from gaffcurrant_plant.models.trial import runge_kutta

from .browser_case import BrowserCase
from .worked_texts import PATROL, STAY

CELLS, LOOKED, RUNS = 1000, 40, 6
# tools/sim keeps a row of Python's for each cell.
MOST_OF_SIM = 50_000
# Frames in which a slider moves, and how many times the processor time of frames of random pixels they may take. 60
# frames a second leave one second.
FRAMES, MOST_TIMES = 60, 8

# Numbers past 2^53, which the page counts by BigInt.
FAR = 10**17
WIDE = f"""table 2
plant 2
state x {FAR} {FAR + 79} 8
input u -11 0 11
noise w -2 2
next x = x + u + w + (x - {FAR}) * {FAR} / {4 * FAR}
target {FAR} {FAR + 15}
obstacle {FAR + 60} {FAR + 61}
goal reach
end
rows 3
0 1 0 -
2 3 1 0
4 5 2 0
end
"""
# Three states, one to be kept, tables of points, one to stay.
SOLVED = (("lane", "synth"), ("pump", "synth"), ("vehicle", "synth"), ("boost_stay", "stay"))


class Texts(BrowserCase):
    """Rows at random cells, what stops inputs, and runs, of each turn of a text."""

    def test_cart(self):
        self.answers_as("cart.table", *self.example("cart/cart.table"))

    def test_docks(self):
        self.answers_as("docks.patrol", *self.example("docks/docks.patrol"))

    def test_line(self):
        self.answers_as("line.table", *self.example("line/line.table"))

    def test_stay_text_by_hand(self):
        self.answers_as("stay.stay", self.placed("stay.stay", STAY), read_text(STAY.encode()))

    def test_patrol_text_by_hand(self):
        self.answers_as("ends.patrol", self.placed("ends.patrol", PATROL), read_text(PATROL.encode()))

    def test_numbers_past_2_to_53(self):
        self.answers_as("wide.table", self.placed("wide.table", WIDE), read_text(WIDE.encode()))
        self.equal("its numbers", "bigint", self.ask("typeof gaffcurrant.texts[0].plant.states[0][1]"))

    def test_numbers_of_cart(self):
        self.open([self.example("cart/cart.table")[0]])
        self.equal("its numbers", "number", self.ask("typeof gaffcurrant.texts[0].plant.states[0][1]"))

    def test_solved_texts(self):
        for name, word in SOLVED:
            status, data, _ = self.execute((word, "1"), self.plant_text(name))
            self.equal(f"{word} of {name}", 0, status)
            path = f"{name}.{'stay' if word == 'stay' else 'table'}"
            self.answers_as(path, self.placed(path, data), read_text(data))

    def answers_as(self, name, path, text):
        self.open([path])
        draws, plant = random.Random(name), text.plant
        for turn, part in enumerate(text.turns if text.kind == "patrol" else [text]):
            cells = [draws.randrange(plant.cells) for _ in range(CELLS)]
            wanted = [[*part.rows.get(cell, (-1, -1)), int(plant.is_obstacle(cell))] for cell in cells]
            got = self.ask(f"probe.rows({turn}, {cells})")
            self.equal(f"{name}: rows of turn {turn} at {CELLS} random cells", wanted, got)
            self.tells_causes(f"{name}, turn {turn}", part, turn, draws)
            self.runs_as_sim(name, path.read_bytes(), text, turn, draws)

    def tells_causes(self, name, table, turn, draws):
        """What inputs do at random cells, most of them without a row, is what `why` tells."""
        plant, lost = table.plant, [cell for cell in range(table.plant.cells) if cell not in table.rows]
        cells = draws.sample(lost, min(LOOKED, len(lost))) + [draws.randrange(plant.cells) for _ in range(LOOKED // 4)]
        pairs = [[cell, draws.randrange(plant.vectors)] for cell in cells]
        for (cell, vector), got in zip(pairs, self.ask(f"probe.verdicts({turn}, {pairs})")):
            what = f"{name}: what input {vector} does at cell {cell}"
            self.equal(what, verdict_of(table, cell, vector), got)

    def runs_as_sim(self, name, data, text, turn, draws):
        """Runs from random states of cells with rows, as the program's `sim` and tools/sim write them."""
        rows, plant = part_of(text, turn).rows, text.plant
        for k, cell in enumerate(draws.sample(sorted(rows), min(RUNS, len(rows)))):
            seed, most = draws.choice([0, 7, draws.randrange(2**64)]), draws.choice([0, 3, 50])
            start = [draws.randint(low, high) for low, high in zip(plant.low(cell), plant.high(cell))]
            noise = ("random", "ends", "hardest")[k % 3]
            wanted = self.trace_of(data, text, (start, turn, most, seed, noise))
            if wanted is not None:
                how = json.dumps({"turn": turn, "most": most, "seed": str(seed), "noise": noise})
                got = self.ask(f"probe.trace({json.dumps(list(map(str, start)))}, {how})")
                what = f"{name}: a run from {start} in turn {turn}, {noise} disturbances, seed {seed}"
                self.equal(what, wanted, got)

    def trace_of(self, data, text, run):
        """The lines of a run by the program, by tools/sim or by hand; None where the text is large for tools/sim."""
        start, turn, most, seed, noise = run
        if noise == "hardest":
            return hardest_trace(text, start, turn, most)
        if noise == "random" and text.kind == "table":
            return self.execute(("sim", str(most), str(seed), *map(str, start)), data)[1].decode().splitlines()
        if text.plant.cells > MOST_OF_SIM:
            return None
        more = ["--worst"] * (noise == "ends") + (["--turn", turn] if text.kind == "patrol" else [])
        return self.tool("sim", "-", most, seed, *start, *more, data=data)[1].splitlines()


class Stop(NamedTuple):
    """What stops an input: its kind, the successors without a row, and how many successors there are."""

    kind: str
    lost: tuple = ()
    fan: int = 0


def stop_of(table, cell, vector):
    """What stops an input at a cell, or None where each successor has a row."""
    cells = table.plant.successors(cell, vector)
    lost = tuple(one for one in cells if not table.has(one))
    if not cells:
        return Stop("edge")
    if not lost:
        return None
    if any(map(table.plant.is_obstacle, lost)):
        return Stop("obstacle", lost, len(cells))
    comes_back = cell in lost and (not table.keeps or len(lost) == 1)
    return Stop("itself" if comes_back else "onward", lost, len(cells))


def verdict_of(table, cell, vector):
    stop, plant = stop_of(table, cell, vector), table.plant
    box = [[str(low), str(high)] for low, high in zip(*plant.box(cell, vector))]
    if stop is None:
        cells = plant.successors(cell, vector)
        return ["good", len(cells), 0, [], 1 + max(table.left(one) or 0 for one in cells), box]
    return [stop.kind, stop.fan, len(stop.lost), list(stop.lost)[:50], 0, box]


def hardest_trace(text, state, turn, most):
    """The trace under the disturbances at ends of their ranges after which the most samples are left, of equal ones the
    first."""
    plant, lines, is_patrol = text.plant, ["trace 1"], text.kind == "patrol"
    for time in range(most + 1):
        if time and is_patrol and plant.cell_of(state) in text.turns[turn].arrivals:
            lines.append(f"visited {turn} {time}")
            turn = text.turn_after(turn, state)
        part = part_of(text, turn)
        row = part.rows.get(plant.cell_of(state))
        if row is None:
            return lines + [" ".join(map(str, ["lost", time, *state]))]
        words = ["-" if word is None else word for word in row]
        lines.append(" ".join(map(str, [time, *[turn] * is_patrol, *state, *words])))
        if row[1] is None or time == most:
            return lines + [f"{'arrived' if row[1] is None else 'stopped'} {time}"]
        state = hardest_of(part, [plant.step(state, plant.vector(row[1]), corner) for corner in corners_of(plant)])
    return lines


def part_of(text, turn):
    return text.turns[turn] if text.kind == "patrol" else text


def hardest_of(part, states):
    """The first of the states from which the most samples are left."""
    return max(states, key=lambda state: left_at(part, part.plant.cell_of(state)))


def corners_of(plant):
    """All ways to put each disturbance at an end of its range."""
    corners = [[]]
    for _, low, high in plant.noises:
        corners = [corner + [end] for corner in corners for end in (low, high)]
    return corners


def left_at(part, cell):
    return TOP_OF_RANGE if cell is None or not part.has(cell) else part.left(cell) or 0


class TwoTexts(BrowserCase):
    """Two texts side by side: a map each, and one of how they differ."""

    def test_differences(self):
        path, one = self.example("cart/cart.table")
        rows = {cell: changed(cell, *row) for cell, row in one.rows.items() if cell % 11}
        self.open([path, self.placed("other.table", text_of_table(one.plant, rows))])
        self.equal("maps of two texts", 3, self.ask("document.querySelectorAll('figure').length"))
        kinds = {}
        for cell, colour in enumerate(self.ask("probe.differences(400)")):
            kinds.setdefault(kind_of(one, rows, cell), set()).add(colour)
        self.holds("each kind of difference has one colour", all(len(some) == 1 for some in kinds.values()), kinds)
        colours = {colour for some in kinds.values() for colour in some}
        self.holds("and a colour of its own", len(colours) == len(kinds) >= 4, kinds)


def changed(cell, rank, choice):
    return (rank + 2 if rank and not cell % 7 else rank), choice


def kind_of(one, rows, cell):
    """How two tables differ at a cell."""
    if cell in one.rows and cell in rows:
        return one.rows[cell][0] - rows[cell][0]
    return "obstacle" if one.plant.is_obstacle(cell) else ("first" * (cell in one.rows) or "neither")


MASS = """sample 0.4
state x -2.03 2.03 0.07 0.01
state v -2.03 2.03 0.07 0.01
input u 0.1 -1 -0.5 0 0.5 1
A 0 1
A 0 0
B 0
B 1
w -0.004 0.004
w -0.02 0.02
target -0.21 0.21 -0.21 0.21
goal reach
"""


class Ways(BrowserCase):
    """Ways between samples."""

    def test_straight_way(self):
        """The way of a mass that is pushed goes by its equations, and begins and ends in samples."""
        status, data, _ = self.execute(("synth", "1"), self.scaled(MASS).encode())
        self.equal("the mass is solved", 0, status)
        self.open([self.placed("mass.table", data), "--model", self.placed("mass.model", MASS)])
        wanted = [0.3 - 0.2 * 0.4 + 0.5 * 0.4**2 / 2, -0.2 + 0.5 * 0.4]
        self.leads_to("of a mass", [0.3, -0.2], 0.5, wanted)
        gap = self.ask("probe.gap([-150, 0])")
        self.holds("ways begin and end in samples", gap is not None and gap < 1e-9, str(gap))

    def test_curved_way(self):
        """The way of the cart's pendulum is that of Runge and Kutta's method in Python; and a table may have no row."""
        plant, path = read_plant(self.plant_text("cart_pendulum")), self.model_of("cart_pendulum")
        table = self.placed("upright.table", f"table 2\n{plant.text()}rows 0\nend\n")
        self.open([table, "--model", path])
        model, start, steps = read_model(path.read_bytes()), [0.05, -0.3, 0.4], 12
        names, wanted = [state[0] for state in model.states], start

        def slope(at):
            values = dict(zip(names, at)) | {"u": -3.0, "f": 0.0}
            return [formula.value_of(side, values, Floats) for side in model.flows]

        for _ in range(steps):
            wanted = runge_kutta(slope, wanted, float(model.sample) / steps)
        self.leads_to("of a pendulum", start, -3, wanted)
        summary = self.ask("document.getElementById('summary').innerText")
        self.holds("a table without rows is told", "0 are kept" in summary, summary)

    def leads_to(self, name, start, value, wanted):
        """Where the way from a state ends under the value of an input."""
        got = self.ask(f"probe.desk().view.flow.course({start}, [{value}]).pop()")
        near = len(got) == len(wanted) and all(abs(a - b) < 1e-12 for a, b in zip(got, wanted))
        self.holds(f"the way {name}", near, f"{got}, wanted {wanted}")


def large_table(counts):
    """A table of three states whose rows are random, and no plant's."""
    draws, cells, at, last, rows = random.Random(3), counts[0] * counts[1] * counts[2], 0, None, []
    while at < cells:
        length, row = draws.randint(1, 12), (draws.randint(1, 300), draws.randrange(3))
        is_written = draws.random() < 0.8 and row != last and row[0] < cells
        if is_written:
            rows.append(f"{at} {min(at + length, cells) - 1} {row[0]} {row[1]}")
        at, last = at + length, row if is_written else None
    states = "".join(f"state {name} 0 {10 * count - 1} 10\n" for name, count in zip("xyz", counts))
    steps = "".join(f"next {name} = {name} + u + w\n" for name in "xyz")
    plant = f"plant 1\n{states}input u -12 0 12\nnoise w -1 1\n{steps}target 0 99 0 99 0 99\ngoal reach\nend\n"
    return "\n".join([f"table 2\n{plant}rows {len(rows)}", *rows, "end\n"])


class Frames(BrowserCase):
    """How long frames take while a slider moves, and how large the page is."""

    def test_cube(self):
        self.are_fast((100, 100, 20))

    def test_wide_maps(self):
        self.are_fast((1000, 500, 2))

    def are_fast(self, counts):
        name = "x".join(map(str, counts))
        size = self.open([self.placed(f"{name}.table", large_table(counts))])
        times, spent = self.timed("frames")
        self.equal(f"{name}: the slider moved", (FRAMES - 1) % counts[2], self.ask("probe.desk().view.places[2]"))
        _, plain = self.timed("plainFrames")
        is_fast = 0 < spent < MOST_TIMES * plain
        self.holds(f"{name}: {FRAMES} frames", is_fast, f"{spent} s, and {plain} s of plain frames; {times}")
        print(
            f"{name} cells: a page of {size:,} bytes; {FRAMES} frames while a slider moves in {sum(times):.0f} ms, the "
            f"slowest {max(times):.0f} ms, by {spent:.2f} s of processor time; as many frames of random pixels by "
            f"{plain:.2f} s",
            flush=True,
        )

    def timed(self, frames):
        """The frames that the probe draws, in milliseconds each, and the page's processor time for all of them."""
        before = self.browser.processor_time()
        times = self.ask(f"probe.{frames}({FRAMES})")
        return times, self.browser.processor_time() - before
