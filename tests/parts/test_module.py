"""The module for notebooks: docs/PYTHON.md line by line, runs beside those of the program, tools/diff, and half-planes
of a model."""

import contextlib
import doctest
import os
import random
import re
import sys
import unittest
from fractions import Fraction
from unittest import mock

from gaffcurrant_plant import NoRow, Refused, Trouble, Units, read_plant, read_table, read_text, scale, simulate, solve
from gaffcurrant_plant.texts.loop import read_trace
from gaffcurrant_plant.models.model import read_model

from .product import ran
from .tool_case import TOP, ToolCase, has, needs_numpy

if has("numpy"):
    from gaffcurrant_plant.texts import arrays

LINE = "plant 1\nstate x 0 14 3\ninput u -3 3\nnext x = x + u\ntarget 12 14\ngoal reach\nend\n"

# Two tables of the line by hand: the second has an obstacle at 4, and goes left from 2.
DIFF = (
    "table 1\n" + LINE + "rows 5\n0 4 1\n1 3 1\n2 2 1\n3 1 1\n4 0 -\nend\n",
    "table 2\n" + LINE.replace("goal", "obstacle 4 4\ngoal") + "rows 3\n2 2 3 0\n3 3 1 1\n4 4 0 -\nend\n",
)
# A stay text, and a table of a plant to be kept; and the first row of a patrol text, with all but its input.
OTHER_ROWS = (
    "stay 1\n" + LINE + "rows 1\n0 0 0 0\nend\n",
    "table 1\n" + LINE.replace("target 12 14\ngoal reach", "goal keep") + "rows 1\n0 - 1\nend\n",
)
FIRST_ROW = re.compile(rb"(?<=turn 0 rows 374)(\n\d+ \d+ \d+) \d+\n")
DIFFERENCES = [
    "5 cells; rows: 5 and 3",
    "the plants differ",
    "rows in the first alone: 2",
    "  cell 0 (x 0 to 2)",
    "  cell 1 (x 3 to 5)",
    "rows in the second alone: 0",
    "ranks in both: 3; the same at 2, lesser in the first at 1 (by up to 1, 1 on the average), lesser in the second at "
    "0",
    "other inputs in both: 1",
]

HALF = (
    "state d 0 12 1 0.1\nstate v -10 10 0.5 0.1\nstate z 0 2 1 1\nnext d = d\nnext v = v\nnext z = z\n{}\ngoal keep\n"
)
# A line of a model, the same as a test of d and v, and how many boxes cover it: one for each index of d that is met,
# since the ends along v differ. In the second line d from k to k + 1 is met where v is above 42 - 4 k: for 9, 10 and
# 11. In the last one where v is below 1 - k, which for 11 is the range's end. With 62 other obstacles two boxes are
# left for twelve indices.
HALVES = [
    ("obstacle d < 1.4 * v", lambda d, v: d < Fraction(7, 5) * v, 12),
    ("obstacle 2*d + v/2 - 3 > 20", lambda d, v: 2 * d + v / 2 - 3 > 20, 3),
    ("obstacle v > 9", lambda d, v: v > 9, 1),
    ("obstacle d - 1 < -v", lambda d, v: d - 1 < -v, 11),
]
HALF_FAULTS = [
    ("obstacle d < v < 3", "one `<` or `>`"),
    ("obstacle d * v > 3", "sums of states"),
    ("obstacle d + v > z", "one or two states"),
    ("obstacle 1 < 2", "one or two states"),
    ("obstacle d < y", "`y` is no variable"),
]


class ModuleCase(ToolCase):
    """The module finds the program."""

    def setUp(self):
        found = mock.patch.dict(os.environ, {"GAFFCURRANT": str(self.program)})
        found.start()
        self.addCleanup(found.stop)


def fault_of(call):
    """What a call is refused with: what Trouble says, or the fault's name."""
    try:
        return call()
    except Trouble as trouble:
        return str(trouble)
    except (NoRow, Refused, ValueError) as fault:
        return type(fault).__name__


class Page(ModuleCase):
    """docs/PYTHON.md."""

    def test_lines(self):
        with contextlib.chdir(TOP):
            failed, tried = doctest.testfile(str(TOP / "docs/PYTHON.md"), module_relative=False, verbose=False)
        self.equal("docs/PYTHON.md by its lines", 0, failed)
        self.holds("docs/PYTHON.md has lines", tried > 10, str(tried))

    @needs_numpy
    def test_lines_about_arrays(self):
        """Each line with what its comment says."""
        table = read_table((TOP / "examples/cart/cart.table").read_bytes())
        block, logs = re.findall(r"```python\n(.*?)```", (TOP / "docs/PYTHON.md").read_text(), re.S)
        names = {"table": table, "simulate": simulate}
        lines = block.replace('"examples/', f'"{TOP}/examples/')
        exec(lines, names)
        (one, first), (two, second) = commented(lines, names)
        self.equal("comments beside lines about arrays", ["array([ 1, -1])", "[[-20], [--]]"], [one, two])
        got = [repr(first), str(second).replace("\n", "")]
        self.equal("lines about arrays", ["array([ 1, -1])", "[[-20] [--]]"], got)
        exec(logs, names)
        said = commented(logs, names)
        values = [repr(value) for _, value in said]
        self.equal("comments beside lines about logs", [comment for comment, _ in said], values)
        self.equal("lines about logs", 5, len(said))
        run = names["run"]
        self.equal("a run as arrays has its names", 5, len([run.times, run.states, run.ranks, run.inputs, run.turns]))


def commented(lines, names):
    """The comments beside expressions, and the values of these."""
    halves = (line.partition("#") for line in lines.splitlines())
    asked = [(said, comment.strip()) for said, _, comment in halves if comment and not re.match(r"\w+ = ", said)]
    return [(comment, eval(said, names)) for said, comment in asked]


class Runs(ModuleCase):
    """simulate, by the program's seeds and by disturbances of ours."""

    def test_traces_of_program(self):
        for name, seed in (("cart", 3), ("gate", 4), ("lane", 5)):
            text = self.table_text(name)
            table = read_table(text)
            start = table.plant.low(sorted(table.rows)[len(table.rows) // 2])
            trace = read_trace(self.execute(("sim", "50", str(seed), *map(str, start)), text)[1], table.plant)
            run = simulate(table, start, samples=50, seed=seed)
            self.equal(f"{name}: simulate by the program's trace", trace, [list(sample.state) for sample in run])
            self.equal(f"{name}: times of a run", list(range(len(run))), [sample.time for sample in run])

    def test_line(self):
        table = solve(LINE.encode())
        wanted = [(0, 4, (3,)), (3, 3, (3,)), (6, 2, (3,)), (9, 1, (3,)), (12, 0, None)]
        got = [(*sample.state, sample.rank, sample.inputs) for sample in simulate(table, [0])]
        self.equal("the line is driven by hand", wanted, got)
        self.equal("a run of no sample", 1, len(simulate(table, [0], samples=0)))

    def test_refused(self):
        table = solve(LINE.encode())
        for what, fault, call in (
            ("outside", NoRow, lambda: table.choice([15])),
            ("a state too long", ValueError, lambda: table.rank([1, 2])),
            ("a disturbance too much", ValueError, lambda: simulate(table, [0], disturbance=lambda *_: [1])),
            ("no plant", Refused, lambda: solve("plant 4\n")),
            ("no worker", Refused, lambda: solve(LINE, 0)),
        ):
            self.equal(f"{what} is refused", fault.__name__, fault_of(call))

    def test_program_that_is_not_there(self):
        """A variable GAFFCURRANT that names nothing is named."""
        where = "/nowhere/gaffcurrant"
        with mock.patch.dict(os.environ, {"GAFFCURRANT": where}):
            said = fault_of(lambda: solve(LINE))
        wanted = f"the environment variable GAFFCURRANT names `{where}`, and there is no such program"
        self.equal("a program that isn't there", wanted, said)


class InUnits(ModuleCase):
    """States and inputs in a model's units, floats as the decimals that they are printed as."""

    def cart(self):
        table = read_table((TOP / "examples/cart/cart.table").read_bytes())
        return table.in_units(Units({"p": Fraction(1, 10), "v": Fraction(1, 100), "a": Fraction(1, 2)}))

    def test_states(self):
        cart = self.cart()
        got = (cart.whole([39.5, 0.55]), cart.rank([39.5, 0.55]), cart.choice([39.59, 0.559]))
        self.equal("a real state", ([395, 55], 1, (-10.0,)), got)
        states = [0.3, 0.3], [Fraction(3, 10), 0.30], [0.29999, 0.29999]
        self.equal("floats are decimals", [[3, 30], [3, 30], [2, 29]], [cart.whole(state) for state in states])
        self.equal("the middle of a unit", (39.55, 0.555), cart.middle([395, 55]))

    def test_refused(self):
        cart = self.cart()
        for what, state in (
            ("too long", [1, 2, 3]),
            ("no number", [float("nan"), 0]),
            ("without end", [float("inf"), 0]),
        ):
            self.equal(f"a real state {what} is refused", "ValueError", fault_of(lambda one=state: cart.rank(one)))

    def test_patrol(self):
        """In 2 m and half metres: 360 and 180 of the plant's units. A quarter is what 1 of u stands for."""
        docks = read_text((TOP / "examples/docks/docks.patrol").read_bytes())
        units = Units({"x": Fraction(2), "y": Fraction(1, 2), "u": Fraction(1, 4)}, {"x": "m"})
        patrol = docks.in_units(units)
        u, v = docks.turns[0].choice([360, 180])
        wanted = (20, (u / 4, v), [docks.turn_after(0, state) for state in ([360, 180], [40, 40])])
        turn, turns = patrol.turns[0], [patrol.turn_after(0, state) for state in ([720, 90], [80, 20])]
        self.equal("a patrol in units", wanted, (turn.rank([720, 90]), turn.choice([720, 90]), turns))
        with self.assertRaises(NoRow) as fault:
            patrol.turns[1].rank([999999, 0.9])
        said = "x = 999998 m, y = 0.5 has no row"
        self.equal("a patrol without a row says so in units", said, str(fault.exception))

    def test_scale(self):
        said = fault_of(lambda: scale("bogus\n"))
        self.equal("scale by its line", "line 1: `bogus` begins no line", said[:30])
        plant = read_plant(scale("state x 0 1 0.1 0.1\nnext x = x\ngoal keep\n", 2).encode())
        self.equal("scale gives a plant", 2, plant.version)


@needs_numpy
class Arrays(ModuleCase):
    """Answers for arrays of states beside those for one, and runs as arrays."""

    @classmethod
    def setUpClass(cls):
        super().setUpClass()
        data = (TOP / "examples/cart/cart.table").read_bytes()
        cls.table, cls.cells = read_table(data), arrays.Cells(data)
        cls.units = Units({"p": Fraction(1, 10), "v": Fraction(1, 100)})

    def test_answers(self):
        draws, plant = random.Random(5), self.table.plant
        states = [[draws.randrange(-20, 620), draws.randrange(-120, 120)] for _ in range(500)]
        rows = [self.table.rows.get(plant.cell_of(state), (-1, None)) for state in states]
        self.equal("ranks over an array", [rank for rank, _ in rows], self.cells.rank(states).tolist())
        wanted = [None if choice is None else plant.vector(choice)[0] for _, choice in rows]
        self.equal("inputs over an array", wanted, self.cells.choice(states)[:, 0].tolist())

    def test_refused(self):
        for what, states in (
            ("real states are no whole ones", [[0.5, 1.0]]),
            ("an array of another width", [[1, 2, 3]]),
        ):
            self.equal(what, "ValueError", fault_of(lambda one=states: self.cells.rank(one)))

    def test_rows_that_are_none(self):
        docks = (TOP / "examples/docks/docks.patrol").read_bytes()
        table, stay, keep = (text.encode() for text in (DIFF[0], *OTHER_ROWS))
        for what, data, old, new in (
            ("a rank without an input", table, b"\n0 4 1\n", b"\n0 4 -\n"),
            ("an input in the target", table, b"\n4 0 -\n", b"\n4 0 1\n"),
            ("an input that is none", table, b"\n0 4 1\n", b"\n0 4 2\n"),
            ("a rank that is too great", table, b"\n0 4 1\n", b"\n0 5 1\n"),
            ("a cell of a stay text without an input", stay, b"\n0 0 0 0\n", b"\n0 0 0 -\n"),
            ("a rank of a table to keep", keep, b"\n0 - 1\n", b"\n0 3 1\n"),
            ("a row of a patrol without an input", docks, *FIRST_ROW.search(docks).group(0, 1)),
        ):
            new = new + b" -\n" if data is docks else new
            self.holds(f"{what} is put into a right text", old in data and arrays.Cells(data).won.any())
            for reader in (read_text, arrays.Cells):
                fault = fault_of(lambda one=reader, text=data.replace(old, new): one(text))
                self.equal(f"{what} by {reader.__name__}", "Refused", fault)

    def test_run(self):
        samples = simulate(self.table, [350, 0])
        run = arrays.run_of(samples)
        wanted = ([list(sample.state) for sample in samples], [sample.rank for sample in samples], -20, None)
        got = (run.states.tolist(), run.ranks.tolist(), run.inputs[-2, 0], run.inputs[-1:].tolist()[0][0])
        self.equal("a run as arrays", wanted, got)

    def test_units(self):
        whole = arrays.whole_states(self.table.plant, self.units, [[0.3, 0.3], [39.59, -0.001]])
        self.equal("whole numbers of real states", [[3, 30], [395, -1]], whole.tolist())

    def test_run_in_units(self):
        samples, exact = simulate(self.table, [350, 0]), Units(self.units.sizes)
        exact.exact = {"p"}
        for what, units, wanted in (("", self.units, [35.05, 0.005]), (", one of them exact", exact, [35.0, 0.005])):
            first = arrays.run_of(samples, units, self.table.plant).states[0]
            self.equal(f"a run in units{what}", wanted, first.round(6).tolist())


class Install(ToolCase):
    """`pip install ./tools` without a network, into a new environment; the programs and the module of it."""

    @classmethod
    def setUpClass(cls):
        super().setUpClass()
        cls.place = cls.folder / "installed"
        if ran(sys.executable, "-m", "venv", cls.place)[0]:
            raise unittest.SkipTest("this Python makes no environments (apt-get install python3-venv)")
        command = [cls.place / "bin/pip", "install", "-q", "--no-index", TOP / "tools"]
        cls.installed = ran(*command, env=cls.environment_of_user())

    @classmethod
    def environment_of_user(cls):
        return {"PATH": os.environ["PATH"], "HOME": str(cls.folder)}

    def user_runs(self, program, *words):
        return ran(self.place / "bin" / program, *words, env=self.environment_of_user(), cwd=self.folder)

    def test_pip(self):
        self.holds("pip install ./tools", self.installed[0] == 0, self.installed[2])

    def test_programs_run(self):
        table = TOP / "examples/line/line.table"
        status, output, error = self.user_runs("gaffcurrant-why", table, "7", "--input", "1")
        wanted = (0, ["  wins within 2 samples"], "")
        self.equal("gaffcurrant-why", wanted, (status, output.splitlines()[-1:], error))
        status, _, error = self.user_runs("gaffcurrant-page", table, "-o", self.folder / "line.html")
        self.equal("gaffcurrant-page", (0, ""), (status, error))

    def test_names(self):
        names = sorted(path.name for path in (self.place / "bin").glob("gaffcurrant-*"))
        files = [path for path in (TOP / "tools").iterdir() if path.is_file() and not path.suffix]
        tools = sorted(f"gaffcurrant-{path.name}" for path in files if path.name not in ("library", "program"))
        self.equal("a program for each of tools/ but the scripts library and program", tools, names)

    def test_module_finds_launcher(self):
        script = "from gaffcurrant_plant.texts.solver import program; print(program())"
        output = self.user_runs("python", "-c", script)[1]
        self.equal("the installed module runs the launcher", str(TOP / "gaffcurrant"), output.strip())


class Diff(ToolCase):
    """tools/diff."""

    def test_tables(self):
        one, other = (self.placed(f"{number}.table", text) for number, text in enumerate(DIFF))
        status, output, error = self.tool("diff", one, other)
        self.equal("diff of two tables", (0, DIFFERENCES, ""), (status, output.splitlines(), error))
        status, output, error = self.tool("diff", one, TOP / "examples/cart/cart.table")
        self.equal("diff of two grids", (1, "", 1), (status, output, error.count("\n")))


class HalfPlanes(ToolCase):
    """Each point of a half-plane lies in an obstacle of the plant, and each obstacle cell has a point of it."""

    def test_boxes(self):
        for line, _, count in HALVES:
            plant = read_plant(self.scaled(HALF.format(line)).encode())
            self.equal(f"boxes of `{line}`", count, len(plant.obstacles))

    def test_points_and_cells(self):
        draws = random.Random(1)
        for line, is_in, _ in HALVES:
            plant = read_plant(self.scaled(HALF.format(line)).encode())
            points = [random_point(draws) for _ in range(2000)]
            missed = [point for point in points if is_in(*point) and not plant.is_obstacle(cell_at(plant, *point))]
            self.equal(f"points of `{line}` outside of its boxes", [], missed[:3])
            self.holds(f"points of `{line}` were tried", sum(is_in(*point) for point in points) > 50)
            obstacles = [cell for cell in range(0, plant.cells, 2) if plant.is_obstacle(cell)]
            wide = [cell for cell in obstacles if not any(is_in(*corner) for corner in corners(plant, cell))]
            self.equal(f"cells of `{line}` without a point of it", [], wide[:3])

    def test_two_boxes_left(self):
        few = HALF.format("obstacle 0 1 -10 -9 0 2\n" * 62 + "obstacle d < 1.4 * v")
        self.equal("boxes where two are left", 64, len(read_model(few.encode()).boxes))

    def test_refused(self):
        for line, said in HALF_FAULTS:
            answer = self.tool("scale", "-", data=HALF.format(line).encode())
            self.refused(f"scale of `{line}`", answer, said)


def random_point(draws):
    return Fraction(draws.randrange(120000), 10000), Fraction(draws.randrange(-100000, 100000), 10000)


def cell_at(plant, d, v):
    return plant.cell_of([int(d * 10), (v * 10).__floor__(), 0])


def corners(plant, cell):
    """Corners of a cell, a hair within it."""
    low, high = plant.low(cell), plant.high(cell)
    hair = Fraction(1, 10**9)
    return [
        (Fraction(d, 10) + (hair if d == low[0] else -hair), Fraction(v, 10) + (hair if v == low[1] else -hair))
        for d in (low[0], high[0] + 1)
        for v in (low[1], high[1] + 1)
    ]
