"""The numbers and the code of docs/GUIDE.md, the model and the version of README.md, and the node of ROS 2 by
stand-ins."""

import re
import sys
from fractions import Fraction

from gaffcurrant_plant.plants.reader import read_plant
from gaffcurrant_plant.texts.table import read_table

from .product import ran
from .tool_case import TOP, ToolCase, needs_mpmath, needs_numpy

BOAT = "version 2\nsample 0.25\nstate v -4 4 cells 32\ninput u 0.1 -1 0 1\nd v = u - 0.4*v*abs(v)\ngoal keep\n"


class GuideCase(ToolCase):
    """Has the guide, and solves models."""

    @classmethod
    def setUpClass(cls):
        super().setUpClass()
        cls.guide = (TOP / "docs/GUIDE.md").read_text()

    def model_in_guide(self, begin):
        return re.search(rf"```\n({begin}.*?)```", self.guide, re.DOTALL).group(1)

    def table_of(self, model):
        return read_table(self.solved("synth", self.scaled(model)))

    def won(self, model):
        """How many cells of a model are won, and the greatest rank."""
        table = self.table_of(model)
        return len(table.rows), greatest_rank(table)


def number(word):
    return int(word.replace(",", ""))


def greatest_rank(table):
    return max(rank for rank, _ in table.rows.values())


def lines_of(text):
    return [line for line in text.splitlines() if not line.startswith("#")]


class Models(GuideCase):
    """The guide's models, and its numbers of them."""

    def test_double_integrator(self):
        wanted = lines_of(self.plant_text("double_integrator").decode())
        got = lines_of(self.scaled(self.model_in_guide("sample 0.4")))
        self.equal("the guide's model gives the double integrator", wanted, got)

    def test_targets_on_bounds(self):
        wide = self.model_of("double_integrator").read_text()
        narrow = wide.replace("target -0.21 0.21 -0.21 0.21", "target -0.20 0.20 -0.20 0.20")
        what = "the double integrator with its target on the cells' bounds, and within them"
        self.equal(what, (2559, 32), (self.won(wide)[0], self.won(narrow)[0]))

    def test_sampling_times(self):
        """The gate, sampled exactly with other times."""
        rows = re.findall(r"^\| ([0-9.]+) s \| ([0-9,]+) \| ([0-9]+) \|$", self.guide, re.M)
        self.equal("the guide's sampling times", 5, len(rows))
        for time, won, rank in rows:
            got = self.won(self.gate_at(Fraction(time)))
            self.equal(f"the gate at {time} s", (number(won), int(rank)), got)

    def gate_at(self, time):
        """The model of the gate with another time, its disturbance in proportion, and its gate not widened."""
        text = self.model_of("gate").read_text()
        noise, moved = float(time / 25), float(time * time / 50)
        for old, new in (
            ("sample 0.5", f"sample {float(time)}"),
            ("w -0.02 0.02", f"w {-noise} {noise}"),
            ("w -0.005 0.005", f"w {-moved} {moved}"),
            ("between\n", ""),
        ):
            self.assertIn(old, text)
            text = text.replace(old, new)
        return text

    def test_deviations(self):
        for expression, deviation in (("e + (u - e) * 2 / 5", 7), ("(3 * e + 2 * u) / 5", 3)):
            text = f"plant 1\nstate e 0 199 10\ninput u 0 100\nnext e = {expression}\ngoal reach\nend\n"
            got = read_plant(text.encode()).deviations(1)
            self.equal(f"the deviation of `{expression}`", [deviation], got)
            self.holds(f"the guide has `{expression}`", expression in self.guide)

    @needs_mpmath
    def test_pendulum(self):
        answer = self.tool("scale", "-", data=self.model_in_guide("version 2").encode())
        self.equal("the guide's pendulum is scaled", (0, ""), answer[::2])

    def test_code_of_device(self):
        device = TOP / "examples/device"
        code = re.search(r"```c\n(int control\(.*?)```", (device / "README.md").read_text(), re.DOTALL).group(1)
        is_same = code in (device / "control.c").read_text()
        self.holds("the C of the device's README is that of control.c", is_same)


class Versions(GuideCase):
    """The guide's plants in both versions."""

    def setUp(self):
        if not self.reads_version_2():
            self.skipTest("the program doesn't read version 2")

    def test_plants(self):
        rows = re.findall(r"^\| \[(\w+)\]\(\S+\)((?: \| ([0-9,]+)){6}) \|$", self.guide, re.M)
        self.equal("the guide's plants of both versions", 7, len(rows))
        for name, said, _ in rows:
            wanted = [number(word) for word in said.split("|")[1:]]
            self.equal(f"{name} in both versions", wanted, self.both_versions(self.plant_text(name)))

    def test_even_widths(self):
        """The double integrator with cells of an even width."""
        model = self.model_of("double_integrator").read_text()
        even = re.sub(r"-2\.03 2\.03 0\.07", "-2.08 2.08 0.08", model)
        even = even.replace("-0.21 0.21 -0.21 0.21", "-0.24 0.24 -0.24 0.24")
        one = r"([0-9,]+)"
        said = rf"have {one} edges in version 1 and {one} in version 2; {one} and {one} cells are won"
        wanted = [number(word) for word in re.search(said, " ".join(self.guide.split())).groups()]
        got = self.both_versions(self.scaled(even).encode())[:4]
        self.equal("the double integrator with even widths", wanted, got)

    def both_versions(self, text):
        """Edges, cells with a row and the greatest rank of a plant text, each in version 1 and in version 2."""
        tables = [read_table(self.solved("synth", text.replace(b"plant 1", b"plant %d" % one))) for one in (1, 2)]
        numbers = [(table.plant.edges()[0], len(table.rows), greatest_rank(table)) for table in tables]
        return [one for pair in zip(*numbers) for one in pair]


class Readme(GuideCase):
    """README's model, figures and version."""

    @classmethod
    def setUpClass(cls):
        super().setUpClass()
        cls.readme = (TOP / "README.md").read_text()

    def test_model(self):
        model = re.search(r"\n\n((?:    .*\n)*    goal reach\n)", self.readme).group(1)
        wanted = lines_of(self.model_of("rail").read_text())
        self.equal("README's model is that of the example", wanted, [line.strip() for line in model.splitlines()])

    def test_figures(self):
        said = re.search(r"([0-9,]+) of ([0-9,]+) cells are won.*?at most\s([0-9]+)", self.readme, re.DOTALL)
        table = read_table(self.table_text("rail"))
        wanted = [len(table.rows), table.plant.cells, greatest_rank(table)]
        self.equal("README's figures", wanted, [number(word) for word in said.groups()])

    def test_version(self):
        launched = ran(TOP / "gaffcurrant", "--version")[1]
        wanted = re.findall(r"^gaffcurrant (\S+)$", launched, re.M)
        self.equal("README's version", wanted, re.findall(r"^Version ([0-9.]+), ", self.readme, re.M))


@needs_mpmath
class Sweep(GuideCase):
    """tools/sweep, by the guide's table of what is kept at which sampling time and by other models."""

    def sweep(self, model, *words):
        return self.tool("sweep", "-", *words, data=model.encode())

    def kept(self):
        return self.model_in_guide("sample 0.3")

    def test_sampling_times(self):
        rows = re.findall(r"^\| ([0-9.]+) \| ([0-9]+) \|$", self.guide, re.M)
        status, output, error = self.sweep(self.kept(), "--times", *(time for time, _ in rows))
        got = [(words[0], words[5]) for words in map(str.split, output.splitlines()[1:])]
        self.equal("tools/sweep of the guide's model", (0, "", rows), (status, error, got))

    def test_limits(self):
        fine = self.kept().replace("0.01\n", "0.001\n")
        status, output, _ = self.sweep(fine, "--widths", "1", "0.01", "0.001")
        said = "0.3 0.01 limit: cells: 2880000 cells, and 1048576 are the most"
        self.equal("tools/sweep stops at a limit", (0, said), (status, " ".join(output.splitlines()[2].split())))
        is_told = "limit: cells: 288000000 cells" in output.splitlines()[3]
        self.holds("tools/sweep takes a finer unit where a width needs one", is_told, output)

    def test_widths_by_cells(self):
        model = self.kept().replace("0.1 0.01", "cells 24", 1).replace("0.1 0.01", "cells 12")
        status, output, _ = self.sweep(model, "--widths", "0.001")
        got = (status, " ".join(output.split()[10:14]).split(",")[0])
        self.equal("tools/sweep of widths by the number of cells", (0, "limit: cells: 288000000 cells"), got)

    def test_steps(self):
        status, output, error = self.sweep(BOAT, "--orders", "1", "--steps", "1", "2")
        got = [line.split()[:3] for line in output.splitlines()[1:]]
        self.equal("tools/sweep of steps", (0, "", [["0.25", "1", "1"], ["0.25", "1", "2"]]), (status, error, got))

    def test_steps_where_there_are_none(self):
        answer = self.sweep("state x 0 1 0.1 0.1\nnext x = x\ngoal keep\n", "--steps", "2")
        said = "sweep: --orders and --steps need a model with lines `d`\n"
        self.equal("tools/sweep of steps where there are none", (2, "", said), answer)

    def test_wrong_words(self):
        for words, said in (
            (["--times", "0"], "isn't above 0"),
            (["--times", "x"], "no number"),
            (["--workers", "65"], "1 to 64"),
        ):
            self.refused(f"tools/sweep {words}", self.sweep(self.kept(), *words), said, 2)


@needs_mpmath
class Carriage(GuideCase):
    """The guide's model that wins little, what the tools say of it, and the node of ROS 2 that drives it once
    mended."""

    def setUp(self):
        self.model = re.search(r"`rail.model`:\n\n((?:    .*\n)+)", self.guide).group(1)

    def test_sweep(self):
        row = re.compile(r"^\| ([0-9.]+) \| ([0-9.]+) \| ([0-9,]+) \| ([0-9,]+) \| ([0-9]+) \|$", re.M)
        rows = [tuple(word.replace(",", "") for word in words) for words in row.findall(self.guide)]
        self.equal("lines of the guide's carriage", 6, len(rows))
        command = ["sweep", "-", "--times", "0.2", "0.4", "0.8", "--widths", "1", "0.5"]
        status, output, error = self.tool(*command, data=self.model.encode())
        got = [(*words[:3], *words[5:7]) for words in map(str.split, output.splitlines()[1:])]
        self.equal("tools/sweep of the guide's carriage", (0, "", rows), (status, error, got))

    @needs_numpy
    def test_why(self):
        model = self.placed("rail.model", self.model)
        table = self.placed("rail.table", self.solved("synth", self.scaled(self.model)))
        output = self.tool("why", "--deep", table, "1", "0.1", "--model", model)[1]
        parts = ("what is won: 20;", "  15: the input may come back to the cell itself")
        self.holds("tools/why --deep of the guide's carriage", all(part in output for part in parts), output)

    def test_node(self):
        """It drives the carriage, mended as the guide says, until it arrives, and applies the safe value where it has
        no promise."""
        model = self.model
        for old, new in (("sample 0.2", "sample 0.4"), ("p 0 4 0.2", "p 0 4 0.1"), ("1.2 0.12", "1.2 0.06")):
            self.assertIn(old, model)
            model = model.replace(old, new)
        self.placed("mended.model", model)
        self.placed("mended.table", self.solved("synth", self.scaled(model)))
        for name, text in STANDINS.items():
            self.placed(name, text)
        folders = [str(folder) for folder in (self.folder, TOP / "tools", TOP / "examples/device")]
        _, output, error = ran(sys.executable, self.placed("drive.py", DRIVE.format(folders)), cwd=self.folder)
        wanted = "0.4 arrived [0.0] True\nno promise [0.0]\nno promise [0.0]\n"
        self.equal("the node of ROS 2 by stand-ins", wanted, output + error[-300:])


# What stands in for ROS 2: a node that keeps what it publishes, and whose timer and subscription are called by hand.
STANDINS = {
    "rclpy/__init__.py": "",
    "std_msgs/__init__.py": "",
    "std_msgs/msg.py": "class Float64MultiArray:\n    def __init__(self, data=()):\n        self.data = data\n",
    "rclpy/node.py": """class Node:
    def __init__(self, name):
        self.name, self.sent = name, []
    def create_publisher(self, kind, topic, depth):
        return type("Publisher", (), {"publish": lambda _, message: self.sent.append(list(message.data))})()
    def create_subscription(self, kind, topic, called, depth):
        self.hear = called
    def create_timer(self, period, called):
        self.period, self.tick = period, called
""",
}
DRIVE = """import sys
sys.path[:0] = {}
sys.dont_write_bytecode = True
from math import exp
from std_msgs.msg import Float64MultiArray
from node import TableNode
node, position, speed, left = TableNode("mended.table", "mended.model", 0.4), 1.013, 0.5, exp(-0.3 * 0.4)
node.tick()
for sample in range(16):
    node.hear(Float64MultiArray(data=[position, speed]))
    node.tick()
    if node.said != "drives":
        break
    # What d v = u - 0.3*v gives at the end of a sample.
    steady = node.sent[-1][0] / 0.3
    position += 0.4 * steady + (speed - steady) * (1 - left) / 0.3
    speed = steady + (speed - steady) * left
print(node.period, node.said, node.sent[0], 3 <= position < 4 and -0.2 <= speed < 0.2)
for state in ([9.0, 0.0], [float("nan"), 0.0]):
    node.hear(Float64MultiArray(data=state))
    node.tick()
    print(node.said, node.sent[-1])
"""


@needs_mpmath
@needs_numpy
class Friction(GuideCase):
    """The guide's log of a plant with a friction that its model lacks: the table that breaks its promise, the ranges,
    and the table that holds."""

    @classmethod
    def setUpClass(cls):
        super().setUpClass()
        begin, end = "## From measurements to disturbances", "## What is promised"
        cls.section = cls.guide[cls.guide.index(begin) : cls.guide.index(end)]
        cls.rail, model = TOP / "examples/rail", cls.model_of("rail").read_text()
        cls.rubs = model.replace("d v = u - 0.3*v", re.search(r"^    (d v = .*)$", cls.section, re.M).group(1))
        cls.real, cls.log = cls.placed("friction.model", cls.rubs), cls.folder / "friction.csv"
        cls.table, cls.wider = cls.placed("first.table", cls.table_text("rail")), cls.folder / "wider.model"
        cls.tool("sim", "--real", cls.real, cls.table, "--runs", "40", "--log", cls.log)
        words = ["--model", cls.rail / "rail.model", "--table", cls.table, "--write", cls.wider]
        cls.conformed = cls.tool("conform", cls.log, *words)

    def test_log(self):
        is_changed = self.rubs != self.model_of("rail").read_text()
        self.holds("the guide's friction is in its model", is_changed)
        wanted = (self.rail / "friction.csv").read_text()
        self.equal("the guide's log is that of its simulation", wanted, self.log.read_text())

    def test_words(self):
        words = re.search(r"^    tools/conform (.*)$", self.section, re.M).group(1).split()
        wanted = ["examples/rail/friction.csv", "--model", "examples/rail/rail.model", "--table", "rail.table"]
        self.equal("the guide's words", [*wanted, "--write", "wider.model"], words)

    def test_conform(self):
        status, output, error = self.conformed
        said = " ".join(self.section.split())
        broken, steps = re.search(r"at (\d+) of (\d+) steps: the rank doesn't fall", said).groups()
        needed = re.search(r"a noise of (-\d+ to \d+) units of p and (-\d+ to \d+) of v", said).groups()
        self.equal("conform of the guide's log", (1, ""), (status, error))
        for line in (
            f"at {broken} of these the next state has no row",
            "of them 0 are explained or followed",
            f"{steps} of them judged",
        ):
            self.holds(f"conform of the guide's log says `{line}`", line in output, output)
        rows = [re.split(r"  +", line)[1:] for line in output.splitlines() if re.match("[pv] ", line)]
        self.equal("what the guide's log needs", list(needed), [row[1] for row in rows])

    def test_wider_model(self):
        wider = self.wider.read_text()
        for line in re.findall(r"`(noise e_v \S+ \S+)`", self.section):
            is_there = line in wider and "d v = u - 0.3*v + e_v" in wider
            self.holds(f"the wider model has `{line}`", is_there, wider)

    def test_tables(self):
        """The guide's tables with and without the friction."""
        row = re.compile(r"^\| `(\w+.model)` \| (.*) \| (\d+) \| ([0-9,]+) \| (\d+) \| (\d+) \|$", re.M)
        paths = {"rail.model": self.rail / "rail.model", "wider.model": self.wider}
        got = [(name, *self.figures(path)) for name, path in paths.items()]
        self.equal("the guide's tables with and without the friction", got, row.findall(self.section))

    def figures(self, model):
        """Of a model: its noises, the steps of the log that it explains, its rows, the greatest rank, and the runs with
        friction that break its table."""
        text = self.placed("of.table", self.solved("synth", self.tool("scale", model)[1]))
        explained = re.search(r"ranges: (\d+) of", self.tool("conform", self.log, "--model", model)[1]).group(1)
        output = self.tool("sim", "--real", self.real, text)[1]
        runs = re.match(r"2000 runs, \d+ samples: (\d+) violations", output).group(1)
        table = read_table(text.read_bytes())
        noises = ", ".join(f"{low} to {high}" for _, low, high in table.plant.noises)
        return noises, explained, f"{len(table.rows):,}", str(greatest_rank(table)), runs
