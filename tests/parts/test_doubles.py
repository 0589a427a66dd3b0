"""tools/sim --real: each example with a model is driven in doubles by its text, from corners, whole multiples and at
rest, and keeps what the text promises; and what is broken is seen: a plant without the noise for a measurement that is
a rounding beside, a table that promises too much."""

import re
import sys

from gaffcurrant_plant.plants.reader import read_plant

from .product import ran
from .tool_case import TOP, ToolCase, needs_numpy

RUNS = 2000
# The heading's plant as it was without noise in the heading: turns of two cells.
BARE = [("input t 0.1 0 -0.5 0.5", "input t 0.1 0 -0.4 0.4"), ("between\n", "")]
# Swings that come round three and seven times in a sample.
SWING = """sample 1
state x -1 1 cells 81
state y -1 1 cells 81
input u 0.1 -1 0 1
d x = {0}*y - 0.7*x
d y = -{0}*x - 0.7*y + 0.2*{0}*u
target -0.4 0.4 -0.4 0.4
goal reach
"""
# Words that are refused, the status, and a part of the line.
REFUSED = [
    (["--real", "MODEL"], 2, "TEXT"),
    (["--real", "nowhere", "TEXT"], 1, "nowhere"),
    (["--real", "MODEL", "TEXT", "--runs", "0"], 2, "--runs takes"),
    (["--real", "MODEL", "TEXT", "5", "1", "nan", "0"], 2, "no number"),
    (["--real", "MODEL", "TEXT", "5", "1", "1"], 2, "has 2 numbers (x v)"),
    (["--real", "MODEL", "TEXT", "5", "1", "99", "0"], 1, "no row"),
    (["--real", "MODEL", "TEXT", "--worst"], 2, "--worst without"),
    (["--real", "OTHER", "TEXT"], 1, "isn't the table's"),
    (["TEXT", "5", "1", "nan", "0"], 2, "no whole number"),
    (["TEXT"], 2, "the words are"),
    (["--real", "TEXT", "TEXT"], 1, "line 1"),
]


@needs_numpy
class Examples(ToolCase):
    """The examples that have a model."""

    def test_promises_are_kept(self):
        for name in self.examples():
            model = self.model_of(name)
            text = self.text_of(name) if model.exists() else b""
            if text is None:
                self.left_out(f"the program doesn't make the text of {name} yet")
            elif text:
                self.keeps_promises(name, model, text)

    def keeps_promises(self, name, model, text):
        status, output, error = self.tool("sim", "--real", model, "-", "--runs", RUNS, data=text)
        lines = output.splitlines() or [error]
        self.equal(f"{name}: runs in doubles", (0, ""), (status, error))
        is_kept = re.match(rf"{RUNS} runs, [1-9]\d* samples: 0 violations$", lines[0])
        self.holds(f"{name}: {RUNS} runs in doubles break no promise", is_kept, output)
        self.begin_in_each_way(name, lines[1])
        # Without `bounds` a way may leave the domain between two samples.
        if line := re.search(r"^between.*", model.read_text(), re.M):
            left = "0" if "bounds" in line[0] else r"\d+"
            wanted = rf"between samples: 0 runs touch an obstacle, {left} leave the domain$"
            self.holds(f"{name}: ways between samples", re.match(wanted, lines[2]), lines[2])

    def begin_in_each_way(self, name, line):
        """The runs begin in each way, with states at 0 where a range has it, and none broke a promise."""
        told = re.findall(r"(?:begun|;) (.+?): (\d+) runs, (\d+) broken", line)
        begun = {kind: (int(count), int(broken)) for kind, count, broken in told}
        has_zero = any(low <= 0 <= high for _, low, high, _ in read_plant(self.plant_text(name)).states)
        kinds = ["on corners", "on whole units"] + ["with states at 0"] * has_zero + ["within cells"]
        self.equal(f"{name}: how runs begin", kinds, sorted(begun))
        # Of those with a state at 0 many cells may have no row, and the run then begins on a corner.
        least = {kind: 1 if kind == "with states at 0" else RUNS // 10 for kind in begun}
        is_enough = all(count >= least[kind] for kind, (count, _) in begun.items())
        self.holds(f"{name}: many runs begin in each way", is_enough, line)
        counts, broken = zip(*begun.values())
        self.equal(f"{name}: runs that broke a promise, and all", (0, RUNS), (sum(broken), sum(counts)))


@needs_numpy
class WithoutNoise(ToolCase):
    """Turns by whole cells without noise in the heading: runs from corners break what the table promises."""

    @classmethod
    def setUpClass(cls):
        super().setUpClass()
        text = cls.model_of("heading").read_text()
        for old, new in BARE:
            text = text.replace(old, new)
        model = cls.placed("bare.model", text)
        cls.plant = re.sub(r"^noise r_h .*\n| \+ r_h$", "", cls.tool("scale", model)[1], flags=re.M)
        table = cls.solved("synth", cls.plant)
        cls.status, cls.output, cls.error = cls.tool("sim", "--real", model, "-", data=table)

    def test_promises_break(self):
        broken = re.match(r"2000 runs, \d+ samples: (\d+) violations\n", self.output)
        is_seen = self.status == 1 and broken and int(broken[1]) > 20
        self.holds("runs of a heading without noise break promises", is_seen, self.output[:300] + self.error)

    def test_corners(self):
        ways = dict(re.findall(r"(on corners|within cells): \d+ runs, (\d+) broken", self.output))
        is_seen = ways.get("within cells") == "0" and ways.get("on corners", "0") != "0"
        self.holds("they break on corners, and not within cells", is_seen, self.output[:300])

    def test_first_is_printed(self):
        kinds = "the (?:rank doesn't fall|state has no row)"
        printed = re.search(rf"^first violation: {kinds}\n  0: x = .* rank \d+, v = ", self.output, re.M)
        self.holds("the first broken promise is printed with its run", printed, self.output)

    def test_lint(self):
        said = "note: h has no noise, and moves by whole cells, by "
        lint = self.tool("lint", "-", data=self.plant.encode())[1]
        self.holds("lint notes a state without noise that moves by whole cells", said in lint, lint)
        lint = self.tool("lint", TOP / "examples/heading/heading.plant")[1]
        self.holds("lint notes nothing of a state with noise", "has no noise" not in lint, lint)


@needs_numpy
class Swings(ToolCase):
    """Models that swing several times in a sample: their steps are fine enough."""

    def test_promises_are_kept(self):
        for speed in (20, 45):
            model = self.placed(f"swing_{speed}.model", SWING.format(speed))
            table = self.solved("synth", self.scaled(SWING.format(speed)))
            status, output, _ = self.tool("sim", "--real", model, "-", data=table)
            kept = re.match(rf"{RUNS} runs, [1-9]\d* samples: 0 violations\n", output)
            self.holds(f"a swing of {speed} rad in a sample breaks no promise", status == 0 and kept, output)

    def test_scale_try(self):
        for speed in (20, 45):
            status, output, error = self.tool("scale", "--try", "200", "-", data=SWING.format(speed).encode())
            got = (status, output.count("the noise allows -1 to 1"), error)
            self.equal(f"scale --try of a swing of {speed} rad in a sample", (0, 2, ""), got)


class GateCase(ToolCase):
    """Has the table of the gate."""

    @classmethod
    def setUpClass(cls):
        super().setUpClass()
        cls.table, cls.gate = cls.placed("gate.table", cls.table_text("gate")), cls.model_of("gate")


@needs_numpy
class Words(GateCase):
    """Words of tools/sim --real."""

    def test_refused(self):
        paths = {"MODEL": self.gate, "TEXT": self.table, "OTHER": self.model_of("rooms")}
        for words, wanted, said in REFUSED:
            answer = self.tool("sim", *(paths.get(word, word) for word in words))
            self.refused(f"sim {' '.join(words)}", answer, said, wanted)

    def test_one_state(self):
        command = ["sim", "--real", self.gate, self.table, "40", "7", "0.2", "0", "--runs", "50"]
        status, output, _ = self.tool(*command)
        self.holds("runs from one state", status == 0 and output.startswith("50 runs, "), output)

    def test_table_that_is_cut_off(self):
        table = self.table.read_bytes()
        damaged = table.replace(b"\n700 700 ", b"\n700 700 9", 1).replace(b" 1 ", b" 12345678 ", 1)[:-9]
        status, output, error = self.tool("sim", "--real", self.gate, "-", data=damaged)
        what = "sim --real of a table that is cut off"
        self.equal(what, (1, "", 1), (status, output, error.count("\n")))


@needs_numpy
class FromPython(GateCase):
    """The same from Python."""

    def prints(self, script):
        """Status and output of a script, or what it complains of."""
        tools = str(TOP / "tools")
        head = f"import sys; sys.path.insert(0, {tools!r})\nfrom gaffcurrant_plant import Trouble, read_text\n"
        status, output, error = ran(sys.executable, "-c", head + script)
        return status, output or error

    def test_runs(self):
        script = (
            "from gaffcurrant_plant.ways.real_runs import real_runs\n"
            f"model = open({str(self.gate)!r}).read()\n"
            f"table = read_text(open({str(self.table)!r}, 'rb').read())\n"
            "outcome = real_runs(model, table, runs=200, seed=3)\n"
            "violations = sum(outcome.violations.values())\n"
            "print(outcome.runs, violations, outcome.samples > 200, outcome.first, outcome.trace)\n"
        )
        self.equal("runs in doubles from Python", (0, "200 0 True None []\n"), self.prints(script))

    def test_starts_of_patrols(self):
        docks = TOP / "examples/docks"
        script = (
            "from gaffcurrant_plant.models.agreement import model_at\n"
            "from gaffcurrant_plant.ways.real_runs import Loop\n"
            f"text = read_text(open({str(docks / 'docks.patrol')!r}, 'rb').read())\n"
            f"loop = Loop(model_at({str(docks / 'docks.model')!r}), text, 200, 1)\n"
            "turns = loop.turns.copy()\nloop.drive(None, 0)\n"
            "print(len(set(zip(turns.tolist(), loop.begins.kinds.tolist(), loop.pushes.kinds.tolist()))))\n"
        )
        # 2 turns, 4 kinds of starts and 5 of disturbances.
        self.equal("runs of a patrol begin in each way in each turn", (0, "40\n"), self.prints(script))

    def test_runs_by_bytes(self):
        docks = TOP / "examples/docks/docks"
        script = (
            "from gaffcurrant_plant.ways.real_runs import real_runs\n"
            f"model, text = (open({str(docks)!r} + end, 'rb').read() for end in ('.model', '.patrol'))\n"
            "outcome = real_runs(model, text, runs=20, samples=1, turn=1)\n"
            "print(outcome.runs, sum(outcome.violations.values()))\n"
            "try:\n    real_runs(model, text.decode(), runs=20, turn=2)\n"
            "except Trouble as trouble:\n    print(trouble)\n"
        )
        wanted = (0, "20 0\nthere are 2 turns, from 0; 2 is none\n")
        self.equal("runs by bytes, from a turn", wanted, self.prints(script))
