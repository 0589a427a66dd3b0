"""The C and the Python lines of examples/device agree with the table at random states, and with `sim` step by step; and
refuse in one line what is no state and no table."""

import re
import shutil
import sys
import unittest

from gaffcurrant_plant.texts.loop import read_trace, run
from gaffcurrant_plant.texts.table import read_table, text_of_table

from .device_readers import (
    COMPILER,
    DEVICE,
    NO_COMPILER,
    built,
    c_answers,
    called,
    expected,
    python_answers,
    random_states,
)
from .tool_case import ToolCase

NAMES = ("line", "tank", "cart", "gate", "cruise", "double_integrator", "follow", "boost", "vehicle")
IN_RUNS = ("line", "cart", "gate", "vehicle")
# What control.py refuses behind a table of x and v, and a part of the reason.
STATES_REFUSED = [
    ("20", "has 2 numbers (x v), here are 1"),
    ("20 0 0", "here are 3"),
    ("", "here are 0"),
    ("20 fast", "`fast` is no whole"),
    ("20 0.5", "`0.5` is no whole"),
    ("20 1e3", "`1e3` is no whole"),
    ("\ufeff20 0", "no ASCII character"),
    ("20 " + "9" * 30, "up to 18 digits"),
]
CONTROL_PY = [sys.executable, str(DEVICE / "control.py")]


class Readers(ToolCase):
    """Answers by the tables of the examples."""

    def test_tables(self):
        for name in NAMES:
            text = self.table_text(name)
            table, answers = read_table(text), self.answers_of(name, text)
            states = random_states(table.plant)
            for language, answer in answers.items():
                self.equal(f"{name}: {language} by the table", expected(table, states), answer(states))
            self.agree_with_sim(name, text, table, answers)

    def answers_of(self, name, text):
        """For each language a function that answers states by a table."""
        table = read_table(text)
        answers = {
            f"Python, version {version}": python_answers(text_of_table(table.plant, table.rows, version))
            for version in (1, 2)
        }
        if COMPILER:
            answers["C"] = c_answers(text, self.folder / name)
            if name in IN_RUNS:
                answers["C in runs"] = c_answers(text, self.folder / f"{name}_runs", "--runs")
        return answers

    def agree_with_sim(self, name, text, table, answers):
        """From cells of the greatest ranks: each sample of the trace has the input that the readers give."""
        plant = table.plant
        cells = sorted(table.rows, key=lambda cell: table.rows[cell][0])[-2:]
        for seed, cell in enumerate(cells, 7):
            start = plant.low(cell)
            status, trace, _ = self.execute(("sim", "1000", str(seed), *map(str, start)), text)
            self.equal(f"{name}: sim answers", 0, status)
            if status:
                continue
            states, wanted = samples_of(trace, plant)
            for language, answer in answers.items():
                self.equal(f"{name}: {language} by sim", wanted, answer(states))
            self.equal(f"{name}: read_trace", states, read_trace(trace, plant))
            self.equal(f"{name}: runs of tools/picture by sim", states, run(plant, table.rows.get, start, seed, 1000))


def samples_of(trace, plant):
    """The states of a trace, and what the readers have to answer at each."""
    samples = [line.split(" ") for line in trace.decode().splitlines()[1:]]
    samples = [words for words in samples if len(words) == len(plant.states) + 3]
    states = [[int(word) for word in words[1:-2]] for words in samples]
    chosen = [None if words[-1] == "-" else plant.vector(int(words[-1])) for words in samples]
    return states, ["arrived" if vector is None else " ".join(map(str, vector)) for vector in chosen]


class Gate(ToolCase):
    """By the table of the gate: the commands and the loop of the device's README, and what is refused."""

    @classmethod
    def setUpClass(cls):
        super().setUpClass()
        cls.table = cls.table_text("gate")
        cls.placed("gate.table", cls.table)
        cls.readme = (DEVICE / "README.md").read_text()
        cls.programs = {"control.py": [*CONTROL_PY, "gate.table"]}
        if COMPILER:
            c_answers(cls.table, cls.folder / "gate")
            cls.programs["control"] = ["./gate/main"]

    def test_command_of_readme(self):
        state, answer = re.search(r"echo (.*) \| \./control +# prints (\S+):", self.readme).groups()
        for what, program in self.programs.items():
            got = called(program, self.folder, state + "\n")
            self.equal(f"{what}: what the README tells", (0, answer + "\n", ""), got)

    def test_refused_states(self):
        for what, program in self.programs.items():
            for line, reason in STATES_REFUSED:
                status, output, error = called(program, self.folder, f"20 0\n{line}\n20 0\n")
                self.equal(f"{what} of `{line}`", (1, "100\n", 1), (status, output, error.count("\n")))
                self.holds(f"{what} of `{line}` says why", reason in error or what == "control", error)

    def test_full_device(self):
        for what, program in self.programs.items():
            command = ["bash", "-c", 'exec "$@" >/dev/full', "bash", *program]
            status, _, error = called(command, self.folder, "20 0\n")
            self.equal(f"{what} at a full device", (1, 1), (status, error.count("\n")))

    def test_refused_tables(self):
        text = self.table
        for name, content in (
            ("bom.table", b"\xef\xbb\xbf" + text),
            ("plant.table", text.split(b"\n", 1)[1]),
            ("cut.table", text[:-5]),
            ("nothing.table", b""),
            ("third.table", text.replace(b"table 1", b"table 3").replace(b"table 2", b"table 3")),
            ("lines.table", text.replace(b"\n", b"\r\n")),
        ):
            self.placed(name, content)
            status, output, error = called([*CONTROL_PY, name], self.folder, "20 0\n")
            wanted = (0, "100\n", 0) if name == "lines.table" else (1, "", 1)
            self.equal(f"control.py of {name}", wanted, (status, output, error.count("\n")))

    def test_words(self):
        for words, wanted in (([], 2), (["gate.table", "more"], 2), (["nowhere"], 1), (["/"], 1)):
            status, output, error = called([*CONTROL_PY, *words], self.folder, "20 0\n")
            self.equal(f"control.py {words}", (wanted, "", 1), (status, output, error.count("\n")))

    @unittest.skipUnless(COMPILER, NO_COMPILER)
    def test_loop_of_readme(self):
        """In real units it brings the gate's model into its target, never into its obstacle."""
        header = self.tool("header", "--ranks", "--model", self.model_of("gate"), self.folder / "gate.table")[1]
        self.placed("table.h", header)
        shutil.copy(DEVICE / "control.c", self.folder)
        source = next(code for code in re.findall(r"```c\n(.*?)```", self.readme, re.DOTALL) if "falls(" in code)
        self.equal("the loop is compiled", (0, ""), built(self.folder, "drive", source, "-O2"))
        status, output, error = called(["./drive"], self.folder, "")
        *samples, last = output.splitlines() or [""]
        self.equal("the loop ends", (0, "arrived after", ""), (status, last[:13], error))
        points = [(float(words[1]), float(words[3])) for words in map(str.split, samples)]
        self.equal("it keeps off the obstacle", [], [(x, v) for x, v in points if 3.8 <= x < 5.3 and v >= 0.6])
        self.equal("it counts its samples", f"arrived after {len(points)} samples", last)
        status, output, error = called(["./drive", "push"], self.folder, "")
        wanted = (3, "the rank hasn't fallen at sample 5: stop", "")
        self.equal("it stops by its monitor", wanted, (status, output.splitlines()[-1], error))

    def test_sizes_of_headers(self):
        """The README's sizes: of an array a byte a cell, of runs five bytes each."""
        rows = re.findall(r"^\| \[(\w+)\].*? \| (.*) \| (.*) \| (.*) \| (.*) \|$", self.readme, re.M)
        self.equal("headers whose sizes the README tells", 4, len(rows))
        for name, *numbers in rows:
            header = self.tool("header", "--runs", "-", data=self.table_text(name))[1]
            cells = int(re.search(r"; (\d+) cells", header)[1])
            runs = int(re.search(r"#define RUNS (\d+)", header)[1])
            wanted = [f"{number:,}" for number in (cells, cells, runs, 5 * runs)]
            self.equal(f"sizes of the header of {name}", wanted, numbers)
