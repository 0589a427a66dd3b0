"""A model's units in why, sim, lint and diff; sweep of stays and patrols; films; progress on a terminal; what is said
where numpy isn't there."""

import os
import pty
import subprocess
import sys

from .product import ran
from .tool_case import TOP, ToolCase, needs_matplotlib

MODEL = """version 1
state x 0 1.5 0.3 0.1
exact x
input u 0.1 -0.3 0 0.3
unit x m
unit u m/s
next x = x + u
target 1.2 1.5
target 0 0.3
goal reach
"""
TIMES = """version 2
sample 0.5
state x 0 10 cells 40
input u 0.1 -1 0 1
d x = u
target 2 4
goal reach
"""
# Stands for a module that isn't there.
LACK = """import importlib.util
kept = importlib.util.find_spec
importlib.util.find_spec = lambda name, *more: None if name in {} else kept(name, *more)
"""


class LineCase(ToolCase):
    """Has a model of a line, its plant text, and its table, stay text and patrol text."""

    @classmethod
    def setUpClass(cls):
        super().setUpClass()
        cls.model = cls.placed("line.model", MODEL)
        cls.plant = cls.scaled(MODEL)
        cls.texts = {
            word: cls.placed(f"line.{word}", cls.solved(word, cls.plant)) for word in ("synth", "stay", "patrol")
        }
        cls.table = cls.texts["synth"]


class Units(LineCase):
    """A model's units. The plant has no noise, so each sample moves by 0.3 m."""

    def test_why(self):
        status, output, error = self.tool("why", self.table, "0.75", "--model", self.model, "--input", "2")
        lines = ["input 2 (u = 0.3 m/s)", "  deviation: x 0.1 m", "  successor box: x 0.9 to 1.1 m", "  successors: 1"]
        self.equal("why in the model's units", (0, "", lines), (status, error, output.splitlines()[1:5]))
        start = "cell 2 (x 0.6 to 0.8 m): its row: rank 2, apply input"
        self.holds("why tells a cell in the model's units", output.startswith(start), output)
        by_plant = self.tool(
            "why", self.table, "0.75", "--model", self.placed("line.plant", self.plant), "--input", "2"
        )[1]
        self.equal("why by the plant text of the model", output, by_plant)

    def test_why_refuses(self):
        whole = "`0.75` is no whole number; a state is given in the plant's whole units, floor(value / unit), or with "
        for words, said in (
            (
                ["7", "--model", self.model],
                "x = 7 m is outside 0 to 1.4 m; with --model these are numbers in the model's units",
            ),
            (["0.75"], whole + "--model MODEL"),
            (["99"], "x = 99 is outside 0 to 14; without --model these are whole numbers of the plant's units"),
            (["0.7", "0.1", "--model", self.model], "has 1 numbers (x)"),
            (["nan", "--model", self.model], "`nan` is no number"),
        ):
            status, output, error = self.tool("why", self.table, *words)
            is_told = status in (1, 2) and not output and said in error and error.count("\n") == 1
            self.holds(f"why {words[0]} says `{said}`", is_told, (status, output, error))

    def test_why_of_another_plant(self):
        plant = "plant 1\nstate p 0 9 1\nnext p = p\ntarget 0 1\ngoal reach\nend\n"
        table = self.placed("two.table", self.solved("synth", plant))
        status, _, error = self.tool("why", table, "0.5", "--model", self.model)
        said = "isn't the table's: its states are x, those of the table p"
        self.holds("why by the model of another plant", status == 1 and said in error, error)

    def test_sim(self):
        """Both targets are two samples away, and -0.3 is listed first."""
        table = ["# time, x in m, rank, u in m/s", "0 0.7 2 -0.3", "1 0.4 1 -0.3", "2 0.1 0 -", "arrived 2"]
        patrol = ["# time, turn, x in m, rank, u in m/s", "0 1 0.7 2 -0.3", "1 1 0.4 1 -0.3", "visited 1 2"]
        patrol += ["2 0 0.1 4 0.3", "stopped 2"]
        for kind, words, lines in (("synth", [], table), ("patrol", ["--turn", "1"], patrol)):
            answer = self.tool("sim", self.texts[kind], "2", "1", "0.75", "--model", self.model, *words)
            got = (answer[0], answer[1].splitlines(), answer[2])
            self.equal(f"sim of a {kind} in the model's units", (0, lines, ""), got)

    def test_sim_refuses(self):
        outside = "no row: the state is outside the domain: x = 7 m is outside 0 to 1.4 m; with --model these are"
        for words, status, said in (
            (["7", "--model", self.model], 1, outside),
            (["99"], 1, "x = 99 is outside 0 to 14; without --model"),
            (["0.7"], 2, "or with --model MODEL in the model's own"),
            (["0.7", "--model", self.model, "--real", self.model], 2, "--real has the model already"),
        ):
            got, output, error = self.tool("sim", self.table, "2", "1", *words)
            is_told = (got, output, error.count("\n")) == (status, "", 1) and said in error
            self.holds(f"sim {words[0]} says `{said}`", is_told, (got, output, error))

    def test_lint(self):
        status, output, error = self.tool("lint", "-", data=self.plant.encode())
        deviation = "size: deviation of x: 0.1 m; half a cell is 0.1 m"
        step = "size: step of x: -0.3 m under u = -0.3 m/s; 0 m under u = 0 m/s; 0.3 m under"
        got = (status, deviation in output, step in output, error)
        self.equal("lint in the units of the comments", (0, True, True, ""), got)

    def test_diff(self):
        text = self.table.read_text().splitlines()
        at = next(k for k, line in enumerate(text) if line.startswith("rows "))
        text[at : at + 2] = [f"rows {int(text[at].split()[1]) - 1}"]
        less = self.placed("less.synth", "\n".join(text) + "\n")
        status, output, error = self.tool("diff", self.table, less, "--model", self.model)
        is_told = status == 0 and " m)" in output and "cell 0 (x 0 to 0.2 m)" in output
        self.holds("diff in the model's units", is_told, output + error)
        output = self.tool("diff", self.table, self.texts["stay"])[1]
        self.holds("diff of a table and a stay text", output.startswith("a table and a stay: 5 cells"), output)


class Sweep(LineCase):
    """tools/sweep of stays and patrols, and how it tells how far it is."""

    def test_stays_and_patrols(self):
        """A line for each, whose numbers are those of the texts."""
        for word in ("--stay", "--patrol"):
            status, output, error = self.tool("sweep", "-", word, "--widths", "1", "2", data=TIMES.encode())
            rows = [line.split() for line in output.splitlines()[1:]]
            wanted = (0, "", [["0.5", "1", "40"], ["0.5", "2", "20"]])
            self.equal(f"sweep {word}", wanted, (status, error, [row[:3] for row in rows]))
            self.holds(f"sweep {word} counts what is won", all(0 < int(row[5]) <= int(row[2]) for row in rows), output)

    def test_widths_that_do_not_fit(self):
        output = self.tool("sweep", "-", "--widths", "3", data=TIMES.encode())[1]
        said = "the 40 cells of x can't be 3 times as wide: that would be 13.3333"
        self.holds("sweep says which cells can't be wider", said in output, output)

    def test_turns(self):
        status, output, error = self.tool("sweep", self.model, "--patrol")
        is_told = status == 0 and "/" in output.splitlines()[1].split()[5]
        self.holds("sweep --patrol tells both turns", is_told, output + error)

    def test_one_of_both(self):
        status, output, error = self.tool("sweep", self.model, "--patrol", "--stay")
        self.equal("sweep takes one of both", (2, "", 1), (status, output, error.count("\n")))

    def test_progress(self):
        """What takes over two seconds says so on a terminal, and nothing in a file; here a program that takes its
        time."""
        slow = self.placed("slow", f'#!/bin/sh\nsleep 4\nexec {self.program} "$@"\n')
        slow.chmod(0o755)
        command, slowly = [sys.executable, TOP / "tools/sweep", self.model], self.environment(GAFFCURRANT=str(slow))
        mine, its = pty.openpty()
        done = subprocess.run(command, stdout=subprocess.PIPE, stderr=its, check=False, env=slowly)
        os.close(its)
        said = all_of(mine).decode()
        os.close(mine)
        is_told = "\rsweep: 1 of 1, 2 s so far " in said and said.endswith("\r\033[K")
        self.holds("sweep says on a terminal how far it is", is_told, said)
        error = ran(*command, env=slowly)[2]
        self.equal("sweep to a file", (0, 2, ""), (done.returncode, done.stdout.count(b"\n"), error))


def all_of(terminal):
    """What was written to a terminal whose other end is closed. One read may give a part of it."""
    pieces = []
    try:
        while piece := os.read(terminal, 4096):
            pieces.append(piece)
    except OSError:  # all is read
        pass
    return b"".join(pieces)


class WithoutNumpy(LineCase):
    """Without numpy lint and scale --try go on, and why --deep says what it needs."""

    def bare(self, *modules, python="tried"):
        """The environment of a Python that lacks some modules. `tried`: Debian's Python isn't tried."""
        self.placed("bare/sitecustomize.py", LACK.format(modules))
        return self.environment(PYTHONPATH=str(self.folder / "bare"), GAFFCURRANT_PYTHON=python)

    def test_why(self):
        wanted = (1, "", "why: --deep needs numpy; on Debian: apt-get install python3-numpy\n")
        got = self.tool("why", self.table, "7", "--deep", env=self.bare("numpy"))
        self.equal("why --deep without numpy", wanted, got)
        # Debian's Python is tried once, and has none here either.
        got = self.tool("why", self.table, "7", "--deep", env=self.bare("numpy", python=""))
        self.equal("why --deep where no Python has numpy", wanted, got)

    def test_picture(self):
        packages = "python3-numpy python3-matplotlib"
        said = f"picture: this needs numpy and matplotlib; on Debian: apt-get install {packages}\n"
        bare = self.bare("numpy", "matplotlib")
        got = self.tool("picture", self.table, "-o", self.folder / "x.png", env=bare)
        self.equal("picture without numpy and matplotlib", (1, "", said), got)

    def test_lint(self):
        for name in ("gate", "lane"):
            data = self.plant_text(name)
            with_it, without = self.tool("lint", "-", data=data), self.tool(
                "lint", "-", data=data, env=self.bare("numpy")
            )
            wanted = [line for line in with_it[1].splitlines() if "of no use" not in line]
            self.equal(f"lint of {name} without numpy", wanted, without[1].splitlines())

    def test_scale(self):
        for name in ("gate", "lane"):
            command = ["scale", "--try", "200", self.model_of(name)]
            got = self.tool(*command, env=self.bare("numpy"))
            self.equal(f"scale --try of {name} without numpy", self.tool(*command), got)


@needs_matplotlib
class Film(LineCase):
    """A film of a patrol."""

    def test_frames(self):
        """It has one for each sample, and one of the cells of each turn."""
        film, patrol = self.folder / "patrol.gif", self.texts["patrol"]
        start = ["--from", "7", "--from-turn", "1", "--samples", "20"]
        self.equal("a patrol's film", (0, "", ""), self.tool("picture", patrol, *start, "--animate", film))
        data = film.read_bytes() if film.exists() else b""
        has_frames = data.startswith(b"GIF89a") and data.count(b"\x21\xf9\x04") > 10
        self.holds("a patrol's film has frames", has_frames, data[:6])

    def test_words(self):
        gate = "gate.model: the model isn't the table's: its states are x, v, those of the table x"
        for words, wanted, said in (
            (["--from", "7", "--from-turn", "2"], 2, "the turns are 0 to 1"),
            (["--runs", "1001"], 2, "--runs is from 1 to 1000"),
            (["--model", self.model_of("gate")], 1, gate),
            (["--input", "v"], 2, "--input v: the inputs are u; the number of an input vector goes with --boxes"),
            (["--boxes", "7", "--input", "3"], 2, "--input 3: the inputs are u, and the input vectors are 0 to 2"),
            (
                ["--from", "7", "--from", "4", "--animate", self.folder / "two.gif"],
                2,
                "a film of a patrol shows one run",
            ),
        ):
            output = ["--size", "4", "3"] if "--animate" in words else ["-o", self.folder / "x.png"]
            status, _, error = self.tool("picture", self.texts["patrol"], *words, *output)
            is_told = status == wanted and said in error and error.count("\n") == 1
            self.holds(f"picture {words[:2]} says `{said}`", is_told, (status, error))
