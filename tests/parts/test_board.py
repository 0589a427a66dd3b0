"""The program for ARM64 by an emulator: it writes what the program writes here, and passes the cases and the games of
tests/hostile."""

import shutil
import subprocess
import unittest

from .product import ran
from .tool_case import TOP, ToolCase

COMPILER, EMULATOR = "aarch64-linux-gnu-gcc", "qemu-aarch64"
MISSING = [program for program in ("rt", COMPILER, EMULATOR) if shutil.which(program) is None]
PACKAGES = "apt-get install gcc-aarch64-linux-gnu qemu-user"
# How many of the random games are played.
GAMES = 100
# Words of the command line, which read nothing.
WORDS = [(), ("solve",), ("synth",), ("synth", "0"), ("synth", "1", "2"), ("sim", "1"), ("demo", "20", "4")]
WORDS += [("synth", "x" * 100000), ("", "1"), (b"\xff", "1")]


@unittest.skipIf(MISSING, f"the program isn't tried for ARM64, there is no {', '.join(MISSING)} ({PACKAGES})")
class Board(ToolCase):
    """The program that tools/program makes for ARM64."""

    @classmethod
    def setUpClass(cls):
        super().setUpClass()
        kept = ["--standing"] if (TOP / "crates/synth_run/out/rlib/synth_run.rlib").exists() else []
        command = [TOP / "tools/program", *kept, "--target", "aarch64", cls.folder, "--jobs", "1"]
        cls.made = ran(*command)
        if cls.made[0]:
            raise RuntimeError(f"tools/program: {cls.made[2][-300:]}")
        cls.command = [EMULATOR, str(cls.folder / "gaffcurrant")]

    def test_made(self):
        status, output, error = self.made
        self.equal("tools/program", (0, f"{self.folder}/gaffcurrant\n"), (status, output))
        verdict = next((f"{line} " for line in reversed(error.splitlines()) if line.startswith("logic=")), "")
        self.holds("the program is proved for ARM64", " target=aarch64-unknown-linux-gnu " in verdict, verdict)

    def test_examples(self):
        """Each example's texts by one worker and by four, `check` and `upgrade` of its table."""
        for name in self.examples():
            for word in ("synth", "stay", "patrol"):
                for workers in ("1", "4"):
                    self.same((word, workers), self.plant_text(name))
            table = self.table_text(name)
            if table is not None:
                self.same(("check",), table)
                self.same(("upgrade",), table)

    def test_words(self):
        for words in WORDS:
            self.same(words, b"")

    def test_line(self):
        line = self.table_text("line")
        self.same(("sim", "10", "0", "1"), line)
        self.same(("check",), line[:-9])

    def test_live(self):
        for script in sorted(TOP.glob("examples/*/*.script")):
            self.same(("live", "4"), script.read_bytes())

    def same(self, words, data):
        done = subprocess.run([*self.command, *words], input=data, capture_output=True, check=False)
        got = (done.returncode, done.stdout, done.stderr)
        self.equal(f"{str(words)[:60]} of {data[:40]!r}", self.execute(words, data), got)

    def test_cases(self):
        self.passes("tests/run", skips=1)

    def test_games(self):
        self.passes("tests/hostile", "games", skips=0)

    def passes(self, program, *words, skips):
        """A program of tests/ passes, and skips so much."""
        tested = self.environment(GAFFCURRANT_TESTED=" ".join(self.command), GAFFCURRANT_GAMES=str(GAMES))
        status, output, _ = ran(TOP / program, *words, env=tested)
        lines = output.splitlines()
        failed = [line for line in lines if line.startswith("failed")]
        self.equal(f"{program}", (0, []), (status, failed))
        skipped = [line for line in lines if line.startswith("skipped")]
        self.equal(f"what {program} skips", skips, len(skipped))
