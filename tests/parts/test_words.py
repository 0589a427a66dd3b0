"""Each program of tools/ has --help, and says in one line what is wrong: with its words, its input and its output."""

import subprocess
import sys

from .tool_case import TOP, ToolCase

TOOLS = ("lint", "why", "scale", "header", "picture", "diff", "sweep", "sim", "check")
LINE = TOP / "examples/line"
TABLE, PLANT = LINE / "line.table", LINE / "line.plant"
MODEL = TOP / "examples/double_integrator/double_integrator.model"
# Right words of each but picture, the file first.
RIGHT = {
    "lint": [PLANT],
    "why": [TABLE, "7"],
    "scale": [MODEL],
    "header": [TABLE],
    "diff": [TABLE, TABLE],
    "sweep": [MODEL],
    "sim": [TABLE, "3", "0", "7"],
    "check": [TABLE],
}
NOISE = bytes(range(256)) * 40


class Words(ToolCase):
    """The programs one by one."""

    def wrong(self, what, wanted, answer):
        """A refusal: the status, nothing on standard output, and one line on standard error."""
        status, output, error = answer
        lines = error[-200:] if "Traceback" in error else error.count("\n")
        self.equal(what, (wanted, "", 1), (status, output, lines))

    def test_help(self):
        for name in TOOLS:
            status, output, error = self.tool(name, "--help")
            self.equal(f"{name} --help", (0, ""), (status, error))
            is_told = len(output) > 200 and output.startswith("usage: ")
            self.holds(f"{name} --help says what it does", is_told, output)

    def test_wrong_words(self):
        for name in TOOLS:
            self.wrong(f"{name} without words", 2, self.tool(name))
            self.wrong(f"{name} with an unknown word", 2, self.tool(name, "--bogus"))

    def test_wrong_files(self):
        for name in TOOLS:
            more = ["-o", "/tmp/none.png"] if name == "picture" else RIGHT[name][1:]
            self.wrong(f"{name} without its file", 1, self.tool(name, "/nowhere/file", *more))
            self.wrong(f"{name} of a folder", 1, self.tool(name, "/", *more))

    def test_wrong_output(self):
        for name in RIGHT:
            for what, path in (("a full device", "/dev/full"), ("a closed output", "&-")):
                self.wrong(f"{name} to {what}", 1, self.redirected(name, path))

    def redirected(self, name, path):
        """A run whose output goes to a device, or nowhere."""
        command = [sys.executable, str(TOP / "tools" / name), *map(str, RIGHT[name])]
        shell = ["bash", "-c", f'exec "$@" >{path}', "bash", *command]
        done = subprocess.run(shell, stdin=subprocess.DEVNULL, capture_output=True, check=False, env=self.environment())
        return done.returncode, done.stdout.decode(), done.stderr.decode()

    def test_noise(self):
        for name, words in RIGHT.items():
            if name != "lint":
                self.wrong(f"{name} of noise", 1, self.tool(name, "-", *words[1:], data=NOISE))
        status, output, error = self.tool("lint", "-", data=NOISE)
        wanted = (1, "malformed: line 1", "")
        self.equal("lint of noise", wanted, (status, output.split("\n")[0], error))
