"""The types of tools/, by mypy: strictly of what a notebook imports, with all that this imports in turn; and of all of
tools/ as mypy reads it without further words. Python is taken as the oldest one that tools/ is for."""

import os
import re
import shutil
import unittest

from .product import ran
from .test_layout import is_script
from .tool_case import TOP, ToolCase

TOOLS = TOP / "tools"
# What docs/PYTHON.md imports of the package, and what else a notebook may.
PUBLIC = ("__init__", "arrays", "conforming", "diagnosing", "logs", "promises", "ranging", "real")
USE = """from gaffcurrant_plant import Sample, Table, read_table, read_text, read_units, scale, simulate, solve
from gaffcurrant_plant.arrays import Cells
from gaffcurrant_plant.conforming import conform
from gaffcurrant_plant.logs import log_of
text: str = scale("", version=2)
table: Table = solve(text)
values = table.choice((1, 2))
assert values is not None
first: int = values[0]
run: list[Sample] = simulate(table, [1, 2], samples=3)
speeds = table.in_units(read_units("model", b"")).choice([0.5, 1])
docks = read_text(b"")
rank = docks.turns[0].rank([1]) if docks.kind == "patrol" else docks.rank([1])
ranges: list[tuple[int, int]] = conform(table.plant, log_of([[1, 2]], [[3]])).ranges()
won = Cells(b"").won.sum()
"""
# Uses that are wrong, with a part of what is said.
WRONG = (
    ("wrong: int = table.choice([1])", "Incompatible types"),
    ('table.rank(["left"])', 'has incompatible type "str"'),
    ("docks.turns", 'has no attribute "turns"'),
    ('table.plant.box("0", 0)', 'has incompatible type "str"'),
)


@unittest.skipUnless(shutil.which("mypy"), "mypy isn't there (apt-get install mypy), so types aren't looked at")
class Types(ToolCase):
    """Types of the module, of a use of it, and of all programs."""

    def mypy(self, *words):
        """Status and output of mypy with the settings of pyproject.toml."""
        settings = ["--config-file", TOOLS / "pyproject.toml", "--cache-dir", self.folder / "cache"]
        return ran("mypy", *settings, *words, env=os.environ | {"MYPYPATH": str(TOOLS)})[:2]

    def strictly(self, use):
        """The same of the public modules, of all that they import, and of a use of them."""
        files = [TOOLS / f"gaffcurrant_plant/{name}.py" for name in PUBLIC]
        return self.mypy("--strict", "--follow-imports=normal", *files, self.placed("use.py", use))

    def test_public_modules(self):
        status, output = self.strictly(USE)
        self.equal("mypy --strict on the public modules and a use of them", (0, ""), (status, faults_in(output)))
        _, output = self.strictly(USE + "".join(f"{use}\n" for use, _ in WRONG))
        for number, (use, said) in enumerate(WRONG, USE.count("\n") + 1):
            found = [line for line in output.splitlines() if f"use.py:{number}: error:" in line]
            self.holds(f"mypy sees that `{use}` is wrong", any(said in line for line in found), output)

    def test_all_of_tools(self):
        files = [path for path in TOOLS.rglob("*.py") if "__pycache__" not in path.parts]
        scripts = [path for path in TOOLS.iterdir() if path.is_file() and is_script(path)]
        status, output = self.mypy("--scripts-are-modules", *files, *scripts)
        self.equal("mypy on all of tools/", (0, ""), (status, faults_in(output)))

    def test_documented_modules(self):
        page = (TOP / "docs/PYTHON.md").read_text()
        named = set(re.findall(r"from gaffcurrant_plant\.(\w+) import", page))
        self.equal("modules that docs/PYTHON.md imports, and that aren't public here", set(), named - set(PUBLIC))
        oldest = re.search(r'requires-python = ">=(.*)"', (TOOLS / "pyproject.toml").read_text())[1]
        settings = re.search(r'python_version = "(.*)"', (TOOLS / "pyproject.toml").read_text())[1]
        self.equal("the Python that mypy takes is the oldest", oldest, settings)


def faults_in(output):
    """The first lines of what mypy says, without the one that counts."""
    return "\n".join(line for line in output.splitlines() if ": error:" in line)[:400]
