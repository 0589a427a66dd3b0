"""The built program, the programs of tools/ and the texts of the examples, as tests run and read them."""

import importlib.util
import os
import re
import subprocess
import sys
from functools import lru_cache
from pathlib import Path

TOP = Path(__file__).resolve().parents[2]
PROGRAM = TOP / "crates/synth_cli/out/synth_cli"
# A command of a README: the version and the model, or no model; the word, the plant and the file that it makes.
COMMAND = re.compile(r"^(?:tools/scale --version ([12]) (\S+) \| )?\./gaffcurrant (\w+) 1(?: < (\S+))? > (\S+)$", re.M)


@lru_cache(maxsize=None)
def executed(program, words, data):
    """Status, output and error of the program, which answers the same each time."""
    done = subprocess.run([str(program), *words], input=data, capture_output=True, check=False)
    return done.returncode, done.stdout, done.stderr


def ran(*command, **more):
    """Runs any program; answers its status, output and error as text."""
    done = subprocess.run([*map(str, command)], capture_output=True, check=False, **{"text": True} | more)
    return done.returncode, done.stdout, done.stderr


class Product:
    """What is tested. The program is set once, before anything runs."""

    program = PROGRAM

    @classmethod
    def execute(cls, words, data):
        """Runs the program; answers its status, output and error as bytes."""
        return executed(cls.program, words, data)

    @classmethod
    def solved(cls, word, plant):
        """The text that a command of one worker makes of a plant text, in bytes or not."""
        return cls.execute((word, "1"), plant.encode() if isinstance(plant, str) else plant)[1]

    @classmethod
    def environment(cls, **more):
        """The environment in which the tools find the program."""
        return os.environ | {"GAFFCURRANT": str(cls.program)} | more

    @classmethod
    def tool(cls, name, *words, data=b"", env=None, **more):
        """Runs a program of tools/; answers its status, output and error as text."""
        done = subprocess.run(
            [sys.executable, str(TOP / "tools" / name), *map(str, words)],
            input=data,
            capture_output=True,
            check=False,
            env=env or cls.environment(),
            **more,
        )
        return done.returncode, done.stdout.decode("utf-8", "replace"), done.stderr.decode("utf-8", "replace")

    @classmethod
    def scaled(cls, model, *words):
        """The plant text of a model, in bytes or text, by tools/scale."""
        return cls.tool("scale", *words, "-", data=model.encode() if isinstance(model, str) else model)[1]

    @classmethod
    def reads_version_2(cls):
        """Whether the program reads plants of version 2."""
        return cls.execute(("synth", "1"), cls.plant_text("line").replace(b"plant 1", b"plant 2"))[0] == 0

    @classmethod
    def texts(cls, name):
        """What the commands of an example's README make by the program, by the file's name, the example's own first:
        None where the program doesn't have the word."""
        made = {}
        readme = (TOP / "examples" / name / "README.md").read_text()
        for version, model, word, plant, path in COMMAND.findall(readme):
            by_model = model and cls.tool("scale", "--version", version, TOP / model)[1].encode()
            status, output, _ = cls.execute((word, "1"), by_model or (TOP / plant).read_bytes())
            made[path] = output if status == 0 else None
        return made

    @classmethod
    def text_of(cls, name):
        """The text that the first command of an example's README makes."""
        return next(iter(cls.texts(name).values()))

    @classmethod
    def table_text(cls, name):
        """The table of an example by the program, or None where it isn't solved."""
        status, output, _ = cls.execute(("synth", "1"), cls.plant_text(name))
        return output if status == 0 else None

    @staticmethod
    def examples():
        """The names of the examples that are plants."""
        return sorted(path.stem for path in TOP.glob("examples/*/*.plant"))

    @staticmethod
    def plant_text(name):
        return (TOP / "examples" / name / f"{name}.plant").read_bytes()

    @staticmethod
    def model_of(name):
        """The path of an example's model, which may not be there."""
        return TOP / "examples" / name / f"{name}.model"


def has(module):
    """Whether this Python has a module."""
    return importlib.util.find_spec(module) is not None
