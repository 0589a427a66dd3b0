"""The program under attack: its words, its texts, and how a run of it ends."""

import functools
import itertools
import os
import shutil
import subprocess
import tempfile
from pathlib import Path

from gaffcurrant_plant.plants.reader import read_plant

from . import oracle

PLANT = b"plant 1\nstate x 0 14 3\ninput u -3 3\nnext x = x + u\ntarget 12 14\ngoal reach\nend\n"
TABLE = b"table 2\n" + PLANT + b"rows 5\n0 0 4 1\n1 1 3 1\n2 2 2 1\n3 3 1 1\n4 4 0 -\nend\n"
OLD_TABLE = b"table 1\n" + PLANT + b"rows 5\n0 4 1\n1 3 1\n2 2 1\n3 1 1\n4 0 -\nend\n"
KEEP_PLANT = PLANT.replace(b"target 12 14\n", b"").replace(b"reach", b"keep")
KEEP_TABLE = b"table 2\n" + KEEP_PLANT + b"rows 2\n0 0 - 1\n1 4 - 0\nend\n"
OLD_KEEP_TABLE = b"table 1\n" + KEEP_PLANT + b"rows 5\n0 - 1\n1 - 0\n2 - 0\n3 - 0\n4 - 0\nend\n"
STAY_PLANT = PLANT.replace(b"-3 3", b"-3 0 3")
PATROL_PLANT = PLANT.replace(b"target 12 14", b"target 0 2\ntarget 12 14")
SCRIPT = (
    b"".join(b"publish %d\n%sask 1\nask 13\n" % (len(table), table) for table in (OLD_TABLE, KEEP_TABLE, TABLE))
    + b"ask -2 3\n"
)
CART = b"""plant 1
state p 0 599 10
state v -100 99 10
input a -20 -15 0 15 20
noise w -2 2
next p = p + v / 5
next v = v + a + w
target 400 559 -50 49
obstacle 200 219 80 99
obstacle 300 309 -100 -81
goal reach
end
"""

SECONDS = 120


class Skipped(Exception):
    """Why a case can't be tried here."""


class Form:
    """Words of the program with the text that they work on, and what they have to answer to a text."""

    def __init__(self, words, text, oracle_of):
        self.words, self.text, self.answer = words.split(), text, oracle_of
        self.name = (
            words + (" on a keep plant" if b"keep" in text else "") + (", version 1" if b"table 1" in text else "")
        )

    @functools.cache
    def want(self):
        """How a run ends that nothing disturbs."""
        return self.answer(self.text)


def demo(_):
    """The line of the demo plant of 1, which is the cart."""
    game = oracle.Game(read_plant(CART))
    rows = game.solution()
    edges = sum(len(fan) for fans in game.fans for fan in fans)
    plant = game.plant
    return oracle.ended(
        0,
        f"demo 1 cells {plant.cells} pairs {plant.pairs} edges {edges} won {len(rows)} "
        f"rank {max(rank for rank, _ in rows.values())}\n".encode(),
    )


SYNTH = [Form("synth 1", PLANT, oracle.synth), Form("synth 1", KEEP_PLANT, oracle.synth)]
TABLES = (TABLE, KEEP_TABLE, OLD_TABLE, OLD_KEEP_TABLE)
CHECK = [Form("check", text, oracle.check) for text in TABLES]
UPGRADE = [Form("upgrade", text, oracle.upgrade) for text in TABLES]
SIM = [Form("sim 10 0 1", TABLE, oracle.sim(10, 0, 1)), Form("sim 3 0 0", KEEP_TABLE, oracle.sim(3, 0, 0))]
WORKERS = [Form(f"synth {workers}", text, oracle.synth) for workers in (2, 4) for text in (PLANT, KEEP_PLANT)]
STAY = [Form(f"stay {workers}", STAY_PLANT, oracle.stay) for workers in (1, 2)]
PATROL = [Form(f"patrol {workers}", PATROL_PLANT, oracle.patrol) for workers in (1, 2)]
LIVE = [Form("live 1", SCRIPT, oracle.live), Form("live 3", SCRIPT, oracle.live)]
DEMO = [Form("demo 1 1", b"", demo), Form("demo 1 2", b"", demo)]
FORMS = SYNTH + WORKERS + CHECK + UPGRADE + SIM + STAY + PATROL + LIVE + DEMO


class Program:
    """The built program, copied to where every user may run it, and the words that run it."""

    def __init__(self, *words):
        *runner, path = words
        self.folder = tempfile.TemporaryDirectory()
        os.chmod(self.folder.name, 0o755)
        self.path = shutil.copy(path, Path(self.folder.name) / "synth_cli")
        self.command = [*runner, str(self.path)]
        self.runs = itertools.count()

    def __enter__(self):
        return self

    def __exit__(self, *_):
        self.folder.cleanup()

    def end(self, words, data=b"", before=(), **more):
        """How a run ends: its status, output and error. `before` are the words of a command that becomes the
        program."""
        next(self.runs)
        try:
            done = subprocess.run(
                [*before, *self.command, *words], input=data, capture_output=True, timeout=SECONDS, check=False, **more
            )
        except subprocess.TimeoutExpired:
            return None, b"", f"no end within {SECONDS} seconds".encode()
        return done.returncode, done.stdout, done.stderr


def differs(want, got):
    """How two ends differ, or None."""
    for what, wanted, found in zip(("status", "output", "error"), want, got):
        if wanted != found:
            return f"{what}: wanted {wanted!r:.100}, got {found!r:.100}"
    return None


def refusal(want, got, status, line=None):
    """What is wrong with an end that is neither the wanted one nor a refusal: this status, nothing on the output, and
    the line, or none."""
    if got == want or got[:2] == (status, b"") and got[2] in (line, b""):
        return None
    return f"got {got[0]}, {got[1]!r:.60}, {got[2]!r:.60}"
