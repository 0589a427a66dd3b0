"""Models made at random, half of them damaged: each is scaled to a text, or refused in one line. GAFFCURRANT_MODELS
says how many are made (5000).

Run as a program, `tests/attacks/models.py FIRST COUNT`, it tries so many models from this number on, prints a line
for each that ends in neither as it comes, and at the end how many there were of each kind; `--tell` prints a line for
every model, with its seconds."""

import os
import random
import re
import signal
import subprocess
import sys
import time
import traceback
from collections import Counter
from pathlib import Path

TOP = Path(__file__).resolve().parents[2]
COUNT, BLOCK = int(os.environ.get("GAFFCURRANT_MODELS", 5000)), 25
# Seconds of the processor after which a model is said never to end.
ENDLESS = 300
# How a line begins that is said of a model: with the model's line, with what the model lacks, or with a limit of the
# whole text.
LINED = re.compile(r"line [0-9]+: |the model has |the plant would be refused, limit: ")


class Endless(Exception):
    """A model takes as long as if it never ended."""


FUNCTIONS = ("sin", "cos", "tan", "asin", "acos", "atan", "sinh", "cosh", "tanh", "sqrt", "exp", "log", "abs")
PIECES_OF_DAMAGE = (
    "1e30",
    "-1e30",
    "1e-30",
    "0",
    "-1",
    "nan",
    "1e400",
    "99999999999999999999",
    "*",
    "x",
    "(",
    ")",
    ",",
    "=",
    "lut(",
    "sin(",
    "\u2212",
    "1/0",
    "^",
    "^-1",
    "^0.5",
    "#",
    "\x00",
    "\ufeff",
    "cells",
    "state",
    "next",
    "d",
    "wrap",
    "exact",
    "sample",
    "steps 4",
    "order 4",
    "0.1:0.1:9",
)


def cases(_):
    """Blocks of models, each in a process of its own."""
    for first in range(0, COUNT, BLOCK):
        yield f"models from {first} on", lambda first=first: wrong_in(first)


def wrong_in(first):
    """The models of a block that end in neither a text nor a line, or None."""
    count = min(BLOCK, COUNT - first)
    done = subprocess.run(
        [sys.executable, __file__, str(first), str(count)], capture_output=True, check=False, text=True
    )
    wrongs = done.stdout.splitlines()[:-1]
    if done.returncode or wrongs or not done.stdout.startswith(f"{count} models: "):
        return "; ".join(wrongs) or f"status {done.returncode}, {(done.stdout + done.stderr)[-200:]!r}"
    return None


class Maker:
    """Makes one model."""

    def __init__(self, seed):
        self.draws = random.Random(seed)
        self.kind = self.draws.choice(["next", "next", "d", "d", "d", "A"])
        self.names, self.states, self.lines = [], [], []

    def number(self):
        draws = self.draws
        return draws.choice(
            [
                str(draws.randint(-3, 5)),
                f"{draws.uniform(-2, 2):.3f}",
                f"{draws.uniform(0, 9):.1f}",
                f"{10 ** draws.uniform(-4, 4):.5g}",
                "pi",
                "k",
            ]
        )

    def text(self):
        draws = self.draws
        for keyword, low, high, share in (
            ("version", 1, 2, 0.3),
            ("order", 1, 4, 0.2),
            ("steps", 1, 8, 0.2),
            ("pieces", 2, 31, 0.2),
        ):
            if draws.random() < share:
                self.lines.append(f"{keyword} {draws.randint(low, high)}")
        if draws.random() < 0.1:
            self.lines.append(f"denominator {10 ** draws.randint(0, 12)}")
        if self.kind == "d" or self.kind == "A" and draws.random() < 0.7:
            self.lines.append(f"sample {10 ** draws.uniform(-2.5, 1.5):.3g}")
        self.lines.append(f"param k {draws.choice(['0.5', '2*pi/7', '-3', '1e3', '1/3'])}")
        for name in "xyzh"[: draws.choice([1, 1, 2, 2, 2, 3, 4])]:
            self.state(name)
        for name in "uv"[: draws.choice([0, 1, 1, 2])]:
            self.input(name)
        if self.kind != "A":
            for name in "ab"[: draws.choice([0, 0, 1, 2])]:
                low = draws.uniform(-0.5, 0.1)
                self.lines.append(f"noise {name} {low:.3f} {low + draws.uniform(0, 0.5):.3f}")
                self.names.append(name)
        self.equations()
        self.boxes()
        return "\n".join(self.lines) + "\n"

    def state(self, name):
        draws = self.draws
        cells, low = draws.choice([4, 7, 12, 20]), draws.choice([0, -1, -10, 1, 0.5, -180, 100])
        high = 180 if low == -180 else low + draws.choice([1, 2, 10, 50])
        if draws.random() < 0.6:
            self.lines.append(f"state {name} {low} {high} cells {cells}")
        else:
            width = draws.choice([0.25, 0.5, 1]) if high - low < 100 else 9
            self.lines.append(
                f"state {name} {low} {high} {width} "
                f"{draws.choice([0.25, 0.05, 0.005, 0.0005]) if high - low < 100 else 0.1}"
            )
        if draws.random() < 0.04:
            self.lines.append(f"exact {name}")
        if draws.random() < (0.5 if low == -180 else 0.03):
            self.lines.append(f"wrap {name}")
        self.names.append(name)
        self.states.append((name, low, high))

    def input(self, name):
        draws = self.draws
        values = draws.choice(["-1 0 1", "0", "-1:0.5:1", "0 1", "-20 0 20", "5", "-2:0.1:2"])
        self.lines.append(
            f"input {name} {draws.choice([0.1, 0.1, 0.05, 0.5 if ':0.1' not in values else 0.1])} " f"{values}"
        )
        self.names.append(name)

    def node(self, depth):
        """The text of an expression."""
        draws = self.draws
        kind = draws.random()
        if depth == 0 or kind < 0.2:
            return draws.choice(self.names) if draws.random() < 0.7 else self.number()
        if kind < 0.65:
            return f"{self.node(depth - 1)} {draws.choice('+-*')} {self.node(depth - 1)}"
        if kind < 0.7:
            inner, *large = self.node(depth - 1), *(f"max({self.node(depth - 1)}, 0.2)" for _ in range(2))
            return f"({inner})/{draws.choice(['3', *large, self.node(0)])}"
        if kind < 0.85:
            return self.call(draws.choice(FUNCTIONS), depth)
        if kind < 0.89:
            return f"{draws.choice(['min', 'max', 'atan2'])}({self.node(depth - 1)}, {self.node(depth - 1)})"
        if kind < 0.9:
            xs = sorted(draws.sample(range(-20, 40), draws.randint(2, 6)))
            return (
                f"lut({self.node(depth - 1)}, " + ", ".join(f"{x}, {self.draws.uniform(-2, 2):.2f}" for x in xs) + ")"
            )
        return f"({self.node(depth - 1)}){draws.choice(['^2', '^2', '^2', '^3', '^3', '^0.5', '^-1', '^1.5', '^6'])}"

    def call(self, function, depth):
        inner = self.node(depth - 1)
        if function in ("sqrt", "log") and self.draws.random() < 0.9:
            return f"{function}(max({inner}, 0.05))"
        if function in ("asin", "acos", "tan") and self.draws.random() < 0.9:
            return f"{function}(max(-0.9, min(0.9, {inner})))"
        return f"{function}({self.draws.choice(['', 'pi/180*', '0.1*'])}({inner}))"

    def equations(self):
        draws = self.draws
        if self.kind == "A":
            for keyword, wide in (
                ("A", len(self.states)),
                ("B", len(self.names) - len(self.states)),
                ("c", 1),
                ("w", 2),
            ):
                if wide and (keyword in "AB" or draws.random() < 0.4):
                    self.lines += [
                        f"{keyword} "
                        + " ".join(sorted((f"{draws.uniform(-1, 1):.2f}" for _ in range(wide)), key=float))
                        for _ in self.states
                    ]
            return
        for name, *_ in self.states:
            linear = " + ".join(f"{self.number()}*{one}" for one in draws.sample(self.names, min(2, len(self.names))))
            start = f"{name} + " if self.kind == "next" else ""
            side = draws.choice([linear, self.node(2), self.node(3), self.node(4), f"0.1*({self.node(3)})"])
            self.lines.append(f"{self.kind} {name} = {start}{side}")

    def boxes(self):
        draws = self.draws
        goal = draws.choice(["reach", "reach", "keep"])
        for keyword in ["target"] * (goal == "reach") + ["obstacle"] * draws.randint(0, 2):
            ends = []
            for _, low, high in self.states:
                first = low + (high - low) * draws.uniform(-0.1, 0.8)
                ends.append(draws.choice(["*", f"{first:.2f} {first + (high - low) * draws.uniform(0.05, 0.5):.2f}"]))
            self.lines.append(f"{keyword} {' '.join(ends)}")
        if draws.random() < 0.1:
            self.lines.append(f"obstacle {self.states[0][0]} < {draws.uniform(-1, 1):.2f}*{self.states[-1][0]} - 0.3")
        self.lines.append(f"goal {goal}")


def damaged(text, draws):
    """The text with one thing wrong, or a few."""
    lines = text.splitlines()
    for _ in range(draws.choice([1, 1, 2, 4])):
        at = draws.randrange(len(lines))
        words = lines[at].split(" ")
        at_word = draws.randrange(len(words))
        change = draws.random()
        if change < 0.15:
            del lines[at]
        elif change < 0.3:
            lines.insert(draws.randrange(len(lines) + 1), lines[at])
        elif change < 0.75:
            words[at_word] = draws.choice(PIECES_OF_DAMAGE)
            lines[at] = " ".join(words)
        elif change < 0.9:
            letter = draws.randrange(len(lines[at]) + 1)
            lines[at] = lines[at][:letter] + draws.choice(["", "9", "(", "-", " ", "e"]) + lines[at][letter + 1 :]
        else:
            words.insert(at_word, draws.choice(PIECES_OF_DAMAGE))
            lines[at] = " ".join(words)
        lines = lines or [""]
    return "\n".join(lines) + "\n"


def model_of(seed):
    """The text of a model: of an even number as it was made, of an odd one damaged."""
    text = Maker(seed).text()
    return damaged(text, random.Random(-seed)) if seed % 2 else text


def outcome(text):
    """What becomes of a model: `text`, or the one line that is said of it; raises what it mustn't."""
    from gaffcurrant_plant.models.best_plant import planted
    from gaffcurrant_plant.command import Trouble
    from gaffcurrant_plant.models.model import read_model

    try:
        planting = planted(read_model(text.encode("utf-8", "surrogateescape")))
    except Trouble as trouble:
        line = " ".join(str(trouble).split())
        assert LINED.match(line), f"no line of the model is named: {line}"
        return line
    assert planting.text.endswith("\nend\n")
    return "text"


def endless(*_):
    raise Endless


def tried(seed):
    """What becomes of the model of a number, and whether that may be."""
    signal.setitimer(signal.ITIMER_PROF, ENDLESS)
    try:
        return outcome(model_of(seed)), True
    except Exception:
        return " ".join(traceback.format_exc().split())[-300:], False
    finally:
        signal.setitimer(signal.ITIMER_PROF, 0)


def main(words):
    sys.path.insert(0, str(TOP / "tools"))
    sys.dont_write_bytecode = True
    sys.setrecursionlimit(20_000)
    signal.signal(signal.SIGPROF, endless)
    first, count = (int(word) for word in words if word.isdigit())
    kinds = Counter()
    for seed in range(first, first + count):
        before = time.process_time()
        said, is_right = tried(seed)
        kinds["texts" if said == "text" else "lines" if is_right else "failed"] += 1
        if not is_right or "--tell" in words:
            print(
                f"{'' if is_right else 'failed '}model {seed}, {time.process_time() - before:.1f} s: {said}", flush=True
            )
    print(f"{count} models: {kinds['texts']} texts, {kinds['lines']} lines, {kinds['failed']} failed", flush=True)
    return 1 if kinds["failed"] else 0


if __name__ == "__main__":
    sys.exit(main(sys.argv[1:]))
