"""Random small plants of both versions, solved by the program and by the oracle: to reach, to keep, to reach and stay,
to patrol."""

import os
import random

from . import oracle
from .program import differs

# So many plants, each by every word that fits it.
GAMES = int(os.environ.get("GAFFCURRANT_GAMES", 1000))
MOST_CELLS = 120
WORDS = {"synth": oracle.synth, "stay": oracle.stay, "patrol": oracle.patrol}


class Draws(random.Random):
    """Draws the lines of a plant."""

    def chance(self, share):
        return self.random() < share

    def axis(self, name, most):
        """A state line whose cells are at most so many, and the line's numbers."""
        width, count = self.choice((1, 1, 2, 3, 3, 4, 5)), self.randint(1, most)
        low = self.choice((0, 0, -count * width // 2, self.randint(-20, 20)))
        return name, low, low + count * width - 1, width

    def term(self, names):
        """A small term over some names."""
        name, other = self.choice(names), self.choice(names)
        return self.choice(
            (
                name,
                f"{name} / {self.randint(2, 4)}",
                f"-{name}",
                f"abs({name})",
                f"min({name}, {other})",
                f"max({name}, {self.randint(-3, 3)})",
                f"{name} * {other} / {self.randint(3, 9)}",
                str(self.randint(0, 4)),
            )
        )

    def curve(self, name, low, high):
        """A table of points over a range, that mostly follows the name."""
        xs = sorted(self.sample(range(low - 3, high + 4), min(self.randint(2, 6), high - low + 7)))
        return f"lut({name}, " + ", ".join(f"{x}:{x + self.randint(-4, 4)}" for x in xs) + ")"

    def values(self):
        """The values of an input, mostly to both sides."""
        if self.chance(0.2):
            return [self.randint(-6, 6) for _ in range(self.randint(1, 4))]
        step = self.randint(1, 6)
        return [-step] + [0] * self.chance(0.7) + [step]

    def equation(self, state, states, inputs, noises, version):
        """The next state: mostly what it is, moved by an input, and by something small."""
        name, low, high, _ = state
        begin = self.curve(name, low, high) if version == 2 and self.chance(0.4) else name
        parts = [begin]
        if inputs and self.chance(0.9):
            parts.append(self.choice(inputs + [inputs[states.index(state) % len(inputs)]] * 3))
        if self.chance(0.2):
            parts.append(self.term([name for name, *_ in states] + inputs))
        if noises and self.chance(0.4):
            parts.append(self.choice(noises))
        return " + ".join(parts)

    def box(self, states, most_share):
        """A box of which each end lies in the domain or a little beside."""
        ends = []
        for _, low, high, width in states:
            size = max(width, int((high - low + 1) * self.uniform(0.1, most_share)))
            first = self.randint(low - 1, max(low, high - size + 1))
            ends += [str(first), str(first + size)]
        return " ".join(ends)

    def plant(self):
        version, goal = self.choice((1, 2)), "keep" if self.chance(0.15) else "reach"
        names = ["x", "y", "z"][: self.choice((1, 1, 1, 2, 2, 3))]
        states = [self.axis(name, int(MOST_CELLS ** (1 / len(names)))) for name in names]
        inputs, noises = ["u", "v"][: self.choice((0, 1, 1, 2, len(names)))], ["w"][: self.choice((0, 0, 1))]
        lines = [f"plant {version}"] + [" ".join(map(str, ["state", *state])) for state in states]
        lines += [" ".join(map(str, ["input", name, *self.values()])) for name in inputs]
        lines += [f"noise {name} {self.randint(-2, 0)} {self.randint(0, 1)}" for name in noises]
        lines += [f"next {state[0]} = {self.equation(state, states, inputs, noises, version)}" for state in states]
        if goal == "reach":
            lines += [f"target {self.box(states, 0.7)}" for _ in range(self.choice((0, 1, 1, 2, 2, 2, 3, 4)))]
        lines += [f"obstacle {self.box(states, 0.3)}" for _ in range(self.choice((0, 0, 1, 2)))]
        return "\n".join(lines + [f"goal {goal}", "end", ""]).encode()


def cases(program):
    for number in range(GAMES):
        draws = Draws(number)
        text = draws.plant()
        for word, answer in WORDS.items():
            yield f"{word} of plant {number}", judge(program, [word, str(draws.randint(1, 5))], text, answer)


def judge(program, words, text, answer):
    def judged():
        want, got = answer(text), program.end(words, text)
        return differs(want, got)

    return judged
