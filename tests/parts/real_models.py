"""Real steps of models by Python's own functions and fine steps, beside the steps of their plants."""

import math
import os
import random

from gaffcurrant_plant.plants.reader import read_plant

from .tool_case import ToolCase

# Of each model.
POINTS = int(os.environ.get("GAFFCURRANT_POINTS", 100_000))
NEAR = 1e-6
ALMOST_ONE = 0.999999
SUBSTEPS = 4

GOAL = "goal keep\n"
FUNCTIONS = ("sin", "cos", "tan", "asin", "acos", "atan", "sinh", "cosh", "tanh", "sqrt", "exp", "log", "pi")


class RealCase(ToolCase):
    """Scales models, and compares their steps."""

    def steps_lie_within_noise(self, what, text):
        """A model is scaled, and no real step lies outside of its noise; answers the plant text."""
        status, output, error = self.tool("scale", "-", data=text.encode())
        self.equal(f"scale of {what}", (0, ""), (status, error))
        if not status:
            faults = outside(Real(text), read_plant(output.encode()), POINTS)
            self.equal(f"{what}: real steps outside of the noise", [], faults[:3])
        return output

    def are_refused(self, complaints):
        for model, said in complaints:
            answer = self.tool("scale", "-", data=(model + GOAL).encode())
            self.refused(f"scale of {model[:60]!r}", answer, said)


class Real:
    """A model as a function of Python over floats."""

    def __init__(self, text):
        lines = [line.split() for line in text.splitlines() if line.strip()]

        def of(*keywords):
            return [words[1:] for words in lines if words[0] in keywords]

        self.time = next((float(time) for time, *_ in of("sample")), None)
        self.names = [name for name, *_ in of("state")]
        self.ranges = [(float(low), float(high)) for _, low, high, *_ in of("state")]
        self.units = {name: float(unit) for name, unit, *_ in of("input")}
        self.noises = [(name, float(low), float(high)) for name, low, high, *_ in of("noise")]
        self.exact, self.wraps = (list(map(first, of(keyword))) for keyword in ("exact", "wrap"))
        sides = ["".join(words[2:]).replace("^", "**") for words in of("d", "next")]
        self.after = self.compiled(sides, {name: float(value) for name, value, *_ in of("param")})

    def compiled(self, sides, parameters):
        """The right sides as a function of the states, the inputs and the noises: the state after a sample."""
        room = {name: getattr(math, name) for name in FUNCTIONS} | {"lut": curve} | parameters
        exec("\n    ".join(self.lines_of_plain(sides) if self.time is None else self.lines_of_path(sides)), room)
        return room["after"]

    def lines_of_plain(self, sides):
        names = self.names + list(self.units) + [name for name, *_ in self.noises]
        return [f"def after({', '.join(names)}):", f"return {', '.join(sides)},"]

    def lines_of_path(self, sides):
        """The lines of a function that follows the differential equations by Runge and Kutta's method of order four, in
        SUBSTEPS steps. Halfway the noises take other values."""
        noises = [name for name, *_ in self.noises]
        lines = [
            f"def after({', '.join(self.names + list(self.units) + noises + [f'{name}_late' for name in noises])}):"
        ]
        step = self.time / SUBSTEPS
        for k in range(SUBSTEPS):
            if k == SUBSTEPS // 2:
                lines += [f"{name} = {name}_late" for name in noises]
            lines += [f"{name}_0 = {name}" for name in self.names]
            for stage, share in enumerate((0, step / 2, step / 2, step)):
                lines += [f"{name} = {name}_0 + {share!r} * {name}_{stage}" for name in self.names if stage]
                lines += [f"{name}_{stage + 1} = {side}" for name, side in zip(self.names, sides)]
            lines += [
                f"{name} = {name}_0 + {step / 6!r} * ({name}_1 + 2 * {name}_2 + 2 * {name}_3 + {name}_4)"
                for name in self.names
            ]
        return lines + [f"return {', '.join(self.names)},"]

    def step(self, state, inputs, draws):
        """The state after a sample under random noises."""
        noises = [drawn(draws, low, high) for _, low, high in self.noises * (1 if self.time is None else 2)]
        return self.after(*state, *inputs, *noises)


def first(words):
    return words[0]


def curve(at, *points):
    """The straight pieces through points X0, Y0, X1, Y1 .. at a value, which keep their ends' values beyond these."""
    pairs = list(zip(points[::2], points[1::2]))
    if at <= pairs[0][0]:
        return pairs[0][1]
    pieces = zip(pairs, pairs[1:])
    return next((y + (at - x) * (z - y) / (end - x) for (x, y), (end, z) in pieces if at <= end), pairs[-1][1])


def drawn(draws, low, high):
    """An end of a range in half of the draws, else any number of it."""
    at = draws.random()
    return low if at < 0.25 else high if at < 0.5 else low + (high - low) * draws.random()


def outside(real, plant, count):
    """The real steps from random points which, in units, lie outside of the plant's step and its noise."""
    draws, faults = random.Random(4), []
    ranges = {name: (low, high) for name, low, high in plant.noises}
    ends = [ranges.get(f"r_{name}", (0, 0)) for name in real.names]
    sizes, still = units_of(real, plant), [0] * len(plant.noises)
    vectors = [plant.vector(number) for number in range(plant.vectors)]
    for _ in range(count):
        whole = [round(drawn(draws, low, high)) for _, low, high, _ in plant.states]
        state = [(value + beside) * size for value, beside, size in zip(whole, besides(real, draws), sizes)]
        vector = draws.choice(vectors)
        inputs = [value * unit for value, unit in zip(vector, real.units.values())]
        after, step = real.step(state, inputs, draws), plant.step(whole, vector, still)
        for i, (low, high) in enumerate(ends):
            off = off_by(real, plant, i, after[i] / sizes[i] - step[i])
            if not low - NEAR <= off < high + 1 + NEAR:
                said = f"{after[i] / sizes[i]} for {step[i]}, noise {low} to {high}"
                faults.append(f"{real.names[i]} at {state}, {inputs}: {said}")
    return faults


def besides(real, draws):
    """For each state how far a real value lies from its whole number, in units."""
    return [0 if name in real.exact else drawn(draws, 0.0, ALMOST_ONE) for name in real.names]


def off_by(real, plant, i, off):
    """The difference of two values of a state, the shorter way where it comes round."""
    if real.names[i] not in real.wraps:
        return off
    _, low, high, _ = plant.states[i]
    return off - round(off / (high + 1 - low)) * (high + 1 - low)


def units_of(real, plant):
    """The size of each state's unit, by the range of the model's line."""
    sizes = []
    for (name, low, high, _), (first, last) in zip(plant.states, real.ranges):
        sizes.append((last - first) / (high + 1 - low))
    return sizes
