"""tools/scale: the noise that it derives, by hand, and the error of the integer plant on random states, by another
way."""

import math
import random
import re
from fractions import Fraction

from gaffcurrant_plant.models.variables import outward
from gaffcurrant_plant.plants.reader import read_plant

from .tool_case import ToolCase, needs_mpmath

HEAD = "state x 0 9.99 0.09 0.01\nstate v -1.21 1.22 0.09 0.01\ninput u 0.01 -1 -0.6 0 0.2 1\n"

# A model, and lines that its plant has.
SCALED = [
    # x + v/2 + u/8 = (8x + 4v + u) / 8 with u a multiple of 20: the remainder is 0 or 4 eighths; quantising x and v
    # moves by 0 up to 1.5, so below 2. A measurement that is a rounding beside reaches 2, and below 0: the noise is -1
    # to 2. In v the quotient by 2 is exact, quantising moves below 1, and a rounding makes that -1 to 1.
    (
        HEAD + "next x = x + 0.5*v + 0.125*u\nnext v = v + 0.5*u\ntarget 8 9 -0.2 0.2\ngoal reach\n",
        [
            "state x 0 998 9",
            "state v -121 121 9",
            "input u -100 -60 0 20 100",
            "noise r_x -1 2",
            "noise r_v -1 1",
            "next x = x + (4 * v + u) / 8 + r_x",
            "next v = v + u / 2 + r_v",
            "target 800 899 -20 19",
        ],
    ),
    # The same as a linear system, with 0.02 of disturbance on v: 2 units to each side, and one more by quantising and
    # rounding.
    (
        HEAD + "A 1 0.5\nA 0 1\nB 0.125\nB 0.5\nw 0 0\nw -0.02 0.02\ntarget 8 9 -0.2 0.2\ngoal reach\n",
        ["noise r_x -1 2", "noise r_v -3 3", "next x = x + (4 * v + u) / 8 + r_x", "next v = v + u / 2 + r_v"],
    ),
    # The same from the differential equation.
    (
        HEAD + "sample 0.5\nA 0 1\nA 0 0\nB 0\nB 1\nw 0 0\nw -0.02 0.02\ntarget 8 9 -0.2 0.2\ngoal reach\n",
        ["noise r_x -1 2", "noise r_v -3 3", "next x = x + (4 * v + u) / 8 + r_x", "next v = v + u / 2 + r_v"],
    ),
    # exp(-0.1) is 0.904837, 1 - exp(-0.1) is 0.095163.
    (
        "denominator 1000000\nsample 0.1\nstate x 0 10 0.1 0.001\ninput u 1 0 10\nA -1\nB 1\ntarget 5 6\ngoal reach\n",
        ["next x = (904837 * x + 95162582 * u) / 1000000 + r_x"],
    ),
    # A third over 10 is 3 tenths: on 0 to 99 the coefficient's rounding moves by up to 99 / 30 = 3.3; the remainder
    # adds up to 0.9, quantising below a third: -4 to 4.
    (
        "denominator 10\nstate x 0 1 0.1 0.01\nnext x = x / 3\ntarget 0 0.1\ngoal reach\n",
        ["noise r_x -4 4", "next x = 3 * x / 10 + r_x"],
    ),
    # The input's weights stand beside the state that they weigh, and a box is cut to whole units: a target inside, an
    # obstacle outside.
    (
        "state x 0 1 0.1 0.01\ninput m 1 0 1\nnext x = (1 - m)*0.5*x + m*0.25*x\ntarget 0.115 0.2\nobstacle 0.115 0.2\n"
        "goal reach\n",
        ["next x = x * (2 - m) / 4 + r_x", "target 12 19", "obstacle 11 19"],
    ),
    # Behind another term a quotient doesn't begin with a minus: x - v / 2 would round v / 2 down, and -v / 2 up.
    (
        HEAD + "next x = x - 0.5*v\nnext v = v + 0.5*u\ntarget 8 9 -0.2 0.2\ngoal reach\n",
        ["next x = x + (-v) / 2 + r_x", "next v = v + u / 2 + r_v"],
    ),
    # A state that stands in another term too stays in the quotient with it.
    (
        "denominator 1000\nstate x 0 10 0.1 0.01\nnext x = x - x*x/10\ngoal keep\n",
        ["next x = (1000 * x - x * x) / " "1000 + r_x", "noise r_x -3 2"],
    ),
    # With z = x - 500 it is 500 + z - (500 + z)^2 / 1000 = 250 - z * z / 1000. Quantising moves that by -2 * z / 1000,
    # so by less than 1 to either side, and a rounding beside; the quotient leaves less than 1.
    (
        "state x 0 10 0.1 0.01\nnext x = x - x*x/10\ngoal keep\n",
        [
            "next x = ((x - 500) * (-(x - 500)) + 250000) / 1000 " "+ r_x",
            "noise r_x -2 2",
            "# chosen: as the equations are, about the middles",
            "#   tried: as the equations are: a noise of -3 to 2 for x",
        ],
    ),
    # A power of high degree: none of its coefficients needs many digits.
    ("state x 0 1 0.1 0.0001\nnext x = 0.333*x*x*x*x*x*x\ngoal keep\n", ["noise r_x -2 3"]),
    # Lines `d` that are linear are sampled exactly: x + v/2 + u/8 and v + u/2 as above. With a parameter and a
    # constant: v' = (u - 1)/4 - v, of which e^-0.5 is 0.606531 and 1 - e^-0.5 is 0.393469, here over 4 and of inputs of
    # 0.01 in units of 0.01.
    (
        HEAD + "sample 0.5\nd x = v\nd v = u\ntarget 8 9 -0.2 0.2\ngoal reach\n",
        [
            "# sampled with 0.5 exactly: the linear equations of x, v",
            "noise r_x -1 2",
            "noise r_v -1 1",
            "next x = x + (4 * v + u) / 8 + r_x",
            "next v = v + u / 2 + r_v",
        ],
    ),
    (
        "sample 0.5\nparam k 1/4\nstate v 0 1 0.1 0.001\ninput u 1 0 1\nd v = k*(u - 1) - v\ngoal keep\n",
        ["next v = (6065 * v + 983673 * u - 983673) / 10000 + r_v"],
    ),
    # A state that isn't whole within a sample but is at samples is exact: h + 0.3 * t / 0.3.
    (
        "sample 0.3\nstate h 0 12 1 1\nexact h\nwrap h\ninput t 1 -1 0 1\nd h = t/0.3\ngoal keep\n",
        ["next h = h + t - " "(h + t) / 12 * 12"],
    ),
    # -x turns the quantising round: the real value lies up to one below, and a rounding more.
    ("state x -5 5 1 1\nnext x = -x\ngoal keep\n", ["noise r_x -2 0", "next x = -x + r_x"]),
    # An exact state is a whole number by itself, and no rounding moves it; one that wraps comes round.
    (
        "state h 0 12 1 1\nexact h\nstate x 0 9 1 1\ninput t 1 -1 1\nnext h = h + t\nnext x = x + h\ngoal keep\n",
        ["# unit h 1: a whole number by itself", "noise r_x -1 1", "next h = h + t", "next x = x + h + r_x"],
    ),
    (
        "state h -6 6 3 0.5\nexact h\nwrap h\ninput t 0.5 -1 1\nnext h = h + t\ngoal keep\n",
        ["state h -12 11 6", "next h = h + t - (h + t + 12) / 24 * 24"],
    ),
]

LINE = "state x 0 1 0.1 0.1\n"
COMPLAINTS = [
    ("state x 0 1 0.3 0.1\nnext x = x\ngoal reach\n", "HI - LO of x, 1, is no multiple of the width 0.3"),
    ("state x 0 1 0.1 0.3\nnext x = x\ngoal reach\n", "line 1: WIDTH of x, 0.1, is no multiple of the unit 0.3"),
    ("state x 0 1 0.1 0.1\nnext x = y\ngoal reach\n", "line 2: `y` is no variable"),
    ("state x 0 1 0.1 0.1\ngoal reach\n", "the model has 1 state and 0 equations"),
    ("state x 0 1 0.1 0.1\nnext x = x\n", "no `goal reach` line"),
    ("", "the model has no state"),
    ("state x 0 1 0.1 0.1\nA 1\ninput u 1 2\ngoal reach\n", "the model has 0 lines `B`, and 1 is due"),
    ("state x 0 10000000 1 1\nnext x = x\ngoal reach\n", "limit: cells"),
    ("sample 1\nstate x 0 1 0.1 0.1\nnext x = x\ngoal reach\n", "`sample` is for lines `d` or A, B and c"),
    ("sample 100\nstate x 0 1 0.1 0.1\nA -1\ngoal reach\n", "the sampling time is too long"),
    ("sample 0\nstate x 0 1 0.1 0.1\nA -1\ngoal reach\n", "line 1: a sampling time is above 0"),
    ("bogus\n", "line 1: `bogus` begins no line"),
    ("exact x\n", "line 1: `exact NAME` has the name of a state"),
    ("wrap x\n", "line 1: `wrap NAME` has the name of a state"),
    ("version 1\n" + LINE + "wrap x\nnext x = x\ngoal keep\n", "line 3: `wrap x` needs a plant of version 2"),
    (
        LINE + "exact x\nnext x = x / 2\ngoal keep\n",
        "`exact x` is for a state that is a whole number of units by " "itself, and its next value may lie 0 to 0.5",
    ),
    ("samples 1\n", "is `sample` meant?"),
    ("disturbance w 0 1\n", "is `noise` meant?"),
    ("plant 1\n", "the text is a plant text, and no model"),
    ("table 2\n", "the text is a table, and no model"),
    ("version\n", "line 1: 1 number is due behind `version`, here are 0"),
    ("sample 0,5\n", "`0,5` is no number; decimals stand behind a point"),
    ("sample \u22121\n", "write the minus of the keyboard"),
    ("state a -pi pi 0.1 0.01\n", "`-pi` is no number: write the decimal, or take the angle in degrees"),
    ("state x 0 1 0.1\n", "the line is `state NAME LO HI WIDTH UNIT`: 4 numbers are due, here are 3"),
    ("state x: 0 1 0.1 0.1\n", "`x:` is none"),
    (LINE + "state x 0 1 0.1 0.1\n", "`x` is taken by an earlier line"),
    (LINE + "input u 1 0, 2\n", "`0,` is no number: numbers are set apart by blanks alone"),
    (LINE + "input u 1" + " 0" * 65 + "\n", "line 2: 64 values are the most"),
    (LINE + "input u 2 1\n", "its unit 2, which stands before the values"),
    (LINE + "noise w 1\n", "the line is `noise NAME LO HI`"),
    (LINE + "dx = x\n", "an equation is `next NAME = ..` or `d NAME = ..`"),
    (LINE + "d x = x\nnext x = x\n", "line 3: a model has `next` lines, `d` lines or a matrix A, and no two of them"),
    (LINE + "next x = x\nnext x = x\n", "line 3: each state has one equation"),
    (LINE + "next y = x\n", "`next x = ..` is due here, not `next y`"),
    (LINE + "next x = 2x\n", "between `2` and `x` a sign is due, as in 2 * x"),
    (LINE + "next x = 1,5*x\n", "decimals stand behind a point"),
    (LINE + "next x = sgn(x)\n", "the function `sgn` isn't known"),
    (LINE + "next x =\n", "an expression is due"),
    (LINE + "next x = y\n", "no variable of this model; they are x"),
    ("target 0 1\n", "the `state` lines are due before `target`"),
    (LINE + "target 0\n", "the line is `target LO_x HI_x`: 2 numbers are due, here are 1"),
    (LINE + "target 1 0\n", "LO, 1, has to be below HI, 0"),
    (LINE + "obstacle x <= 0.5\n", "an inequality has `<` or `>`, and no `=`"),
    (
        LINE + "next x = x\ntarget 2 3\ngoal reach\n",
        "line 3: the target's x, 2 to 3, is outside of the range of x, 0 " "to 1",
    ),
    (LINE + "next x = x\ngoal reach\n", "the model has `goal reach` and no `target` line"),
    (
        LINE + "next x = 1e30*x\ngoal keep\n",
        "line 2: the equation of x may come to 1e+30 over the ranges, 1e+31 units " "of x, and 1e+16 are the most",
    ),
    (LINE + "next x = lut(x, 0, 1)\ngoal keep\n", "takes 2 to 32 points, two numbers each; here are 2 numbers"),
    (
        LINE + "next x = lut(x, 1, 0, 0, 1)\ngoal keep\n",
        "line 2: the first numbers of the points of `lut` rise from " "point to point",
    ),
    (LINE + "next x = lut(x, 0, x, 1, 1)\ngoal keep\n", "line 2: behind its first comma `lut` takes numbers"),
    (
        LINE + "next x = x\ntarget 0.31 0.39\ngoal reach\n",
        "a target from 0.31 to 0.39 holds no whole unit of x, which " "is 0.1",
    ),
    (LINE + "goal stay\n", "is solved by `stay` or `patrol`"),
    (LINE + "target 0 1\ngoal keep\n", "line 3: `goal keep` has no targets"),
]

# What needs mpmath. The last one's bounds would have more digits than there is memory.
COMPLAINTS_OF_FUNCTIONS = [
    ("sample 1\nstate x 0 1 0.1 0.1\nd x = -sqrt(x)\ngoal keep\n", "a `max` does it, as in sqrt(max(x, 0.01))"),
    ("sample 1\nstate x 0 1000 1 1\nd x = exp(exp(x))\ngoal keep\n", "a bound is past 10^300"),
]


class Scale(ToolCase):
    """Models without functions."""

    def test_lines(self):
        for model, lines in SCALED:
            status, output, error = self.tool("scale", "-", data=model.encode())
            self.equal(f"scale of {model[:60]!r}", (0, ""), (status, error))
            for line in lines:
                self.holds(f"scale says `{line}`", line in output.splitlines(), output)

    def test_errors_of_rounding(self):
        for model, _ in SCALED:
            if "sample" not in model and "wrap" not in model:
                self.lies_within_noise(model[:60], model, self.scaled(model), 300)

    def test_errors_of_rounding_of_examples(self):
        for name in self.examples():
            path = self.model_of(name)
            if path.exists() and not re.search(r"^d |^next.*[a-z]\(", path.read_text(), re.M):
                self.lies_within_noise(name, path.read_text(), self.plant_text(name).decode(), 1000)

    def lies_within_noise(self, what, model, plant, count):
        faults = outside(Model(model), read_plant(plant.encode()), count)
        self.equal(f"{what}: the error of rounding lies within the noise", [], faults[:3])

    def test_less_noise_is_seen(self):
        """The comparison sees what the noise is for: without it, real steps of the gate leave the successor box."""
        text = self.plant_text("gate").decode().replace("noise r_x -1 2\n", "").replace(" + r_x", "")
        faults = outside(Model(self.model_of("gate").read_text()), read_plant(text.encode()), 3000)
        seen = any("leaves" in fault for fault in faults)
        self.holds("without its noise the gate's real steps leave the box", seen)


class Outward(ToolCase):
    """Ends with long denominators become ends of short ones that hold them, and no others change: so numbers don't grow
    from step to step."""

    def test_long_ends(self):
        long = Fraction(1, 3**300)
        low, high = outward(-2 - long, long - 1)
        is_held = -3 < low < -2 - long and long - 1 < high < 0
        is_short = max(low.denominator, high.denominator) <= 2**80
        self.holds("long ends are rounded outward", is_held and is_short, (low, high))

    def test_short_ends(self):
        ends = (Fraction(-1, 1000), Fraction(1, 3))
        self.equal("short ends stay", ends, outward(*ends))


class Refused(ToolCase):
    """Models that are refused."""

    def are_refused(self, complaints):
        for model, said in complaints:
            self.refused(f"scale of {model[:40]!r}", self.tool("scale", "-", data=model.encode()), said)

    def test_models(self):
        self.are_refused(COMPLAINTS)

    @needs_mpmath
    def test_models_with_functions(self):
        self.are_refused(COMPLAINTS_OF_FUNCTIONS)


class Model:
    """A model, its equations as Python's expressions over fractions."""

    def __init__(self, text):
        lines = [line.split("#")[0].split() for line in text.splitlines()]

        def of(keyword):
            return [words[1:] for words in lines if words[:1] == [keyword]]

        self.states = [state_of(words) for words in of("state")]
        self.inputs = [(name, Fraction(unit)) for name, unit, *_ in of("input")]
        self.noises = [(name, Fraction(low), Fraction(high)) for name, low, high in of("noise")]
        self.equations = [exact(" ".join(words[2:])) for words in of("next")] or linear(self, of)


def state_of(words):
    """Name, ends, width and unit of a line `state`; by the number of cells a cell has 125 units, or a multiple, so that
    LO is a whole number."""
    name, low, high, *rest = words
    low, high = Fraction(low), Fraction(high)
    if rest[0] != "cells":
        return name, low, high, *map(Fraction, rest)
    width = (high - low) / int(rest[1])
    return name, low, high, width, width / (125 * (low / width).denominator)


def exact(text):
    return re.sub(r"(?<![A-Za-z0-9_])[0-9]+(\.[0-9]+)?", lambda found: f"F('{found.group()}')", text)


def linear(model, of):
    """The equations by the matrices A and B, with a disturbance w of each state."""
    rows = {keyword: of(keyword) for keyword in "ABw"}
    if time := next((Fraction(time) for time, *_ in of("sample")), None):
        rows |= sampled(numbers(rows["A"]), numbers(rows["B"]), time)
    model.noises += [(f"w{i}", Fraction(low), Fraction(high)) for i, (low, high) in enumerate(rows["w"])]
    names = [name for name, *_ in model.states + model.inputs]
    factors = (a_row + b_row for a_row, b_row in zip(rows["A"], rows["B"]))
    sums = [" + ".join(f"F('{a}') * {name}" for a, name in zip(row, names)) for row in factors]
    return [f"{total} + w{i}" for i, total in enumerate(sums)]


def numbers(rows):
    return [[Fraction(word) for word in row] for row in rows]


def sampled(a, b, time):
    """The matrices of a sample where A^2 is 0, so that the series of the exponential ends: 1 + T A and (T + T^2 / 2 A)
    B."""
    assert not any(map(any, product(a, a)))
    step = product(a, b)
    return {
        "A": [[(i == j) + time * entry for j, entry in enumerate(row)] for i, row in enumerate(a)],
        "B": [[time * one + time**2 / 2 * more for one, more in zip(*rows)] for rows in zip(b, step)],
    }


def product(one, other):
    return [[sum(x * y for x, y in zip(row, column)) for column in zip(*other)] for row in one]


def outside(model, plant, count):
    """The real steps from random states which, rounded down to units, are farther from the plant's than its noise
    allows, or leave the successor box."""
    draws, faults = random.Random(3), []
    codes = [compile(equation, "equation", "eval") for equation in model.equations]
    noise = {name: (low, high) for name, low, high in plant.noises}
    for _ in range(count):
        whole, real, vector = drawn(model, plant, draws)
        step = plant.step(whole, plant.vector(vector), [0] * len(plant.noises))
        low_corner, high_corner = plant.box(plant.cell_of(whole), vector)
        for i, (code, state) in enumerate(zip(codes, model.states)):
            arrived = math.floor(eval(code, {"F": Fraction}, dict(real)) / state[-1])
            low, high = noise.get(f"r_{state[0]}", (0, 0))
            if not low <= arrived - step[i] <= high:
                faults.append(f"{state[0]} at {whole}: {arrived} for {step[i]}")
            if not low_corner[i] <= arrived <= high_corner[i]:
                faults.append(f"{state[0]} at {whole} leaves the box: {arrived}")
    return faults


def drawn(model, plant, draws):
    """A state in whole units, a real one in the same units with inputs and disturbances, and the input vector's
    number."""
    whole = [draws.choice([low, high, draws.randint(low, high)]) for _, low, high, _ in plant.states]
    real = {
        state[0]: (value + Fraction(draws.choice([0, 999, draws.randrange(1000)]), 1000)) * state[-1]
        for state, value in zip(model.states, whole)
    }
    vector = draws.randrange(plant.vectors)
    real |= {name: value * unit for (name, unit), value in zip(model.inputs, plant.vector(vector))}
    real |= {
        name: low + (high - low) * Fraction(draws.choice([0, 100, draws.randrange(101)]), 100)
        for name, low, high in model.noises
    }
    return whole, real, vector
