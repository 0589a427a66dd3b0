"""What the tools say of a model that can't be scaled names the line, and what would do; a picture along three states
takes a model's units."""

import re

from .tool_case import ToolCase, needs_matplotlib, needs_mpmath

CELL = "state x 0 1 0.1 0.01\n"
# A model without functions, and what the one line on standard error says.
MESSAGES = [
    (
        "state x 0 1 0.3 0.1\n",
        "line 1: HI - LO of x, 1, is no multiple of the width 0.3; HI 0.9 (3 cells) or HI 1.2 (4 cells) would do, or "
        "`state x 0 1 cells 3`",
    ),
    (
        "state x 0.05 1.05 0.1 0.1\n",
        "line 1: LO of x, 0.05, is no multiple of the unit 0.1; LO 0 or 0.1 would be one, or take the unit 0.05",
    ),
    (
        "state x 0 1 0.1 0.3\n",
        "line 1: WIDTH of x, 0.1, is no multiple of the unit 0.3; WIDTH 0.3 would be one, or take the unit 0.1",
    ),
    (
        "denominator 1\nstate x 0 1000000000 1000000 0.0000001\nnext x = x*x*x*x*x\ngoal keep\n",
        "line 3: the equation of x may come to 1e+45 over the ranges, 1e+52 units of x, and 1e+16 are the most",
    ),
    (
        "denominator 1000000000000000000\nstate x 0 1 0.1 0.1\n\nnext x = x/3\ngoal keep\n",
        "line 4: the plant would be refused, in what becomes of this line: "
        "`1000000000000000000` has more than 18 digits",
    ),
    (
        "sample 100\nstate x 0 1 0.1 0.1\nA -1\ngoal keep\n",
        "line 1: the sampling time is too long beside the fastest time of the system; `sample 50` would do",
    ),
    (
        "state x 0 1 0.1 0.1\ninput u -1 0 1\nnext x = x\ngoal keep\n",
        "line 2: `input NAME UNIT V1 .. Vm`: the unit stands before the values and is above 0, here it is -1",
    ),
    (CELL + "next x = x\ntarget 0 1\n", "the model has no `goal reach` line, and no `goal keep`"),
    (
        CELL + "# a comment\nnext x = x\n\ntarget 0.511 0.519\ngoal reach\n",
        "line 5: a target from 0.511 to 0.519 holds no whole unit of x",
    ),
    (
        CELL + "state y 0 1 0.1 0.1\nnext x = x\ngoal reach\n",
        "the model has 2 states and 1 equations: `next y = ..` is missing",
    ),
    (
        "sample 1\n" + CELL + "target 0.4 0.6\ngoal reach\n",
        "the model has 1 state and 0 equations: `d x = ..` is missing",
    ),
    (
        "sample 1\n" + CELL + "next x = x\ntarget 0.4 0.6\ngoal reach\n",
        "line 1: `sample` is for lines `d` or A, B and c; `next` lines are sampled already",
    ),
]
MESSAGES_OF_FUNCTIONS = [
    (
        CELL + "next x = sqrt(x - 0.5)\ngoal keep\n",
        "line 2: what stands in `sqrt(x - 0.5)` may lie between -0.51 and 0.51, and has to be above 0; a `max` does "
        "it, "
        "as in sqrt(max(x - 0.5, 0.01))",
    ),
    (
        CELL + "next x = x / (x - 0.5)\ngoal keep\n",
        "line 2: the divisor `x - 0.5` may lie between -0.51 and 0.51, and has to keep off 0, "
        "as 1 / max(x - 0.5, 0.01) does, or 1 / min(x - 0.5, -0.01)",
    ),
    (
        CELL + "next x = x / x\ngoal keep\n",
        "line 2: the divisor `x` may lie between -1e-05 and 1, and has to keep off 0; a `max` does it, "
        "as in 1 / max(x, 0.01)",
    ),
    ("sample 1\n" + CELL + "d x = -sqrt(x)\ngoal keep\n", "line 3: what stands in `sqrt(x)`"),
    (
        "# stiff\nsample 5\n" + CELL + "d x = -50*x - 0.001*x*x\ngoal keep\n",
        "line 2: the sampling time is too long: no box was found that holds the solutions up to it; `sample ",
    ),
    (
        "sample 2\n" + CELL + "d x = -9*x/(0.1 + x)\ngoal keep\n",
        "line 1: the sampling time is too long: on the way the divisor `0.1 + x` may lie between -",
    ),
    (
        "sample 1\nstate x -1 1 0.2 0.01\ninput u 0.1 -0.3 0 0.3\nd x = 1/x + u\ngoal keep\n",
        "line 4: the divisor `x` may lie between -0.0625 and 0, and has to keep off 0, as 1 / max(x, 0.01) does",
    ),
    (
        "sample 1\nstate x 0.1 1 cells 9\nstate y 0 1 cells 10\nnoise w -0.01 0.01\nd x = 1000*y + w - x\n"
        "d y = -0.001*y^2*x + w\ngoal keep\n",
        "line 1: the sampling time is too long beside the fastest time of the system; `sample 0.1` may do",
    ),
    (
        "sample 5\n" + CELL + "d x = -50*x\ngoal keep\n",
        "line 1: the sampling time is too long beside the fastest time of the system; `sample 1` would do",
    ),
    (
        "sample 0.1\n" + CELL + "order 2\nd x = abs(x - 0.5)\ngoal keep\n",
        "line 3: with min, max, abs or lut of what varies a differential equation is sampled by order 1 alone",
    ),
    ("sample 1\nstate x -2 2 0.1 0.1\nd x = tan(x)\ngoal keep\n", "tan(max(-1.5, min(1.5, x)))"),
    (CELL + "next x = (x - 0.5)^0.3\ngoal keep\n", "line 2: what stands in the power `(x - 0.5)^0.3`"),
]
STIFF = "sample {}\n" + CELL + "d x = -50*x - 0.001*x*x\ngoal keep\n"
# Three states, which move by 0 or a unit.
THREE = (
    "".join(f"state {name} 0 1 0.2 0.02\n" for name in "xyz")
    + "input u 0.02 -0.02 0.02\n"
    + "".join(f"next {name} = {name} + u\n" for name in "xyz")
    + "target 0.4 1 0.4 1 0.4 1\ngoal reach\n"
)


class Messages(ToolCase):
    """Models that are refused."""

    def are_told(self, messages):
        for model, said in messages:
            self.refused(f"scale of {model[-40:]!r}", self.tool("scale", "-", data=model.encode()), said)

    def test_models(self):
        self.are_told(MESSAGES)

    @needs_mpmath
    def test_models_with_functions(self):
        self.are_told(MESSAGES_OF_FUNCTIONS)

    @needs_mpmath
    def test_shorter_sampling_time(self):
        """That which is named does, and one four times as long does not."""
        said = re.search(r"; `sample (\S+)` may do", self.tool("scale", "-", data=STIFF.format(5).encode())[2])
        times = [float(said[1]) * factor for factor in (1, 4)] if said else []
        got = [self.tool("scale", "-", data=STIFF.format(time).encode())[0] for time in times]
        self.equal(f"scale at a shorter time, {times}", [0, 1], got)


class Picture(ToolCase):
    """A picture along three states."""

    @needs_matplotlib
    def test_units_of_model(self):
        model = self.placed("three.model", THREE)
        text = self.placed("three.table", self.solved("synth", self.scaled(THREE)))
        picture = self.folder / "three.png"
        words = ["--axes", "x", "y", "z", "--model", model, "--from", "0.5", "0.5", "0.5", "-o", picture]
        answer = self.tool("picture", text, *words)
        begin = picture.read_bytes()[:4] if picture.exists() else b""
        self.equal("a picture in the model's units", ((0, "", ""), b"\x89PNG"), (answer, begin))
