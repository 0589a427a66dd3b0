"""tools/scale on models with functions and differential equations: the real step from random points, by Python's own
functions and fine steps of its own, lies within the plant's noise; and what is told where a model can't be scaled."""

import re

from gaffcurrant_plant.plants.reader import read_plant

from .real_models import GOAL, Real, RealCase, outside
from .tool_case import needs_mpmath

MODELS = {
    "a vehicle of version 2": "version 2\nstate x 0 4 0.1 0.001\nstate h -3.2 3.2 0.1 0.001\ninput v 0.5 -1 1\n"
    "input t 0.1 -0.5 0 0.5\n"
    "noise w -0.01 0.01\nnext x = x + 0.3*v*cos(h + 0.15*t) + w\nnext h = h + 0.3*v*tan(t)*cos(h)^2 + sin(2*h - t)/20\n"
    + GOAL,
    "a pendulum of version 2": "version 2\nsample 0.1\nstate a -3.5 3.5 cells 70\nstate w -4 4 cells 40\n"
    "input u 0.1 -3 0 3\nnoise f -0.2 0.2\n"
    "d a = w\nd w = 9.81*sin(a) - 0.1*w + u*cos(a) + f\n" + GOAL,
    "a pendulum of version 1": "sample 0.05\npieces 4\nstate a -1.5 1.5 0.1 0.001\nstate w -3 3 0.1 0.001\n"
    "input u 0.5 -3 0 3\nd a = w\n"
    "d w = 9.81*sin(a) - 0.1*w + u\n" + GOAL,
    "a tank with a root": "state h 0.1 4.1 0.05 0.001\ninput q 0.1 0 0.5 1\nnoise w -0.02 0.02\n"
    "next h = min(max(h + 0.2*(q - 0.6*sqrt(h)) + w*h, 0.2), 4) + abs(h - 2)/40 - log(h)/50\n" + GOAL,
    "a car with quotients": "version 2\nsample 0.5\nstate d 1 31 0.5 0.01\nstate v 2 22 0.5 0.01\ninput u 0.5 -2 0 2\n"
    "noise s -0.1 0.1\n"
    "d d = 12 - v + s\nd v = u*10/(5 + v) - 0.002*v^2 + exp(-v/4)/3 + s/2\n" + GOAL,
    "powers and friction": "version 2\nsample 0.2\nstate x 1 3 cells 21\nstate y 1 4 0.1 0.01\ninput u 0.1 -0.5 0.5\n"
    "d x = u*x^-2 - y^1.5/9 + x/3\n"
    "d y = max(x - y, -1)/2 - u*abs(y - 2)\n" + GOAL,
}

COMPLAINTS = [
    ("state x 0 1 0.1 0.1\nnext x = x / x\n", "the divisor `x` may lie between -0.0001 and 1"),
    (
        "state x 0 1 0.1 0.1\nnext x = sqrt(x - 0.5)\n",
        "what stands in `sqrt(x - 0.5)` may lie between -0.6003 and 0.6003",
    ),
    ("state x 0 3 0.1 0.1\nnext x = tan(x)\n", "with a pole between"),
    ("state x 0 1 0.1 0.1\nnext x = sin x\n", "line 2: behind `sin` an opening bracket"),
    ("state x 0 1 0.1 0.1\nnext x = min(x)\n", "line 2: `min` takes 2, here are 1"),
    ("state x 0 1 0.1 0.1\nnext x = 2^x\n", "line 2: the exponent behind `^` is a number"),
    ("state x 0 1 0.1 0.1\nd x = x\n", "need a sampling time"),
    ("sample 9\nstate x 1 9 0.1 0.1\nd x = x*x\n", "the sampling time is too long"),
    ("sample 1\norder 2\nstate x 1 9 0.1 0.1\nd x = abs(x)\n", "by order 1 alone"),
    ("sample 1\nstate x 0 1 0.1 0.1\nd x = x\nnext x = x\n", "no two of them"),
    (
        "state x 0 1 0.1 0.1\nnext x = " + "+".join(["x"] * 501) + "\n",
        "line 2: the expression has more than 1000 names",
    ),
    ("state x 0 1 0.1 0.1\nnext x = " + "(" * 70 + "x\n", "line 2: more than 64 brackets"),
    ("state x 0 1 0.1 0.1\nnext x = " + "-" * 70 + "x\n", "line 2: more than 64 brackets"),
    ("version 3\n", "line 1: `version` takes a whole number from 1 to 2"),
    ("state x 0 1 cells 0.5\n", "line 1: `state NAME LO HI cells N`"),
    ("pieces 2\nstate x 0 1 cells\n", "line 2: 1 number is due behind `cells`, here are 0"),
]
PENDULUM = MODELS["a pendulum of version 2"].replace("sample 0.1\n", "sample 0.1\norder 3\nsteps 1\n")
# Units by the number of cells: 125 to a cell, or as many times that as LO asks for, so that widths are odd.
CELLS = [
    ("state x 0 1 cells 4", "state x 0 499 125"),
    ("state x -1 1 cells 5", "state x -625 624 250"),
    ("state x 0.5 2 cells 3", "state x 125 499 125"),
    ("state x -1 1 cells 8 0.05", "state x -20 19 5"),
]


@needs_mpmath
class Steps(RealCase):
    """Real steps from random points."""

    def test_models(self):
        for what, text in MODELS.items():
            self.steps_lie_within_noise(what, text)

    def test_examples(self):
        for name in self.examples():
            path = self.model_of(name)
            model = path.read_text() if path.exists() else ""
            if re.search(r"^d |^next.*[a-z]\(", model, re.M):
                faults = outside(Real(model), read_plant(self.plant_text(name)), 4000)
                self.equal(f"{name}: real steps outside of the noise", [], faults[:3])


def third(found):
    """A third of the noise that was found."""
    noise, low, high = found.groups()
    return f"{noise} {int(low) // 3} {int(high) // 3}"


@needs_mpmath
class Pendulum(RealCase):
    """A pendulum by one Taylor step of order three."""

    def test_less_noise_is_seen(self):
        """The comparison sees what the noise is for: with a third of it, real steps lie outside."""
        less = re.sub(r"(noise \w+) (-?\d+) (-?\d+)", third, self.scaled(PENDULUM))
        faults = outside(Real(PENDULUM), read_plant(less.encode()), 3000)
        self.holds("with a third of its noise the pendulum's real steps lie outside", faults)

    def test_scale_try(self):
        status, output, error = self.tool("scale", "--try", "500", "-", data=PENDULUM.encode())
        got = (status, output.count("the noise allows"), error)
        self.equal("scale --try of the pendulum", (0, 2, ""), got)

    def test_version(self):
        """--version takes the place of the model's line; the sine is made of lines in version 1, and of points in
        version 2."""
        wanted = [True, False, True], [True, False, True], [False, True, False]
        texts = [self.scaled(PENDULUM, *words) for words in ([], ["--version", "1"], ["--version", "2"])]
        got = tuple([word in plant for plant in texts] for word in ("plant 2", "lut(", "max("))
        self.equal("the version of a model's line, and given", wanted, got)
        faults = outside(Real(PENDULUM), read_plant(texts[1].encode()), 3000)
        self.equal("the pendulum's real steps outside of version 1", [], faults[:3])


@needs_mpmath
class Lines(RealCase):
    """Lines of models, right and wrong."""

    def test_refused(self):
        self.are_refused(COMPLAINTS)

    def test_cells(self):
        for line, wanted in CELLS:
            output = self.scaled(f"{line}\nnext x = x\ngoal keep\n")
            self.holds(f"`{line}` gives `{wanted}`", wanted in output.splitlines(), output)

    def test_long_sum(self):
        """480 times 1/480 of x is x."""
        model = "state x 0 1 0.1 0.1\nnext x = " + "+".join(["x/480"] * 240) + "+ 240*x/480\ngoal keep\n"
        output = self.scaled(model)
        self.holds("a long sum is scaled", "next x = x" in output, output)
