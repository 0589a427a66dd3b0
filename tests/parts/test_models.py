"""Lines of models beside the plain ones: functions of inputs at their listed values, min and max of inputs, parameters,
ranges of values, any in a box, and states that come round."""

import math
import random
import re

from gaffcurrant_plant.models.arithmetic import Floats
from gaffcurrant_plant.models.formula import parse, text_of, value_of
from gaffcurrant_plant.plants.reader import read_plant
from gaffcurrant_plant.texts.table import read_table

from .tool_case import ToolCase, has, needs_mpmath, needs_numpy

if has("numpy"):
    from gaffcurrant_plant.plants.useless_inputs import useless

STATE = "state x 0 10 0.1 0.001\n"
# A model, and lines that its plant has.
LINES = [
    (
        "param T 1/4\nparam k 2*T\nstate x 0 2 k 0.01\ninput u 0.01 -k 0 k\nnext x = x + T*u\nobstacle T k\n"
        "goal keep\n",
        ["state x 0 199 50", "input u -50 0 50", "obstacle 25 49"],
    ),
    (STATE + "input u 0.5 -1:0.5:1 3\nnext x = x + u\ngoal keep\n", ["input u -2 -1 0 1 2 6"]),
    (
        "state x 0 10 1 1\nstate y -2 2 1 1\nnext x = x\nnext y = y\ntarget 8 10 *\nobstacle * 1 2\ngoal reach\n",
        ["target 8 9 -2 1", "obstacle 0 9 1 1"],
    ),
]
# Models with functions, of which many random points are tried; and what their plants say.
TRIED = [
    (
        "version 2\n" + STATE + "input s 0.1 -1:0.1:1\nnext x = min(max(x + 0.3*tan(s), 0), 9.9)\ngoal keep\n",
        "functions of one input alone are taken at its listed values",
    ),
    (
        "version 1\n" + STATE + "input s 0.1 -0.4 0 0.3\nnext x = min(max(x + 0.3*exp(s), 0), 9.9)\ngoal keep\n",
        "functions are made of up to",
    ),
    (
        "version 2\nsample 0.1\n" + STATE + "input u 1 -1 0 1\nd x = max(u, 0) + abs(u) - x\ngoal keep\n",
        "sampled with 0.1 exactly: the linear equation of x",
    ),
    (
        "version 2\nsample 0.1\n"
        + STATE
        + "input u 1 -1 0 1\nd x = max(u, 0) + abs(u) - (x + 1)^1.5/(x + 2)\ngoal keep\n",
        "by a Taylor polynomial of order",
    ),
    (
        "version 2\nsample 0.1\n"
        + STATE
        + "input u 1 -1 0 1\nd x = 0.1*u*lut(x, 0, 3, 1, 3.4, 2.00005, 3.6, 10, 4.1) - x/20\ngoal keep\n",
        "by a Taylor polynomial of order 1",
    ),
    (
        "version 1\n"
        + STATE
        + "input u 1 -1 0 1\nnext x = 5 + lut(x + 0.001*x*x, 0, -3, 1, 3.4, 2.5, 3.6, 10, 3.6) + u\ngoal keep\n",
        "functions are made of up to",
    ),
    (
        "version 2\nsample 0.1\nstate x -4 4 cells 32\nstate y -2 2 cells 16\ninput u 1 -1 0 1\nnoise w -0.1 0.1\n"
        "d x = y\nd y = u - 2*y - x + w\ngoal keep\n",
        "sampled with 0.1 exactly: the linear equations of x, y",
    ),
    (
        "version 2\nsample 0.3\nsteps 3\nstate x -4 4 cells 32\nstate y -2 2 cells 16\nstate z 0 4 cells 16\n"
        "input u 1 -1 0 1\nnoise w -0.1 0.1\nd x = y\n"
        "d y = u - 2*y - x + w\nd z = sin(x)*z/9 - abs(y)\ngoal keep\n",
        "sampled with 0.3 exactly: the linear equations of x, y",
    ),
    (
        "version 2\nsample 0.2\nstate x 1 3 cells 20\nstate y 4 6 cells 20\ninput u 0.1 0.5 0.7\n"
        "d x = x*y*u/5 - x^3/20\nd y = x*x*y/50 - x*sqrt(y)*u/9\ngoal keep\n",
        "about the middles",
    ),
    # A chemostat, whose kinetics bend where little is left.
    (
        "sample 0.1\norder 2\nstate s 0 10 cells 20\nstate x 0 5 cells 20\ninput D 0.1 0 0.1 0.3\n"
        "d s = D*(10 - s) - 0.5*s/(1 + s)*x/0.4\nd x = (0.5*s/(1 + s) - D)*x\ntarget 2 4 2 3\ngoal reach\n",
        "by a Taylor polynomial of order 2",
    ),
    (
        "version 2\nsample 0.1\n" + STATE + "input u 1 -1 0 1\nd x = atan(x)*sinh(u/2) - tanh(x)\ngoal keep\n",
        "functions of one input alone",
    ),
    (
        "version 2\n" + STATE + "next x = 3 + asin(x/20) + acos(x/20) + 0.0001*cosh(x) + atan2(x, 3)\ngoal keep\n",
        "straight pieces",
    ),
    (
        "version 2\nstate h -180 180 cells 24 0.1\nwrap h\ninput u 0.1 -20 0 20\nnoise w -1 1\n"
        "next h = h + u + 5*sin(pi/180*h) + w\ngoal keep\n",
        "next h = lut(",
    ),
]
# Quotients, and how some of them are written.
QUOTIENTS = [
    ("3*x/(2 + x)", "3 - 6 * 1 / (2 + x)"),
    ("y*x/(2 + x)", None),
    ("x^2/(2 + x^2)*y", None),
    ("(x + y)/(x - 20)", None),
    ("(x - y)/(2*x + y + 30)", None),
    ("(2 + x)/(2 + x)", None),
    ("x/(4*x)", None),
    ("x/3 + 3/(x + 2) + (x*x + x)/(x/2 + 5)", None),
    ("sin(x)/(sin(x) + 2)", "1 - 2 * 1 / (sin(x) + 2)"),
]
COMPLAINTS = [
    ("param x\n", "line 1: `param NAME VALUE`"),
    ("param k x\n", "`x` is no variable"),
    ("param k 1\nparam k 2\n", "line 2: behind `param` a new name is due"),
    ("param k sqrt(2)\n", "line 1: the value of `k` is a number"),
    (STATE + "input u 1 1:2\n", "line 2: `1:2` has the form LO:STEP:HI"),
    (STATE + "input u 1 1:2:4\n", "line 2: `1:2:4`: HI - LO is no multiple of the step; 1:2:3 or 1:2:5 would do"),
    (STATE + "input u 1 1:-1:0\n", "the step is above 0"),
    (STATE + "input u 1 0:1:100\n", "64 values are the most"),
    (STATE + "target * *\n", "1 words are due, here are 2"),
    ("wrap h\n", "line 1: `wrap NAME` has the name of a state"),
    (
        "version 2\nstate h 0 7 1 0.1\nwrap h\nnext h = h + sin(h)\ngoal keep\n",
        "line 3: `wrap h`: the equation of h isn't the same a turn, 7, on",
    ),
    (
        "version 1\nstate h 0 7 1 0.1\nwrap h\nnext h = h + 1\ngoal keep\n",
        "line 3: `wrap h` needs a plant of version 2",
    ),
    (
        "version 2\nstate h 0 7 1 0.1\nwrap h\ninput u 1 0 200\nnext h = h + u\ngoal keep\n",
        "line 3: `wrap h`: within a sample the state may come round",
    ),
    ("version 2\n" + STATE + "next x = atan2(x - 5, x - 5)\ngoal keep\n", "its second argument has to be above 0"),
    ("version 2\n" + STATE + "next x = asin(x)\ngoal keep\n", "has to be within -1 and 1"),
    # Thirty straight pieces in version 1, by min and max of lines: too long, and soon said to be.
    (
        "version 1\npieces 30\nstate x 0.5 2.5 cells 7\nstate y 0 50 cells 20\n"
        "next x = x + 0.1*(tan(max(-0.9, min(0.9, x - cos(0.1*(y))))))\nnext y = y\ngoal keep\n",
        "the plant would be refused, ",
    ),
]


class Lines(ToolCase):
    """Lines of models, right and wrong."""

    def test_lines(self):
        for model, lines in LINES:
            status, output, error = self.tool("scale", "-", data=model.encode())
            self.equal(f"scale of {model[:40]!r}", (0, ""), (status, error))
            for line in lines:
                self.holds(f"scale says `{line}`", line in output.splitlines(), output)

    def test_refused(self):
        for model, said in COMPLAINTS:
            answer = self.tool("scale", "-", data=model.encode())
            if "mpmath" not in answer[2]:
                self.refused(f"scale of {model[-40:]!r}", answer, said)


class Quotients(ToolCase):
    """A quotient whose divisor stands in the dividend too is written so that it names that once."""

    def test_values(self):
        draws = random.Random(5)
        for text, written in QUOTIENTS:
            node = parse(text, ["x", "y"])
            for _ in range(20):
                values = {"x": draws.uniform(0.1, 9), "y": draws.uniform(-9, 9)}
                right = eval(text.replace("^", "**"), {"sin": math.sin}, values)
                far = abs(value_of(node, values, Floats) - right)
                self.holds(f"{text} at {values}", far <= 1e-12 * (1 + abs(right)), far)
            self.equal(f"how {text} is written", written or text_of(node), text_of(node))

    def test_divisor_stays(self):
        """Where the divisor would be gone it has to keep off 0 still."""
        model = "state x 0 1 0.1 0.01\nnext x = x/(2*x)\ngoal keep\n"
        self.refused("x/(2*x)", self.tool("scale", "-", data=model.encode()), "has to keep off 0")


@needs_mpmath
class Functions(ToolCase):
    """Functions of inputs, and states that come round."""

    def test_random_points(self):
        for model, said in TRIED:
            status, output, error = self.tool("scale", "-", data=model.encode())
            is_told = status == 0 and said in output
            self.holds(f"scale of {model[-60:]!r} says `{said}`", is_told, output + error)
            status = self.tool("scale", "--try", "2000", "-", data=model.encode())[0]
            self.equal(f"scale --try of {model[-60:]!r}", 0, status)

    def noise_of(self, model):
        """The ends of the one noise of a model's plant."""
        found = re.search(r"^noise r_x (-?\d+) (-?\d+)$", self.scaled(model), re.M)
        return (int(found.group(1)), int(found.group(2))) if found else (0, 0)

    def test_listed_values(self):
        """A function of an input costs one unit of noise more than the list of its values, at the most."""
        values = sorted(0.0001 * round(10000 * math.tan(s / 10)) for s in range(-10, 11))
        head, end = "version 2\nstate x 0 10 0.1 0.0001\n", "\nnext x = 0.5*x + {}\ngoal keep\n"
        by_list = head + "input t 0.0001 " + " ".join(f"{value:.4f}" for value in values) + end.format("t")
        by_tangent = head + "input s 0.1 -1:0.1:1" + end.format("tan(s)")
        (low, high), (least, most) = self.noise_of(by_list), self.noise_of(by_tangent)
        is_near = low - 1 <= least <= low and high <= most <= high + 1
        self.holds("tan(s) costs as a list does, or a unit", is_near, (low, high, least, most))

    def test_angle(self):
        """By a plant of degrees with a width above 1 and noise: a box holds what comes round, and lies within the
        ranges."""
        plant, draws = read_plant(self.scaled(TRIED[-1][0]).encode()), random.Random(4)
        faults = [fault for fault in (fault_of_angle(plant, draws) for _ in range(3000)) if fault]
        self.equal("boxes of an angle hold what comes round", [], faults[:3])
        pairs = [(cell, vector) for cell in range(plant.cells) for vector in range(plant.vectors)]
        fans = {plant.fan(*plant.box(*pair)) for pair in pairs}
        what = "an angle's boxes meet two or three indices, and all across the end"
        self.equal(what, [2, 3, 24], sorted(fans))


def fault_of_angle(plant, draws):
    """A drawn angle that leads out of the box of its cell, or a box that leaves the ranges; else None."""
    real, vector, noise = draws.uniform(-180, 180), draws.randrange(plant.vectors), draws.uniform(-1, 1)
    after = real + plant.vector(vector)[0] / 10 + 5 * math.sin(math.radians(real)) + noise
    after = (after + 180) % 360 - 180
    low, high = plant.box(plant.cell_of([math.floor(real * 10)]), vector)
    is_held = low[0] <= math.floor(after * 10 + 1e-6) and math.floor(after * 10 - 1e-6) <= high[0]
    if is_held and not plant.leaves(low, high):
        return None
    return f"the box {low} to {high} of {real} under {vector}, and {after}"


@needs_mpmath
class Vehicle(ToolCase):
    """The vehicle of SCOTS in a small domain: without the 21 slow input vectors the same cells are won with the same
    ranks, and lint notes them."""

    @classmethod
    def setUpClass(cls):
        super().setUpClass()
        text = re.sub(r"^(obstacle|target).*\n", "", cls.model_of("scots_vehicle").read_text(), flags=re.M)
        few = re.sub(r"-0.1 10.1 cells 51", "-0.1 2.9 cells 15", text)
        few = few.replace("goal reach", "target 2 2.9 0 1 *\nobstacle 1 1.2 0 1.6 *\ngoal reach")
        whole = few.replace("-0.9 -0.6 0.6 0.9", "-0.9:0.3:0.9")
        cls.few, cls.whole = (read_table(cls.solved("synth", cls.scaled(model))) for model in (few, whole))

    def test_ranks(self):
        few, whole = ({cell: rank for cell, (rank, _) in table.rows.items()} for table in (self.few, self.whole))
        got = (self.few.plant.vectors, self.whole.plant.vectors, few == whole)
        self.equal("the slow vectors of the vehicle never help", (28, 49, True), got)
        self.holds("some cells of the small vehicle are won", len(few) > 500, str(len(few)))

    @needs_numpy
    def test_lint(self):
        idle, _ = useless(self.whole.plant)
        vectors = range(self.whole.plant.vectors)
        slow = {vector for vector in vectors if abs(self.whole.plant.vector(vector)[0]) <= 1}
        self.holds("lint finds the slow vectors", slow <= set(idle), str(sorted(idle)))
        chosen = {choice for _, choice in self.whole.rows.values() if choice is not None}
        what = "vectors that the ranks need aren't called useless"
        self.equal(what, set(), chosen & set(idle))
