"""tools/conform: logs of the examples' own equations in doubles are explained and followed at every step, with no false
alarm; mistakes that are planted are named; ranges that are found explain the log, by hand and in models of each form;
and logs that don't fit are refused in one line."""

import os
import random
import re
from fractions import Fraction

from gaffcurrant_plant.plants.reader import read_plant
from gaffcurrant_plant.texts.table import read_table, read_text
from gaffcurrant_plant.plants.units import Units, read_units

from .tool_case import TOP, ToolCase, has, needs_matplotlib, needs_numpy
from .worked_texts import PATROL, STAY

if has("numpy"):
    import numpy
    from gaffcurrant_plant.measured.conformity import conform
    from gaffcurrant_plant.measured.diagnosis import diagnosed
    from gaffcurrant_plant.measured.logs import log_of, read_log
    from gaffcurrant_plant.models.model import read_model
    from gaffcurrant_plant.measured.promises import promises_of
    from gaffcurrant_plant.measured.ranges import with_ranges
    from gaffcurrant_plant.ways.real_runs import Loop, Record, longest
if has("numpy") and has("matplotlib"):
    from gaffcurrant_plant.pictures.residuals import draw_residuals
    from matplotlib.figure import Figure

# Of each example; and those in which mistakes are planted.
RUNS, PLANTED_RUNS = int(os.environ.get("GAFFCURRANT_RUNS", 60)), 300
# Examples, and of each a state whose offset is seen, a state and an input whose sign is turned, and an input and a
# state in thousandths.
PLANTED = [
    ("rail", "v", ("v", "u"), ("u", "p")),
    ("follow", "v", ("d", "u"), ("u", "v")),
    ("pump", "h", ("h", "u"), ("u", "g")),
]

# A plant by hand and a log of it. From 50, 54, 57 and 52 the inputs lead to 53, 54, 54 and 52.
HAND = "plant 1\nstate x 0 99 10\ninput u -3 0 3\nnoise w -1 1\nnext x = x + u + w\ngoal keep\nend\n"
HAND_LOG = "time,x,u\n0,50,3\n1,54,0\n2,57,-3\n3,52,0\n4,52,-\n"
NEEDED, BEYOND = [1, 3, -2, 0], [0, 2, -1, 0]
# Models of each form, what 1 of the range that is to be found does in a sample, and the line that has it. The log is
# OFF off at most.
FORMS = [
    (
        "next lines with a noise",
        "state x 0 10 0.1 0.01\ninput u 0.1 -0.1 0 0.1\nnoise w -0.01 0.01\nnext x = x + u - 2*w\ngoal keep\n",
        2,
        "noise w",
    ),
    (
        "next lines without a noise",
        "state x 0 10 0.1 0.01\ninput u 0.1 -0.1 0 0.1\nnext x = x + u\ngoal keep\n",
        1,
        "noise e_x",
    ),
    ("d lines", "sample 0.5\nstate x 0 10 0.1 0.01\ninput u 0.1 -0.2 0 0.2\nd x = u\ngoal keep\n", 0.5, "noise e_x"),
    (
        "a matrix",
        "sample 1\nstate x 0 10 0.1 0.01\ninput u 0.1 -0.1 0 0.1\nA 0\nB 1\nw -0.01 0.01\ngoal keep\n",
        1,
        "w",
    ),
    ("a matrix without w", "sample 1\nstate x 0 10 0.1 0.01\ninput u 0.1 -0.1 0 0.1\nA 0\nB 1\ngoal keep\n", 1, "w"),
]
OFF, UNIT = 0.2, 0.01
# Two states, of cells of 10 and of 100, and an input whose values aren't in order.
TWO = (
    "plant 1\nstate x 0 99 10\nstate y 0 999 100\ninput u 3 -3 0\nnext x = x + u\nnext y = y + 10 * u\ngoal keep\n"
    "end\n"
)
ANGLE = "version 2\nstate h -180 180 cells 36\n{}input t 1 -10 0 10\nnoise w -1 1\nnext h = h + t + w\ngoal keep\n"
# What stands in the place of the log by hand, and what is said in one line.
REFUSED = [
    ("", "the log is empty"),
    ("time,x,u\n0,50,3\n", "there are no two samples"),
    ("time,y,u\n0,1,0\n1,1,0\n", "has no column x"),
    ("time,x\n0,1\n1,2\n", "has no column u"),
    ("time,x,u\n0,50,3\n1,54\n", "line 3: the heading has 3"),
    ("time,x,u\n0,50,3\n1,five,3\n2,5,-\n", "line 3: `five` is no number"),
    ("time,x,u\n0,50,3\n2,54,0\n1,54,0\n", "line 4: the time goes back, 2 and then 1"),
    ("time,x,u\n0,50,3\n0,54,0\n", "line 3: the time stands still"),
    ("x,u,x\n1,0,1\n1,0,1\n", "the heading has x twice"),
    ("T,X,U\n0,1,0\n1,1,0\n", "has no column x, u; is `X` meant? The states are x, the inputs u"),
    ("a,b\n0,1\n1,1\n", "has no column x, u. The states are x, the inputs u"),
    ("x,u\n1_0,0\n5,0\n", "line 2: `1_0` is no number"),
    ("x,u\n1 0,0\n5,0\n", "line 2: `1 0` is no number"),
    ("x,u\n10,0\n\n5,0x1\n", "line 4: `0x1` is no number"),
    ("".join(f"{one}\0" for one in HAND_LOG), "it is to be CSV in UTF-8"),
]
# How a log may be written otherwise: what stands in it, and what stands in its place.
OTHERWISE = [
    ("semicolons", ",", ";"),
    ("blanks", ",", " , "),
    ("line ends of Windows", "\n", "\r\n"),
    ("line ends of old Macs", "\n", "\r"),
    ("a byte-order mark", "time", "\ufefftime"),
    ("a unit in the heading", "x,u", "x [m],u"),
    ("an empty field", "-\n", "\n"),
    ("exponents", "54", "5.4e+1"),
    ("a state between units", "54", "54.9"),
    ("blank lines about it", "time", "\n\ntime"),
]
# x leaves its range, an input isn't listed, a number is missing, and two times lie two samples apart; a blank line,
# with commas too, begins a run.
UNJUDGED = (
    "x,time,u,other\n98,0,3,1\n101,1,3,1\n104,2,0,1\n,,,\n50,0,2,1\n52,1,0,1\n-,2,0,1\n50,3,0,1\n50,5,0,1\n"
    "50,6,0,1\n\n50,0,0,1\ninf,1,0,1\nnan,2,0,1\n"
)
# How many steps for each reason.
LEFT_OUT = {
    "the state lies outside of the ranges": 1,
    "an input has none of its values": 1,
    "a number is missing": 4,
    "samples are missing in between": 1,
}


def log_by_hand(data=HAND_LOG):
    return read_log(data.encode(), ["x"], ["u"], Units())


def by_hand(old="", new="", data=HAND_LOG):
    """The plant by hand, with a part of its text replaced, beside a log."""
    return conform(read_plant(HAND.replace(old, new).encode()), log_by_hand(data))


def lists_of(conformity):
    """What a Conformity says, as lists."""
    rows = (conformity.needed[0], conformity.beyond[0], conformity.followed)
    return (*(row.tolist() for row in rows), conformity.left_out)


def count(facts):
    return int(facts.sum())


@needs_numpy
class ByHand(ToolCase):
    """A log of five samples: what steps need, and what isn't judged."""

    def test_log(self):
        found = by_hand()
        self.equal("the log by hand", (NEEDED, BEYOND, [True] * 4, {}), lists_of(found))
        wanted = ([(-1, 1)], [(-2, 3)], [(0, 1)], 1.0, [2, 3, 4, 5, 6])
        got = (found.stated(), found.ranges(), found.ranges(Fraction(1, 2)), found.sample, found.log.lines.tolist())
        self.equal("its ranges", wanted, got)
        self.equal("the range of 99 per cent of four steps", [(-2, 3)], found.ranges(Fraction(99, 100)))
        self.equal("its worst steps", [1, 2], found.worst())
        self.equal("what so few steps look like", [], diagnosed(found))

    def test_arrays(self):
        log = log_of([[50], [54], [57], [52], [52]], [[3], [0], [-3], [0], [numpy.nan]])
        got = lists_of(conform(read_plant(HAND.encode()), log))
        self.equal("the same by arrays", lists_of(by_hand()), got)

    def test_other_forms(self):
        """Separators, line ends and headings."""
        for what, old, new in OTHERWISE:
            self.equal(f"the log with {what}", lists_of(by_hand()), lists_of(by_hand(data=HAND_LOG.replace(old, new))))
        decimal = HAND_LOG.replace(",", ";").replace("54", "54,9")
        self.equal("the log with decimal commas", lists_of(by_hand()), lists_of(by_hand(data=decimal)))
        noted = re.sub(r"(?m)([-0-9])$", r"\1,fine", HAND_LOG.replace("u\n", "u,note\n"))
        self.equal("the log with text in another column", lists_of(by_hand()), lists_of(by_hand(data=noted)))

    def test_ends_of_units(self):
        """In doubles 5.8 / 0.1 and 6.1 / 0.1 lie below the whole numbers."""
        units = Units({"x": Fraction(1, 10), "u": Fraction(1, 10)})
        found = conform(read_plant(HAND.encode()), log_of([[5.5], [5.8], [6.1]], [[0.3], [0.3], [0]]), units)
        self.equal("what steps to the ends of units need", [0, 0], found.needed[0].tolist())

    def test_steps_that_are_not_judged(self):
        found = by_hand(data=UNJUDGED)
        got = (found.needed[0].tolist(), found.left_out, found.followed.tolist())
        self.equal("what isn't judged", ([0, 0], LEFT_OUT, [False, True]), got)

    def test_equations(self):
        for equation, wanted in (
            ("x + u + 2 * w", [0, 1, 0, 0]),
            ("x + u - w", BEYOND),
            ("x + (2 * u + 2 * w) / 2", BEYOND),
            ("w + (u + x)", BEYOND),
            ("x + u + w * w", BEYOND),
        ):
            found = by_hand("x + u + w", equation)
            self.equal(f"beyond the range of {equation}", wanted, found.beyond[0].tolist())

    def test_other_range(self):
        for equation, wanted in (("x + u + w", [0, 1, -1, 0]), ("x + u - w", [0, 2, 0, 0])):
            text = HAND.replace("noise w -1 1", "noise w -1 2").replace("x + u + w", equation)
            found = conform(read_plant(text.encode()), log_by_hand())
            self.equal(f"a noise from -1 to 2 in {equation}", wanted, found.beyond[0].tolist())

    def test_followed_steps(self):
        """From 50 to 59 under 3 the box is 52 to 64, in the cells from 50 and from 60; from 90 to 99 it leaves the
        range."""
        log = log_of([[50], [70], [50], [49], [50], [69], [95], [98]], [[3]] * 8, begins=(0, 2, 4, 6))
        found = conform(read_plant(HAND.encode()), log)
        self.equal("which steps are followed", [False, False, True, False], found.followed.tolist())

    def test_two_states(self):
        """The farther one beside its cells is the worse; an input's number is its index in the list."""
        log = log_of([[50, 500], [55, 530], [55, 550], [52, 520]], [[3], [0], [-3], [0]])
        found = conform(read_plant(TWO.encode()), log)
        self.equal("needed of two states", [[2, 0, 0], [0, 20, 0]], found.needed.tolist())
        self.equal("the worst of two states", [0, 1], found.worst())
        self.equal("numbers of inputs", [0, 2, 1, 2], found.vectors.tolist())

    @needs_matplotlib
    def test_picture(self):
        figure = Figure()
        draw_residuals(figure, by_hand())
        course = figure.axes[0]
        band = course.patches[0].get_extents().transformed(course.transData.inverted())
        self.equal("the band of the range", [-1, 1], numpy.round([band.y0, band.y1], 6).tolist())
        dots, far = course.lines
        rows = (dots.get_ydata(), dots.get_xdata(), far.get_xdata(), far.get_ydata())
        got = [[round(number) for number in row] for row in rows]
        self.equal("the steps, and those beyond it", [NEEDED, [0, 1, 2, 3], [1, 2], [3, -2]], got)


@needs_numpy
class Promises(ToolCase):
    """At which steps inputs of rows were applied, and at which promises are broken: by texts of five cells."""

    def are(self, what, text, log, applied, broken, turn=0):
        promises = promises_of(conform(text.plant, log), text, turn)
        got = (promises.applied.astype(int).tolist(), promises.broken.astype(int).tolist())
        self.equal(f"promises of a {what} text", (applied, broken), got)

    def test_patrol(self):
        """Of the first run turns begin at 4 and at 10. In the second the turn of the beginning is due again."""
        states, inputs = [7, 4, 7, 10, 7, 4, 7, 7], [-3, 3, 3, -3, -3, -3, -3, -3]
        log = log_of([[one] for one in states], [[one] for one in inputs], begins=(0, 5))
        patrol = read_text(PATROL.encode())
        self.are("patrol", patrol, log, [1, 1, 1, 1, 1, 1], [0, 0, 0, 0, 1, 1])
        self.are("patrol from its second turn", patrol, log, [0, 1, 1, 1, 0, 0], [0, 0, 0, 0, 0, 0], turn=1)

    def test_stay(self):
        states, inputs = [7, 10, 13, 13, 12, 4, 1], [3, 3, 0, 0, 0, 3, 0]
        log = log_of([[one] for one in states], [[one] for one in inputs], begins=(0, 5))
        stay = read_text(STAY.replace("rows 5\n0 0 4 2\n", "rows 4\n").encode())
        self.are("stay", stay, log, [1, 1, 1, 1, 1], [0, 0, 0, 0, 1])


@needs_numpy
class Inputs(ToolCase):
    """Inputs that act some samples late, of the same run alone, and beside their values."""

    def test_named(self):
        explains = "that would explain 100.0%"
        for what, late, beside, said in (
            ("late", 1, 0, f"inputs that act one sample late: {explains} of the steps"),
            ("two late", 2, 0, f"inputs that act 2 samples late: {explains} of the steps"),
            ("early", -1, 0, f"inputs that act one sample before they are logged: {explains}"),
            ("above", 0, 6, f"u that acts about 6 above what is logged: {explains}"),
            ("below", 0, -6, f"u that acts about 6 below what is logged: {explains}"),
        ):
            got = diagnosed(conform(read_plant(HAND.encode()), log_of_inputs(late, beside)))
            self.holds(f"inputs that act {what} are named", got and got[0].startswith(said), got)


def log_of_inputs(late, beside):
    """Eighty runs of five steps from 50, whose inputs act so many samples late, and so much beside their values."""
    draws, states, inputs, begins = random.Random(5), [], [], []
    for _ in range(80):
        begins.append(len(states))
        drawn = [draws.choice([-3, 0, 3]) for _ in range(10)]
        given, acting = drawn[2:8], drawn[2 - late :]
        states.append([50])
        for k in range(5):
            states.append([states[-1][0] + acting[k] + beside])
        inputs += [[one] for one in given]
    return log_of(states, inputs, begins=begins)


@needs_numpy
class Events(ToolCase):
    """States that come round, wraps that the model lacks, jumps, and samples that are missing without times."""

    def plant(self, line):
        text = ANGLE.format(line)
        plant = read_plant(self.scaled(text).encode())
        plant.units = read_units("the model", text.encode())
        return plant

    def turning(self):
        """An angle that turns by 0 or 10 a sample, and by an end of its noise, and its inputs."""
        draws, angles, turns = random.Random(2), [100.0], []
        for k in range(400):
            turns.append(draws.choice([0, 10, 10]))
            angles.append(angles[-1] + turns[-1] + (-1) ** k)
        return angles, [[turn] for turn in [*turns, 0]]

    def test_angle_that_comes_round(self):
        angles, inputs = self.turning()
        found = conform(self.plant("wrap h\n"), log_of(list(map(wrapped, angles)), inputs))
        got = (count(~found.explained), count(~found.followed), diagnosed(found))
        self.equal("an angle that comes round", (0, 0, []), got)

    def test_angle_that_is_counted_on(self):
        angles, inputs = self.turning()
        found = conform(self.plant("wrap h\n"), log_of([[angle] for angle in angles], inputs))
        self.equal("an angle that is counted on", (0, {}), (count(~found.explained), found.left_out))

    def test_wrap_that_the_model_lacks(self):
        angles, inputs = self.turning()
        states = list(map(wrapped, angles))
        crossings = sum(abs(one[0] - other[0]) > 180 for one, other in zip(states, states[1:]))
        said = rf"an angle that wraps: at {crossings} steps h is a turn of 360 on"
        self.is_named("an angle that wraps", said, self.plant(""), log_of(states, inputs))

    def test_jump(self):
        calm = [[60 * numpy.sin(k / 70) + (90 if k == 200 else 0)] for k in range(400)]
        said = "a state that jumps: h at 2 steps, .* lines 200, 201$"
        self.is_named("a state that jumps", said, self.plant(""), log_of(calm, [[0.0]] * 400))

    def test_many_jumps(self):
        """At a tenth of the steps they are no events."""
        calm = [[60 * numpy.sin(k / 70) + (90 if k % 20 == 9 else 0)] for k in range(400)]
        found = conform(self.plant(""), log_of(calm, [[0.0]] * 400))
        got = (count(~found.explained), diagnosed(found))
        self.equal("steps that aren't explained, and what they look like", (40, []), got)

    def test_missing_samples(self):
        draws, states, inputs = random.Random(2), [-170.0], []
        while states[-1] < 160:
            inputs.append(draws.choice([0, 10]))
            states.append(states[-1] + inputs[-1])
        inputs.append(0)
        left = [k for k in range(len(states)) if not (k % 9 == 4 and inputs[k] and inputs[k - 1])]
        gone = len(states) - len(left)
        self.holds("samples are missing", gone)
        log = log_of([[states[k]] for k in left], [[inputs[k]] for k in left])
        said = f"samples that are missing: {gone} step"
        self.is_named(f"{gone} missing samples", said, self.plant(""), log)

    def is_named(self, what, said, plant, log):
        """A mistake is the only one that is named."""
        got = diagnosed(conform(plant, log))
        self.holds(f"{what}: named", len(got) == 1 and re.match(said, got[0]), got)


def wrapped(angle):
    return [(angle + 180) % 360 - 180]


@needs_numpy
class Ranges(ToolCase):
    """What --write gives explains the log, and is no wider than it has to be."""

    def test_forms_of_models(self):
        draws = random.Random(3)
        for what, text, does, line in FORMS:
            model, plant = read_model(text.encode()), read_plant(self.scaled(text).encode())
            plant.units = read_units(what, text.encode())
            log = log_off(draws, 0.5 if text.startswith("sample 0.5") else 1)
            found = conform(plant, log, sample=model.sample and float(model.sample))
            self.holds(f"{what}: the log isn't explained at first", found.share() < 0.5, str(found.share()))
            written = with_ranges(text.encode(), found)
            ends = re.search(rf"^{line} (\S+) (\S+)(  # found by tools/conform)?$", written, re.M)
            is_right = ends and all(is_about_off(float(end) * does) for end in ends.groups()[:2])
            self.holds(f"{what}: the range that was found", is_right, written)
            self.explains(what, read_plant(self.scaled(written).encode()), log, plant.units)

    def explains(self, what, plant, log, units):
        """A plant with the range that was found explains each step, and has not far more than they need."""
        found = conform(plant, log, units)
        self.equal(f"{what}: steps that the new model doesn't explain", 0, count(~found.explained))
        needs, stated = found.ranges()[0], found.stated()[0]
        # Two units for quantising and rounding, one for three digits.
        is_near = stated[0] >= needs[0] - 3 and stated[1] <= needs[1] + 3
        self.holds(f"{what}: the new range isn't far wider", is_near, f"{needs} {stated}")

    def test_plant_text(self):
        wanted = HAND.replace("noise w -1 1", "noise w -2 3")
        what = "the plant text by hand with the ranges that were found"
        self.equal(what, wanted, with_ranges(HAND.encode(), by_hand()))

    def test_plant_text_without_noise(self):
        bare = HAND.replace("noise w -1 1\n", "").replace(" + w", "")
        found = conform(read_plant(bare.encode()), log_by_hand())
        wanted = bare.replace("next x = x + u", "noise e_x -2 3\nnext x = x + u + e_x")
        self.equal("a plant text without a noise", wanted, with_ranges(bare.encode(), found))


def log_off(draws, scale):
    """A log of a state about 5 that is off by OFF or half of it at each step; its inputs act by a scale."""
    states, inputs = [5.0], []
    for _ in range(300):
        inputs.append(draws.choice([-0.2, 0.2] if scale < 1 else [-0.1, 0.1]))
        aim = OFF if states[-1] < 5 else -OFF
        states.append(states[-1] + inputs[-1] * scale + draws.choice([aim, aim / 2]))
    return log_of([[state] for state in states], [[one] for one in [*inputs, 0]])


def is_about_off(end):
    """Quantising may give or take a unit, of which the plant's own range has one at each side."""
    return OFF - 2 * UNIT <= abs(end) <= OFF + UNIT


@needs_numpy
class Program(ToolCase):
    """The program on the log by hand and on others."""

    @classmethod
    def setUpClass(cls):
        super().setUpClass()
        cls.plant, cls.log = cls.placed("hand.plant", HAND), cls.placed("hand.csv", HAND_LOG)

    def conform(self, *words, **more):
        return self.tool("conform", self.log, "--model", self.plant, *words, **more)

    def says(self, what, output, *lines):
        for line in lines:
            self.holds(f"{what} says `{line}`", line in output.splitlines(), output)

    def test_lines_and_written_plant(self):
        written = self.folder / "wide.plant"
        status, output, error = self.conform("--write", written)
        self.equal("conform of the log by hand", (1, ""), (status, error))
        self.says(
            "conform",
            output,
            "5 samples, 1 apart, in 1 run: 4 steps, 4 of them judged",
            "explained by the stated ranges: 2 of 4 steps, 50 per cent",
            "followed, with the next state in its box: 4 of 4 steps, 100 per cent",
            "x                       -1 to 1  -2 to 3         -2 to 3        -2 to 3",
            "  line 3: x needs 3 and has -1 to 1; x = 54, u = 0 led to x = 57",
        )
        self.equal("conform --write", HAND.replace("noise w -1 1", "noise w -2 3"), written.read_text())
        status, output, error = self.tool("conform", self.log, "--model", written)
        self.equal("conform by what it wrote", (0, "", False), (status, error, "farthest" in output))

    @needs_matplotlib
    def test_picture(self):
        picture = self.folder / "hand.png"
        self.equal("conform -o", (1, ""), self.conform("-o", picture)[::2])
        self.equal("its picture", b"\x89PNG", picture.read_bytes()[:4])

    def test_table(self):
        table = self.placed("hand.table", self.solved("synth", HAND))
        status, output, error = self.conform("--table", table)
        is_told = " are explained or followed, as it has to be" in output
        self.holds("conform --table", status == 1 and is_told and not error, output + error)

    def test_without_numpy(self):
        self.placed("bare/numpy.py", "raise ImportError\n")
        bare = self.environment(PYTHONPATH=str(self.folder / "bare"), GAFFCURRANT_PYTHON="none")
        wanted = "conform: this needs numpy; on Debian: apt-get install python3-numpy\n"
        self.equal("conform without numpy", (1, "", wanted), self.conform(env=bare))

    def test_units_of_model(self):
        rail = TOP / "examples/rail"
        output = self.tool("conform", rail / "friction.csv", "--model", rail / "rail.model")[1]
        self.says(
            "conform of the log with a friction",
            output,
            "293 samples, 0.4 apart, in 39 runs: 254 steps, 254 of them judged",
            "followed, with the next state in its box: 184 of 254 steps, 72.44 per cent",
            "p                       -1 to 2            -4 to 5            -4 to 5            -4 to 5",
            "  times 0.0012:         -0.0012 to 0.0012  -0.0384 to 0.0384  -0.0384 to 0.0384  -0.0384 to 0.0384",
        )

    def test_shares(self):
        """Of nearly all and of nearly none of the steps."""
        nearly_all, nearly_none = [50, 50] * 10000 + [99, 0], [0, 50] * 10000 + [50, 50]
        for states, said in (
            (nearly_all, "explained by the stated ranges: 19999 of 20001 steps, more than 99.99 per cent"),
            (nearly_none, "explained by the stated ranges: 2 of 20001 steps, less than 0.01 per cent"),
        ):
            data = "x,u\n" + "".join(f"{state},0\n" for state in states)
            output = self.tool("conform", "-", "--model", self.plant, data=data.encode())[1]
            self.says("conform", output, said)

    def test_patrol(self):
        """What is said of a patrol text from either turn, and of one with a wrong rank."""
        plant = self.placed("five.plant", PATROL[PATROL.index("plant") : PATROL.index("turn")])
        text = self.placed("five.patrol", PATROL)
        wrong = self.placed("wrong.patrol", PATROL.replace("1 1 2 1\n2 3 1 1\n", "1 2 2 1\n3 3 1 1\n"))
        log = b"x,u\n7,-3\n4,3\n7,3\n10,-3\n7,-\n"
        for path, turn, wanted, applied, broken in ((text, "0", 0, 4, 0), (text, "1", 0, 3, 0), (wrong, "0", 1, 4, 1)):
            command = ["conform", "-", "--model", plant, "--table", path, "--turn", turn]
            status, output, error = self.tool(*command, data=log)
            said = (
                f"the text: at {applied} of 4 judged steps its input was applied; at {broken} of these the next state "
                "has no row, or its rank"
            )
            got = (status, error, said in output, "the text isn't one of this plant; line 3" in output)
            self.equal(f"conform by {path.name} from turn {turn}", (wanted, "", True, path is wrong), got)

    def test_refused_logs(self):
        for text, said in REFUSED:
            answer = self.tool("conform", "-", "--model", self.plant, data=text.encode())
            self.refused(f"conform of {text[:40]!r}", answer, said)

    def test_unit_of_heading(self):
        plant = self.placed("metres.plant", "# unit x 1 m\n# unit u 1 m\n" + HAND)
        for unit, error in (("m", ""), ("mm", "conform: -: the heading has x in mm, and the model in m\n")):
            data = HAND_LOG.replace("x,", f"x [{unit}],")
            got = self.tool("conform", "-", "--model", plant, data=data.encode())[::2]
            self.equal(f"conform of a column in {unit}", (1, error), got)

    def test_times_that_do_not_fit(self):
        apart = "its samples are 0.1 apart, and the model's 0.4; one line in 4 would fit"
        for text, said in (
            ("time,p,v,u\n0,1,0,1\n0.1,1,0,1\n0.2,1,0,1\n", apart),
            ("time,p,v,u\n0,1,0,1\n400,1,0,1\n800,1,0,1\n", "is the time in other units?"),
        ):
            answer = self.tool("conform", "-", "--model", self.model_of("rail"), data=text.encode())
            self.refused(f"conform of {text[11:40]!r}", answer, said)

    def test_words(self):
        plant, rail, cart = self.plant, self.model_of("rail"), TOP / "examples/cart/cart.table"
        for words, status, said in (
            (["--model", rail], 1, "has no column p, v"),
            (["--model", plant, "-o", "x.gif"], 2, "ends in .png"),
            ([], 2, "--model"),
            (["--model", "nowhere"], 1, "nowhere"),
            (["--model", plant, "--turn", "1"], 2, "--turn goes with"),
            (["--model", plant, "--table", cart], 1, "isn't the table's"),
        ):
            answer = self.tool("conform", self.log, *words)
            self.refused(f"conform {' '.join(map(str, words))}", answer, said, status)


class ExampleCase(ToolCase):
    """Has the texts and the plants of examples."""

    def read_text_of(self, name):
        """The text that the first command of an example's README makes."""
        made = self.text_of(name)
        return made and read_text(made)

    def plant_of(self, name):
        """The plant of an example, with its units."""
        plant, path = read_plant(self.plant_text(name)), self.model_of(name)
        plant.units = read_units(path, path.read_bytes()) if path.exists() else Units()
        return plant

    def read_model_of(self, name):
        return read_model(self.model_of(name).read_bytes())


@needs_numpy
class Mistakes(ExampleCase):
    """Mistakes in a log of an example, each of which is the first that is named."""

    def test_rail(self):
        self.are_named(*PLANTED[0])

    def test_follow(self):
        self.are_named(*PLANTED[1])

    def test_pump(self):
        self.are_named(*PLANTED[2])

    def are_named(self, name, offset, signs, units):
        text, plant, model = self.read_text_of(name), self.plant_of(name), self.read_model_of(name)
        stronger = recorded(model, text, PLANTED_RUNS, gain=0.8)
        self.is_named(name, "a gain of 0.8", plant, stronger, r"u that acts about 0\.(79|8)\d* times as strong")
        late = recorded(model, text, PLANTED_RUNS, late=1)
        self.is_named(name, "inputs a sample late", plant, late, "inputs that act one sample late")
        log = recorded(model, text, PLANTED_RUNS)
        width = next(float(state[3] * plant.units.size(state[0])) for state in plant.states if state[0] == offset)
        said = rf"{offset} that is measured about [0-9.]+(?: \S+)? too high"
        moved = changed(plant, log, offset, lambda values: values + 2 * width)
        self.is_named(name, f"an offset of {offset}", plant, moved, said)
        for one in signs:
            turned = changed(plant, log, one, lambda values: -values)
            self.is_named(name, f"the sign of {one}", plant, turned, f"{one} with the other sign")
        for one in units:
            large = changed(plant, log, one, lambda values: values * 1000)
            said = f"{one} 1000 times as large in the log as in the model"
            self.is_named(name, f"thousandths of {one}", plant, large, said)

    def is_named(self, name, what, plant, log, said):
        got = diagnosed(conform(plant, log))
        self.holds(f"{name}: {what} is named", got and re.match(said, got[0]), got)


def changed(plant, log, name, change):
    """A log in which the values of a state or an input are others."""
    names = [state[0] for state in plant.states]
    rows = numpy.array(log.states if name in names else log.inputs)
    at = names.index(name) if name in names else [entry[0] for entry in plant.inputs].index(name)
    rows[at] = change(rows[at])
    return log._replace(states=rows) if name in names else log._replace(inputs=rows)


@needs_numpy
class BrokenPromises(ExampleCase):
    """By the model of rail."""

    def test_table_with_wrong_inputs(self):
        """It breaks its promise at steps that are followed, which is seen. Where a wrong input leads out of the domain
        a step is explained, and not followed."""
        wrong = read_table(self.table_text("rail"))
        wrong.rows = {cell: (rank, wrong_choice(rank, choice)) for cell, (rank, choice) in wrong.rows.items()}
        log = recorded(self.read_model_of("rail"), wrong, PLANTED_RUNS)
        found = conform(self.plant_of("rail"), log)
        promises = promises_of(found, wrong)
        unexplained = count(promises.broken & ~found.explained)
        self.equal("broken promises at steps that aren't explained", 0, unexplained)
        followed = count(promises.broken & found.followed)
        self.holds("broken promises at steps that are followed", followed > 20, str(followed))

    def test_friction_that_the_model_lacks(self):
        """By a plant with it the right table breaks its promise at steps that aren't followed."""
        text, model = self.read_text_of("rail"), self.model_of("rail").read_text()
        friction = model.replace("u - 0.3*v", "u - 0.3*v - 0.1*max(-1, min(1, v/0.01))")
        found = conform(self.plant_of("rail"), recorded(read_model(friction.encode()), text, PLANTED_RUNS))
        promises = promises_of(found, text)
        followed = count(promises.broken & found.followed)
        self.equal("broken promises at steps that are followed", 0, followed)
        self.holds("broken promises", count(promises.broken) > 20, str(count(promises.broken)))


def wrong_choice(rank, choice):
    """Far from the target the input to the other side."""
    return choice if choice is None or rank < 6 else 4 - choice


@needs_numpy
class Examples(ExampleCase):
    """No step of a log of an example's own equations is unexplained or unfollowed, and no mistake is named."""

    def test_no_false_alarm(self):
        for name in self.examples():
            text = self.read_text_of(name)
            if text is None:
                self.left_out(f"the program doesn't make the text of {name} yet")
            else:
                self.fits(name, text, self.plant_of(name))

    def fits(self, name, text, plant):
        has_model = self.model_of(name).exists()
        log = recorded(self.read_model_of(name), text, RUNS) if has_model else whole_log(text, RUNS)
        found = conform(plant, log)
        self.holds(f"{name}: a log has steps", found.steps.size > 30, str(found.steps.size))
        what = f"{name}: steps that aren't judged, explained or followed, and what is said of them"
        got = (found.left_out, count(~found.explained), count(~found.followed), diagnosed(found))
        self.equal(what, ({}, 0, 0, []), got)
        promises = promises_of(found, text)
        self.equal(f"{name}: promises that are broken", 0, count(promises.broken))
        share = promises.applied.mean()
        self.holds(f"{name}: inputs of rows were applied", share > 0.9, str(share))


class Planted(Loop if has("numpy") else object):
    """Runs in which the inputs act otherwise than they are given: stronger, or some samples late."""

    def __init__(self, model, text, runs, gain=1.0, late=0):
        super().__init__(model, text, runs, 1)
        self.record = Record(self.real, self.vectors)
        self.gain, self.late, self.given = gain, late, []

    def moved(self, time, runs, states, inputs):
        whole = numpy.zeros(self.outcome.runs, dtype=int)
        whole[runs] = inputs
        self.given.append(whole)
        acting = self.given[max(0, time - self.late)][runs]
        exact, self.vectors = self.vectors, self.vectors * self.gain
        after = super().moved(time, runs, states, acting)
        self.vectors = exact
        return after


def recorded(model, text, runs, **mistake):
    """The log of runs of a model's equations by a text, as it is written."""
    loop = Planted(model, text, runs, **mistake)
    loop.turns[:] = 0
    loop.drive(None, longest(loop.rows))
    data = "\n".join(loop.record.lines()).encode() + b"\n"
    return read_log(data, loop.real.names, loop.real.input_names, Units())


def whole_log(text, runs):
    """The log of runs of a plant's whole numbers by a text."""
    plant, draws, states, inputs, begins = text.plant, random.Random(1), [], [], []
    for cell in draws.choices(sorted(text.rows), k=runs):
        state = [draws.randint(low, high) for low, high in zip(plant.low(cell), plant.high(cell))]
        begins.append(len(states))
        for state, vector in whole_run(text, state, draws):
            states.append(state)
            inputs.append([numpy.nan] * len(plant.inputs) if vector is None else vector)
    return log_of(states, inputs, begins=begins)


def whole_run(text, state, draws):
    """The states of a run with their input vectors, up to a state that has none."""
    while (choice := text.row(state)[1]) is not None:
        vector = text.plant.vector(choice)
        yield state, vector
        noises = [draws.choice([low, high, draws.randint(low, high)]) for _, low, high in text.plant.noises]
        state = text.plant.step(state, vector, noises)
    yield state, None
