"""Units go from a model through the comments of its plant text into a C header, and values in them become whole
numbers."""

import math
from fractions import Fraction

from gaffcurrant_plant.command import Trouble
from gaffcurrant_plant.pictures.flat import Course
from gaffcurrant_plant.plants.reader import read_plant
from gaffcurrant_plant.plants.units import Units, decimal, read_units
from gaffcurrant_plant.pictures.view import View

from .tool_case import TOP, ToolCase

MODEL = b"""state x 0 1 0.1 0.02
state v -1 1 0.5 0.25
input u 0.5 -1 0 1
unit x m
unit u m/s^2
next x = x + 0.1*v
next v = v + u
goal keep
"""
COMMENTS = [
    "# unit x 0.02 m: a real value lies between its whole number and the next one",
    "# unit v 0.25: a real value lies between its whole number and the next one",
    "# unit u 0.5 m/s^2",
]
DECIMALS = [
    (Fraction(1, 100), "0.01"),
    (Fraction(-5, 4), "-1.25"),
    (Fraction(30), "30"),
    (Fraction(1, 10**12), "0.000000000001"),
    (Fraction(0), "0"),
    (Fraction(-1, 2), "-0.5"),
]
# A word, and the whole number of x: that of the unit of 0.02 in which it lies.
WHOLES = [("0", 0), ("0.02", 1), ("0.0399", 1), ("-0.001", -1), ("1e-1", 5)]
ROUND = b"lut(h + u, -54:-18, -19:17, -18:-18, 17:17, 18:-18, 53:17)"
ANGLE = b"plant 2\nstate h -18 17 3\nstate x 0 9 1\ninput u -4 4\nnext h = " + ROUND + b"\nnext x = x\ngoal keep\nend\n"
METRES = Units({"x": Fraction(1, 50)}, {"x": "m"})
# A pointer that steps over the end of its circle, where its next value may be any of the range.
CIRCLE = """state h -180 180 cells 36 1
wrap h
input u 1 -15 0 15
noise w -1 1
next h = h + u + w
target 80 150
obstacle 20 60
goal reach
"""


class Sizes(ToolCase):
    """Units of models and of plant texts, and values in them."""

    def test_decimals(self):
        for value, said in DECIMALS:
            self.equal(f"{value} as a decimal", said, decimal(value))

    def test_comments(self):
        comments = [line for line in self.scaled(MODEL).splitlines() if line.startswith("# unit")]
        self.equal("scale tells units in comments", COMMENTS, comments)

    def test_texts(self):
        wanted = ({"x": Fraction(1, 50), "v": Fraction(1, 4), "u": Fraction(1, 2)}, {"x": "m", "u": "m/s^2"})
        for what, text in (
            ("the model", MODEL),
            ("the plant", self.scaled(MODEL).encode()),
            ("the model with CRLF", MODEL.replace(b"\n", b"\r\n")),
            ("the model with a byte order mark", b"\xef\xbb\xbf" + MODEL),
        ):
            units = read_units("text", text)
            self.equal(f"units by {what}", wanted, (units.sizes, units.words))

    def test_values(self):
        units = read_units("text", MODEL)
        for word, whole in WHOLES:
            self.equal(f"`{word}` in whole units", whole, units.whole("x", word))
        self.equal("a value in words", "u = -0.5 m/s^2", units.said("u", -1))

    def test_refused_texts(self):
        for text, said in (
            (b"plant 1\nend\n", "no comments `# unit"),
            (b"state x 0 1 0.1 0.1\nunit y m\n", "line 2: `unit NAME WORD`"),
            (b"\xff\xfe", "begins no line of a model"),
        ):
            told = trouble_of(lambda text=text: read_units("text", text).sizes)
            self.holds(f"units of {text[:20]} are refused", said in told, told)

    def test_header(self):
        """UNIT[] of a table by its model, and nothing of it without one."""
        plant = "".join(line for line in self.scaled(MODEL).splitlines(True) if not line.startswith("#"))
        table = f"table 1\n{plant}rows 0\nend\n".encode()
        status, header, _ = self.tool("header", "-", data=table)
        self.equal("a header without a model has no units", (0, False), (status, "UNIT" in header))
        gate = self.tool("header", "-", "--model", self.model_of("gate"), data=self.table_text("gate"))[1]
        parts = ("UNIT[STATES] = {0.01, 0.01};", "/* x in m, v in m/s, u in m/s^2 */")
        self.holds("the gate's units stand in its header", all(part in gate for part in parts))
        status, output, error = self.tool("header", "-", "--model", TOP / "examples/cart/cart.plant", data=table)
        self.equal("a plant without units is refused", (1, "", 1), (status, output, error.count("\n")))


def trouble_of(call):
    try:
        return f"no trouble: {call()}"
    except Trouble as trouble:
        return str(trouble)


class OtherSizes(ToolCase):
    """A model ten times as large as the table's plant has the same whole numbers of units, but other steps: it is
    refused, as a plant text with other equations is."""

    def why(self, model):
        return self.tool("why", TOP / "examples/docks/docks.patrol", "200", "30", "--model", model)

    def test_own_model(self):
        self.equal("a table's own model", 0, self.why(self.model_of("docks"))[0])

    def test_angle(self):
        """A state that comes round, whose step over the end of its range may lead anywhere."""
        plant = self.scaled(CIRCLE)
        table = self.placed("circle.table", self.solved("synth", plant))
        model = self.placed("circle.model", CIRCLE)
        status, _, error = self.tool("why", table, "0", "--model", model)
        self.equal("the table's own model", (0, ""), (status, error))
        faster = self.placed("faster.model", CIRCLE.replace("h + u", "h + 2*u"))
        answer = self.tool("why", table, "0", "--model", faster)
        self.refused("a model that steps twice as far", answer, "by the model a sample leads h")

    def test_larger_model(self):
        text = self.model_of("docks").read_text()
        for old, new in (
            ("state x 0 405 9 1", "state x 0 4050 90 10"),
            ("state y 0 225 9 1", "state y 0 2250 90 10"),
        ):
            text = text.replace(old, new)
        said = "the model isn't the table's: by the model a sample leads x"
        self.is_refused(self.placed("larger.model", text), said)

    def test_other_equations(self):
        text = self.plant_text("docks").decode().replace("next x = x + u", "next x = x + u + u")
        said = "the table is of another plant: equations or noises differ"
        self.is_refused(self.placed("other.plant", text), said)

    def is_refused(self, path, said):
        status, output, error = self.why(path)
        is_told = (status, output, error.count("\n")) == (1, "", 1) and said in error
        self.holds(f"{path.name} is refused", is_told, (status, output, error))


class Views(ToolCase):
    """What a picture shows of states in units."""

    def test_ranges(self):
        exact = Units({"x": Fraction(1, 50)}, {"x": "m"}, {"x"})
        got = [units.span_said("x", *ends) for units in (METRES, exact) for ends in ((0, 9), (5, 5))]
        wanted = ["0 to 0.2 m", "0.1 to 0.12 m", "0 to 0.18 m", "0.1 m"]
        self.equal("a range in units, and of whole numbers by themselves", wanted, got)

    def test_states_outside(self):
        """Of a state of a picture that lies outside the range is told, in the units in which the state was."""
        plant = read_plant(b"plant 1\nstate x 0 99 10\nnext x = x\ngoal keep\nend\n")
        for units, words, fix, said in (
            (Units(), ["500"], [], "where x is 0 to 99 in the plant's whole units; --model"),
            (METRES, ["2"], [], "where x is 0 to 2 in the units of the model, m"),
            (Units(), ["1", "2"], [], "one for each state (x)"),
            (Units(), ["1"], ["x"], "--fix takes NAME=X, as --fix x=0"),
            (METRES, ["1"], ["x=3"], "it is outside 0 to 2 in the units"),
        ):
            told = trouble_of(lambda one=(units, words, fix): View(plant, one[0], fix=one[2]).state(one[1], "--from"))
            self.holds(f"a state {words} {fix} of a picture says `{said}`", said in told, told)

    def test_points_of_axes(self):
        """A whole number by itself is a point, in the middle of what is drawn for it; any other stands for what lies up
        to the next."""
        plant = read_plant(b"plant 1\nstate d 0 3 1\nnext d = d\ngoal keep\nend\n")
        for exact, wanted in (((), (0.0, 2.0)), (("d",), (-0.25, 1.75))):
            view = View(plant, Units({"d": Fraction(1, 2)}, {"d": "m"}, set(exact)))
            self.equal(f"the range of an axis, exact: {exact}", wanted, view.range(0))
            at = view.at(0, 3 + Fraction(1, 2))
            self.equal(f"where a run is drawn at 3, exact: {exact}", 1.75 - 0.25 * bool(exact), at)


class Courses(ToolCase):
    """The way of a run leaves at one edge of a state that comes round, and comes in at the other."""

    def test_periods(self):
        held = ANGLE.replace(b"-54:-18, -19:17, -18:-18, 17:17, 18:-18, 53:17", b"-18:-18, 17:17")
        by_quotient = ANGLE.replace(ROUND, b"h + u - (h + u + 18) / 36 * 36")
        other = by_quotient.replace(b"/ 36 * 36", b"/ 35 * 35")
        self.equal("what comes round", [36, None], read_plant(ANGLE).periods)
        got = [read_plant(text).periods for text in (held, by_quotient, other)]
        what = "what is held at its ends, and what comes round by a quotient, or by one of another size"
        self.equal(what, [[None, None], [36, None], [None, None]], got)

    def test_line_over_the_end(self):
        """From 15.5 to -16.5 it is 4 the shorter way: 2.5 to the edge at 18, so that x has gone 2.5 of 4 parts of its
        way; and back the same."""
        gone = Course(self.view(), None, [[15, 2], [-17, 6], [15, 2]])
        forth, back = [(15.5, 2.5), (18, 5.0), None, (-18, 5.0)], [(-18, 5.0), None, (18, 5.0), (15.5, 2.5)]
        points = [None if math.isnan(h) else (h, x) for h, x in zip(*gone.line)]
        self.equal("the line of a run over the end", [*forth, (-16.5, 6.5), *back], points)
        self.equal("the points of its samples", [0, 4, 8], gone.ends)
        self.equal("a part of it", 5, len(gone.upto(1)[0]))

    def test_line_inside(self):
        inside = Course(self.view(), None, [[-17, 2], [0, 3]])
        self.equal("a line that stays inside", [[-16.5, 0.5], [2.5, 3.5]], inside.line)

    def view(self):
        return View(read_plant(ANGLE), Units(), ["h", "x"])
