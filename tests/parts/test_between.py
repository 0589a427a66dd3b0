"""tools/between and the line `between`: the enclosures hold ways that are followed by fine steps, walls that ways touch
are widened until none does, and what is wrong is told in a line."""

import itertools
import random
import re
from fractions import Fraction

from gaffcurrant_plant.models.model import read_model

from . import ways
from .tool_case import TOP, ToolCase, has, needs_numpy

if has("numpy"):
    import numpy
    from gaffcurrant_plant.ways.enclosure import Walls
    from gaffcurrant_plant.ways.spans import Span, around
    from gaffcurrant_plant.ways.wider_obstacles import Looks, widenings_left

# A carriage that steps by up to a metre and a half, and a wall a tenth of a metre thick with a gap; with another target
# before it, it goes between two stations in turn.
ROOM = """state x 0 10 cells 20
state y 0 10 cells 20
input u 0.5 0 -1 1 -1.5 1.5
input v 0.5 0 -1 1 -1.5 1.5
noise w -0.05 0.05
next x = x + u + w
next y = y + v + w
target 8 10 0 2
{}obstacle 4.9 5 0 6
goal reach
"""
# A pointer on a circle that goes down by steps of 30 degrees, past a bar of 4 degrees at the range's end, to a target
# before it.
CIRCLE = """state h -180 180 cells 36 1
wrap h
input u 1 -30 0
noise w -1 1
unit h deg
unit u deg
next h = h + u + w
target 80 150
obstacle 176 180
goal reach
between
"""
# A wall without a gap.
CLOSED = """state x 0 10 cells 40
input u 0.5 -1.5 -1 1 1.5
noise w -0.05 0.05
unit x m
unit u m
next x = x + u + w
target 0 2
target 8 10
obstacle 4.9 5
goal reach
between patrol
"""
# A state that is a whole number by itself beside one that isn't.
LISTED = """state x 0 10 cells 20
state d 0 2 1 1
exact d
input u 0.5 -1.5 0 1.5
noise w -0.05 0.05
unit x m
unit u m
next x = x + u + w
next d = 1 - d
target 7 10 *
obstacle 4.9 5 *
goal reach
"""
# A wall at the end of a range that comes round, a way, and whether it meets it.
TURNS = [
    (355.0, 365.0, True),
    (345.0, 355.0, False),
    (-15.0, -5.0, False),
    (-5.0, 5.0, True),
    (20.0, 30.0, False),
    (715.0, 725.0, True),
    (370.0, 380.0, False),
    (-350.0, -345.0, False),
    (11.0, 371.0, True),
]


def without_progress(error):
    """What stands on standard error beside the lines that tell every ten seconds how far it is, and the one that tells
    how long it will take."""
    progress = re.compile(r".*, \d+ s so far\n|.*: about \d+ s more, if .*\n")
    return "".join(line for line in error.splitlines(True) if not progress.fullmatch(line))


@needs_numpy
class Enclosures(ToolCase):
    """Enclosures of ways beside ways that are followed by fine steps."""

    def test_ways(self):
        for text, sides, is_flow in ways.MODELS:
            faults = ways.faults_of(text, sides, is_flow, random.Random(6))
            self.equal(f"ways outside of the enclosures of {text[:40]!r}", [], list(itertools.islice(faults, 3)))

    def test_ends(self):
        """Sums and products of spans hold the exact ones, also of numbers and of what is next to nothing."""
        draws = random.Random(3)
        numbers = [0.0, 1.0, -2.0, 1e-305, -3e-290, 1 / 3, -0.1, 7e5, *(draws.uniform(-9, 9) for _ in range(40))]
        spans = [Span(*sorted(draws.sample(numbers, 2))) for _ in range(400)]
        columns = Span(*(numpy.array([getattr(one, end) for one in spans]) for end in ("low", "high")))
        fractions = [Fraction(1, 3), Fraction(-2, 7), Fraction(0), Fraction(3), Fraction(-1, 2)]
        others = [around(one) for one in fractions] + [Span(-0.5, 2.0), Span(-3.0, -0.1), Span(0.1, 4.0), columns]
        for other in others:
            for name, got, exact in (
                ("sum", columns + other, lambda a, b: a + b),
                ("product", columns * other, lambda a, b: a * b),
                ("product the other way", other * columns, lambda a, b: a * b),
            ):
                ends = zip(spans, got.low.tolist(), got.high.tolist(), [other] * 400 if other is not columns else spans)
                wrong = [k for k, (one, low, high, two) in enumerate(ends) if not holds(exact, one, two, low, high)]
                self.equal(f"{name} with {other.low} to {other.high}, not held", [], wrong)

    def test_no_numbers(self):
        """A way whose ends overflow may touch everything, and leave the domain."""
        wall = b"state h 0 360 cells 36\ninput u 10 -10 10\nnext h = h + u\nobstacle 0 10\ngoal keep\n"
        for text in (wall, wall.replace(b"input", b"wrap h\ninput")):
            walls, way = Walls(read_model(text)), [Span(numpy.array([numpy.nan]), numpy.array([numpy.nan]))]
            self.holds(f"it may touch, by {text[:40]}", walls.met(way).all())

    def test_turns(self):
        """A way over the end of a state that comes round meets an obstacle at its beginning, and one that ends before
        it doesn't."""
        wall = b"state h 0 360 cells 36\nwrap h\ninput u 10 -10 10\nnext h = h + u\nobstacle 0 10\ngoal keep\n"
        walls = Walls(read_model(wall))
        for low, high, wanted in TURNS:
            way = [Span(numpy.array([low]), numpy.array([high]))]
            self.equal(f"a way from {low} to {high} meets it", wanted, bool(walls.touched(way)[0][0]))


def holds(operation, one, other, low, high):
    """Whether two ends hold what an operation makes of the ends of two spans, exactly."""
    pairs = itertools.product(*([Fraction(float(span.low)), Fraction(float(span.high))] for span in (one, other)))
    return all(Fraction(low) <= operation(*pair) <= Fraction(high) for pair in pairs)


@needs_numpy
class Forecast(ToolCase):
    """How long widening takes."""

    def test_widenings_left(self):
        """It is told by the counts of ways that may touch: of three, where they fall."""
        for counts, left in (
            ([100, 50, 25], 6),
            ([64, 16, 3], 2),
            ([8, 3, 0], 0),
            ([100, 50], None),
            ([5, 5, 5], None),
            ([5, 4, 6], None),
        ):
            self.equal(f"widenings that are left by {counts}", left, widenings_left(counts))

    def test_first_line(self):
        looks, said = Looks.__new__(Looks), []
        looks.known, looks.last, looks.counts = {}, None, [[100, 50, 25]]
        looks.seconds, looks.tell = [9.0, 4.0, 6.0], said.append
        looks.forecast()
        wanted = (
            "between: about 165 s more, if the ways that may touch become fewer as so far (100, 50, 25): "
            "some 33 plants of 5.0 s each, for 4 ways to widen obstacles"
        )
        self.equal("what between tells first", [wanted], said)
        looks.counts.append([100])
        self.equal("plants that are left of the second choice", 2 + 2 * 3, looks.plants_left())


@needs_numpy
class Room(ToolCase):
    """By the wall as it is ways may touch it; a line `between`, and --between, widen it until none may."""

    def test_synth(self):
        self.is_widened("synth", ROOM.format(""), "between\n", [])

    def test_patrol(self):
        self.is_widened("patrol", ROOM.format("target 0 2 0 2\n"), "between patrol\n", ["--by", "patrol"])

    def is_widened(self, word, text, line, more):
        model, lined = self.placed(f"{word}.model", text), self.placed(f"{word}_lined.model", text + line)
        status, plant, error = self.tool("scale", "--between", *more, model)
        self.equal(f"scale --between by {word}", (0, ""), (status, without_progress(error)))
        self.equal(f"a line between by {word}", plant, self.tool("scale", lined)[1])
        said = re.search(rf"^#   this leaves (\d+) of (\d+) rows, by `{word}`$", plant, re.M)
        is_told = said and 0 < int(said[1]) < int(said[2]) and "#   obstacle 1 is widened to" in plant
        self.holds(f"between by {word} tells its cost", is_told, plant[:800])
        self.ways_touch(f"by {word}, the wall as it is", self.solved(word, self.tool("scale", model)[1]), model, True)
        self.ways_touch(f"by {word}, the wall widened", self.solved(word, plant), model, False)

    def ways_touch(self, what, table, model, touches):
        """Whether ways of a table touch the model's wall, by tools/between and by runs."""
        status, output, error = self.tool("between", "-", "--model", model, data=table)
        ends = r"of (\d+) an obstacle, of (\d+) a bound of the domain\n"
        found = re.match(rf"(\d+) rows: the ways of (\d+) may touch, {ends}", output)
        is_right = found and (int(found[3]) > 0) == touches and status == (int(found[2]) > 0)
        self.holds(f"between {what}", is_right, output[:300] + error)
        output = self.tool("sim", "--real", model, "-", "--runs", "1000", data=table)[1]
        self.holds(f"runs {what}", ("between samples: 0 runs touch" not in output) == touches, output)

    def test_no_obstacle(self):
        """Nothing may be touched where there is no obstacle, and ways may leave the domain."""
        model = re.sub(r"^obstacle .*\n", "", ROOM.format(""), flags=re.M)
        status, text, error = self.tool("scale", "-", data=f"{model}between\n".encode())
        said = re.search(r"^#   this leaves (\d+) of (\d+) rows, by `synth`$", text, re.M)
        self.holds("scale of a line between without obstacles", said and said[1] == said[2], text[:300] + error)
        self.equal("the status of that", 0, status)

    def test_bounds(self):
        model = self.placed("bounds.model", ROOM.format(""))
        status, text, error = self.tool("scale", "--between", "--bounds", model)
        is_told = status == 0 and "touches an obstacle of the model or leaves its domain" in text
        self.holds("scale --between --bounds", is_told or "no row is left" in error, text[:300] + error)


@needs_numpy
class Circle(ToolCase):
    """An obstacle at the end of a range that comes round is widened behind it, at the range's beginning, until no way
    touches it."""

    def test_bar(self):
        model = self.placed("circle.model", CIRCLE)
        status, text, error = self.tool("scale", model)
        self.equal("scale of a circle", (0, ""), (status, without_progress(error)))
        said = re.search(r"^#   obstacle 1 is widened to h (\S+) to (\S+)$", text, re.M)
        is_over = said and float(said[1]) <= 176 and float(said[2]) > 180
        self.holds("an obstacle of a circle is widened over the end", is_over, text)
        boxes = [tuple(map(int, line.split()[1:])) for line in text.splitlines() if line.startswith("obstacle ")]
        got = (len(boxes), boxes[0][1], boxes[-1][0])
        self.equal("its boxes lie at both ends of the range", (2, 179, -180), got)
        output = self.tool("between", "-", "--model", model, data=self.solved("synth", text))[1]
        touched = re.match(r"[1-9]\d* rows: the ways of 0 may touch", output)
        self.holds("no way of the circle touches the bar", touched, output)


@needs_numpy
class Told(ToolCase):
    """What is told, in the model's units."""

    def test_no_row_is_left(self):
        """The obstacle and the input are named at which it fails, and what may help; and a plant without rows is
        told."""
        wall = [
            "no row is left of ",
            " rows the ways of ",
            " touch obstacle 1 (x 4.9 to 5 m), of ",
            " under u = ",
            "A smaller `sample`, more room beside it, or no input u = ",
        ]
        bare = CLOSED.replace("target 8 10", "target 8 8.1")
        for what, model, said in (
            ("a wall without a gap", CLOSED, wall),
            ("a plant without rows", bare, ["`patrol` finds no row by the obstacles as they are"]),
        ):
            status, output, error = self.tool("scale", "-", data=model.encode())
            self.equal(f"between of {what}", (1, "", 1), (status, output, without_progress(error).count("\n")))
            for one in said:
                self.holds(f"between of {what} says `{one}`", one in error, error)

    def test_order(self):
        """Obstacles are told before bounds of the domain, with what lies at them; a state that is a whole number by
        itself is a point."""
        table = self.solved("synth", self.scaled(LISTED))
        output = self.tool("between", "--all", "-", "--model", self.placed("listed.model", LISTED), data=table)[1]
        lines = output.splitlines()
        first = re.compile(r"obstacle 1 \(x 4.9 to 5 m\): the ways of \d+ \(\d+ under u = 1.5 m")
        self.equal("between tells the obstacle first", [1], [k for k, line in enumerate(lines) if first.match(line)])
        cells = [line for line in lines if line.startswith("  cell ")]
        cell = re.compile(r"  cell \d+ \(x \S+ to \S+ m, d [01]\) under u = \S+ m: .+")
        self.holds("between tells cells in the model's units", cells and all(map(cell.fullmatch, cells)), lines)
        heads = [line for line in lines if line.startswith("cells whose way ")]
        wanted = ["cells whose way may touch an obstacle:"]
        self.equal("cells at obstacles stand first", wanted, heads[:1])

    def test_examples(self):
        """With a line `between` no way touches an obstacle, and with `bounds` none leaves the domain."""
        for name in self.examples():
            path = self.model_of(name)
            line = re.search(r"^between.*", path.read_text(), re.M) if path.exists() else None
            text = self.text_of(name) if line else None
            if text:
                status, output, _ = self.tool("between", "-", "--model", path, data=text)
                none = "0 may touch, of 0 an obstacle, of 0 a bound"
                wanted = none if "bounds" in line[0] else r"\d+ may touch, of 0 an obstacle,"
                touched = re.match(rf"[1-9]\d* rows: the ways of {wanted}", output)
                self.holds(f"{name}: what the ways touch", touched, output[:300])
                self.equal(f"{name}: the status of between", int(" the ways of 0 " not in output), status)


@needs_numpy
class Refused(ToolCase):
    """Words, models and texts that are refused."""

    @classmethod
    def setUpClass(cls):
        super().setUpClass()
        cls.gate, cls.table = cls.model_of("gate"), cls.table_text("gate")

    def test_lines(self):
        model = ROOM.format("") + "between for ever\n"
        answer = self.tool("scale", "-", data=model.encode())
        self.refused("scale of `between for ever`", answer, "`between` stands alone")

    def test_end(self):
        """It ends with a text or a line."""
        model = ROOM.format("").replace("target 8 10 0 2", "target 8 8.1 0 2") + "between\n"
        status, output, error = self.tool("scale", "-", data=model.encode())
        is_either = status == 0 and "# no way" in output or without_progress(error).count("\n") == 1
        self.holds("between ends with a text or a line", is_either, error)

    def test_words(self):
        for words, data, status, said in (
            (["-"], self.table, 2, "--model"),
            (["-", "--model", "nowhere"], self.table, 1, "between: nowhere: "),
            (["-", "--model", self.gate], b"table 3\n", 1, "begins with"),
            (["-", "--model", "/dev/null"], self.table, 1, "/dev/null: the model has no state"),
            (["-", "--model", TOP / "examples/rooms/rooms.model"], self.table, 1, "isn't the table's"),
        ):
            self.refused(f"between {words[1:]}", self.tool("between", *words, data=data), said, status)

    def test_without_numpy(self):
        """Each program says so in a line."""
        self.placed("bare/numpy.py", "raise ImportError\n")
        model = self.placed("between.model", ROOM.format("") + "between\n")
        bare = self.environment(PYTHONPATH=str(self.folder / "bare"))
        for name, words in (
            ("sim", ["--real", self.gate, "-"]),
            ("between", ["-", "--model", self.gate]),
            ("scale", [model]),
        ):
            answer = self.tool(name, *words, data=self.table, env=bare)
            self.refused(f"{name} without numpy", answer, "python3-numpy")
