"""Plants and tables of both versions in the module of tools/, by values worked out by hand."""

import itertools
import random

from gaffcurrant_plant.plants.bounds import bounds_of, compiled, compiled_span, span_of
from gaffcurrant_plant.plants.expression import parse, text_of
from gaffcurrant_plant.faults import Fault
from gaffcurrant_plant.faults import Refused
from gaffcurrant_plant.plants.reader import read_plant
from gaffcurrant_plant.texts.table import read_table, text_of_table

from .tool_case import ToolCase

# x moves by 3 a step on 0:0 to 4:-3, so the floors of 0, -0.75, -1.5, -2.25, -3 stand between.
VALUES = [
    ("lut(x, 0:0, 4:-3)", {-1: 0, 1: -1, 2: -2, 3: -3, 4: -3, 9: -3}),
    ("-lut(x / 2, -4:1, 0:9, 5:9)", {-9: -1, -3: -5, 9: -9}),
]

# Over 1 to 9 the ends have the values 0 and -1, and the points 4 and 8 lie between: 3 is the greatest. The steepest
# piece falls by 4 over 4, so a radius moves the value by as much. On 0:0, 3:1 a radius of 4 moves by 4 thirds, rounded
# up to 2.
BOUNDS = [
    ("lut(x, 0:0, 4:3, 8:-1)", (1, 9), 1, (-1, 3, 1)),
    ("lut(x, 0:0, 4:3, 8:-1)", (1, 9), 3, (-1, 3, 3)),
    ("lut(x, 0:0, 3:1)", (-9, 9), 4, (0, 1, 2)),
]

LUT_FAULTS = [
    ("lut(x, 0:0)", "2 to 32 points"),
    ("lut(x, 0:0, 0:1)", "rise"),
    ("lut(x, 0:0, -0:1)", "written `0`"),
    ("lut(x, 0:0 1:1)", "closing bracket"),
    ("lut(x, 0:0, 1)", "the form `x:y`"),
    ("lut(x, 0:0, y:1)", "whole numbers"),
    ("lut(x, " + ", ".join(f"{k}:0" for k in range(33)) + ")", "here are 33"),
    ("lut x", "opening bracket"),
    ("lut(x, 0:0, 1:1234567890123456789)", "18 digits"),
    ("x : 2", "before `:` a sign is due"),
]

# The lines of a plant, the two corners of a cell's box in version 1 and in version 2, and the rows of version 2. Width
# 2: the centre 7 of 6 to 7 moves to 9, plus and minus 1; but 6 to 7 itself moves to 8 to 9. x / 2: the centre -5 of -6
# to -4 goes to -3, plus and minus 1; but -6 to -4 goes to -3 to -2. The table of x, 0:3 to 11:14, adds 3 up to x = 11,
# and gives 14 beyond: 9 to 11 goes to 12 to 14, as the centre plus and minus 1.
PLANTS = [
    (
        ["state x 0 9 2", "input u 2", "next x = x + u", "target 8 9"],
        3,
        (8, 10),
        (8, 9),
        {0: (4, 0), 1: (3, 0), 2: (2, 0), 3: (1, 0), 4: (0, None)},
    ),
    (["state x -9 8 3", "next x = x / 2", "target -3 -1"], 1, (-4, -2), (-3, -2), {0: (2, 0), 1: (1, 0), 2: (0, None)}),
    (
        ["state x 0 14 3", "next x = lut(x, 0:3, 11:14)", "target 12 14"],
        3,
        None,
        (12, 14),
        {0: (4, 0), 1: (3, 0), 2: (2, 0), 3: (1, 0), 4: (0, None)},
    ),
]

# A disturbed line by hand: from cell 0 both inputs need two samples, from cell 1 the second and from cell 2 the first
# needs one.
FRONT = [
    "plant 1",
    "state x 0 14 3",
    "input u 4 7",
    "noise w -1 1",
    "next x = x + u + w",
    "target 9 14",
    "goal reach",
    "end",
]
CELLS = ["0 2 0", "1 1 1", "2 1 0", "3 0 -", "4 0 -"]
RUNS = ["0 0 2 0", "1 1 1 1", "2 2 1 0", "3 4 0 -"]

# Row lines of version 2 in the place of those above, the line that is refused, and a part of the reason.
DAMAGED = [
    (RUNS[:3] + ["3 3 0 -", "4 4 0 -"], 15, "goes on the one before"),
    (RUNS[:3] + ["4 3 0 -"], 14, "at most its last"),
    (RUNS[:3] + ["2 4 0 -"], 14, "rise"),
    (RUNS[:3] + ["3 5 0 -"], 14, "there are 5 cells"),
    (CELLS, 11, "FIRST LAST RANK INPUT"),
    (RUNS[:3] + ["3 4 0 0"], 14, "has `-`"),
    (RUNS[:3] + ["3 4 - 0"], 14, "a rank"),
    (RUNS[:3] + ["03 4 0 -"], 14, "words"),
]
# Expressions whose spans are compared with values.
SPANS = [
    "lut(x * 3, -9:4, 0:0, 7:-20, 30:2) - abs(y) / 2",
    "x * y - y * x",
    "min(-x, y / 3) * max(x, abs(y - 2))",
    "lut(x + y, -5:5, 5:-5) * -x / 4",
    "abs(x) * abs(y) - 7",
]
# Plants of two states, whose edges are counted.
COUNTED = [
    [
        *("state x 0 19 2", "state y -10 9 4", "input u -1 0 3", "noise w -1 1"),
        *("next x = x + y / 2 + u * w", "next y = lut(y + x, -10:4, 0:0, 20:-9) + w"),
    ],
    [
        *("state x 0 19 2", "state y -10 9 4"),
        *("next x = abs(x - 3) + min(y, x)", "next y = -y / 3 - max(x, 2) * 1 / 4"),
    ],
]


class Expressions(ToolCase):
    """Tables of points, and spans."""

    def test_values(self):
        for text, values in VALUES:
            node = parse(text.split(), ["x"], 2)
            self.equal(f"values of `{text}`", values, {value: compiled(node)([value]) for value in values})
            self.equal(f"canonical text of `{text}`", text, text_of(node, ["x"]))

    def test_bounds(self):
        for text, area, radius, wanted in BOUNDS:
            got = bounds_of(parse(text.split(), ["x"], 2), [area], [radius])
            self.equal(f"bounds of `{text}`", wanted, got)

    def test_spans(self):
        """Spans by both ways, and values within them, over random areas."""
        draws = random.Random(1)
        for text in SPANS:
            node = parse(text.split(), ["x", "y"], 2)
            fast, value = compiled_span(node), compiled(node)
            for _ in range(40):
                area = [(low, low + draws.randint(0, 6)) for low in (draws.randint(-9, 9), draws.randint(-9, 9))]
                values = [value([x, y]) for x, y in itertools.product(*(range(low, high + 1) for low, high in area))]
                low, high = fast(area)
                self.equal(f"span of `{text}` over {area}", span_of(node, area), (low, high))
                is_within = low <= min(values) and max(values) <= high
                self.holds(f"values of `{text}` over {area}", is_within, f"{values} in {low} to {high}")

    def test_refused_tables_of_points(self):
        for text, said in LUT_FAULTS:
            self.holds(f"`{text}` is refused: {said}", said in fault_of(text), fault_of(text))


def fault_of(text):
    try:
        return f"it is read as {parse(text.split(), ['x'], 2)}"
    except Fault as fault:
        return str(fault)


class Plants(ToolCase):
    """Boxes, rows and edges."""

    def test_boxes(self):
        """The box of a cell in each version."""
        for lines, cell, *boxes, _ in PLANTS:
            for version, box in enumerate(boxes, 1):
                if box:
                    got = plant_of(lines, version).box(cell, 0)
                    self.equal(f"{lines}: the box of cell {cell}, version {version}", ([box[0]], [box[1]]), got)

    def test_rows_of_version_2(self):
        """What is won, by the program too where it reads that version."""
        for lines, *_, rows in PLANTS:
            plant = plant_of(lines, 2)
            again = read_plant(plant.text().encode()).text()
            self.equal(f"{lines}: version 2 is written", plant.text(), again)
            self.equal(f"{lines}: won in version 2", rows, won(plant))
            status, output, _ = self.execute(("synth", "1"), plant.text().encode())
            if status == 0:
                self.equal(f"{lines}: won by the program", rows, read_table(output).rows)

    def test_edges(self):
        """Counted axis by axis and pair by pair."""
        for lines in COUNTED:
            for version in (1, 2) if "lut" not in lines[-1] else (2,):
                plant = plant_of(lines, version)
                pairs = itertools.product(range(plant.cells), range(plant.vectors))
                wanted = sum(len(plant.successors(cell, vector)) for cell, vector in pairs)
                self.equal(f"{lines}: edges of version {version}", (wanted, True), plant.edges())
                self.holds(f"{lines}: there are edges", wanted > 20, str(wanted))


def plant_of(lines, version):
    return read_plant("\n".join([f"plant {version}", *lines, "goal reach", "end", ""]).encode())


def won(plant):
    """The rows of a small plant, rank by rank."""
    rows = {cell: (0, None) for cell in range(plant.cells) if plant.is_goal(cell)}
    for rank in range(1, plant.cells + 1):
        found = {}
        for cell, vector in itertools.product(range(plant.cells), range(plant.vectors)):
            cells = plant.successors(cell, vector)
            if cell not in rows and cells and rows.keys() >= set(cells):
                found.setdefault(cell, (rank, vector))
        rows |= found
    return rows


class Tables(ToolCase):
    """Tables in cells and in runs."""

    @classmethod
    def setUpClass(cls):
        super().setUpClass()
        cls.cells, cls.runs = read_table(table_of(1, CELLS)), read_table(table_of(2, RUNS))

    def test_same(self):
        one, two = self.cells, self.runs
        wanted = (one.rows, one.plant.text(), 1, 2)
        self.equal("a table in cells and in runs", wanted, (two.rows, two.plant.text(), one.version, two.version))

    def test_written(self):
        one = self.cells
        self.equal("a table in runs is written", table_of(2, RUNS).decode(), text_of_table(one.plant, one.rows))
        self.equal("a table in cells is written", table_of(1, CELLS).decode(), text_of_table(one.plant, one.rows, 1))

    def test_keep_table(self):
        keeping = ["goal keep" if line == "goal reach" else line for line in FRONT if not line.startswith("target")]
        kept = "\n".join(["table 2", *keeping, "rows 2", "0 0 - 1", "2 4 - 0", "end", ""]).encode()
        wanted = {0: (None, 1), 2: (None, 0), 3: (None, 0), 4: (None, 0)}
        self.equal("a keep table in runs", wanted, read_table(kept).rows)

    def test_refused_runs(self):
        for rows, line, said in DAMAGED:
            answer = answer_to(table_of(2, rows))
            is_told = answer.startswith(f"malformed: line {line}:") and said in answer
            self.holds(f"runs {rows}: line {line} is refused", is_told, answer)


def table_of(version, rows):
    return "\n".join([f"table {version}", *FRONT, f"rows {len(rows)}", *rows, "end", ""]).encode()


def answer_to(data):
    try:
        return str(read_table(data).rows)
    except Refused as refused:
        return f"{refused.answer}: {refused.reason}"
