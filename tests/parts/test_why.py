"""tools/why on the tables of line, tank and cart, against boxes worked out by hand."""

import re

from gaffcurrant_plant.texts.table import read_table

from .tool_case import TOP, ToolCase, needs_numpy

# Words behind the table, and whole lines that the answer has.
ANSWERS = [
    (
        "line",
        ["7"],
        [
            "cell 2 (x 6 to 8): its row: rank 2, apply input 1 (u = 3)",
            "  deviation: x 1",
            "  successor box: x 3 to 5",
            "  successor box: x 9 to 11",
            "  wins within 4 samples",
            "  wins within 2 samples",
        ],
    ),
    (
        "line",
        ["--cell", "4"],
        [
            "cell 4 (x 12 to 14): its row: rank 0, the cell lies in a target",
            "  stopped: the box leaves the domain in x (17 is above 14)",
        ],
    ),
    # Indices 39 and 15 have the centre 395 and 55; with -20 the box is 406 +- 6 by 35 +- 7: two indices, three
    # speeds.
    (
        "cart",
        ["395", "55", "--input", "0"],
        [
            "cell 795 (p 390 to 399, v 50 to 59): its row: rank 1, apply input 0 (a = -20)",
            "  deviation: p 6, v 7",
            "  successor box: p 400 to 412, v 28 to 42",
            "  successors: 6",
            "  wins within 1 sample",
        ],
    ),
    (
        "cart",
        ["0", "-100"],
        [
            "cell 0 (p 0 to 9, v -100 to -91): no row",
            "  stopped: the box leaves the domain in p (-20 is below 0) and in v (-122 is below -100)",
        ],
    ),
    (
        "cart",
        ["--cell", "418", "--input", "0"],
        [
            "cell 418 (p 200 to 209, v 80 to 89): no row: it meets obstacle 1 (p 200 to "
            "219, v 80 to 99), so no input helps"
        ],
    ),
]

# A table by hand: from the first cell 2 is no way, and 3 comes back or meets an obstacle.
HAND = b"""table 1
plant 1
state x 0 14 3
input u 0 3 6
next x = x + u
target 12 14
obstacle 4 4
goal reach
end
rows 3
2 2 1
3 1 1
4 0 -
end
"""

# A table by hand that keeps: from the first cell a step to the right is one that does, and a step of two cells meets
# the obstacle.
KEPT = b"""table 1
plant 1
state x 0 14 3
input u -3 3 6
next x = x + u
obstacle 6 8
goal keep
end
rows 4
0 - 1
1 - 0
3 - 1
4 - 0
end
"""

# What lies deeper: the lines of a plant behind `state x 0 14 3`, the rows of its table, a state, and the answer behind
# its first line. u = 3 leads from cell 1 onto the obstacle in cell 2, and from cell 0 to cell 1. u = 2 leads the middle
# 10 to 12, and the box from 11 to 13: cell 3 may come back to itself. With u = 3 alone nothing is kept: cell 4 falls at
# once, and each cell one round after the next.
DEEP = [
    (
        ["input u 3", "next x = x + u", "target 12 14", "obstacle 7 7", "goal reach"],
        ["3 1 0", "4 0 -"],
        "0",
        [
            "the nearest causes, going from lost cell to lost cell (3 looked at):",
            "  an obstacle: the box meets it: 1 sample on, at cell 1 (x 3 to 5), input 0 (u = 3)",
            "no lost cell has an input that leads its middle into a cell that is won",
        ],
    ),
    (
        ["input u 2", "next x = x + u", "target 12 14", "goal reach"],
        ["4 0 -"],
        "9",
        [
            "the nearest causes, going from lost cell to lost cell (1 looked at):",
            "  no input moves the cell farther than its box overhangs: here, input 0 (u = 2)",
            "  the input may come back to the cell itself: here, input 0 (u = 2)",
            "lost cells next to what is won: 1; an input leads their middle there, and is stopped by",
            "  1: no input moves the cell farther than its box overhangs",
        ],
    ),
    (
        ["input u 3", "next x = x + u", "goal keep"],
        [],
        "6",
        [
            "the nearest causes, going from lost cell to lost cell (3 looked at):",
            "  the edge: the box leaves the domain: 2 samples on, at cell 4 (x 12 to 14), input 0 (u = 3)",
            "it falls in round 2 of 4; the last of its inputs is cut by the cell below, and so on:",
            "  by input 0 (u = 3): cell 3 (x 9 to 11), round 1",
            "  by input 0 (u = 3): cell 4 (x 12 to 14), round 0",
            "  round 0: every input leaves the domain there",
            "cells that fall in round 0, 1, ..: 1, 1, 1, 1, 1",
            "no lost cell has an input that leads its middle into a cell that is kept",
        ],
    ),
]

# A table of version 2 by hand: 6 to 7 moves to 8 to 9, where the centre 7, less and plus the deviation, gives 8 to 10.
SECOND = b"""table 2
plant 2
state x 0 9 2
input u 2
next x = x + u
target 8 9
goal reach
end
rows 2
3 3 1 0
4 4 0 -
end
"""

# An angle in cells of three numbers that comes round behind 35, by hand: from 30 to 32 a step of 4 leads to 34, 35 and
# 0, and the box is the whole range.
ANGLE = b"""table 2
plant 2
state h 0 35 3
input u -4 4
next h = lut(h + u, -36:0, -1:35, 0:0, 35:35, 36:0, 71:35)
target 0 2
goal reach
end
rows 1
0 0 0 -
end
"""
AROUND = [
    "input 1 (u = 4)",
    "  deviation: h 1",
    "  growth bound: h 34 to 0 round the end; span over the cell: h 34 to 0 round the end",
    "  successor box: h 0 to 35 (the whole of h, since it reaches across the range's end)",
    "  successors: 12",
]
# From 33 to 35 a step of 4 leads to 37 to 39, which are 1 to 3.
BEHIND = [
    "input 1 (u = 4)",
    "  deviation: h 1",
    "  growth bound: h 1 to 3; span over the cell: h 1 to 3",
    "  successor box: h 1 to 3",
    "  successors: 2",
]

# Two stations on a line of ten cells of three numbers, with an obstacle between them: each can be left and reached
# again, and none leads to the other. The second with an end less holds no cell.
APART = """patrol 1
plant 1
state x 0 29 3
input u -3 3
next x = x + u
target 0 5
target 24 {}
obstacle 12 14
goal reach
end
turn 0 rows 0
turn 1 rows 0
end
"""
NO_ROUND = [
    (
        "29",
        "no turn has a row: each target can be reached from itself, but from target 0 no way leads to target 1 for "
        "sure",
    ),
    (
        "25",
        "no turn has a row: target 1 of 0 to 1 is the first that can't be reached from itself, since no cell lies in "
        "it "
        "whole and off the obstacles",
    ),
]
# A target of one cell, in which no input may be held: it is left by 3 or 6 to the right for ever.
ONWARD = APART.format("29").replace("input u -3 3", "input u 3 6")
COMPLAINTS = [
    (["0", "0"], 2, "a state of this plant has 1 numbers (x), here are 2"),
    (["15"], 1, "x = 15 is outside 0 to 14"),
    (["--cell", "5"], 1, "there are 5 cells"),
    (["x"], 2, "`x` is no whole number"),
    (["7", "--cell", "2"], 2, "not both"),
    (["7", "--input", "3"], 1, "there are 3 input vectors"),
]
# What is said of HAND, KEPT and SECOND.
OF_HAND = [
    "cell 0 (x 0 to 2): no row",
    *("input 0 (u = 0)", "  deviation: x 1", "  successor box: x 0 to 2", "  successors: 1"),
    "  stopped: it may come back to the cell itself",
    *("input 1 (u = 3)", "  deviation: x 1", "  successor box: x 3 to 5", "  successors: 1"),
    "  stopped: it may meet an obstacle: cell 1 (x 3 to 5)",
    *("input 2 (u = 6)", "  deviation: x 1", "  successor box: x 6 to 8", "  successors: 1"),
    "  wins within 3 samples",
]
OF_KEPT = [
    "cell 0 (x 0 to 2): its row: kept, apply input 1 (u = 3)",
    *("input 0 (u = -3)", "  deviation: x 1", "  successor box: x -3 to -1"),
    "  stopped: the box leaves the domain in x (-3 is below 0)",
    *("input 1 (u = 3)", "  deviation: x 1", "  successor box: x 3 to 5", "  successors: 1"),
    "  keeps: each successor is kept",
    *("input 2 (u = 6)", "  deviation: x 1", "  successor box: x 6 to 8", "  successors: 1"),
    "  stopped: it may meet an obstacle: cell 2 (x 6 to 8)",
]
OF_SECOND = [
    "cell 3 (x 6 to 7): its row: rank 1, apply input 0 (u = 2)",
    *("input 0 (u = 2)", "  deviation: x 1", "  growth bound: x 8 to 10; span over the cell: x 8 to 9"),
    *("  successor box: x 8 to 9", "  successors: 1", "  wins within 1 sample"),
]


class Boxes(ToolCase):
    """What each input does at a cell."""

    def test_examples(self):
        for name, words, lines in ANSWERS:
            status, output, error = self.tool("why", TOP / "examples" / name / f"{name}.table", *words)
            self.equal(f"why {name} {words}", (0, ""), (status, error))
            for line in lines:
                self.holds(f"why {name} {words} says `{line}`", line in output.splitlines(), output)

    def lines_of(self, data, *words):
        return self.tool("why", "-", *words, data=data)[1].splitlines()

    def test_table_by_hand(self):
        self.equal("why of a table by hand", OF_HAND, self.lines_of(HAND, "0"))

    def test_row_less(self):
        less = HAND.replace(b"rows 3\n2 2 1\n", b"rows 2\n")
        wanted = "  stopped: it may lead to cells without a row: cell 2 (x 6 to 8)"
        self.equal("why of a row less", wanted, self.lines_of(less, "0", "--input", "2")[-1])

    def test_kept_cell(self):
        self.equal("why of a kept cell", OF_KEPT, self.lines_of(KEPT, "0"))

    def test_version_2(self):
        self.equal("why of version 2", OF_SECOND, self.lines_of(SECOND, "7"))

    def test_angle(self):
        for cell, wanted in ((10, AROUND), (11, BEHIND)):
            got = self.lines_of(ANGLE, "--cell", cell, "--input", "1")[1:6]
            self.equal(f"why of an angle, cell {cell}", wanted, got)


class Refused(ToolCase):
    """Words and texts that are refused."""

    def test_words(self):
        for words, wanted, said in COMPLAINTS:
            status, output, error = self.tool("why", "-", *words, data=HAND)
            self.equal(f"why {words}", (wanted, ""), (status, output))
            self.holds(f"why {words} says `{said}`", said in error and error.count("\n") == 1, error)

    def test_damaged_tables(self):
        """The line is named."""
        table = (TOP / "examples/line/line.table").read_bytes()
        for what, data, line in (
            ("no row count", table.replace(b"rows 5", b"rows x"), 9),
            ("a row too many", table.replace(b"rows 5", b"rows 4"), 14),
            ("no last line", table[:-4], 15),
            ("a falling cell", table.replace(b"1 3 1", b"0 3 1"), 11),
            ("a plant", table[8:], 1),
            ("a byte order mark", b"\xef\xbb\xbf" + table, 1),
            ("an input too large", table.replace(b"0 4 1", b"0 4 2"), 10),
        ):
            answer = self.tool("why", "-", "7", data=data)
            self.refused(f"why on {what}", answer, f"malformed: line {line}:")
            is_mark = what == "a byte order mark"
            self.equal(f"why on {what} says byte order mark", is_mark, "byte order mark" in answer[2])


@needs_numpy
class Deep(ToolCase):
    """What --deep says, which it works out by numpy."""

    def test_causes(self):
        for lines, rows, state, wanted in DEEP:
            front = ["table 1", "plant 1", "state x 0 14 3", *lines, "end"]
            text = "\n".join([*front, f"rows {len(rows)}", *rows, "end", ""])
            status, output, error = self.tool("why", "--deep", "-", state, data=text.encode())
            self.equal(f"why --deep of {lines}", (0, wanted, ""), (status, output.splitlines()[1:], error))

    def second_line(self, text):
        return self.tool("why", "--deep", "-", "0", data=text.encode())[1].splitlines()[1]

    def test_patrol_without_rows(self):
        for end, said in NO_ROUND:
            got = self.second_line(APART.format(end))
            self.equal(f"why --deep of a patrol without rows, to {end}", said, got)

    def test_patrol_that_cannot_come_back(self):
        said = "no turn has a row: target 0 of 0 to 1 is the first that can't be reached from itself, from none of its "
        self.equal("why --deep of a patrol that can't come back", said + "2 cells", self.second_line(ONWARD))

    def test_cart(self):
        """It counts the causes of the frontier."""
        cart = TOP / "examples/cart/cart.table"
        output = self.tool("why", "--deep", cart, "0", "-100")[1]
        beside, counts = frontier_of_the_cart(cart.read_bytes()), re.findall(r"^  (\d+): ", output, re.M)
        self.equal("why --deep counts the causes of the frontier", beside, sum(map(int, counts)))
        said = f"lost cells next to what is won: {beside}; "
        self.holds("why --deep of the cart counts cells", said in output, output)


def frontier_of_the_cart(text):
    """How many lost cells of the cart have an input that leads their middle into a cell with a row, by the cart's own
    equations. The obstacles are the indices 20 and 21 of the position by 18 and 19 of the speed, and 30 by 0 and 1,
    with 20 cells along the speed."""
    won, found = read_table(text).rows, 0
    obstacles = {20 * p + v for p, v in ((20, 18), (20, 19), (21, 18), (21, 19), (30, 0), (30, 1))}
    for cell in set(range(1200)) - set(won) - obstacles:
        position, speed = 10 * (cell // 20) + 5, 10 * (cell % 20) - 95
        after = [(position + speed // 5, speed + a) for a in (-20, -15, 0, 15, 20)]
        found += any(is_inside(p, v) and 20 * (p // 10) + (v + 100) // 10 in won for p, v in after)
    return found


def is_inside(position, speed):
    return 0 <= position < 600 and -100 <= speed < 100
