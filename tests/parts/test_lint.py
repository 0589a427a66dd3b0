"""tools/lint says what the program says of every text of tests/cases, and gives the reason."""

import subprocess

from .tool_case import TOP, ToolCase

LINE = ["plant 1", "state x 0 14 3", "input u -3 3", "next x = x + u", "target 12 14", "goal reach", "end"]
CART = [
    "plant 1",
    "state p 0 599 10",
    "state v -100 99 10",
    "input a -20 0 20",
    "noise w -2 2",
    "next p = p + v / 5",
    "next v = v + a + w",
    "target 400 559 -50 49",
    "goal reach",
    "end",
]

# The base, a line of it from 1, what stands in its place, the first line of the answer, a part of the reason.
REFUSED = [
    (LINE, 2, "state x 0 15 3", "malformed: line 2", "`state x 0 14 3` or `state x 0 17 3`"),
    (LINE, 2, "state x 0.5 14 3", "malformed: line 2", "`0.5` is no whole number"),
    (LINE, 2, "state x 0 1e3 3", "malformed: line 2", "no whole number"),
    (LINE, 2, "state x 14 0 3", "malformed: line 2", "turned round"),
    (LINE, 2, "state x 0 14", "malformed: line 2", "has 4 words"),
    (LINE, 2, "state x, 0 14 3", "malformed: line 2", "is no name"),
    (LINE, 2, "state x 0 14 3 # metres", "malformed: line 2", "a line of its own"),
    (LINE, 2, "states x 0 14 3", "malformed: line 2", "is `state` meant"),
    (LINE, 2, "State x 0 14 3", "malformed: line 2", "is `state` meant"),
    (LINE, 3, "input u \u22123 3", "malformed: line 3", "the minus of the keyboard"),
    (LINE, 3, "input u +3", "malformed: line 3", "plus sign"),
    (LINE, 3, "input u", "malformed: line 3", "at least one value"),
    (LINE, 3, "input x 3", "malformed: line 3", "taken by an earlier line"),
    (LINE, 3, "disturbance w -1 1", "malformed: line 3", "is `noise` meant"),
    (LINE, 4, "target 12 14", "malformed: line 4", "`next x = ..` is due"),
    (LINE, 4, "next x = 0.2 * x + u", "malformed: line 4", "real numbers"),
    (LINE, 4, "next x = x + 2u", "malformed: line 4", "between `2` and `u`"),
    (LINE, 4, "next x = x u", "malformed: line 4", "before `u` a sign is due"),
    (LINE, 4, "next x = u / x", "malformed: line 4", "`x`, which varies"),
    (LINE, 4, "next x = u / 0", "malformed: line 4", "quotient by 0"),
    (LINE, 4, "next x = u / (2 + 3)", "malformed: line 4", "written out in digits"),
    (LINE, 4, "next x = x ^ 2", "malformed: line 4", "no powers"),
    (LINE, 4, "next x = x ** 2", "malformed: line 4", "no powers"),
    (LINE, 4, "next x = max(x, u, 3)", "malformed: line 4", "max(a, max(b, c))"),
    (LINE, 4, "next x = abs(x, u)", "malformed: line 4", "`abs` takes one"),
    (LINE, 4, "next x = min(x)", "malformed: line 4", "`min` takes two"),
    (LINE, 4, "next x = sin(x)", "malformed: line 4", "isn't known"),
    (LINE, 4, "next x = x + v", "malformed: line 4", "`v` is no state, input or noise"),
    (LINE, 4, "next x = (x + u", "malformed: line 4", "left open"),
    (LINE, 4, "next x = x + u)", "malformed: line 4", "has no opening one"),
    (LINE, 4, "next x=x+u", "malformed: line 4", "a word of its own"),
    (LINE, 5, "target 12", "malformed: line 5", "two numbers for each state"),
    (LINE, 5, "target 14 12", "malformed: line 5", "turned round"),
    (LINE, 6, "goal stay", "malformed: line 6", "`goal reach` or `goal keep`"),
    (LINE, 6, "goal keep", "malformed: line 6", "has no targets"),
    (LINE, 7, "", "malformed: line 7", "ends before its `end` line"),
    (LINE, 1, "plant 3", "malformed: line 1", "the version is 1 or 2"),
    (LINE, 4, "next x = lut(x, 0:0, 14:14)", "malformed: line 4", "`plant 2` brings it"),
    (LINE, 1, "\ufeffplant 1", "malformed: line 1", "byte order mark"),
    (CART, 7, "target 400 559 -50 49", "malformed: line 7", "the equation of v is missing"),
    (CART, 6, "next v = v + a + w", "malformed: line 6", "that of p is due"),
    (CART, 8, "target 400 559", "malformed: line 8", "LO_p HI_p LO_v HI_v"),
    (CART, 2, "state p 0 1048575 1", "limit: cells", "1048576 are the most"),
    (LINE, 2, "state x 0 999999999999999999 1000000000000000000", "malformed: line 2", "more than 18 digits"),
]

# The same for texts that are read, with a note that they are to get.
NOTED = [
    (LINE, 4, "next x = x + 1 / 5 * u", "`1 / 5` is 0"),
    (LINE, 4, "next x = x + u / 2 * 3", "multiplies what a quotient has rounded"),
    (LINE, 4, "next x = x + 3", "the input u stands in no equation"),
    (LINE, 5, "# no target", "there is no target"),
    (LINE, 5, "target 13 14", "no cell of x lies between 13 and 14"),
    (LINE, 5, "target 20 30", "20 to 30 is outside of the range of x, 0 to 14"),
    (LINE, 5, "target 11 14", "the cells of x fill 12 to 14 alone"),
    (LINE, 5, "target 12 14\nobstacle 12 12", "an obstacle meets each of its cells"),
    (LINE, 3, "input u 3 3", "more than once"),
    (LINE, 4, "next x = x + u - x + x", "x stands in it more than once"),
    # The deviation is 3, so a box has seven numbers about the middle of a cell of three.
    (
        LINE,
        4,
        "next x = x + u + abs(x) - abs(x)",
        "the target has 1 cell along x, and each sampled box meets 3 at least",
    ),
    (LINE, 4, "next x = x + u + 30", "the box of every input leaves the domain"),
    (LINE, 4, "next x = x + u / 3", "may lead back into the cell itself"),
    (LINE, 6, "obstacle 0 2\ngoal reach", "8 edges: under 0.01 per cent"),
    (CART, 7, "next v = v + a + w", "with `plant 2` as the first line the boxes would have"),
    (CART, 7, "next v = v + a + w", "step of v: -20 under a = -20; 0 under a = 0; 20 under a = 20; a cell is 10 wide"),
    (CART, 5, "noise w -2 2\nnoise e 0 1", "the noise e stands in no equation"),
]


# To be kept: a step of 10, where the box of a cell of ten numbers reaches 6 to each side of its middle. Out of -5 to 4
# about the middle it takes 11 upwards (11 - 6 is 5) and 12 downwards (-12 + 6 is -6).
KEPT = ["plant 1", "state v 0 99 10", "input u -10 10", "noise w -1 1", "next v = v + u + w", "goal keep", "end"]
KEPT_NOTES = [
    ("10", "moves v down for sure, out of its cell: that takes a step of 12, and the best is 10", True),
    ("10", "moves v up for sure, out of its cell: that takes a step of 11, and the best is 10", True),
    ("12", "for sure", False),
]


BARE = (
    "x has no noise, and moves by whole cells, by -3 under u = -3: a measurement that is a rounding beside a cell's "
    "bound counts for the next cell; add a "
    "noise of -1 to 1, unless the state is a whole number by itself"
)


# An angle in cells of three numbers, which comes round behind 35. A step of 4 moves the three numbers of a cell into
# two others, and across the range's end the box is the whole range. The obstacle is two numbers wide, and numbers move
# by 5 at most: 4, and one beside the middle.
ANGLE = [
    "plant 2",
    "state h 0 35 3",
    "input u -4 4",
    "next h = lut(h + u, -36:0, -1:35, 0:0, 35:35, 36:0, 71:35)",
    "target 0 2",
    "obstacle 17 18",
    "goal reach",
    "end",
]
ANGLE_NOTES = [
    "size: deviation of h: 1; half a cell is 1; a box meets up to 2 cells along h, of sampled boxes up to 2, and "
    "all 12 across the range's end",
    "size: step of h: -4 under u = -4; 4 under u = 4; a cell is 3 wide",
]
CASES = TOP / "tests/cases/synth"


def lines_of(base):
    return "\n".join(base + [""]).encode()


def changed(base, number, line):
    """A text with another line; up to it alone where there is none."""
    return ("\n".join(base[: number - 1] + [line] * bool(line) + base[number:]) + "\n" * bool(line)).encode()


class LintCase(ToolCase):
    """Runs tools/lint."""

    def lint(self, data):
        return self.tool("lint", "-", data=data)


class Refused(LintCase):
    """Texts that are refused."""

    def test_lines(self):
        """By the program too, and lint gives the reason."""
        for base, number, line, answer, reason in REFUSED:
            text = changed(base, number, line)
            status, output, error = self.lint(text)
            first, second = (output.splitlines() + ["", ""])[:2]
            self.equal(f"lint of `{line}`", (1, answer, ""), (status, first, error))
            self.holds(f"lint of `{line}` says `{reason}`", reason in second, second)
            said = self.execute(("synth", "1"), text)[2].decode()
            self.equal(f"the program on `{line}`", answer + "\n", said)

    def test_cases(self):
        """Every text of tests/cases/synth that the program is given by `synth 1` with its output to a file."""
        for folder in sorted(CASES.iterdir()):
            if is_plain(folder):
                text = text_of(folder)
                if self.reads_version_2() or not text.startswith(b"plant 2"):
                    self.agrees(folder, text)

    def agrees(self, folder, text):
        error = (folder / "error").read_text() if (folder / "error").exists() else ""
        refused = error.startswith(("malformed", "limit", "overflow"))
        status, output, complaint = self.lint(text)
        wanted = (int(refused), error if refused else "accepted\n", "")
        self.equal(f"lint agrees on {folder.name}", wanted, (status, output.split("\n")[0] + "\n", complaint))


def is_plain(folder):
    return folder.is_dir() and not any((folder / name).exists() for name in ("words", "stdin", "stdout"))


def text_of(folder):
    """The text of a case, or that of its command where it has none; of an endless one the first part, which is past the
    limit."""
    if not (folder / "make").exists():
        own = folder / "input"
        return (own if own.exists() else folder.parent / "input").read_bytes()
    with subprocess.Popen([str(folder / "make")], stdout=subprocess.PIPE, cwd=TOP / "tests") as process:
        text = process.stdout.read(70000)
        process.stdout.close()
        process.terminate()
    return text


class Notes(LintCase):
    """Texts that are read, with a note."""

    def test_lines(self):
        for base, number, line, note in NOTED:
            status, output, error = self.lint(changed(base, number, line))
            self.equal(f"lint of `{line}`", (0, "accepted", ""), (status, output.split("\n")[0], error))
            is_noted = any(note in one for one in output.splitlines())
            self.holds(f"lint of `{line}` notes `{note}`", is_noted, output)

    def test_line_example(self):
        wanted = [
            "accepted",
            f"note: {BARE}",
            "size: deviation of x: 1; half a cell is 1; a box meets up to 2 cells along x",
            "size: step of x: -3 under u = -3; 3 under u = 3; a cell is 3 wide",
            "size: 5 cells, 2 input vectors, 10 pairs, 8 edges: under 0.01 per cent of the 33554432 that are the most",
        ]
        status, output, error = self.lint(lines_of(LINE))
        self.equal("lint of the line example", (0, wanted, ""), (status, output.splitlines(), error))

    def test_one_input_vector(self):
        output = self.lint(changed(LINE, 3, "input u 3"))[1]
        self.holds("lint counts one input vector", "5 cells, 1 input vector, 5 pairs" in output, output)

    def test_steps_of_kept_plants(self):
        for step, said, wanted in KEPT_NOTES:
            output = self.lint(changed(KEPT, 3, f"input u -{step} {step}"))[1]
            self.equal(f"lint of steps of {step} notes `{said}`", wanted, said in output)

    def test_version_2(self):
        """A cell of the line moves into one cell, wherever its centre's bound may reach."""
        output = self.lint(changed(LINE, 1, "plant 2"))[1]
        said = "a box meets up to 2 cells along x, of sampled boxes up to 1\n"
        self.holds("lint of version 2 tells sampled boxes", said in output, output)

    def test_wide_target(self):
        wide = changed(LINE, 4, "next x = x + u + abs(x) - abs(x)").replace(b"target 12 14", b"target 6 14")
        output = self.lint(wide)[1]
        self.holds("lint of a target as wide as a box", "along x, and each" not in output, output)

    def test_products_of_quotients(self):
        """What tools/scale has written is rounded on purpose, and its noise bounds that."""
        twice = changed(LINE, 4, "next x = x + u / 2 * 3 + u / 2 * 3")
        made = b"# Made by tools/scale from a model with real coefficients.\n"
        for what, data, count in (("by hand", twice, 1), ("by tools/scale", made + twice, 0)):
            got = self.lint(data)[1].count("multiplies what")
            self.equal(f"lint of a text {what} notes each product of a quotient once", count, got)


class Angle(LintCase):
    """Steps and deviations of a state that comes round are those about the middle, wherever its range ends."""

    def test_by_points(self):
        status, output, error = self.lint(lines_of(ANGLE))
        self.equal("lint of an angle", (0, ""), (status, error))
        for line in ANGLE_NOTES:
            self.holds(f"lint of an angle says `{line}`", line in output.splitlines(), output)

    def test_thin_obstacles(self):
        """16 - 4 is 12, and 17 is 4 wide and more: an obstacle of two numbers is passed by a step of 4, and one of 5
        isn't."""
        for obstacle, wanted in (("obstacle 17 18", True), ("obstacle 15 20", False)):
            output = self.lint(changed(ANGLE, 6, obstacle))[1]
            got = "may pass it between two" in output
            self.equal(f"lint of an angle notes `{obstacle}` as thin", wanted, got)

    def test_by_quotient(self):
        """With cells of one number."""
        bare = ["plant 1", "state h 0 35 1", "input u -4 4", "next h = h + u - (h + u) / 36 * 36", "target 0 2"]
        output = self.lint(lines_of(bare + ["goal reach", "end"]))[1]
        said = "size: step of h: -4 under u = -4; 4 under u = 4; a cell is 1 wide"
        self.holds("lint of an angle by a quotient", said in output.splitlines(), output)
