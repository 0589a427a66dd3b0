"""Stay texts and patrol texts: how the module reads, writes and drives by them, what tools/why, tools/sim and the
readers of examples/device say of them, and what the program writes beside a few lines of brute force. The games' brute
force is that of tests/attacks/oracle.py."""

import random
import re

from attacks import games, oracle
from gaffcurrant_plant.faults import Refused
from gaffcurrant_plant.texts.table import read_text, text_of_patrol, text_of_stay

from .device_readers import COMPILER, DEVICE, c_answers, python_answers, said_of_row
from .driving import runs_of
from .tool_case import TOP, ToolCase
from .worked_texts import DAMAGED, ENDS, PATROL, PLANT, STAY

FIXED, RUNS = 24, 40
# What is asked of why, and lines of the answer.
ANSWERS = [
    (
        STAY,
        ["13"],
        [
            "cell 4 (x 12 to 14): its row: rank 0, the cell is held, apply input 1 (u = 0)",
            "  stays: each successor is held",
            "  comes to held cells within 2 samples",
        ],
    ),
    (
        STAY.replace("rows 5\n0 0 4 2\n", "rows 4\n"),
        ["4", "--input", "0"],
        ["  stopped: it may lead to cells without a row: cell 0 (x 0 to 2)"],
    ),
    (
        PATROL,
        ["4"],
        [
            "turn 0, cell 1 (x 3 to 5), an arrival: its row: rank 1, apply input 0 (u = -3)",
            "  arrives within 1 sample",
            "  arrives within 2 samples",
        ],
    ),
    (
        PATROL,
        ["4", "--turn", "1"],
        ["turn 1, cell 1 (x 3 to 5): its row: rank 2, apply input 1 (u = 3)", "  arrives within 4 samples"],
    ),
]

# A run of the simulator: to the end, and to and fro.
TRACES = [
    (STAY, ["5", "0", "7"], ["0 7 2 2", "1 10 1 2", "2 13 0 1", "3 13 0 1", "4 13 0 1", "5 13 0 1", "stopped 5"]),
    (
        PATROL,
        ["4", "0", "7"],
        ["0 0 7 1 0", "visited 0 1", "1 1 4 2 1", "2 1 7 1 1", "visited 1 3", "3 0 10 2 0", "4 0 7 1 0", "stopped 4"],
    ),
    (PATROL, ["2", "0", "7", "--turn", "1"], ["0 1 7 1 1", "visited 1 1", "1 0 10 2 0", "2 0 7 1 0", "stopped 2"]),
    (PATROL.replace("2 3 1 1", "3 3 1 1"), ["9", "0", "7"], ["0 0 7 1 0", "visited 0 1", "1 1 4 2 1", "lost 2 7"]),
]
# Texts that are solved again, and what is said of them.
LESS = STAY.replace("rows 5\n0 0 4 2\n", "rows 4\n")
AGAIN = [
    (STAY, "valid"),
    (PATROL, "valid"),
    (STAY.replace("2 2 2 2\n3 3 1 2", "2 3 1 2").replace("rows 5", "rows 4"), "invalid: cell 2"),
    (LESS, "invalid: cell 0"),
    (
        PATROL.replace("2 3 1 1\n4 4 1 0", "2 4 1 1").replace("turn 1 rows 4", "turn 1 rows 3"),
        "invalid: turn 1 cell 4",
    ),
    (STAY.replace("rows 5", "rows x"), "malformed: line 9"),
]
PLANE = """plant 1
state x 0 11 2
state y -6 5 3
input u -2 0 2
input v -3 0 3
next x = x + u
next y = y + v
target 2 5 -6 -1
target 9 20 2 9
target 4 4 4 4
goal reach
end
"""


class Module(ToolCase):
    """Texts by hand in the module of tools/."""

    def test_stay_text(self):
        stay = read_text(STAY.encode())
        self.equal("a stay text is written", STAY, text_of_stay(stay.plant, stay.rows))

    def test_patrol_text(self):
        patrol = read_text(PATROL.encode())
        self.equal("a patrol text is written", PATROL, text_of_patrol(patrol.plant, [one.rows for one in patrol.turns]))
        self.equal("arrivals of a patrol", [{0, 1}, {3, 4}], [turn.arrivals for turn in patrol.turns])

    def test_rows(self):
        stay, patrol = read_text(STAY.encode()), read_text(PATROL.encode())
        got = [(stay.rank([6]), stay.choice([8])), (stay.rank([14]), stay.choice([14]))]
        got += [(turn.rank([14]), turn.choice([14])) for turn in patrol.turns]
        self.equal("rows of the same", [(2, (3,)), (0, (0,)), (3, (-3,)), (1, (-3,))], got)

    def test_patrol_without_target(self):
        nothing = f"patrol 1\n{PLANT}".replace("target 12 14\n", "") + "end\n"
        read = read_text(nothing.encode())
        self.equal("a patrol without a target", (nothing, []), (text_of_patrol(read.plant, []), read.turns))

    def test_damaged_texts(self):
        for text, old, new, line, said in DAMAGED:
            self.assertIn(old, text)
            answer = refusal_of(text.replace(old, new, 1).encode())
            is_told = answer.startswith(f"malformed: line {line}:") and said in answer
            self.holds(f"`{new[-20:]}` in a {text[:6]} text", is_told, answer)

    def test_formats(self):
        formats = (TOP / "docs/FORMATS.md").read_text()
        self.holds("FORMATS has both texts", all(f"```\n{text}```" in formats for text in (STAY, PATROL)))


def refusal_of(data):
    try:
        return str(read_text(data))
    except Refused as refused:
        return f"{refused.answer}: {refused.reason}"


class Tools(ToolCase):
    """Texts by hand in the programs of tools/."""

    def test_why(self):
        for text, words, lines in ANSWERS:
            status, output, error = self.tool("why", "-", *words, data=text.encode())
            self.equal(f"why {words} of a {text[:6]} text", (0, ""), (status, error))
            for line in lines:
                self.holds(f"why {words} says `{line}`", line in output.splitlines(), output)

    def test_sim(self):
        for text, words, lines in TRACES:
            got = with_lines(self.tool("sim", "-", *words, data=text.encode()))
            self.equal(f"sim {words} of a {text[:6]} text", (0, ["trace 1", *lines], ""), got)

    def test_sim_writes_what_the_program_does(self):
        cart = (TOP / "examples/cart/cart.table").read_bytes()
        for seed, start in ((3, ("5", "0")), (4, ("350", "-40"))):
            status, trace, _ = self.execute(("sim", "60", str(seed), *start), cart)
            got = self.tool("sim", "-", "60", seed, *start, data=cart)[:2]
            self.equal(f"tools/sim of the cart from {start}", (status, trace.decode()), got)

    def test_sim_refuses(self):
        for words, status, said in (
            (["9", "0", "15"], 1, "no row"),
            (["9", "0"], 2, "the words are"),
            (["9", "0", "7", "--turn", "2"], 1, "2 turns"),
            (["-1", "0", "7"], 2, "at least 0"),
            (["9", "0", "x"], 2, "no whole number"),
        ):
            self.refused(f"sim {words}", self.tool("sim", "-", *words, data=PATROL.encode()), said, status)

    def test_check(self):
        """tools/check solves stay and patrol texts again, and tables."""
        line = (TOP / "examples/line/line.table").read_text()
        less = line.replace("1 1 3 1\n", "").replace("rows 5", "rows 4")
        for text, wanted in [*AGAIN, (line, "valid"), (less, "invalid: cell 0")]:
            status, output, error = self.tool("check", "-", data=text.encode())
            due = (0, "valid\n", 0) if wanted == "valid" else (1, "", 1)
            what = f"tools/check of a {text[:6]} text: {wanted}"
            self.equal(what, due, (status, output, error.count("\n")))
            self.holds(f"tools/check says `{wanted}`", wanted in output + error, error)

    def test_diff_of_stay_texts(self):
        wanted = [
            "5 cells; rows: 5 and 4",
            "rows in the first alone: 1",
            "  cell 0 (x 0 to 2)",
            "rows in the second alone: 0",
            "ranks in both: 4; the same at 4, lesser in the first at 0, lesser in the second at 0",
            "other inputs in both: 0",
        ]
        answer = self.tool("diff", self.placed("stay", STAY), self.placed("less", LESS))
        self.equal("diff of stay texts", (0, wanted, ""), with_lines(answer))

    def test_diff_of_patrol_texts(self):
        other = PATROL.replace("0 0 3 1\n1 1 2 1", "0 1 3 1").replace("turn 1 rows 4", "turn 1 rows 3")
        patrol = self.placed("patrol", PATROL)
        status, output, error = self.tool("diff", patrol, self.placed("other", other))
        wanted = ["turn 0: 5 cells; rows: 5 and 5", "turn 1: 5 cells; rows: 5 and 5"]
        turns = [line for line in output.splitlines() if line.startswith("turn")]
        self.equal("diff of patrol texts", (0, wanted, ""), (status, turns, error))
        said = "the same at 4, lesser in the first at 1 (by up to 1, 1 on the average)"
        self.holds("diff of patrol texts compares ranks turn by turn", said in output, output)

    def test_diff_of_both(self):
        status, output, error = self.tool("diff", self.placed("stay", STAY), self.placed("patrol", PATROL))
        is_told = any(said in error for said in ("states", "grid", "patrol text alone"))
        self.equal("diff of a stay text and a patrol text", (1, "", True), (status, output, is_told))


def with_lines(answer):
    return answer[0], answer[1].splitlines(), answer[2]


class DeviceReaders(ToolCase):
    """The C and the Python of examples/device say what the module does."""

    def test_runs(self):
        """Along runs and at random states, of every turn that comes."""
        two = PLANE.replace("target 4 4 4 4\n", "")
        texts = [STAY.encode(), PATROL.encode(), oracle.stay(PLANE.encode())[1]]
        texts += [oracle.patrol(plant.encode())[1] for plant in (two, PLANE)]
        for number, text in enumerate(texts):
            states, wanted = asked(read_text(text))
            answers = {"Python": python_answers(text.decode())}
            if COMPILER:
                answers["C"] = c_answers(text, self.folder / f"{number}")
                answers["C in runs"] = c_answers(text, self.folder / f"{number}_runs", "--runs")
            for language, answer in answers.items():
                self.equal(f"{language} by text {number}", wanted, answer(states))

    def test_readme(self):
        readme, docks = (DEVICE / "README.md").read_text(), (TOP / "examples/docks/docks.patrol").read_text()
        asked_of, *said = re.search(r"printf '(.*)' \| \./control +# prints (.*), then (.*):", readme).groups()
        states = [list(map(int, line.split())) for line in asked_of.replace("\\n", "\n").splitlines()]
        self.equal("what the README of the device tells of a patrol", said, python_answers(docks)(states))


def asked(text):
    """Runs of states, each from a random one on as the plant goes, and what is to be answered; the turn goes on from
    run to run."""
    plant, draws, turn = text.plant, random.Random(1), 0
    states, said = [], []
    for _ in range(RUNS):
        state = [draws.randint(low - 1, high + 1) for _, low, high, _ in plant.states]
        for _ in range(draws.randint(1, 12)):
            turn = turn_at(text, turn, state) if states else turn
            row = (text.turns[turn] if text.kind == "patrol" else text).rows.get(plant.cell_of(state))
            states.append(state)
            said.append(said_of_row(plant, row))
            if row is None:
                break
            state = plant.step(state, plant.vector(row[1]), [])
    return states, said


def turn_at(text, turn, state):
    return text.turn_after(turn, state) if text.kind == "patrol" else turn


class Program(ToolCase):
    """What the program writes of worked and of fixed random plants, and how these are driven."""

    def test_stay(self):
        self.solved_as_by_brute_force("stay")

    def test_patrol(self):
        self.solved_as_by_brute_force("patrol")

    def solved_as_by_brute_force(self, word):
        if self.execute((word, "1"), ENDS.encode())[0] == 2:
            self.skipTest(f"the program doesn't have `{word}` yet")
        plants = [PLANT, ENDS, PLANT.replace("12 14", "6 14")]
        plants += [games.Draws(number).plant().decode() for number in range(FIXED)]
        driven = 0
        for number, plant in enumerate(plants):
            got = self.execute((word, str(number % 4 + 1)), plant.encode())
            self.equal(f"{word} of plant {number}", games.WORDS[word](plant.encode()), got)
            if not got[0]:
                faults, count = runs_of(read_text(got[1]), random.Random(number))
                self.equal(f"{word} of plant {number}: runs", [], faults[:2])
                driven += count
        self.holds(f"{word}: runs were driven", driven > 40, str(driven))
