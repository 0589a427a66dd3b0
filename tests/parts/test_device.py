"""tools/header for devices: a model that isn't the table's is refused, two tables go into one C program, changed
numbers and other tables are told, ranks are watched by C, Python and the module, and structured text and the function
of MATLAB answer as the table does."""

import random
import re
import shutil
import subprocess
import sys
import unittest
import zlib
from fractions import Fraction

from gaffcurrant_plant.models.model import read_model
from gaffcurrant_plant.texts.monitor import Monitor
from gaffcurrant_plant.texts.solver import simulate
from gaffcurrant_plant.texts.table import read_text, text_of_table

from .device_readers import (
    COMPILER,
    DEVICE,
    NO_COMPILER,
    built,
    called,
    controller_of,
    expected,
    lines_of,
    python_answers,
    random_states,
)
from .structured_text import Fault, Machine
from .tool_case import TOP, ToolCase

# The gate's states and inputs, which another model has in numbers that are ten times as large.
TENFOLD = "state x 0 9.99 0.09 0.01\nstate v -1.21 1.22 0.09 0.01\ninput u 0.01 -1 -0.6 -0.4 -0.2 0 0.2 0.4 0.6 1"
# A line of the gate's model, what stands in its place, and a part of what is said.
OTHERS = [
    ("state x 0 9.99 0.09 0.01", "state y 0 9.99 0.09 0.01", "its states are y, v, those of the table x, v"),
    (
        "state x 0 9.99 0.09 0.01",
        "state x 0 9.99 0.03 0.01",
        "x has 0 to 998 in cells of 3 units, and in the table 0 to 998 in cells of 9",
    ),
    ("state x 0 9.99 0.09 0.01", "state x 0 9.99 0.09 0.03", "x has 0 to 332 in cells of 3 units"),
    ("-0.6 -0.4 -0.2", "-0.6 -0.5 -0.2", "the values of u are -100 -60 -50 -20 0"),
    ("input u", "input f 1 0\ninput u", "its inputs are f, u, those of the table u"),
    ("w -0.02 0.02", "w -0.03 0.03", "the equation of v or its noise in whole units is another one"),
    ("A 0 1", "A 0 2", "the equation of x or its noise"),
    (
        TENFOLD,
        "state x 0 99.9 0.9 0.1\nstate v -12.1 12.2 0.9 0.1\ninput u 0.1 -10 -6 -4 -2 0 2 4 6 10",
        "are the units others?",
    ),
]
# A part of the gate's header, what stands in its place, and whether main.c sees it.
CHANGES = [
    ("NO_ROW 255", "NO_ROW 253", True),
    ("ARRIVED 254", "ARRIVED 253", True),
    ("LOW[STATES] = {0,", "LOW[STATES] = {9,", True),
    ("UNIT[STATES] = {0.01,", "UNIT[STATES] = {0.011,", True),
    ("INPUT_UNIT[] = {0.01}", "INPUT_UNIT[] = {0.1}", True),
    ("UNIT_FRACTION[][2] = {{1, 100}, {1, 100}}", "UNIT_FRACTION[][2] = {{2, 200}, {1, 100}}", True),
    ("EXACT[STATES] = {0, 0}", "EXACT[STATES] = {1, 0}", True),
    ("/* x in m", "/* x in mm", False),
]
WORDS = [
    (["--prefix", "9a"], 2, "--prefix takes a letter"),
    (["--st", "--matlab"], 2, "not allowed with"),
    (["--model", "nowhere"], 1, "nowhere"),
]
TWO = """#include <stdio.h>
#include "one.h"
#define PREFIX one
#include "control.c"
#include "two.h"
#define PREFIX two
#include "control.c"
int main(void)
{
    int64_t state[3] = {20, 0, 0}, input[3];
    if (one_control(state, input) != 1) return 1;
    printf("%d ", (int)input[0]);
    state[0] = 360, state[1] = 180;
    if (two_control(state, input) != 1 || !one_is_intact() || !two_is_intact()) return 1;
    printf("%d %d %d\\n", (int)input[0], (int)input[1], one_CHECKSUM != two_CHECKSUM);
    return 0;
}
"""
MEASURE = """#include <math.h>
#include <stdio.h>
#include "control.c"
int main(void)
{
    double values[][STATES] = {
        {0.205, -0.005}, {0.0, 0.0}, {NAN, 0.0}, {0.0, INFINITY}, {0.0, -INFINITY}, {1e300, 0.0}};
    int64_t state[STATES] = {7, 7};
    for (int k = 0; k < 6; k++) {
        int is_measured = measure(values[k], state);
        printf("%d %d %d\\n", is_measured, (int)state[0], (int)state[1]);
    }
    return 0;
}
"""


# The README's loop, between sensors and an actuator on the standard streams.
LOOP = """#include <stdio.h>
#include <stdlib.h>
#include "control.c"
static int sample = 0;
static void stop(void)
{
    puts("stop");
    exit(0);
}
static void read_sensors(double value[])
{
    for (int i = 0; i < STATES; i++) if (scanf("%lf", &value[i]) != 1) exit(1);
}
static void apply(const int64_t input[])
{
    for (int i = 0; i < INPUTS; i++) printf("%d%c", (int)input[i], i + 1 < INPUTS ? ' ' : '\\n');
    sample++;
}
int main(void)
{
LOOP}
"""
VISIT = "/* of a patrol, from the second sample on: visit(state); */"


class DeviceCase(ToolCase):
    """Has the table of the gate and the patrol text of docks."""

    @classmethod
    def setUpClass(cls):
        super().setUpClass()
        cls.gate = cls.table_text("gate")
        cls.docks = (TOP / "examples/docks/docks.patrol").read_bytes()

    def header(self, *words, data):
        return self.tool("header", *words, "-", data=data)[1]

    def runs(self):
        """A text of each kind, and a run by it without disturbances: a table to reach and one to keep, a stay text and
        a patrol text."""
        stay = self.solved("stay", self.plant_text("boost_stay"))
        for name, data, start in (
            ("gate", self.gate, [20, 0]),
            ("lane", self.table_text("lane"), [-600, 300]),
            ("boost_stay", stay, [70000, 530000]),
            ("docks", self.docks, [360, 180]),
        ):
            text = read_text(data)
            yield name, data, text, simulate(text, start, lambda *_, text=text: text.plant.rest, samples=80)


class Models(DeviceCase):
    """The model that a header is made with."""

    def test_other_models_are_refused(self):
        model = self.model_of("gate").read_text()
        for old, new, said in OTHERS:
            self.holds(f"the gate's model has `{old[:30]}`", old in model)
            text = model.replace(old, new, 1)
            # The lines B have a number for each input.
            text = text.replace("\nB ", "\nB 0 ") if "input f" in new else text
            other = self.placed("other.model", re.sub(r"\bx\b", "y", text) if "state y" in new else text)
            answer = self.tool("header", "--model", other, "-", data=self.gate)
            self.refused(f"header with the model of `{new}`", answer, said)

    def test_plant_texts(self):
        plant = self.plant_text("gate").decode()
        for what, old, new, wanted in (
            ("as it is", "", "", 0),
            ("with more noise", "noise r_v -3 3", "noise r_v -4 4", 1),
            ("with wider cells", "x 0 998 9", "x 0 998 27", 1),
        ):
            path = self.placed("other.plant", plant.replace(old, new))
            status = self.tool("header", "--model", path, "-", data=self.gate)[0]
            self.equal(f"header with the plant text {what}", wanted, status)

    def test_words(self):
        for words, wanted, said in WORDS:
            self.refused(f"header {words}", self.tool("header", *words, "-", data=self.gate), said, wanted)

    def test_units_that_are_no_decimals(self):
        """17 digits and a fraction stand in the header, and the fraction in the plant's comment."""
        model = (
            "state x 0 2 cells 7\nexact x\nstate y 0 1 cells 6\ninput u 0.1 0 1\n"
            "next x = x\nnext y = y + 0*u\ngoal keep\n"
        )
        plant = self.scaled(model)
        is_told = "# unit x 2/875: a whole number by itself" in plant.splitlines()
        self.holds("a unit that doesn't end stands as a fraction", is_told, plant)
        table = text_of_table(read_text(self.solved("synth", plant)).plant, {})
        for name, text in (("seven.model", model), ("seven.plant", plant)):
            header = self.header("--model", self.placed(name, text), data=table.encode())
            sizes = re.search(r"double UNIT\[STATES\] = \{(\S+), (\S+)\};", header)
            got = [float(word) for word in sizes.groups()] if sizes else header
            self.equal(f"units by {name}", [float(Fraction(2, 875)), float(Fraction(1, 750))], got)
            parts = ("UNIT_FRACTION[][2] = {{2, 875}, {1, 750}};", "EXACT[STATES] = {1, 0};")
            self.holds(f"fractions of units by {name}", all(part in header for part in parts), header)


class Monitors(DeviceCase):
    """The module and control.py say where the rank doesn't fall."""

    def test_along_runs(self):
        for name, data, text, run in self.runs():
            states = [list(sample.state) for sample in run]
            monitor, controller = Monitor(text), controller_of(data.decode())
            got = [(monitor.falls(state), falls_of(controller, state)) for state in states]
            self.equal(f"{name}: ranks fall along a run", [(True, True)] * len(states), got)

    def test_where_a_state_comes_twice(self):
        """There the rank doesn't fall, but by a table to keep. From rank 0 of a stay text a greater rank is none that
        falls. No state that isn't one of the plant's changes anything."""
        for name, data, text, run in self.runs():
            states = [list(sample.state) for sample in run]
            back, wanted = [*states[:2], *states[:2], [10**6, 0]], [True, True, keeps(text), True, False]
            if text.kind == "stay":
                self.equal("the run of the stay text comes to a held cell", 0, run[-1].rank)
                back, wanted = back + [states[-1], states[0]], wanted + [True, False]
            monitor, controller, seen = Monitor(text), controller_of(data.decode()), []
            for state in back:
                for wrong in wrong_states(state):
                    both = is_refused(monitor.falls, wrong) and is_refused(controller.control, wrong)
                    self.holds(f"{name}: both refuse {wrong}", both)
                seen.append((monitor.falls(state), falls_of(controller, state)))
            self.equal(f"{name}: ranks that don't fall", [(fact, fact) for fact in wanted], seen)

    def test_control_py(self):
        """control.py by itself: the checksum and the monitor."""
        table = self.placed("gate.table", self.gate)
        for words, text, wanted, said in (
            ([f"{zlib.crc32(self.gate):08x}"], "20 0\n", 0, ""),
            (["00000001"], "20 0\n", 1, "it is another table, or was changed"),
            (["xyz"], "20 0\n", 2, "checksum"),
            (["--watch"], "20 0\n20 0\n", 1, "the rank hasn't fallen"),
        ):
            status, _, error = called(
                [sys.executable, str(DEVICE / "control.py"), str(table), *words], self.folder, text
            )
            is_told = status == wanted and said in error and error.count("\n") == (wanted > 0)
            self.holds(f"control.py {words}", is_told, (status, error))

    def test_no_numbers(self):
        controller, known = controller_of(self.gate.decode()), read_text(self.gate)
        for state in ([float("nan"), 0], [float("inf"), 0], [20.5, 0]):
            for what, ask in (("control.py", controller.control), ("the module", known.choice)):
                told = refusal_of(ask, state)
                self.holds(f"{what} of {state}", "is no whole number" in told, told)


def keeps(text):
    return text.kind == "table" and text.keeps


def wrong_states(state):
    """A state with a number less and one more, and with a fraction, no number and an infinity."""
    return [state[:1], [*state, 0]] + [[wrong, state[1]] for wrong in (state[0] + 0.5, float("nan"), float("inf"))]


def is_refused(function, state):
    try:
        function(state)
    except ValueError:
        return True
    return False


def refusal_of(function, state):
    try:
        return f"answers {function(state)}"
    except ValueError as error:
        return str(error)


def falls_of(controller, state):
    controller.control(state)
    return controller.falls


@unittest.skipUnless(COMPILER, NO_COMPILER)
class Programs(DeviceCase):
    """C programs with headers of tables."""

    @classmethod
    def setUpClass(cls):
        super().setUpClass()
        for name in ("control.c", "main.c"):
            shutil.copy(DEVICE / name, cls.folder)

    def test_two_tables_in_one_program(self):
        self.placed("one.h", self.header("--prefix", "one", "--ranks", "--runs", data=self.gate))
        self.placed("two.h", self.header("--prefix", "two", "--ranks", data=self.docks))
        self.equal("two tables in one program are compiled", (0, ""), built(self.folder, "two", TWO))
        self.equal("two tables in one program", (0, "100 -24 0 1\n", ""), called(["./two"], self.folder, ""))

    def test_text_without_rows(self):
        bare = re.sub(rb"(?s)\nrows .*", b"\nrows 0\nend\n", self.gate)
        for words in ([], ["--runs"], ["--ranks"], ["--runs", "--ranks"]):
            self.placed("table.h", self.header(*words, data=bare))
            self.equal(f"main.c without rows is compiled {words}", (0, ""), built(self.folder, "main"))
            self.equal(f"main.c without rows {words}", (0, "no row\n", ""), called(["./main"], self.folder, "20 0\n"))

    def of_gate(self):
        """Writes table.h of the gate with ranks and units; answers the header."""
        header = self.header("--ranks", "--model", self.model_of("gate"), data=self.gate)
        self.placed("table.h", header)
        return header

    def test_measured_values(self):
        self.of_gate()
        self.equal("measured values are compiled", (0, ""), built(self.folder, "measured", MEASURE))
        wanted = (0, "1 20 -1\n1 0 0\n" + "0 0 0\n" * 4, "")
        self.equal("measured values", wanted, called(["./measured"], self.folder, ""))

    def test_checksum_and_ranks(self):
        self.of_gate()
        self.equal("main.c with ranks is compiled", (0, ""), built(self.folder, "main"))
        program, table = ["./main", f"{zlib.crc32(self.gate):08x}"], read_text(self.gate)
        after = table.plant.step([20, 0], table.choice([20, 0]), table.plant.rest)
        wanted = (0, "".join(f"{table.choice(state)[0]}\n" for state in ([20, 0], after)), "")
        self.equal("a run whose rank falls", wanted, called(program, self.folder, f"20 0\n{after[0]} {after[1]}\n"))
        status, output, error = called(program, self.folder, "20 0\n20 0\n")
        self.equal("a state that comes twice", (1, "100\n", 1), (status, output, error.count("\n")))
        self.holds("the monitor says why", "the rank hasn't fallen" in error, error)
        for word, wanted, said in (("1a2b", 1, "of another table"), ("xyz", 2, "checksum")):
            status, output, error = called(["./main", word], self.folder, "20 0\n")
            self.holds(f"main.c with {word}", (status, output) == (wanted, "") and said in error, error)

    def test_changed_headers(self):
        header = self.of_gate()
        changed = [("a row", re.sub(r"(ROW\[2997\] = \{\n    )\d+,", r"\g<1>3,", header), True)]
        changed += [(new, header.replace(old, new, 1), is_seen) for old, new, is_seen in CHANGES]
        complaint = "control: the numbers of table.h aren't those that tools/header has written\n"
        for what, text, is_seen in changed:
            self.placed("table.h", text if text != header else "")
            built(self.folder, "main")
            wanted = (1, "", complaint) if is_seen else (0, "100\n", "")
            self.equal(f"a header that was changed: {what}", wanted, called(["./main"], self.folder, "20 0\n"))

    def test_falling_ranks(self):
        """main.c follows a run by each kind of text, and says where the rank doesn't fall."""
        for name, data, text, run in self.runs():
            states = [list(sample.state) for sample in run]
            said = "".join("arrived\n" if one.inputs is None else " ".join(map(str, one.inputs)) + "\n" for one in run)
            self.placed("table.h", self.header("--ranks", data=data))
            self.equal(f"{name}: main.c with ranks is compiled", (0, ""), built(self.folder, "main"))
            got = called(["./main"], self.folder, lines_of(states))
            self.equal(f"{name}: main.c along a run", (0, said, ""), got)
            status, _, error = called(["./main"], self.folder, lines_of([states[0], states[1], states[0]]))
            fallen = (1, "control: the rank hasn't fallen as the table promises\n")
            self.equal(f"{name}: main.c where a state comes twice", (0, "") if keeps(text) else fallen, (status, error))

    def test_loop_of_readme(self):
        """It applies what the text says, and stops where the rank doesn't fall and where a sensor gives no number or an
        infinity."""
        readme = (DEVICE / "README.md").read_text()
        loop = re.search(r"```c\n(if \(!is_intact.*?)```", readme, re.DOTALL).group(1)
        self.holds("the README's loop says where a patrol's visit stands", VISIT in loop, loop)
        for name, data, text, run in self.runs():
            model = self.model_of(name)
            self.placed("table.h", self.header("--ranks", "--model", model, data=data))
            visited = loop.replace(VISIT, "if (sample > 0) visit(state);") if text.kind == "patrol" else loop
            got = built(self.folder, "loop", LOOP.replace("LOOP", visited))
            self.equal(f"{name}: the README's loop is compiled", (0, ""), got)
            self.loop_runs(name, text, run, [float(state[4]) for state in read_model(model.read_bytes()).states])

    def loop_runs(self, name, text, run, units):
        """What the compiled loop prints of the values of a run in units, and of values that end it."""
        values = [[(number + 0.5) * unit for number, unit in zip(sample.state, units)] for sample in run]
        said = [" ".join(map(str, sample.inputs or ["stop"])) + "\n" for sample in run]
        stopped = (0, "".join(said[:2]) + "stop\n", "")
        for wrong in ("nan", "inf", "-inf"):
            got = called(["./loop"], self.folder, lines_of([*values[:2], [values[0][0], wrong]]))
            self.equal(f"{name}: the README's loop at {wrong}", stopped, got)
        wanted = (1, "".join(said[:2] + said[:1]), "") if keeps(text) else stopped
        got = called(["./loop"], self.folder, lines_of([*values[:2], values[0]]))
        self.equal(f"{name}: the README's loop where a state comes twice", wanted, got)
        wanted = (0 if said[-1] == "stop\n" else 1, "".join(said), "")
        self.equal(f"{name}: the README's loop along a run", wanted, called(["./loop"], self.folder, lines_of(values)))


def samples(text):
    """States of a run in order, or of a table random ones."""
    if text.kind != "patrol":
        return random_states(text.plant)[:120]
    draws, plant = random.Random(5), text.plant
    states, state, turn = [], [360, 180], 0
    for _ in range(90):
        turn = text.turn_after(turn, state) if states else turn
        states.append(state)
        noise = [draws.choice([low, high]) for _, low, high in plant.noises]
        state = plant.step(state, text.turns[turn].choice(state), noise)
    return states


def due(text, data, states):
    """What is to be answered: by control.py of a patrol, else by the text's rows."""
    return python_answers(data.decode())(states) if text.kind == "patrol" else expected(text, states)


def said_of(status, inputs):
    return "no row" if status == -1 else "arrived" if status == 0 else " ".join(map(str, inputs))


class StructuredText(DeviceCase):
    """The function block of IEC 61131-3."""

    def test_answers(self):
        for name, data in (("gate", self.gate), ("docks", self.docks)):
            text = read_text(data)
            states = samples(text)
            for words in ([], ["--runs"], ["--ranks"], ["--runs", "--ranks"]):
                source = self.header("--st", *words, data=data)
                wanted = due(text, data, states)
                self.equal(f"{name}: structured text {words}", wanted, answers_of(source, text, states))

    def test_values_past_32_bits(self):
        wide = self.gate.decode().replace("input u -100", "input u -3000000000").encode()
        status, output, error = self.tool("header", "--st", "-", data=wide)
        self.equal("structured text of values past 32 bits", (1, "", 1), (status, output, error.count("\n")))

    def test_name_and_monitor(self):
        machine = Machine(self.header("--st", "--ranks", "--prefix", "GATE", data=self.gate))
        got = (machine.name, [bool(machine.call(STATE=[20, 0])["FALLS"]) for _ in range(2)])
        self.equal("the block's name, and its monitor", ("GATE", [True, False]), got)

    def test_falling_ranks(self):
        """It follows a run by each kind of text, and says where the rank doesn't fall."""
        for name, data, text, run in self.runs():
            states = [list(sample.state) for sample in run]
            source = self.header("--st", "--ranks", data=data)
            falls = falls_in(Machine(source), states)
            self.equal(f"{name}: structured text along a run", [True] * len(states), falls)
            outside = [text.plant.states[0][2] + 1, 0]
            back = falls_in(Machine(source), [states[0], states[1], states[0], outside])
            self.equal(f"{name}: structured text where a state comes twice", [True, True, keeps(text), False], back)


def falls_in(machine, states):
    return [bool(machine.call(STATE=state)["FALLS"]) for state in states]


def answers_of(source, text, states):
    """What a function block answers to states, or what is wrong with it."""
    try:
        machine, said = Machine(source), []
        for state in states:
            answer = machine.call(STATE=list(state))
            said.append(said_of(answer["STATUS"], answer["INPUTS"][: len(text.plant.inputs)]))
        return said
    except Fault as fault:
        return [str(fault)]


OCTAVE = shutil.which("octave-cli") or shutil.which("octave")


@unittest.skipUnless(OCTAVE, "Octave isn't there, so the function of MATLAB isn't run")
class Matlab(DeviceCase):
    """The function of MATLAB, by Octave."""

    def test_answers(self):
        for name, data, text, run in self.runs():
            states = [list(sample.state) for sample in run] if text.kind == "stay" else samples(text)
            for words in ([], ["--runs", "--ranks"]):
                self.placed("told.m", self.header("--matlab", "--prefix", "told", *words, data=data))
                answers, error = self.octave_says(script_of(text, states, "--ranks" in words))
                got = [said_of(int(line.split()[0]), line.split()[2:]) for line in answers]
                self.equal(f"{name}: the function of MATLAB {words}", due(text, data, states), got or error)
                if words and text.kind != "patrol":
                    got = [int(line.split()[1]) for line in answers]
                    self.equal(f"{name}: the ranks of the function of MATLAB", ranks_at(text, states), got)

    def test_wrong_states(self):
        """No number, an infinity and a fraction have no row; a state of the wrong length is an error."""
        self.placed("told.m", self.header("--matlab", "--prefix", "told", data=self.gate))
        script = (
            "for x = {[NaN 0], [Inf 0], [-Inf 0], [20.5 0], [20 0]}\n  printf('%d\\n', told(x{1}));\nend\n"
            'for x = {[20], [20 0 0], []}\n  try\n    told(x{1});\n    puts("answered\\n");\n  catch fault\n'
            "    printf('%s\\n', fault.message);\n  end\nend\n"
        )
        answers, error = self.octave_says(script)
        wanted = ["-1"] * 4 + ["1"] + ["a state of this table has 2 numbers (x v)"] * 3
        self.equal("the function of MATLAB of wrong states", wanted, answers or error)

    def octave_says(self, script):
        """The lines that a script prints, and the beginning of what it complains of."""
        self.placed("ask.m", script)
        command = [OCTAVE, "--no-gui", "--quiet", "--norc", "ask.m"]
        done = subprocess.run(command, cwd=self.folder, capture_output=True, check=False)
        return done.stdout.decode().splitlines(), done.stderr.decode()[:200]


def ranks_at(text, states):
    """The ranks of states: 0 where a row has none, -1 where there is no row."""
    rows = (text.rows.get(text.plant.cell_of(state), (-1, None)) for state in states)
    return [rank or 0 for rank, _ in rows]


def script_of(text, states, has_ranks):
    """A script that prints the status, the rank or -1, and the inputs at each state."""
    of_turns = text.kind == "patrol"
    results = ", turn" * of_turns + ", rank" * has_ranks
    call = f"[status, input{results}] = told(states(k, :){', turn' * of_turns});"
    rows = "; ".join(" ".join(map(str, state)) for state in states)
    return (
        f"states = [{rows}];\nturn = [];\nrank = [];\nfor k = 1:rows(states)\n  {call}\n"
        "  printf('%d %d', status, [rank, -1](1));\n  printf(' %d', input);\n  printf('\\n');\nend\n"
    )
