"""What the C and the Python of examples/device answer by a text, and what the module of tools/ does."""

import importlib.util
import random
import shutil
import subprocess

from .product import TOP, Product

DEVICE = TOP / "examples/device"
COMPILER = shutil.which("cc") or shutil.which("gcc") or shutil.which("clang")
NO_COMPILER = "there is no C compiler"
STRICT = ["-std=c99", "-Wall", "-Wextra", "-Werror"]


def called(program, folder, text):
    """Status, output and error of a program in a folder that reads a text."""
    done = subprocess.run(program, input=text.encode(), cwd=folder, capture_output=True, check=False)
    return done.returncode, done.stdout.decode(), done.stderr.decode()


def built(folder, name, source=None, optimisation="-O1"):
    """Compiles NAME.c in a folder, of a source where one is given; answers the status and what was complained of."""
    if source:
        (folder / f"{name}.c").write_text(source)
    command = [COMPILER, *STRICT, optimisation, f"{name}.c", "-lm", "-o", name]
    done = subprocess.run(command, cwd=folder, capture_output=True, check=False)
    return done.returncode, done.stderr.decode("utf-8", "replace")[:300]


def lines_of(states):
    return "".join(" ".join(map(str, state)) + "\n" for state in states)


def random_states(plant):
    """States of the ranges, of their ends, and some just outside."""
    draws = random.Random(2)
    states = []
    for _ in range(300):
        state = [draws.choice([low, high, draws.randint(low, high)]) for _, low, high, _ in plant.states]
        if draws.random() < 0.1:
            i = draws.randrange(len(state))
            state[i] = draws.choice([plant.states[i][1] - 1, plant.states[i][2] + 1])
        states.append(state)
    return states


def expected(table, states):
    """What the table says, as the readers print it."""
    rows = (table.rows.get(table.plant.cell_of(state)) for state in states)
    return [said_of_row(table.plant, row) for row in rows]


def said_of_row(plant, row):
    if row is None:
        return "no row"
    return "arrived" if row[1] is None else " ".join(map(str, plant.vector(row[1])))


def controller_of(text):
    """The Controller of examples/device/control.py by a text."""
    spec = importlib.util.spec_from_file_location("control", DEVICE / "control.py")
    module = importlib.util.module_from_spec(spec)
    spec.loader.exec_module(module)
    return module.Controller(text)


def python_answers(text):
    """A function that answers states by control.py."""
    controller = controller_of(text)

    def answers(states):
        said = [controller.control(state) for state in states]
        return [one if isinstance(one, str) else " ".join(map(str, one)) for one in said]

    return answers


def c_answers(text, folder, *words):
    """A function that answers states by the C of examples/device, compiled in a new folder with the header of a
    text."""
    folder.mkdir()
    for name in ("control.c", "main.c"):
        shutil.copy(DEVICE / name, folder)
    (folder / "table.h").write_text(Product.tool("header", "-", *words, data=text)[1])
    status, complaint = built(folder, "main", optimisation="-O0")

    def answers(states):
        if status:
            return [complaint]
        return called([f"{folder}/main"], folder, lines_of(states))[1].splitlines()

    return answers
