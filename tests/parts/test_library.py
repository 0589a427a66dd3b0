"""The C library: over the examples' texts its answers are those of the text's rows, of `sim` and of control.c, by both
compilers' libraries, and by Python; its memory is constant, its wrong uses are answered as include/gaffcurrant.h tells,
and sanitizers and valgrind find nothing. Which next states follow is that of the module's boxes; the stack of the
deepest texts, the calls of malloc, the version and the statuses are those that the header tells. Built for ARM64 it
answers under an emulator as it does here."""

import os
import random
import re
import shutil
import sys
import unittest
from concurrent.futures import ThreadPoolExecutor
from pathlib import Path

from gaffcurrant_plant.texts.controller import APPLY, ARRIVED, NO_ROW, Controller
from gaffcurrant_plant.faults import Refused
from gaffcurrant_plant.texts.table import NoRow, read_table, read_text, text_of_table

from .device_readers import c_answers, expected, lines_of, random_states
from .following import followed_samples, steps_of
from .product import ran
from .tool_case import TOP, ToolCase
from .worked_texts import DAMAGED, PATROL, STAY

# The calls of the library, which alone the shared object shows.
CALLS = ["begin_turn", "close", "control", "control_each", "follows", "open", "rank", "sizes", "version", "visit"]
# Those that take no controller.
OF_THE_LIBRARY = ["version"]
# A status of the header, and one of the library.
OF_HEADER = re.compile(r"^#define GAFFCURRANT_(\w+) \(?(-?\d+)\)? */\*", re.M)
OF_LIBRARY = re.compile(r"^pub const (\w+): i32 = (-?\d+);", re.M)
STRICT = ["-std=c99", "-pedantic", "-Wall", "-Wextra", "-Werror"]
SANITIZERS = ["-g", "-O1", "-fsanitize=address,undefined", "-fno-sanitize-recover=all"]
# For ARM64: the compilers, and what runs what they make.
BOARD, BOARD_CXX, EMULATOR = "aarch64-linux-gnu-gcc", "aarch64-linux-gnu-g++", "qemu-aarch64"
# How many states of each text are answered there, and how many damaged texts are refused.
MANY, FEW = 10000, 150
STATUSES = "crates/text_control/src/statuses.rt"
PACKAGES = "apt-get install gcc-aarch64-linux-gnu qemu-user"
# Expressions nested as deep as calls of the reader may be, in plants of one state and one input; whether they are
# canonical texts, which open.
DEEP = {
    "brackets": (False, "(" * 64 + "x" + ")" * 64),
    "signs": (False, "-" * 320 + "x"),
    "sums": (True, "x" + " + 0" * 62),
    "products": (True, "x" + " * 1" * 62),
    "minimums": (True, "min(" * 60 + "x" + ", 0)" * 60),
    "minimums on their right": (True, "min(0, " * 60 + "x" + ")" * 60),
    "absolute values": (True, "abs(" * 60 + "x" + ")" * 60),
    "tables": (True, "lut(" * 60 + "x" + ", 0:0, 14:14)" * 60),
    "sums before brackets": (False, "0 + " * 255 + "(" * 64 + "x" + ")" * 64),
    "products before brackets": (False, "1 * " * 255 + "(" * 64 + "x" + ")" * 64),
    "sums before minimums": (False, "0 + " * 255 + "min(0, " * 64 + "x" + ")" * 64),
    "signs before brackets": (False, "-" * 255 + "(" * 64 + "x" + ")" * 64),
    "signs in brackets": (False, "(----" * 64 + "x" + ")" * 64),
    "sums in brackets": (False, "(0 + 0 + 0 + 0 + " * 63 + "x" + ")" * 63),
    "products in minimums": (False, "min(0, 1 * 1 * 1 * 1 * " * 63 + "x" + ")" * 63),
    "sums of products in minimums": (False, "min(0, 0 + 0 + 1 * 1 * " * 63 + "x" + ")" * 63),
    "signs in minimums": (False, "----min(0, " * 64 + "x" + ")" * 64),
    "signs before minimums": (False, "-" * 256 + "min(0, " * 64 + "x" + ")" * 64),
    "a sum of 63 refused in minimums": (False, "0 + 1 * min(0, " * 64 + "x" + " + 0" * 62 + " + " + ")" * 64),
    "signs refused in minimums": (False, "0 + 1 * -min(0, " * 63 + "-" * 62 + "x + " + ")" * 63),
    "a sum of 63 refused in tables": (False, "0 + 1 * lut(" * 64 + "x" + " + 0" * 62 + " + " + ", 0:0, 14:14)" * 64),
    "sums of products in tables": (False, "lut(0 + 0 + 1 * 1 * " * 63 + "x" + ", 0:0, 14:14)" * 63),
}


def deep_text(expression):
    plant = f"plant 2\nstate x 0 14 3\ninput u -3 3\nnext x = {expression}\ntarget 12 14\ngoal reach\nend\n"
    return f"table 2\n{plant}rows 0\nend\n"


# The power of a state leaves the range of 127 bits; the text has no row, so that it opens.
OVERFLOWING = """table 2
plant 1
state x 0 99999999999999 1000000000
input u -3 3
next x = x * x * x * x * x * x * x * x * x * x + u
target 12 1000000013
goal reach
end
rows 0
end
"""

MISSING = [program for program in ("rt", "gcc", "g++", "ar") if shutil.which(program) is None]
MISSING_FOR_BOARD = [program for program in (BOARD, EMULATOR) if shutil.which(program) is None]
VALGRIND = shutil.which("valgrind")
GNU, THREADS = ["-O2", "-D_GNU_SOURCE"], ["-O2", "-D_GNU_SOURCE", "-pthread"]
GCC, ON_BOARD = ("gcc", *STRICT), (BOARD, "-static", *STRICT)
WRAPPED = ["-O2", "-Wl,--wrap=malloc,--wrap=calloc,--wrap=realloc,--wrap=free"]
LEAKS = ("--leak-check=full", "--show-leak-kinds=all", "--errors-for-leak-kinds=all")


def answers(program, *words, data="", before=()):
    """Status, output and the error's end of a C program."""
    status, output, error = ran(*before, program, *words, input=data, errors="replace")
    return status, output, error[-300:]


def split(done):
    return done[0], done[1].splitlines(), done[2]


def answer_of(call, *words):
    """What a call answers, or the name of what it raises."""
    try:
        return call(*words)
    except (NoRow, Refused, ValueError) as error:
        return type(error).__name__


def built_library(folder, backend, target="x86_64"):
    """The folder with the library as a compiler builds it, over the libraries that `rt ci` left, where they stand."""
    kept = ["--standing"] if (TOP / "crates/text_control/out/rlib/text_control.rlib").exists() else []
    again = ["--incremental", folder.parent / "incremental"] if kept else []
    command = [TOP / "tools/library", *kept, "--target", target, folder, "--jobs", "1", "--backend", backend, *again]
    status, output, error = ran(*command)
    if status or output != f"{folder}/libgaffcurrant.a\n{folder}/libgaffcurrant.so\n":
        raise RuntimeError(f"tools/library by {backend} for {target}: {output[-100:]} {error[-300:]}")
    return folder


@unittest.skipIf(MISSING, f"the library isn't built, there is no {', '.join(MISSING)}")
class Library(ToolCase):
    """The library by both compilers, for this machine and for ARM64. Its tests share what is built."""

    @classmethod
    def setUpClass(cls):
        super().setUpClass()
        cls.libraries = {backend: built_library(cls.folder / backend, backend) for backend in ("llvm", "rattle")}
        cls.llvm = cls.libraries["llvm"]
        cls.shared = str(cls.llvm / "libgaffcurrant.so")
        tables = {name: cls.table_text(name) for name in cls.examples()}
        cls.tables = {name: text for name, text in tables.items() if text is not None}
        for name, text in cls.tables.items():
            cls.placed(f"{name}.table", text)

    def compiled(self, name, source, library, words=("-O2",), compiler=GCC):
        """The program of a source of tests/library, linked with a library."""
        path = self.folder / name
        sources = [f"-I{TOP}/include", TOP / "tests/library" / source, library / "libgaffcurrant.a"]
        status, _, error = ran(*compiler, *words, *sources, "-o", path)
        self.equal(f"{name} is compiled", (0, ""), (status, error[:300]))
        return path

    def by_all(self, name, words=("-O2",)):
        """A program by the libraries of both compilers, and by one under the sanitizers."""
        programs = {
            one: self.compiled(f"{name}_{one}", f"{name}.c", self.libraries[one], words) for one in self.libraries
        }
        programs["the sanitizers"] = self.compiled(f"{name}_sane", f"{name}.c", self.llvm, SANITIZERS)
        return programs

    def controllers(self, text):
        """Python's Controller by the shared object, and by the module's own tables."""
        for what, path in (("the shared object", self.shared), ("the module", "")):
            with Controller(text, path) as controller:
                yield what, controller

    def temporal_texts(self):
        """Stay texts and patrol texts by their names: of a few cells, and those of the examples."""
        texts = {"of five cells, stay": STAY.encode(), "of five cells, patrol": PATROL.encode()}
        made = (item for name in self.examples() for item in self.texts(name).items())
        return texts | {path: text for path, text in made if text is not None and not text.startswith(b"table ")}

    # The library by itself, beside its header

    def test_shared_object(self):
        self.shows_calls(self.llvm)

    def shows_calls(self, library, prefix=""):
        """The shared object shows the calls of the header and nothing else, and needs the C library alone; its name is
        that of its first number."""
        shared = library / "libgaffcurrant.so"
        shown = answers(f"{prefix}nm", "-D", "--defined-only", shared)[1].split()[2::3]
        self.equal("what the shared object shows", [f"gaffcurrant_{name}" for name in CALLS], sorted(shown))
        told = answers(f"{prefix}readelf", "-d", shared)[1]
        self.equal("what the shared object needs", ["libc.so.6"], re.findall(r"NEEDED.*\[(.*)\]", told))
        first = re.search(r"^version: (\d+)\.", (TOP / "CITATION.cff").read_text(), re.M).group(1)
        name = f"libgaffcurrant.so.{first}"
        self.equal("the shared object's name", [name], re.findall(r"SONAME.*\[(.*)\]", told))
        self.equal("the shared object by that name", "libgaffcurrant.so", os.readlink(library / name))

    def test_header(self):
        """It is read by C99, C11 and C++, and each of its calls is found."""
        for standard in ("c++11", "c++17"):
            compiler = ("g++", f"-std={standard}", *STRICT[1:])
            program = self.compiled(f"header_{standard}", "header.cpp", self.llvm, compiler=compiler)
            self.equal(f"the header in {standard}", 0, answers(program)[0])
        text = (TOP / "include/gaffcurrant.h").read_text()
        lacking = [name for name in CALLS if f" gaffcurrant_{name}({taken_by(name)}" not in text]
        self.equal("the calls of the header", [], lacking)

    def test_statuses(self):
        """The header names each status of the library, by its number, and no other."""
        header, library = (TOP / "include/gaffcurrant.h").read_text(), (TOP / STATUSES).read_text()
        wanted = sorted(OF_LIBRARY.findall(library))
        self.equal("the statuses of the header", wanted, sorted(OF_HEADER.findall(header)))

    def test_version(self):
        """That of the header and of both compilers' libraries is that of the launcher."""
        said = ran(TOP / "gaffcurrant", "--version")[1].split()[1]
        first, second, third = map(int, said.split("."))
        wanted = (0, f"{first}{second:02}{third:02}\n" * 2, "")
        for backend, library in self.libraries.items():
            program = self.compiled(f"version_{backend}", "version.c", library)
            self.equal(f"the version by {backend}", wanted, answers(program))

    def test_stack(self):
        """A thread with the stack that the header tells opens each of the deepest texts."""
        header = (TOP / "include/gaffcurrant.h").read_text()
        told = int(re.search(r"#define GAFFCURRANT_STACK \((\d+) \* 1024\)", header).group(1))
        for name in ("tools/library", "examples/device/README.md", "docs/CLAIM.md"):
            self.holds(f"the stack in {name}", f"{told} KiB" in (TOP / name).read_text(), f"not {told} KiB")
        for backend, library in self.libraries.items():
            program = self.compiled(f"stack_{backend}", "stack.c", library, THREADS)
            most = 0
            for name, (opens, expression) in DEEP.items():
                status, said, _ = answers(program, self.placed("deep.text", deep_text(expression)), told)
                answer, used = (said.split() + ["none", "0"])[:2]
                most = max(most, int(used))
                what = f"{name} nested deep, opened by {backend} in {told} KiB"
                self.equal(what, (0, "0" if opens else "1"), (status, answer))
            print(f"library: opening takes {most} KiB of {told} KiB of stack at most, by {backend}", flush=True)

    # Tables

    def test_tables(self):
        programs = self.by_all("answer")
        with ThreadPoolExecutor(len(os.sched_getaffinity(0))) as pool:
            compared = pool.map(lambda name: list(self.answers_of_table(name, programs)), self.tables)
        for checks in compared:
            for check in checks:
                self.equal(*check)

    def answers_of_table(self, name, programs):
        """What is answered by a table, as checks: what, what is wanted, and what came."""
        text, path = self.tables[name], self.folder / f"{name}.table"
        table = read_table(text)
        states = random_states(table.plant)
        wanted = (0, wanted_of(table, states), "")
        for backend, program in programs.items():
            got = split(answers(program, path, data=lines_of(states)))
            yield f"{name} at random states by {backend}", wanted, got
        first = self.placed(f"{name}_1.table", text_of_table(table.plant, table.rows, 1))
        got = split(answers(programs["llvm"], first, data=lines_of(states)))
        yield f"{name} in version 1", wanted, got
        by_c = c_answers(text, self.folder / f"{name}_c")(states)
        yield f"{name} by control.c", expected(table, states), by_c
        yield f"{name} as control.c answers", by_c, [said_by_c(line) for line in wanted[1][:-1]]
        yield from self.runs_of_table(name, text, table, programs["llvm"])

    def runs_of_table(self, name, text, table, program):
        """From cells of the greatest ranks: at each sample of `sim` the library has its rank and its input."""
        plant, cells = table.plant, sorted(table.rows, key=lambda cell: table.rows[cell][0] or 0)[-3:]
        for seed, cell in enumerate(cells, 5):
            status, trace, _ = self.execute(("sim", "300", str(seed), *map(str, plant.low(cell))), text)
            yield f"{name}: sim answers", 0, status
            samples = [line.split(" ") for line in trace.decode().splitlines()[1:]]
            samples = [words[1:] for words in samples if len(words) == len(plant.states) + 3]
            wanted = [reply_in_trace(plant, *words[-2:]) for words in samples]
            states = [words[:-2] for words in samples]
            got = split(answers(program, self.folder / f"{name}.table", data=lines_of(states)))
            yield f"{name} along a run", (0, [*wanted, "each the same"], ""), got

    def test_tables_by_python(self):
        """Python's Controller by the shared object, and by the module's own Table, tells the same."""
        for name, text in self.tables.items():
            table = read_table(text)
            states = random_states(table.plant)
            replies = [reply_of(table, state) for state in states]
            for way, controller in self.controllers(text):
                what, few = f"{name} by Python, {way}", states[:40]
                got = (controller.is_proved, controller.choices(states))
                self.equal(what, (way == "the shared object", replies), got)
                wanted = [answer_of(table.choice, state) for state in few]
                self.equal(f"{what}, one by one", wanted, [answer_of(controller.choice, state) for state in few])
                ranks = [answer_of(table.rank, state) or 0 for state in few]
                self.equal(f"{what}, ranks", ranks, [answer_of(controller.rank, state) for state in few])

    def test_memory(self):
        held = self.compiled("held", "held.c", self.llvm, GNU)
        for name, text in self.tables.items():
            self.holds_memory(name, text, held)

    def holds_memory(self, name, text, held, before=()):
        """A table that is open takes 8 bytes for each stretch of cells with one row or with none, and 4 for every 64
        cells; 16 for each state and input vector; the plant takes 2 to 33 thousand."""
        table = read_table(text)
        cells = table.plant.cells
        rows = [table.rows.get(cell) for cell in range(cells)]
        stretches = sum(k == 0 or row != rows[k - 1] for k, row in enumerate(rows))
        taken = int(answers(held, self.folder / f"{name}.table", before=before)[1] or 0)
        taken -= 8 * stretches + 4 * (cells // 64 + 2) + 16 * len(table.plant.states) * table.plant.vectors
        self.holds(f"{name}: memory beside the rows", 0 < taken < 40000, f"{taken} bytes")

    def test_allocations(self):
        """Only gaffcurrant_open and gaffcurrant_close ask for memory."""
        counting = self.compiled("allocates", "allocates.c", self.llvm, WRAPPED)
        for name, text in {**self.tables, **self.temporal_texts()}.items():
            got = answers(counting, self.placed("counted.text", text))
            self.equal(f"calls of malloc for {name}", (0, "by open and close alone\n", ""), got)

    # Which next states follow

    def test_following(self):
        """It is told by the boxes of the module: corners of boxes, one past them, states outside, values that are no
        vector, and 10,000 steps of each table, stay text and patrol text. The same by Python."""
        programs, replies = self.by_all("follows"), set()
        for name, text in {**self.tables, **self.temporal_texts()}.items():
            plant, path = read_text(text).plant, self.placed("followed.text", text)
            (samples, wanted), (steps, of_steps, strayed) = followed_samples(plant), steps_of(plant)
            self.equal(f"steps of {name} that leave their box", 0, strayed)
            lines = lines_of([sum(map(list, one), []) for one in samples + steps])
            for backend, program in programs.items():
                got = split(answers(program, path, data=lines))
                self.equal(f"which states follow in {name} by {backend}", (0, wanted + of_steps, ""), got)
            told = [{"1": True, "0": False}.get(one, "NoRow") for one in wanted[:300] + of_steps[:300]]
            self.follows_by_python(name, text, samples[:300] + steps[:300], told, steps[0])
            replies |= set(wanted + of_steps)
        self.equal("what is answered whether states follow", {"-1", "0", "1"}, replies)

    def follows_by_python(self, name, text, samples, wanted, step):
        state, values, after = step
        wide, far = [state[0] + 2**64, *state[1:]], [after[0] - 2**64, *after[1:]]
        for way, controller in self.controllers(text):
            got = [answer_of(controller.follows, *one) for one in samples]
            self.equal(f"which states follow in {name} by Python, {way}", wanted, got)
            no_vector = [values[0] + 2**64, *values[1:]] if values else None
            got = [answer_of(controller.follows, state, no_vector, after) if values else "NoRow"]
            got += [answer_of(controller.follows, *one) for one in ((wide, values, after), (state, values, far))]
            what = f"what isn't a number of 64 bits in {name} by Python"
            self.equal(what, ["NoRow", "NoRow", False], got)

    def test_overflow(self):
        """A plant that overflows opens, and no next state is told; by Python it is refused."""
        path, programs = self.placed("overflow.table", OVERFLOWING), self.by_all("follows")
        status = self.execute(("check",), OVERFLOWING.encode())[0]
        self.equal("`check` refuses a plant that overflows", 4, status)
        lines = lines_of([[0, -3, 0], [0, 5, 0], [-1, -3, 0]])
        for backend, program in programs.items():
            got = split(answers(program, path, data=lines))
            self.equal(f"a plant that overflows by {backend}", (0, ["-4", "-1", "-1"], ""), got)
        for _, controller in self.controllers(OVERFLOWING):
            got = [answer_of(controller.follows, [0], [value], [0]) for value in (-3, 5)]
            self.equal("a plant that overflows by Python", ["Refused", "NoRow"], got)

    # Stay texts and patrol texts

    def test_turns(self):
        """Of the examples and of a few cells: the replies, ranks and turns along runs that wander over the whole
        domain."""
        programs = self.by_all("turns")
        for name, text in self.temporal_texts().items():
            path, model = self.placed("turns.text", text), read_text(text)
            states = driven_states(model) + random_states(model.plant)
            for backend, program in programs.items():
                got = split(answers(program, path, data=lines_of(states)))
                self.equal(f"{name} by {backend}", (0, told_of(model, states), ""), got)
            with Controller(text, self.shared) as by_library, Controller(text, "") as by_module:
                wanted, got = [told_by(by_module, states), True], [told_by(by_library, states), by_library.is_proved]
                self.equal(f"{name} by Python", wanted, got)
                count = len(model.turns) if model.kind == "patrol" else 1
                begun = [(None, turn) for turn in range(count)] + [("ValueError", max(count - 1, 0))] * 2
                got = [begun_turns(by_library, count), begun_turns(by_module, count)]
                self.equal(f"turns of {name} by Python", [begun, begun], got)

    def test_damaged_texts(self):
        """The line of texts that are refused."""
        program = self.compiled("turns_llvm", "turns.c", self.llvm)
        for text, old, new, line, _ in DAMAGED:
            got = split(answers(program, self.placed("damaged.text", text.replace(old, new, 1))))
            self.equal(f"{text[:6]} text with {new!r}", (1, [f"open 1 line {line}"], ""), got)

    # Uses

    def test_uses(self):
        """Right and wrong ones, and opening 10,000 times."""
        cart, line, wanted = self.folder / "cart.table", self.folder / "line.table", (0, "as the header tells\n", "")
        for backend, library in self.libraries.items():
            uses, lasting = (
                self.compiled(f"{name}_{backend}", f"{name}.c", library, GNU) for name in ("uses", "lasting")
            )
            self.equal(f"uses by {backend}", wanted, answers(uses, cart))
            got = answers(lasting, line, 10000)
            self.equal(f"opened and closed 10,000 times by {backend}", (0, "constant\n", ""), got)
        sane = self.compiled("uses_sane", "uses.c", self.llvm, SANITIZERS)
        self.equal("uses under the sanitizers", wanted, answers(sane, cart))

    @unittest.skipUnless(VALGRIND, "there is no valgrind, so the library isn't run in it")
    def test_uses_in_valgrind(self):
        before = (VALGRIND, "--quiet", "--error-exitcode=9", *LEAKS)
        for backend, library in self.libraries.items():
            uses = self.compiled(f"uses_{backend}", "uses.c", library, GNU)
            got = answers(uses, self.folder / "cart.table", before=before)
            self.equal(f"uses in valgrind by {backend}", (0, "as the header tells\n", ""), got)

    def test_table_that_changes_threads(self):
        moved = self.compiled("moved", "moved.c", self.llvm, THREADS)
        got = answers(moved, self.folder / "cart.table")
        self.equal("a table that changes threads", (0, "the same\n", ""), got)

    def test_readme(self):
        self.prints_what_readme_tells(self.llvm)

    def prints_what_readme_tells(self, library, compiler=GCC, before=()):
        """The program of examples/device/README.md prints what is told there."""
        said = (TOP / "examples/device/README.md").read_text()
        blocks = re.findall(r"```c\n(.*?)```", said, re.DOTALL)
        source = self.placed("sample.c", next(code for code in blocks if "gaffcurrant.h" in code))
        program = self.compiled("sample", source, library, compiler=compiler)
        wanted = re.search(r"\./sample gate\.table +# prints (\S+):", said).group(1)
        got = answers(program, self.folder / "gate.table", before=before)
        self.equal("what the README tells", (0, f"{wanted}\n", ""), got)
        got = answers(program, source, before=before)
        self.equal("the README's program of no text", (1, "no text: line 1\n", ""), got)

    def test_refusals_of_python(self):
        """What Python's Controller raises, the same by the shared object and by the module."""
        text = self.tables["cart"]
        for what, path in (("the shared object", self.shared), ("the module", "")):
            for data, wanted in (
                (text[:-1], "malformed"),
                (b"", "malformed: line 1"),
                (text.replace(b"table ", b"stay ", 1), "malformed: line 1"),
            ):
                got = opening(data, path)[: len(wanted)]
                self.equal(f"Python by {what} of {data[-20:]!r}", wanted, got)
            controller = Controller(text.decode(), path)
            states = ([1], [1, 2, 3], [0.5, 0], [10**30, 0], [0, -(10**30)])
            got = [answer_of(controller.choice, state) for state in states]
            self.equal(f"Python by {what}: sizes and kinds of states", ["ValueError"] * 3 + ["NoRow"] * 2, got)
            self.equal(f"Python by {what}: none at once", [], controller.choices([]))
            steps = (([1], [20], [1, 2]), ([1, 2], [20], [1]), ([1, 2], [], [1, 2]), ([1, 2], [20, 20], [1, 2]))
            got = [answer_of(controller.follows, *step) for step in (*steps, ([1, 2], [21], [1, 2]))]
            self.equal(f"Python by {what}: sizes of steps", ["ValueError"] * 4 + ["NoRow"], got)
            controller.close()
            controller.close()
            calls = ((controller.choice, [1, 2]), (controller.rank, [1, 2]), (controller.choices, [[1, 2]]))
            got = [answer_of(*call) for call in (*calls, (controller.follows, [1, 2], [20], [1, 2]))]
            self.equal(f"Python by {what}: closed", ["ValueError"] * 4, got)

    def test_variable_that_names_the_library(self):
        script = "from gaffcurrant_plant import Controller; import sys; print(Controller(sys.stdin.read()).is_proved)"
        more = {"PYTHONPATH": str(TOP / "tools"), "GAFFCURRANT_LIBRARY": self.shared}
        got = ran(sys.executable, "-c", script, input=self.tables["cart"].decode(), env=os.environ | more)
        self.equal("the shared object that GAFFCURRANT_LIBRARY names", (0, "True\n", ""), got)

    # ARM64

    @unittest.skipIf(MISSING_FOR_BOARD, f"not tried for ARM64, there is no {', '.join(MISSING_FOR_BOARD)} ({PACKAGES})")
    def test_board(self):
        """Each C program says by an emulator what it says here, over every text of the examples and over damaged
        ones."""
        board = built_library(self.folder / "board", "llvm", "aarch64")
        self.shows_calls(board, BOARD.replace("gcc", ""))
        pairs = {name: self.pair(name, board) for name in ("answer", "turns", "uses", "lasting", "moved")}
        made = (item for name in self.examples() for item in self.texts(name).items())
        texts = {path: text for path, text in made if text is not None}
        kinds = {text.split(b" ")[0] for text in texts.values()}
        self.equal("kinds of texts for ARM64", {b"table", b"stay", b"patrol"}, kinds)
        self.same_on_board(texts, pairs)
        self.damaged_on_board(pairs)
        cart, line = self.folder / "cart.table", self.folder / "line.table"
        for name, *words in (("uses", cart), ("moved", cart), ("lasting", line, 10000)):
            here, there = pairs[name]
            self.equal(f"{name} for ARM64", answers(here, *words), answers(there, *words, before=[EMULATOR]))
        held = self.compiled("held_board", "held.c", board, GNU, ON_BOARD)
        for name, text in self.tables.items():
            self.holds_memory(name, text, held, [EMULATOR])
        self.shared_on_board(board)
        self.prints_what_readme_tells(board, ON_BOARD, [EMULATOR])
        self.header_on_board(board)

    def pair(self, name, board):
        """A program here and on the board."""
        here = self.compiled(f"{name}_here", f"{name}.c", self.llvm, THREADS)
        return here, self.compiled(f"{name}_board", f"{name}.c", board, THREADS, ON_BOARD)

    def same_on_board(self, texts, pairs):
        with ThreadPoolExecutor(len(os.sched_getaffinity(0))) as pool:
            compared = list(pool.map(lambda item: list(self.texts_on_board(*item, pairs)), texts.items()))
        begun = 0
        for name, count, here, there in (entry for entries in compared for entry in entries):
            self.equal(f"{name} for ARM64: lines", (0, count), (here[0], here[1].count("\n")))
            self.equal(f"{name} for ARM64", here, there)
            begun += "turns" in name and sum(line.startswith("1 ") for line in here[1].splitlines())
        self.holds("turns begin for ARM64", begun > 10, str(begun))

    def texts_on_board(self, name, text, pairs):
        """A text's answers and turns at many states, here and there."""
        path, model = self.placed(f"{name}.board", text), read_text(text)
        states = driven_states(model) if model.kind != "table" else []
        states += many_states(model.plant, MANY)
        for program in ("answer", "turns"):
            here, there = pairs[program]
            said = answers(here, path, data=lines_of(states))
            on_board = answers(there, path, data=lines_of(states), before=[EMULATOR])
            yield f"{program} of {name} at {len(states)} states", len(states) + 1, said, on_board

    def damaged_on_board(self, pairs):
        """Texts that are refused, with the line, and texts of which a byte was changed, cut off or doubled."""
        damaged, said = [text.replace(old, new, 1).encode() for text, old, new, *_ in DAMAGED], []
        draws = random.Random(4)
        for text in ((self.folder / "line.table").read_bytes(), STAY.encode(), PATROL.encode()):
            damaged += [with_damage(text, draws) for _ in range(FEW)]
        here, there = pairs["turns"]
        for number, text in enumerate(damaged):
            path = self.placed("damaged.board", text)
            said.append(answers(here, path, data="7\n"))
            got = answers(there, path, data="7\n", before=[EMULATOR])
            self.equal(f"damaged text {number} for ARM64", said[-1], got)
        refused = sum("open 1 line" in output for _, output, _ in said)
        is_both = refused > len(said) / 2 and any(status == 0 for status, *_ in said)
        self.holds("damaged texts are refused, and some are texts", is_both, f"{refused} of {len(said)}")

    def shared_on_board(self, board):
        """A program that the shared object answers, where the C library for ARM64 lies beside the compiler."""
        root = Path("/usr") / BOARD.replace("-gcc", "")
        if not (root / "lib/libc.so.6").exists():
            self.left_out(f"the shared object isn't run for ARM64, there is no {root}/lib/libc.so.6")
            return
        program = self.folder / "shared_board"
        sources = [f"-I{TOP}/include", TOP / "tests/library/answer.c", f"-L{board}", "-lgaffcurrant"]
        status, _, error = ran(BOARD, *STRICT, "-O2", *sources, "-o", program)
        self.equal("a program of the shared object for ARM64 is compiled", (0, ""), (status, error[:300]))
        before = [EMULATOR, "-L", root, "-E", f"LD_LIBRARY_PATH={board}"]
        got = split(answers(program, self.folder / "line.table", data="7\n", before=before))
        self.equal("the shared object for ARM64 at 7", (0, ["1 2 3", "each the same"], ""), got)

    def header_on_board(self, board):
        if shutil.which(BOARD_CXX) is None:
            package = "apt-get install g++-aarch64-linux-gnu"
            self.left_out(f"the header isn't read by C++ for ARM64, there is no {BOARD_CXX} ({package})")
            return
        compiler = (BOARD_CXX, "-static", "-std=c++17", *STRICT[1:])
        program = self.compiled("header_board", "header.cpp", board, compiler=compiler)
        self.equal("the header in C++ for ARM64", 0, answers(program, before=[EMULATOR])[0])


def taken_by(name):
    """How the words of a call begin."""
    return "void)" if name in OF_THE_LIBRARY else "struct gaffcurrant *controller"


def opening(data, path):
    """What Python's Controller says of bytes."""
    try:
        Controller(data, path)
    except Refused as refused:
        return refused.answer
    return "open"


def reply_of(table, state):
    """What Python's Controller replies at a state."""
    row = table.rows.get(table.plant.cell_of(state))
    if row is None:
        return NO_ROW, None
    return (ARRIVED, None) if row[1] is None else (APPLY, tuple(table.plant.vector(row[1])))


def wanted_of(table, states):
    """What answer.c prints: the reply, the rank and the inputs."""
    rows = (table.rows.get(table.plant.cell_of(state)) for state in states)
    return [*(reply_said(table.plant, row) for row in rows), "each the same"]


def reply_said(plant, row):
    if row is None:
        return f"{NO_ROW} 0"
    if row[1] is None:
        return f"{ARRIVED} {row[0]}"
    return " ".join(map(str, (APPLY, row[0] or 0, *plant.vector(row[1]))))


def said_by_c(reply):
    """What control.c's main prints for a reply of the library."""
    if reply[0] == "1":
        return " ".join(reply.split()[2:])
    return "arrived" if reply[0] == "0" else "no row"


def reply_in_trace(plant, rank, choice):
    """What answer.c prints at a sample of a trace."""
    if choice == "-":
        return f"{ARRIVED} {rank}"
    return " ".join(map(str, (APPLY, 0 if rank == "-" else rank, *plant.vector(int(choice)))))


def with_damage(text, draws):
    """A text that is cut, of which a byte is another one, or of which a byte is doubled."""
    at = draws.randrange(len(text))
    other = bytes([draws.choice(b" -0129\n\0\xffe")])
    return draws.choice([text[:at], text[:at] + other + text[at + 1 :], text[: at + 1] + text[at:]])


def driven_states(model):
    """States of a run: the plant is driven by the text from its first cell with a row, or, of a patrol, for its first
    turn."""
    plant, turn = model.plant, 0
    rows = model.turns if model.kind == "patrol" else [model]
    if not rows or not rows[0].rows:
        return []
    states = [plant.low(min(rows[0].rows))]
    for _ in range(200):
        state = states[-1]
        if model.kind == "patrol" and len(states) > 1:
            turn = model.turn_after(turn, state)
        row = rows[turn].rows.get(plant.cell_of(state))
        if row is None:
            break
        states.append(plant.step(state, plant.vector(row[1]), [low for _, low, _ in plant.noises]))
    return states


def told_of(model, states):
    """What turns.c prints: whether a turn began, the turn, the reply, the rank and the inputs."""
    said, turn = [], 0
    for sample, state in enumerate(states):
        before = turn
        has_come = model.kind == "patrol" and sample > 0 and model.plant.cell_of(state) in model.turns[turn].arrivals
        turn = model.turn_after(before, state) if has_come else before
        rows = model.turns[turn].rows if model.kind == "patrol" else model.rows
        row = rows.get(model.plant.cell_of(state))
        reply = f"{NO_ROW} 0" if row is None else " ".join(map(str, (APPLY, row[0], *model.plant.vector(row[1]))))
        said.append(f"{int(has_come)} {turn} {reply}")
    return [*said, f"turns {len(model.turns) if model.kind == 'patrol' else 1}"]


def told_by(controller, states):
    """The same by Python's Controller."""
    said = []
    for sample, state in enumerate(states[:400]):
        has_come = sample > 0 and controller.visit(state)
        said.append((has_come, controller.turn, answer_of(controller.choice, state), answer_of(controller.rank, state)))
    return said


def begun_turns(controller, count):
    """What `begin_turn` answers to each turn, to one past the last and to -1, and the turn that is due then."""
    return [(answer_of(controller.begin_turn, turn), controller.turn) for turn in (*range(count), count, -1)]


def many_states(plant, count):
    """States of the ranges, of their ends, past these, and at the ends of 64 bits."""
    draws = random.Random(3)
    states = []
    for _ in range(count):
        state = [draws.choice([low, high, *[draws.randint(low, high)] * 8]) for _, low, high, _ in plant.states]
        if draws.random() < 0.1:
            i = draws.randrange(len(state))
            state[i] = draws.choice([plant.states[i][1] - 1, plant.states[i][2] + 1, -(2**63), 2**63 - 1])
        states.append(state)
    return states
