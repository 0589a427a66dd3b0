"""What costs most, beside what is ordinary: for each byte of a text that is read, for each cell, pair and edge of a
game, and for each node of an equation at each pair.

The time is that of all processors together, the least of some runs, without what an empty run takes. A line says what
was measured; a case fails where a text costs more than so many times an ordinary one of the same run."""

import os
import subprocess
import tempfile

from gaffcurrant_plant.plants.expression import walk
from gaffcurrant_plant.plants.reader import read_plant

from .oracle import row_text
from .program import CART, CHECK, LIVE, SYNTH, TABLE, WORKERS

FEW = 8
# Numbers past 64 bits are evaluated one by one, and a quotient of theirs takes two divisions of 128 bits.
WIDE = 16
EVEN = 1.3
HEAD = b"plant 1\nstate x 0 14 3\ninput u -3 3\n"
TAIL = b"next x = x + u\ntarget 12 14\ngoal reach\nen"


def spent(program, words, text, runs):
    """The least processor time of some runs, in seconds, and the line on the error."""
    least = float("inf")
    with tempfile.TemporaryFile() as source, open(os.devnull, "wb") as nowhere:
        source.write(text)
        for _ in range(runs):
            source.seek(0)
            process = subprocess.Popen([*program.command, *words], stdin=source, stdout=nowhere, stderr=subprocess.PIPE)
            line = process.stderr.read()
            process.stderr.close()
            _, status, usage = os.wait4(process.pid, 0)
            process.returncode = os.waitstatus_to_exitcode(status)
            least = min(least, usage.ru_utime + usage.ru_stime)
    return least, line.decode().strip()


class Table:
    """Measures one after the other, and compares each with the first."""

    def __init__(self, program, form, what, runs):
        self.program, self.form, self.what, self.runs = program, form, what, runs
        self.empty = self.ordinary = None

    def measure(self, name, text, units_of, most=FEW):
        def judge():
            if self.empty is None:
                self.empty = spent(self.program, self.form.words, b"", 100)[0]
            given = text()
            units = units_of(given)
            time, line = spent(self.program, self.form.words, given, self.runs)
            each = max(time - self.empty, 0) / units
            if not self.ordinary:
                self.ordinary = each
            if not self.ordinary:
                return "took no time that could be told from an empty run's"
            ratio = each / self.ordinary
            print(
                f"    {name:56} {line or 'answered':22} {units:10} {self.what} {time:8.3f} s {each * 1e9:8.1f} ns "
                f"{ratio:6.2f}",
                flush=True,
            )
            return f"{ratio:.1f} times as dear as an ordinary one" if ratio > most else None

        return f"{self.form.name}: {name}", judge


# ---- texts of plants, refused at their end so that nothing is solved


def lines(*texts):
    return b"".join(text + b"\n" for text in texts)


def filled(front, piece, end, length=65000):
    """A text of about this length, the piece again and again between its front and its end."""
    return front + piece * ((length - len(front) - len(end)) // len(piece)) + end


def names(count, width=32):
    return [f"{'n' * (width - 1)}{'abcdef'[k]}".encode() for k in range(count)]


def boxes(keyword, states, number):
    return lines(*[keyword + (b" -" + number + b" " + number) * states] * 64)


def ordinary_plant():
    """Six states, equations as they are, boxes of short numbers, comments now and then."""
    state = [b"x", b"y", b"angle", b"speed", b"turn", b"load"]
    text = lines(
        b"# a vehicle",
        b"plant 1",
        *[b"state %s -500 499 10" % name for name in state],
        b"input a -20 -10 0 10 20",
        b"noise w -2 2",
    )
    text += lines(*[b"next %s = %s + (a * %s + %s) / 100 + w" % (name, name, state[0], state[3]) for name in state])
    box = b" -100 -51 0 99 -500 499 -20 19 0 49 -500 499"
    for _ in range(64):
        text += lines(b"# the next box", b"target" + box, b"obstacle" + box)
    return text + b"goal reach\nen"


def nested(open_, inner, close, depth):
    return open_ * depth + inner + close * depth


def long_sum():
    """128 leaves and 127 sums, each leaf in as many brackets as there is room for."""

    def sum_of(count):
        return b"x" if count == 1 else b"(" + sum_of(count // 2) + b"+" + sum_of(count - count // 2) + b")"

    leaf = nested(b"(", b"x", b")", 55)
    return sum_of(128).replace(b"x", leaf)


def plant_texts():
    yield "an ordinary plant, boxes and comments", ordinary_plant()
    yield "blanks alone", filled(HEAD, b" ", b"\n" + TAIL)
    yield "empty lines", filled(HEAD, b"\n", TAIL)
    yield "lines of one blank", filled(HEAD, b" \n", TAIL)
    yield "one comment", filled(HEAD + b"#", b"z", b"\n" + TAIL)
    yield "short comments", filled(HEAD, b"#\n", TAIL)
    yield "comments of bytes that are no text", filled(HEAD, b"#\xff\x00\n", TAIL)
    yield "one line of words", filled(HEAD + b"noise", b" w", b"\n")
    yield "an input of too many values", filled(HEAD + b"input v", b" 1", b"\n")
    yield "an input of numbers of 18 digits, and too many", filled(HEAD + b"input v", b" -999999999999999999", b"\n")
    yield "one number", filled(HEAD + b"input v ", b"9", b"\n")
    yield "one name", filled(HEAD + b"input ", b"n", b" 1\n")
    yield "64 targets and 64 obstacles of numbers of 18 digits", (
        lines(
            b"plant 1", *[b"state %s 0 9 1" % name for name in names(6)], *[b"next %s = 0" % name for name in names(6)]
        )
        + boxes(b"target", 6, b"9" * 18)
        + boxes(b"obstacle", 6, b"9" * 18)
        + b"goal reach\nen"
    )
    yield "open brackets alone", filled(HEAD + b"next x = ", b"(", b"\n")
    yield "open brackets set apart", filled(HEAD + b"next x = ", b"( ", b"\n")
    yield "minuses alone", filled(HEAD + b"next x = ", b"-", b"x\n")
    yield "a sum of too many", filled(HEAD + b"next x = x", b"+x", b"\n")
    yield "blanks within an expression", filled(HEAD + b"next x = x", b"\t", b"+ u\n" + TAIL[15:])
    yield "digits within an expression", filled(HEAD + b"next x = ", b"1", b"\n")
    yield "a name within an expression", filled(HEAD + b"next x = ", b"n", b"\n")
    yield "128 leaves in 55 brackets each", HEAD + b"next x = " + long_sum() + b"\n" + TAIL[15:]
    yield "64 minimums one in another", HEAD + b"next x = " + nested(b"min(", b"x", b", u)", 63) + b"\n" + TAIL[15:]
    yield "six equations of 256 nodes with names of 32 bytes", (
        lines(
            b"plant 1",
            *[b"state %s 0 9 1" % name for name in names(6)],
            *[
                b"next %s = " % name + long_sum().replace(b"(" * 55 + b"x" + b")" * 55, names(6)[5])
                for name in names(6)
            ],
        )
        + b"goal reach\nen"
    )


# ---- texts of tables, refused at their end


def table(cells, rows, last, front=b""):
    """So many rows of a plant with so many cells, of ranks with as many digits as its cells."""
    plant = lines(b"plant 1", b"state x 1 %d 1" % cells, b"next x = x", b"target 1 1", b"goal reach", b"end")
    body = "".join(f"{cell} {row_text((cells - 1, 0))}\n" for cell in range(cells - rows, cells))
    return lines(b"table 1") + plant + lines(b"rows %d" % rows) + body.encode() + last


def table_texts():
    million = 2**20
    yield "1 MB of rows, cut at the end", FEW, lambda: table(72000, 72000, b"en")
    yield "1 MB of rows of 2^20 cells", FEW, lambda: table(million, 60000, b"en")
    yield "18 MB of rows, cut at the end", EVEN, lambda: table(million, million, b"en")
    yield "18 MB of rows, then lines up to 60 MB", EVEN, lambda: table(million, million, b"0 1 0\n" * 7000000)
    yield "60 MB that are no table", EVEN, lambda: b"table 2\n" + b"0 1 0\n" * 10000000
    yield "1 MB in one line", FEW, lambda: b"table 1\n" + b"9" * 10**6
    yield "60 MB in one line", FEW, lambda: b"table 1\n" + b"9" * (6 * 10**7)
    yield "60 MB of empty lines", FEW, lambda: b"table 1\n" + b"\n" * (6 * 10**7)
    yield "60 MB in one row", FEW, lambda: table(million, 1, b"")[:-4] + b"9" * (6 * 10**7)


# ---- live scripts, which are answered


def published(text):
    return b"publish %d\n" % len(text) + text


def script_texts():
    yield "a table of 1 MB", FEW, lambda: published(table(72000, 72000, b"end\n"))
    yield "8 tables of 7 MB", FEW, lambda: published(table(2**20, 420000, b"end\n")) * 8
    for name, question in (
        ("one number", b"ask 1\n"),
        ("one number outside the ranges", b"ask 999999999999999999\n"),
        ("six numbers", b"ask 1 1 1 1 1 1\n"),
    ):
        for size in (10**6, 6 * 10**7):
            yield f"{size // 10 ** 6} MB of questions of {name}", FEW, lambda q=question, s=size: published(
                TABLE
            ) + q * (s // len(q))


# ---- plants that are solved


def plant(states, inputs, equations, rest=(), noises=()):
    return lines(
        b"plant 1",
        *[b"state %s %s" % state for state in states],
        *[b"input " + one for one in inputs],
        *[b"noise " + one for one in noises],
        *[b"next %s = %s" % (state[0], equation) for state, equation in zip(states, equations)],
        *rest,
        b"goal reach",
        b"end",
    )


def cart(number):
    """The demo plant of so many parts."""
    return (
        CART.replace(b"599", b"%d" % (600 * number - 1))
        .replace(b"400 559", b"%d %d" % (400 * number, 560 * number - 1))
        .replace(b"200 219", b"%d %d" % (200 * number, 200 * number + 19))
        .replace(b"300 309", b"%d %d" % (300 * number, 300 * number + 9))
    )


def tree(leaf, join, nodes):
    """An expression of so many nodes, as even as can be: nodes = 2 leaves - 1."""
    leaves = (nodes + 1) // 2

    def of(first, count):
        if count == 1:
            return leaf(first)
        half = count // 2
        return join(of(first, half), of(first + half, count - half))

    return of(0, leaves)


def six(count):
    """Six states with so many cells along each, but for the last, which has one."""
    return [(name, b"0 %d 1" % (count - 1)) for name in STAY[:5]] + [(b"f", b"0 0 1")]


STAY = [b"a", b"b", b"c", b"d", b"e", b"f"]


def mixed(join):
    """Every state and the input stand in it, and its value is that of none."""
    variables = STAY[:5] + [b"u"]
    return tree(lambda k: variables[k % 6], join, 253)


def quotients():
    """Four chains of 50 quotients, of numbers with more than 64 bits."""
    big = b"999999999999999999 * 999999999999999999 * (a + b + c + d + e + u + 1)"
    chain = b" / 1" * 50
    return b"min(" * 3 + big + chain + b", a" + chain + b"), b" + chain + b"), c" + chain + b")"


def plants():
    """A name, the plant, and how many edges it has."""
    boxes_64 = [b"target" + b" 0 15" * 5 + b" 1 1"] * 64 + [b"obstacle" + b" 0 15" * 5 + b" 1 1"] * 64
    million = 2**20
    line = [(b"x", b"0 1048575 1")]
    last = [b"target 1048575 1048575"]
    ones = [b"u " + b" ".join(b"%d" % k for k in range(64)), b"v " + b" ".join(b"%d" % (64 * k) for k in range(64))]
    noisy = [b"a + w", b"b + w", b"c + w"] + STAY[3:]
    yield "demo plant of 50: 60,000 cells", cart(50), 30000 * 50 - 807
    yield "demo plant of 400: 480,000 cells", cart(400), 30000 * 400 - 807
    yield "a chain of 2^20 cells, one a rank", plant(line, [], [b"x + 1"], last), million
    yield "2^20 cells, all goals", plant(line, [], [b"x"], [b"target 0 1048575"]), million
    yield "2^22 pairs, one successor each", plant(line, [b"u 0 1 2 3"], [b"x + u"], last), 4 * million
    yield "4,096 vectors, 1,024 cells", plant([(b"x", b"0 1023 1")], ones, [b"x - x + (u + v) / 4"]), 4 * million
    yield "widest boxes: 2^25 edges of 5,793 cells", plant(
        [(b"x", b"0 5792 1")], [], [b"w"], (), [b"w 0 5790"]
    ), 5793 * 5791
    yield "19 million edges of 2^20 cells in six states", plant(six(16), [], noisy, (), [b"w 0 1"]), 42**3 * 256
    yield "2^20 cells in six states", plant(six(16), [], STAY), million
    yield "64 targets and 64 obstacles over them", plant(six(16), [], STAY, boxes_64), million
    yield "2^22 pairs in six states", plant(six(16), [b"u 0 0 0 0"], STAY), 4 * million


def dear_plants():
    """Plants of 131,072 pairs, each of which six equations tell apart."""

    def of(equations):
        return plant(six(8), [b"u 0 0 0 0"], equations)

    yield "short equations", FEW, of([b"min(%s, %s + u)" % (one, one) for one in STAY])
    for name, join in (
        ("sums", lambda a, b: b"(%s + %s)" % (a, b)),
        ("minimums", lambda a, b: b"min(%s, %s)" % (a, b)),
        ("products", lambda a, b: b"(%s * %s)" % (a, b) if len(a) < 20 else b"min(%s, %s)" % (a, b)),
    ):
        yield f"equations of 255 nodes, {name}", FEW, of([b"min(0, %s)" % mixed(join)] * 6)
    yield "equations of 220 nodes, quotients past 64 bits", WIDE, of([b"min(0, %s)" % quotients()] * 6)


def cells_pairs_and_edges(edges):
    def units(text):
        plant = read_plant(text)
        return plant.cells + plant.pairs + edges

    return units


def nodes_of_pairs(text):
    plant = read_plant(text)
    return plant.pairs * sum(1 for equation in plant.equations for _ in walk(equation))


def cases(program):
    texts = Table(program, SYNTH[0], "bytes", 100)
    for name, text in plant_texts():
        yield texts.measure(name, lambda text=text: text, len)
    tables = Table(program, CHECK[0], "bytes", 3)
    for name, most, text in table_texts():
        yield tables.measure(name, text, len, most)
    scripts = Table(program, LIVE[0], "bytes", 3)
    for name, most, text in script_texts():
        yield scripts.measure(name, text, len, most)
    for form in (SYNTH[0], WORKERS[2]):
        games = Table(program, form, "cells, pairs, edges", 1)
        for name, text, edges in plants():
            yield games.measure(name, lambda text=text: text, cells_pairs_and_edges(edges))
    checks = Table(program, CHECK[0], "cells, pairs, edges", 1)
    for name, text, edges in plants():
        units = cells_pairs_and_edges(edges)(text)
        yield checks.measure(name, lambda text=text: program.end(SYNTH[0].words, text)[1], lambda _, units=units: units)
    deep = Table(program, SYNTH[0], "nodes", 1)
    for name, most, text in dear_plants():
        yield deep.measure(name, lambda text=text: text, nodes_of_pairs, most)
