"""What the program has to answer to a text, by a few lines that know nothing of it: they read the grammar of
docs/FORMATS.md (plants by the reader of tools/), and solve games by rounds over all cells."""

import re

from gaffcurrant_plant.plants.expression import text_of
from gaffcurrant_plant.texts.loop import noises
from gaffcurrant_plant.plants.plant import EDGES
from gaffcurrant_plant.faults import Fault as Wrong
from gaffcurrant_plant.plants.reader import Draft, Refused, read_plant, words_of

TABLE_LIMIT = 67108864
SCRIPT_LIMIT = 67108864
TABLES = 8
TURNS = 2**22
STATUS = {"malformed": 3, "overflow": 4, "limit": 5}
DECIMAL = re.compile(rb"(0|[1-9][0-9]*)\Z")
LITERAL = re.compile(rb"(0|-?[1-9][0-9]{0,17})\Z")


def ended(status, output=b"", line=b""):
    return status, output, line


def refused(refusal):
    """How a run ends whose text is refused."""
    return ended(STATUS[refusal.answer.split(":")[0]], line=refusal.answer.encode() + b"\n")


# ---- games


class Game:
    """The cells of a plant with the successors of each input, none where it isn't enabled."""

    def __init__(self, plant):
        self.plant = plant
        self.fans = [[plant.successors(cell, vector) for vector in range(plant.vectors)] for cell in range(plant.cells)]
        self.obstacles = {cell for cell in range(plant.cells) if plant.is_obstacle(cell)}
        self.goals = {cell for cell in range(plant.cells) if plant.is_goal(cell)}

    def first_into(self, cell, cells):
        """The least input that is enabled and leads into these cells alone, or None."""
        for vector, fan in enumerate(self.fans[cell]):
            if fan and all(successor in cells for successor in fan):
                return vector
        return None

    def solution(self):
        return self.reached() if self.plant.goal == "reach" else self.kept()

    def reached(self):
        """For each cell that can be won its rank and input: round by round from the goals."""
        rows = {cell: (0, None) for cell in self.goals}
        rank = 0
        while True:
            rank += 1
            found = {
                cell: self.first_into(cell, rows)
                for cell in range(self.plant.cells)
                if cell not in rows and cell not in self.obstacles
            }
            found = {cell: (rank, vector) for cell, vector in found.items() if vector is not None}
            if not found:
                return rows
            rows.update(found)

    def kept(self):
        """For each cell that can be kept its input: cells without one fall away until none does."""
        kept = set(range(self.plant.cells)) - self.obstacles
        while True:
            left = {cell for cell in kept if self.first_into(cell, kept) is not None}
            if left == kept:
                return {cell: (None, self.first_into(cell, kept)) for cell in kept}
            kept = left

    # Reach and stay, and patrol, by their definitions, word for word and not by what the solvers do.

    def keeps_within(self, cells):
        """The cells of a set at which an input leads into the set alone."""
        return {cell for cell in cells if self.first_into(cell, cells) is not None}

    def held(self):
        """The goals from which some strategy keeps to goals for every number of samples."""
        held = self.goals
        while held != (left := self.keeps_within(held)):
            held = left
        return held

    def depths(self, ends):
        """For each cell the least depth of a strategy that ends in some cells and passes no obstacle, 0 at these."""
        depths = dict.fromkeys(ends, 0)
        while found := [
            cell
            for cell in range(self.plant.cells)
            if cell not in depths and cell not in self.obstacles and self.first_into(cell, depths) is not None
        ]:
            depths.update(dict.fromkeys(found, max(depths.values(), default=0) + 1))
        return depths

    def stayed(self):
        """For each cell from which some strategy comes to held cells its rank, and the least input that leads to lower
        ranks alone, at rank 0 to rank 0."""
        depths = self.depths(self.held())
        upto = {rank: {cell for cell, depth in depths.items() if depth <= rank} for rank in set(depths.values())}
        return {cell: (rank, self.first_into(cell, upto[max(rank - 1, 0)])) for cell, rank in depths.items()}

    def inside(self, target):
        """The cells that are no obstacles and lie in a target."""
        ends = {cell: zip(target, self.plant.low(cell), self.plant.high(cell)) for cell in range(self.plant.cells)}
        return {
            cell
            for cell in ends
            if cell not in self.obstacles and all(a <= low and high <= b for (a, b), low, high in ends[cell])
        }

    def travels(self, ends):
        """For each cell from which a strategy that begins with an input ends in some cells the least depth of one, and
        the least input with which one of that depth begins."""
        depths, found = self.depths(ends), {}
        for cell in set(range(self.plant.cells)) - self.obstacles:
            offers = [
                (1 + max(depths[successor] for successor in fan), vector)
                for vector, fan in enumerate(self.fans[cell])
                if fan and depths.keys() >= set(fan)
            ]
            if offers:
                found[cell] = min(offers)
        return found

    def patrolled(self):
        """The rows of each turn. The cells from which d targets can be visited, this turn's first, for d from 0 on
        until they stay."""
        targets = [self.inside(target) for target in self.plant.targets]
        visits, before = [set(range(self.plant.cells)) - self.obstacles for _ in targets], None
        while visits != before:
            before = visits
            visits = [
                set(self.travels(target & before[(turn + 1) % len(targets)])) for turn, target in enumerate(targets)
            ]
        return [self.travels(target & visits[(turn + 1) % len(targets)]) for turn, target in enumerate(targets)]

    def is_right(self, cell, rows):
        """Whether the row of a cell, or that it has none, is what the rows of its successors ask for."""
        row = rows.get(cell)
        if cell in self.obstacles:
            return row is None
        if cell in self.goals:
            return row == (0, None)
        offers = [
            (max(rows[successor][0] for successor in fan) + 1, vector)
            for vector, fan in enumerate(self.fans[cell])
            if fan and all(successor in rows for successor in fan)
        ]
        return row == (min(offers) if offers else None)

    def first_wrong(self, rows):
        """The first cell whose row isn't right, or None."""
        if self.plant.goal == "keep":
            want = self.kept()
            return next((cell for cell in range(self.plant.cells) if rows.get(cell) != want.get(cell)), None)
        return next((cell for cell in range(self.plant.cells) if not self.is_right(cell, rows)), None)


def check_edges(plant):
    if plant.edges()[0] > EDGES:
        raise Refused("limit: edges", "")


# ---- tables


def number_word(number):
    return "-" if number is None else str(number)


def row_text(row):
    rank, vector = row
    return f"{number_word(rank)} {number_word(vector)}"


def runs_of(rows):
    """The longest runs of cells that have one row, each as its first cell, its last and the row."""
    runs = []
    for cell in sorted(rows):
        if runs and runs[-1][1] == cell - 1 and runs[-1][2] == rows[cell]:
            runs[-1][1] = cell
        else:
            runs.append([cell, cell, rows[cell]])
    return runs


def part_text(before, rows):
    """A line of some words and the number of runs, and the runs."""
    lines = [f"{first} {last} {row_text(row)}\n" for first, last, row in runs_of(rows)]
    return f"{before} {len(lines)}\n{''.join(lines)}"


def table_text(plant, rows):
    """The table in version 2."""
    return f"table 2\n{plant.text()}{part_text('rows', rows)}end\n".encode()


class TableReader:
    """Reads a table line by line: what a line has to be rests on those before it."""

    def __init__(self, data):
        *self.lines, self.rest = data.split(b"\n")
        self.at = 0

    def refuse(self):
        raise Refused(f"malformed: line {self.at + 1}", "")

    def line(self):
        """The next line; one without a line feed, and an end that comes too early, are refused."""
        if self.at == len(self.lines):
            self.refuse()
        self.at += 1
        return self.lines[self.at - 1]

    def again(self):
        """Refuses the line that was read last."""
        self.at -= 1
        self.refuse()

    def read(self):
        """The plant and the rows."""
        version = self.line()
        if version not in (b"table 1", b"table 2"):
            self.again()
        plant = self.plant()
        plant.check_limits(Refused)
        rows = self.rows(plant, cells_of_a_run=1 if version == b"table 1" else 2)
        if self.line() != b"end":
            self.again()
        if self.at < len(self.lines) or self.rest:
            self.refuse()
        return plant, rows

    def plant(self):
        draft = Draft()
        while not draft.ended:
            line = self.line().decode("latin-1")
            words = words_of(line)
            if not words or words[0] == "target" and draft.obstacles:
                self.again()
            try:
                draft.read(line)
            except Wrong:
                self.again()
            if words[0] == "next":
                words[3:] = [text_of(draft.equations[-1], draft.names())]
            if line != " ".join(words):
                self.again()
        return draft.made()

    def count(self, most, word):
        """A number that is at most `most`."""
        if not DECIMAL.match(word) or int(word) > most:
            self.again()
        return int(word)

    def rows(self, plant, cells_of_a_run):
        """The rows of lines that begin with a cell, or with the first and the last cell of a run."""
        first, _, number = self.line().partition(b" ")
        if first != b"rows":
            self.again()
        rows, before = {}, -1
        for _ in range(self.count(plant.cells, number)):
            words = self.line().split(b" ")
            if len(words) != cells_of_a_run + 2:
                self.again()
            first, last = (self.count(plant.cells - 1, word) for word in (words[0], words[cells_of_a_run - 1]))
            row = self.row(plant, *words[cells_of_a_run:])
            if not before < first <= last or cells_of_a_run == 2 and first == before + 1 and rows.get(before) == row:
                self.again()
            rows.update((cell, row) for cell in range(first, last + 1))
            before = last
        return rows

    def row(self, plant, rank, vector):
        if plant.goal == "keep":
            if rank != b"-":
                self.again()
            return None, self.count(plant.vectors - 1, vector)
        rank = self.count(plant.cells - 1, rank)
        if rank > 0:
            return rank, self.count(plant.vectors - 1, vector)
        if vector != b"-":
            self.again()
        return 0, None


def read_table(data):
    if len(data) > TABLE_LIMIT:
        raise Refused("limit: table text", "")
    return TableReader(data).read()


# ---- live scripts


def is_size(words):
    return len(words) == 1 and DECIMAL.match(words[0]) and 1 <= int(words[0]) <= TABLE_LIMIT


def is_state(words):
    return 1 <= len(words) <= 6 and all(map(LITERAL.match, words))


class ScriptReader:
    """Reads a script line by line, and answers its questions by the table that was read last."""

    def __init__(self, data):
        self.rest, self.line, self.tables = data, 1, []

    def refuse(self, line=None):
        raise Refused(f"malformed: line {line or self.line}", "")

    def answers(self):
        if len(self.rest) > SCRIPT_LIMIT:
            raise Refused("limit: script", "")
        while self.rest or not self.tables:
            line, feed, self.rest = self.rest.partition(b"\n")
            word, *numbers = line.split(b" ") if feed else [b""]
            if word == b"publish" and is_size(numbers):
                self.publish(int(numbers[0]))
            elif word == b"ask" and self.tables and is_state(numbers):
                yield f"{len(self.tables)} {number_word(self.choice([int(number) for number in numbers]))}"
                self.line += 1
            else:
                self.refuse()

    def publish(self, size):
        if len(self.tables) == TABLES:
            raise Refused("limit: tables", "")
        text, self.rest = self.rest[:size], self.rest[size:]
        if len(text) < size:
            self.refuse()
        try:
            self.tables.append(read_table(text))
        except Refused as refusal:
            _, malformed, line = refusal.answer.partition("malformed: line ")
            if malformed:
                self.refuse(self.line + int(line))
            raise
        self.line += 1 + text.count(b"\n")

    def choice(self, state):
        plant, rows = self.tables[-1]
        if len(state) != len(plant.states):
            return None
        _, vector = rows.get(plant.cell_of(state), (None, None))
        return vector


# ---- the words of the program


def solving(text_of, check_more=lambda plant: None):
    """What a word answers to a plant text that writes this text of its game."""

    def answer(data):
        try:
            plant = read_plant(data)
            check_edges(plant)
            check_more(plant)
        except Refused as refusal:
            return refused(refusal)
        return ended(0, text_of(plant, Game(plant)))

    return answer


def stay_text(plant, game):
    return f"stay 1\n{plant.text()}{part_text('rows', game.stayed())}end\n".encode()


def patrol_text(plant, game):
    turns = "".join(part_text(f"turn {turn} rows", rows) for turn, rows in enumerate(game.patrolled()))
    return f"patrol 1\n{plant.text()}{turns}end\n".encode()


def check_turns(plant):
    if plant.cells * len(plant.targets) > TURNS:
        raise Refused("limit: turns", "")


synth = solving(lambda plant, game: table_text(plant, game.solution()))
stay = solving(stay_text)
patrol = solving(patrol_text, check_turns)


def check(data):
    try:
        plant, rows = read_table(data)
        plant.check_overflow(Refused)
        check_edges(plant)
    except Refused as refusal:
        return refused(refusal)
    wrong = Game(plant).first_wrong(rows)
    return ended(0, b"valid\n") if wrong is None else ended(1, line=f"invalid: cell {wrong}\n".encode())


def upgrade(data):
    try:
        plant, rows = read_table(data)
        plant.check_overflow(Refused)
    except Refused as refusal:
        return refused(refusal)
    return ended(0, table_text(plant, rows))


def live(data):
    try:
        return ended(0, "".join(line + "\n" for line in ScriptReader(data).answers()).encode())
    except Refused as refusal:
        return refused(refusal)


def sim(steps, seed, *start):
    """What `sim` with these words answers to a table."""

    def answer(data):
        try:
            plant, rows = read_table(data)
            plant.check_overflow(Refused)
        except Refused as refusal:
            return refused(refusal)
        if len(start) != len(plant.states) or plant.cell_of(start) not in rows:
            return ended(1, line=b"no row\n")
        return ended(0, "".join(line + "\n" for line in trace(plant, rows, steps, seed, start)).encode())

    return answer


def trace(plant, rows, steps, seed, state):
    yield "trace 1"
    for time, noise in enumerate(noises(plant, seed)):
        said = " ".join(map(str, [time, *state]))
        row = rows.get(plant.cell_of(state))
        if row is None:
            yield f"lost {said}"
            return
        rank, vector = row
        yield f"{said} {number_word(rank)} {number_word(vector)}"
        if rank == 0:
            yield f"arrived {time}"
            return
        if time == steps:
            yield f"stopped {time}"
            return
        state = plant.step(state, plant.vector(vector), noise)
