"""Boxes of many pairs at once beside those one by one, edges beside the count variable by variable, and what lint calls
useless."""

import random

from attacks import games
from gaffcurrant_plant.texts import rows
from gaffcurrant_plant.faults import TooMuch
from gaffcurrant_plant.plants.edge_count import edges_of
from gaffcurrant_plant.plants.reader import read_plant
from gaffcurrant_plant.texts.table import read_table, text_of_table

from .tool_case import TOP, ToolCase, has, needs_numpy

if has("numpy"):
    from gaffcurrant_plant.plants.useless_inputs import useless

DRAWN, CELLS, VECTORS = 40, 40, 6
# Numbers past 64 bits, which Python's integers hold.
WIDE = b"""plant 2
state x 0 99 10
input u -3 0 3
noise w -1 1
next x = x + u + w + 4611686018427387 * x * 4611686018427387 - 4611686018427387 * x * 4611686018427387
goal keep
end
"""
# u = 0 leads back. In the second plant n = 1 adds nothing, and makes the box along y wider.
USELESS = b"""plant 1
state x 0 299 10
input u 0 10 30
next x = x + u
target 280 299
goal reach
end
"""
DOMINATED = b"""plant 1
state x 0 299 10
state y 0 99 10
input u -20 20
input n 0 1
next x = x + u
next y = y + n * (y - y)
obstacle 100 109 0 9
goal keep
end
"""


@needs_numpy
class Batches(ToolCase):
    """Boxes of many pairs at once."""

    def test_examples(self):
        for name in self.examples():
            if name != "scots_boost":
                self.same_in_versions(self.plant_text(name))

    def test_numbers_past_64_bits(self):
        self.same_in_versions(WIDE)

    def test_drawn_plants(self):
        for number in range(DRAWN):
            self.same_in_versions(games.Draws(number).plant())

    def same_in_versions(self, data):
        """A plant in each version that it can have."""
        for version in (b"plant 1\n", b"plant 2\n") if b"lut(" not in data else (b"plant 2\n",):
            self.same_boxes(read_plant(data.replace(b"plant 1\n", version).replace(b"plant 2\n", version)))

    def same_boxes(self, plant):
        """The boxes of drawn pairs, and the number of edges."""
        draws, batch, said = random.Random(1), plant.batch(), repr(plant.text()[:60])
        cells = [draws.randrange(plant.cells) for _ in range(CELLS)]
        vectors = [draws.randrange(plant.vectors) for _ in range(VECTORS)]
        wanted = [tuple(map(tuple, plant.box(cell, vector))) for cell in cells for vector in vectors]
        self.equal(f"boxes of {said}", wanted, batch.pairs(cells, vectors))
        if plant.pairs < 30_000:
            try:
                self.equal(f"edges of {said}", edges_of(plant), batch.edges())
            except TooMuch:
                pass


@needs_numpy
class Useless(ToolCase):
    """Inputs that are called useless."""

    def test_by_hand(self):
        self.equal("an input that stays is of no use", ([0], []), useless(read_plant(USELESS)))
        self.equal("an input that widens boxes is of no use", ([], [1, 3]), useless(read_plant(DOMINATED)))

    def test_others_win_the_same(self):
        """Without them the same is won in as many samples."""
        for number in range(DRAWN):
            data = games.Draws(number).plant()
            plant, less, gone = read_plant(data), read_plant(data), without_useless(read_plant(data))
            if gone:
                values = [value for k, value in enumerate(plant.inputs[0][1]) if k not in gone]
                less.inputs[0] = (plant.inputs[0][0], values)
                wanted, got = (self.ranks(one) for one in (plant, less))
                self.equal(f"plant {number} without the inputs {gone}", wanted, got)

    def ranks(self, plant):
        rows_of_cells = read_table(self.solved("synth", plant.text())).rows
        return {cell: rank for cell, (rank, _) in rows_of_cells.items()}


def without_useless(plant):
    """The useless inputs of a plant with one input variable, some of whose values differ and stay; else nothing."""
    if plant.vectors < 2 or len(plant.inputs) != 1:
        return set()
    gone, values = set(sum(useless(plant), [])), plant.inputs[0][1]
    return gone if len(gone) < len(values) and plant.vectors == len(values) else set()


class QuickRows(ToolCase):
    """Rows that are read at once are those that are read one by one."""

    def test_versions(self):
        table = read_table((TOP / "examples/cart/cart.table").read_bytes())
        for version in (1, 2):
            text = text_of_table(table.plant, table.rows, version).encode()
            quick, slow = read_table(text).rows, None
            kept, rows.quick_rows = rows.quick_rows, lambda *_: None
            try:
                slow = read_table(text).rows
            finally:
                rows.quick_rows = kept
            self.equal(f"rows of version {version} read at once", (table.rows, slow), (quick, slow))
