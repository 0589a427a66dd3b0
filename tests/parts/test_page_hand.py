"""A page by hand: mouse and keys on a map, what is told of cells, causes that lead on, the link, and what a screen
reader finds."""

import random

from gaffcurrant_plant.texts.table import read_text

from .browser_case import PANEL, SAID, BrowserCase
from .test_page_cells import stop_of
from .tool_case import TOP

# What a link may not say of the vehicle's table.
WRONG = "#x=q&y=&at=1.2&turn=9&by=red&left=7&right=7&from=1,2&n=-1&seed=x&noise=%E0%A4%A&sample=1e9&over=%00"
# An angle that comes round behind 17, and a state that stays. Every cell is kept, by the first input.
ROUND = """table 2
plant 2
state h -18 17 3
state x 0 9 1
input u -4 4
next h = lut(h + u, -54:-18, -19:17, -18:-18, 17:17, 18:-18, 53:17)
next x = x
goal keep
end
rows 1
0 119 - 0
end
"""
# From -17 a step of -4 leads to -21, which is 15: in cells of three numbers from 0.5 down to 0, and from 12, the other
# end, to 33.5 / 3.
PIECES = [[[0.5, 2.5], [0, 2.5]], [[12, 2.5], [33.5 / 3, 2.5]]]


class Cart(BrowserCase):
    """The table of the cart, by mouse, keys and fields."""

    @classmethod
    def setUpClass(cls):
        super().setUpClass()
        cls.path, cls.table = cls.example("cart/cart.table")
        cls.plant = cls.table.plant

    def setUp(self):
        self.open([self.path])

    def test_colours(self):
        """Cells are drawn where they lie: blank where they have no row, and darker the greater the rank is."""
        rows, cells = self.table.rows, random.Random(5).sample(range(self.plant.cells), 300)
        colours = self.ask(f"probe.colours({cells})")
        is_blank = [cell not in rows and not self.plant.is_obstacle(cell) for cell in cells]
        right = sum((colour == [255, 255, 255]) == blank for colour, blank in zip(colours, is_blank))
        self.holds("cells are blank exactly where they have no row", right >= 290, f"{right} of 300")
        ranks = sorted((rows[cell][0], sum(colour)) for cell, colour in zip(cells, colours) if cell in rows)
        is_darker = ranks[0][1] > ranks[-1][1] + 150
        self.holds("cells of greater rank are darker", is_darker, (ranks[0], ranks[-1]))

    def test_pointing(self):
        """Where the mouse points the cell is told, and why it has no row."""
        self.browser.mouse("move", *self.ask(f"probe.onScreen({self.plant.cell_of([590, 95])})"))
        tip = "document.getElementById('tip')"
        is_shown = f"!{tip}.hidden && {tip}.textContent.includes('5 leave the')"
        self.browser.wait(f"{PANEL}.includes('590 to 599') && {is_shown}")
        panel = self.ask(PANEL)
        for said in (
            "Not won.",
            "Of 5 inputs: 5 leave the domain.",
            "a = 0: leaves the domain: p may be 620, above 599; v may be 102, above 99",
        ):
            self.holds(f"the panel says `{said}`", said in panel, panel)

    def test_click(self):
        """It runs from there."""
        won = self.plant.cell_of([25, -5])
        self.browser.mouse("click", *self.ask(f"probe.onScreen({won})"))
        self.browser.wait("document.getElementById('ran').textContent.includes('arrived')")
        start = self.ask("probe.desk().view.from")
        self.equal("a click runs from the cell that was pointed at", won, self.plant.cell_of(start))
        wanted = self.execute(("sim", "57", "1", *map(str, start)), self.path.read_bytes())[1].decode()
        trace = self.ask("document.getElementById('trace').textContent")
        self.equal("the run by a click", wanted.strip(), trace)

    def test_keys(self):
        """Arrow keys move the cell and say it; Enter runs from its middle; Escape lets go."""
        cell, after = self.plant.cell_of([25, -5]), self.plant.cell_of([125, 5])
        self.ask(f"document.querySelector('figure canvas').focus(); probe.desk().go({cell})")
        self.browser.press("ArrowRight", shift=True)
        self.browser.press("ArrowUp")
        is_said = f"{SAID}.startsWith('p 120 to 129, v 0 to 9: rank')"
        self.browser.wait(f"probe.desk().view.cell === {after} && {is_said}")
        self.browser.press("Enter")
        self.browser.wait(f"{SAID}.includes('arrived')")
        self.equal("Enter runs from the middle", self.plant.centre(after), self.ask("probe.desk().view.from"))
        self.browser.press("Escape")
        self.equal("Escape lets go", False, self.ask("probe.desk().view.isPinned"))

    def test_cause(self):
        """A click on a cause goes to the cell that it names."""
        start, stops = next(self.lost_cells_with("onward"))
        self.ask(f"probe.desk().go({start})")
        button = "document.querySelector('#panel li.onward button')"
        self.browser.wait(f"probe.panelOf({start}) && {button}")
        said = self.ask(f"{button}.textContent")
        self.ask(f"{button}.click()")
        cell = self.ask("probe.desk().view.cell")
        is_lost = cell != start and any(cell in stop.lost for stop in stops)
        self.holds("a cause goes to a lost cell", is_lost, str(cell))
        ends = zip(self.plant.states, self.plant.low(cell), self.plant.high(cell))
        name = ", ".join(f"{name} {low} to {high}" for (name, *_), low, high in ends)
        self.equal("the cell that a cause names", name, said)

    def lost_cells_with(self, kind):
        """The lost cells that some input doesn't win for a kind of reason, each with all such reasons."""
        for cell in range(self.plant.cells):
            if cell not in self.table.rows and not self.plant.is_obstacle(cell):
                stops = [stop_of(self.table, cell, vector) for vector in range(self.plant.vectors)]
                stops = [stop for stop in stops if stop]
                if any(stop.kind == kind for stop in stops):
                    yield cell, stops

    def test_fields(self):
        """What is wrong with a start that is written is said; what is right is run."""
        fields = "document.querySelectorAll('#start input')"
        outside = "The start is outside the domain: p 0 to 599, v -100 to 99."
        for p, v, said in (
            ("x", "0", "p has to be a number."),
            ("600", "0", outside),
            ("20", "-5", "arrived after"),
            ("0", "-90", "no row there"),
        ):
            self.ask(f"(([p, v]) => {{ p.value = '{p}'; v.value = '{v}'; }})({fields})")
            self.ask("document.getElementById('start').requestSubmit()")
            self.browser.wait(f"document.getElementById('ran').textContent.includes('{said}')")
            self.holds(f"a start at {p} {v} says `{said}`", True)


class Round(BrowserCase):
    """A state that comes round."""

    def test_way(self):
        """A run leaves at one edge, and comes in at the other: on the map, and over time with a gap."""
        self.open([self.placed("round.table", ROUND)])
        self.ask("probe.desk().run([-17, 2])")
        run = "(probe.desk().runsNow())"
        pieces = self.ask(f"(([run]) => piecesOf(run.ways[0], run.text.plant.periods)){run}")
        near = len(pieces) == 2 and all(map(near_each_other, pieces, PIECES))
        self.holds("the pieces of a way round", near, str(pieces))
        values = "valuesOf(run, 0, probe.desk().view.units).slice(0, 5)"
        shown = f"{values}.map(([, value]) => (Number.isNaN(value) ? null : value))"
        points = self.ask(f"(([run]) => {shown}){run}")
        got = [value and round(value, 9) for value in points]
        self.equal("an angle over time", [-16.5, -18, None, 18, 15.5], got)


def near_each_other(piece, wanted):
    return all(abs(a - b) < 1e-9 for one, other in zip(piece, wanted) for a, b in zip(one, other))


class Vehicle(BrowserCase):
    """The table of the vehicle, with three states and two inputs."""

    @classmethod
    def setUpClass(cls):
        super().setUpClass()
        cls.path = cls.placed("vehicle.table", cls.table_text("vehicle"))

    def test_inputs(self):
        """By one input of several: a colour for each of its values, whatever the other is, told in the legend and kept
        in the link."""
        self.open([self.path])
        self.ask("probe.set('input', 1)")
        legend = "document.querySelector('figure .legend').innerText"
        self.browser.wait(f"{legend}.includes('t = 2')")
        lines = [line for line in self.ask(legend).splitlines() if line.startswith("t = ")]
        self.equal("the legend of an input", [f"t = {value}" for value in range(-2, 3)], lines)
        self.holds("the link keeps the input", "&by=input&input=t&" in self.ask("probe.desk().view.link()"))
        seen = self.colours_by_input()
        # Where a frame or a line is drawn over a cell it has another colour.
        usual = {value: max(set(colours), key=colours.count) for value, colours in seen.items()}
        right, count = sum(seen[value].count(usual[value]) for value in seen), sum(map(len, seen.values()))
        is_one = right >= 0.95 * count and len(set(usual.values())) == len(usual) >= 3
        self.holds("a value of an input has one colour", is_one, f"{right} of {count}, {usual}")

    def colours_by_input(self):
        """The colours of drawn cells, by the value of the second input in their rows."""
        table, draws = read_text(self.path.read_bytes()), random.Random(7)
        plant, index = table.plant, self.ask("probe.desk().view.places[2]")
        cells = [plant.cell_at([draws.randrange(82), draws.randrange(82), index]) for _ in range(400)]
        cells = [cell for cell in cells if table.rows.get(cell, (None, None))[1] is not None]
        seen = {}
        for cell, colour in zip(cells, self.ask(f"probe.colours({cells})")):
            seen.setdefault(plant.vector(table.rows[cell][1])[1], []).append(tuple(colour))
        return seen

    def test_link(self):
        """What is looked at stands in the address, and comes back from it."""
        self.open([self.path])
        self.ask("probe.set('axis-0', 2); probe.set('axis-1', 0); probe.slide(33)")
        self.ask("document.querySelector('[value=input]').click(); probe.desk().run([400, 400, 7])")
        self.ask("probe.desk().go(probe.desk().view.plant.cellAt([3, 4, 5]))")
        self.browser.wait("location.hash.includes('from=400,400,7') && location.hash.includes('at=3.4.5')")
        before, link = self.ask("probe.shown()"), self.ask("location.hash")
        missing = [word for word in ("x=h", "y=x", "at=3.4.5", "by=input", "pin=1", "seed=1") if word not in link]
        self.equal("what the link doesn't name", [], missing)
        self.open([self.path], link)
        self.browser.wait(f"{PANEL}.length > 0")
        self.equal("a link brings the view back", before, self.ask("probe.shown()"))

    def test_wrong_link(self):
        """What doesn't fit is passed over."""
        self.open([self.path], WRONG)
        after = self.ask("probe.desk().view.link()")
        self.open([self.path])
        self.equal("a wrong link is passed over", self.ask("probe.desk().view.link()"), after)

    def test_exact_state(self):
        """A state that is a whole number by itself has no range of real values."""
        self.open([self.path, "--model", self.model_of("vehicle")])
        self.ask("probe.slide(3)")
        shown = "document.querySelector('#sliders output').textContent"
        self.browser.wait(f"probe.desk().view.places[2] === 3 && {shown} === '3'")
        self.ask("probe.desk().go(probe.desk().view.plant.cellAt([3, 2, 3]))")
        self.browser.wait(f"{PANEL}.includes('0.25 to 0.375 m')")
        panel = self.ask(PANEL)
        self.holds("a whole number by itself has one number", "h\n3\n" in panel, panel)
        # 28 directions, each in the middle of its cell.
        ticks = dict(self.ask("probe.desk().maps[0].numbersOf(2, 3)"))
        is_middle = abs(ticks["0"] - 0.5 / 28) < 1e-9 and abs(ticks["10"] - 10.5 / 28) < 1e-9
        self.holds("a whole number by itself stands in the middle of its cell", is_middle, str(ticks))


class ScreenReader(BrowserCase):
    """For a screen reader: whatever takes the focus has a role and a name; units and the turn are told."""

    def test_docks(self):
        path, _ = self.example("docks/docks.patrol")
        self.open([path, "--model", TOP / "examples/docks/docks.model"])
        self.ask("probe.desk().run([360, 180])")
        is_shown = "!document.getElementById('over-time').hidden"
        self.browser.wait(f"{is_shown} && document.querySelector('#panel li')")
        nodes = [node for node in self.browser.call("Accessibility.getFullAXTree")["nodes"] if not node.get("ignored")]
        focusable = [node for node in nodes if takes_focus(node)]
        nameless = {role_of(node) for node in focusable if not node.get("name", {}).get("value")}
        self.holds("there is much to focus", len(focusable) > 12, str(len(focusable)))
        self.equal("what takes the focus and has no name", set(), nameless - {"generic", "RootWebArea"})
        wanted = {"slider", "radio", "button", "main", "status", "heading", "textbox", "application", "form"}
        self.equal("roles that aren't there", set(), wanted - set(map(role_of, nodes)))
        turn = self.ask("document.querySelector('#sliders input').getAttribute('aria-valuetext')")
        self.equal("the turn is told", "target 0 of 0 to 1", turn)
        self.holds("units are told", "45 m" in self.ask(PANEL), self.ask(PANEL))
        ids = self.ask("[...document.querySelectorAll('[id]')].map((one) => one.id)")
        self.equal("ids stand once", len(ids), len(set(ids)))


def role_of(node):
    return node["role"]["value"]


def takes_focus(node):
    return any(one["name"] == "focusable" and one["value"].get("value") for one in node.get("properties", []))
