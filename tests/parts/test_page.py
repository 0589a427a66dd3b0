"""tools/page: what is wrong with its words, its texts and its model, and how it reads texts. What a page answers, draws
and does in a browser is tried by the parts page_cells and page_hand."""

import re
import sys

from gaffcurrant_plant.pages import page as paging
from gaffcurrant_plant.faults import Refused as RefusedText
from gaffcurrant_plant.texts.rows import VERSIONS, Lines, front_of
from gaffcurrant_plant.texts.table import read_text

from .product import ran
from .test_page_cells import WIDE, large_table
from .tool_case import TOP, ToolCase
from .worked_texts import DAMAGED, PATROL, STAY

CART = TOP / "examples/cart/cart.table"
DOCKS = TOP / "examples/docks/docks.patrol"
LINE = TOP / "examples/line/line.table"
NOTHING = "patrol 1\nplant 1\nstate x 0 1 1\nnext x = x\ngoal reach\nend\nend\n"


class Words(ToolCase):
    """Words of tools/page."""

    def test_help(self):
        status, output, error = self.tool("page", "--help")
        self.equal("page --help", (0, "usage: page", ""), (status, output[:11], error))

    def test_wrong_words(self):
        page = self.folder / "no.html"
        for words, said in (
            ([], "required"),
            (["--bogus"], "required"),
            ([CART], "required"),
            ([CART, "-o", "/"], ".html"),
            ([CART, "-o", self.folder / "cart.png"], "ends with .html"),
            (["-o", page], "required"),
            ([CART] * 9 + ["-o", page], "are the most"),
        ):
            self.refused(f"page {list(map(str, words[-2:]))}", self.tool("page", *words), said, 2)

    def test_noise(self):
        answer = self.tool("page", "-", "-o", self.folder / "no.html", data=bytes(range(256)) * 40)
        self.refused("page of noise", answer, "malformed: line 1")

    def test_folder_that_is_not_there(self):
        answer = self.tool("page", CART, "-o", self.folder / "nowhere/cart.html")
        self.refused("page into no folder", answer, "No such file")

    def test_title(self):
        path = self.folder / "title.html"
        answer = self.tool("page", "-", "-o", path, "--title", "<b>@DATA@", data=STAY.encode())
        self.equal("page with a title", (0, "", ""), answer)
        page = path.read_text()
        self.equal("a title", (True, False), ("<h1>&lt;b&gt;@DATA@</h1>" in page, "<b>@" in page))


class Refused(ToolCase):
    """Texts and models that aren't, or don't fit each other; nothing is written."""

    def test_texts_and_models(self):
        examples, output = TOP / "examples", self.folder / "no.html"
        cut, none = self.placed("cut.table", STAY[:-5]), self.placed("none.patrol", NOTHING)
        for words, said in (
            ([examples / "cart/cart.plant"], "is a plant text, not a table"),
            ([self.folder / "nothing"], "No such file"),
            (["/"], "directory"),
            ([cut], "malformed: line 14"),
            ([none], "no target"),
            ([CART, LINE], "no cells in common"),
            ([CART, "--model", self.folder / "nothing"], "No such file"),
            ([CART, "--model", CART], "no comments"),
            ([CART, "--model", examples / "boost/boost.model"], "states are i, v, those of the text p, v"),
            ([DOCKS, "--model", examples / "watch/watch.model"], "by the model x has"),
            ([DOCKS, "--model", examples / "gate/gate.plant"], "`state` lines aren't"),
        ):
            what = f"page {[str(word)[-20:] for word in words]}"
            self.refused(what, self.tool("page", *words, "-o", output), said)
        self.holds("a refused page writes nothing", not output.exists())

    def test_damaged_texts(self):
        """The page tells what other readers tell."""
        for text, old, new, line, _ in DAMAGED:
            data = text.replace(old, new, 1).encode()
            answers = [refusal(read_text, data), refusal(lambda one: paging.Text("", one), data)]
            self.equal(f"`{new[-20:]}` in a {text[:6]} text", *answers)
            is_told = f"line {line}:" in answers[0]
            self.holds(f"`{new[-20:]}` in a {text[:6]} text is refused", is_told, answers[0])


def refusal(read, data):
    """What a reader says of bytes that it refuses."""
    try:
        return f"read: {read(data)}"
    except RefusedText as refused:
        return f"{refused.answer}: {refused.reason}"


class Reading(ToolCase):
    """Columns that are read at once are those that are read line by line."""

    def test_columns(self):
        for text in (STAY, PATROL, CART.read_text(), WIDE, large_table((20, 30, 2))):
            front = front_of(text.encode(), tuple(VERSIONS))
            before = "turn 0 rows " if front.kind == "patrol" else "rows "
            readers = (paging.columns_by_line, paging.columns_at_once)
            self.equal(f"columns of a {front.kind}", *(read(Lines(text.encode(), front), before) for read in readers))


class OfExamples(ToolCase):
    """examples/pages makes the page of an example, and one of pictures that link to pages."""

    def test_one_and_none(self):
        folder = self.folder / "pages"
        command = [sys.executable, TOP / "examples/pages", folder, "line", "nothing"]
        status, output, _ = ran(*command, env=self.environment())
        said = output.splitlines()
        wanted = (1, 2, ["nothing: there is no such example"])
        self.equal("examples/pages of one example and of none", wanted, (status, len(said), said[-1:]))
        links = re.findall(r'(?:href|src)="([^"]+)"', (folder / "index.html").read_text())
        lacking = [link for link in links if not (folder / link).is_file()]
        self.equal("the page of pictures", (["line.html", "line.png"], []), (links, lacking))
