"""tests/write/claim against the repository, and docs/READING.md and docs/DEFINITIONS.md against what it lists."""

import re
import sys
from itertools import groupby
from pathlib import Path

from .product import ran
from .tool_case import TOP, ToolCase

NAMED = re.compile(r"`(?:(\w+)/)?(?:(specs|proofs)/)?([\w/]+\.antt)`|`(\w+)`")


def written(name, *words):
    """Status and output of a program of tests/write."""
    return ran(sys.executable, TOP / "tests/write" / name, *words)[:2]


class Claim(ToolCase):
    """The definitions that public clauses name."""

    def test_files_of_specs_are_named(self):
        self.equal("files of specs/ that no public clause names", (0, ""), written("claim", "--strays"))

    def test_documents_have_definitions(self):
        what = "definitions in public clauses that neither DEFINITIONS nor tests/write/names_page has"
        self.equal(what, (0, ""), written("claim", "--unnamed"))

    def test_definitions_are_in_their_files(self):
        """By the rules at the head of DEFINITIONS: each file is there, and each name of a table is in its file."""
        page = (TOP / "docs/DEFINITIONS.md").read_text()
        found = list(places_of(page))
        self.holds("DEFINITIONS names files and definitions", len(found) > 100, str(len(found)))
        for name, files in found:
            lacking = [str(file) for file in files if not (TOP / "crates" / file).is_file()]
            self.equal(f"files of DEFINITIONS that aren't there, for {name}", [], lacking)
            if name and not lacking:
                texts = [(TOP / "crates" / file).read_text() for file in files]
                self.holds(f"{name} is in {', '.join(map(str, files))}", any(defines(text, name) for text in texts))

    def test_reading_names_files(self):
        status, output = written("claim")
        self.equal("the definitions of the claim are listed", 0, status)
        reading = (TOP / "docs/READING.md").read_text()
        files = re.findall(r"^(\w+/specs/[\w/]+\.antt):", output, re.M)
        self.holds("the claim has files", len(files) > 50, str(len(files)))
        for file in files:
            self.holds(f"READING names {file}", f"`{file}`" in reading)

    def test_routes_of_reading(self):
        fresh = (0, "docs/READING.md is fresh\n")
        self.equal("the routes are those that the clauses need", fresh, written("reading_page", "--check"))


def pieces_of(page):
    """Line by line, what DEFINITIONS names: files, and names in the last columns of tables. A file without a crate is
    in the crate named last."""
    crate = ""
    for line in page.splitlines():
        is_row = line.startswith("| ")
        pieces = []
        for of, folder, file, name in NAMED.findall(line.split(" | ")[-1] if is_row else line):
            crate = of or crate
            if file:
                pieces.append(Path(crate, folder or "specs", file))
            elif is_row:
                pieces.append(name)
        yield pieces


def places_of(page):
    """The names in the tables of DEFINITIONS, each with the files in which it may be: those that follow it in its row,
    else the one that was named last; and '' with files that follow no name."""
    last = None
    for pieces in pieces_of(page):
        names = []
        for are_files, group in groupby(pieces, lambda piece: isinstance(piece, Path)):
            if not are_files:
                names = list(group)
                continue
            files = list(group)
            last = files[-1]
            yield from ((name, files) for name in names or [""])
            names = []
        yield from ((name, [last]) for name in names)


def defines(text, name):
    """Whether a source of definitions defines a name."""
    return re.search(rf"^ *(?:(?:abbrev|unfoldable|pub|record|data) )*{name}(?= |$)", text, re.M) is not None
