"""Makes one page of tables, stay texts and patrol texts, to be looked at in a browser: maps of cells, why cells have no
row, and runs."""

from __future__ import annotations

from functools import partial
from pathlib import Path
from typing import Callable, Sequence

from ..command import Arguments, read_bytes, start
from ..faults import Refused, Trouble
from ..pages.data import model_data
from ..pages.page import Text, page_of
from ..progress import Progress

MOST_TEXTS = 8
MODEL = (
    "the model, or the plant text with the comments of tools/scale: for its units, and for the way between "
    "samples by its differential equations"
)
FORMAT = """The page needs no network, and a browser of 2023 or later. Two texts are shown side by side, with their
difference; of more, the page chooses two. The part of its address behind `#` keeps what is looked at.
Status 0: the page was written; 1: a text or the model isn't readable, or they don't fit each other; 2: wrong words."""


def texts_of(paths: Sequence[str]) -> list[Text]:
    """The texts, each with a name of its own; raises Trouble."""
    texts: list[Text] = []
    for path, name in zip(paths, names_of(paths)):
        try:
            texts.append(Text(name, read_bytes(path)))
        except Refused as refusal:
            raise Trouble(f"{path}: {refusal.answer}: {refusal.reason}") from None
        if texts[-1].plant.states != texts[0].plant.states:
            raise Trouble(f"{path}: its `state` lines aren't those of {paths[0]}, so they have no cells in common")
    return texts


def names_of(paths: Sequence[str]) -> list[str]:
    """The files' names without their ends where these tell them apart, else more of the paths."""
    spellings: tuple[Callable[[str], str], ...] = (lambda path: Path(path).stem, lambda path: Path(path).name, str)
    for said in spellings:
        names = ["standard input" if path == "-" else said(path) for path in paths]
        if len(set(names)) == len(names):
            return names
    return [f"{name}, {number}" for number, name in enumerate(names, 1)]


def main(arguments: list[str]) -> None:
    parser = Arguments(prog="page", description=__doc__, epilog=FORMAT)
    parser.add_argument("texts", metavar="TEXT", nargs="+", help="a table, stay or patrol text, `-` for standard input")
    parser.add_argument("-o", "--output", metavar="FILE.html", required=True, help="the page")
    parser.add_argument("--model", metavar="MODEL", help=MODEL)
    parser.add_argument("--title", metavar="WORDS", help="what stands above the page")
    given = parser.parse_args(arguments)
    if not given.output.endswith((".html", ".htm")):
        raise Trouble(f"{given.output}: a page ends with .html", 2)
    if len(given.texts) > MOST_TEXTS:
        raise Trouble(f"{MOST_TEXTS} texts are the most of a page, here are {len(given.texts)}", 2)
    with Progress("page").during("reading and packing"):
        texts = texts_of(given.texts)
        model = model_data(given.model, read_bytes(given.model), texts[0].plant) if given.model is not None else None
        page = page_of(texts, given.title or " and ".join(text.name for text in texts), model)
    with open(given.output, "w", encoding="utf-8", errors="replace", newline="\n") as file:
        file.write(page)


run = partial(start, "page", main)
