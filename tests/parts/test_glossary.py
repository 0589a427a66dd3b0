"""The repository says nothing by a word that its glossary replaces, and the search finds such words where they
stand."""

import importlib.machinery
import importlib.util

from .tool_case import TOP, ToolCase

PLANTED = {
    "crates/reach_avoid/src/a.rt": "// An odometer.\nlet odometer = 1;\n",
    "crates/reach_avoid/specs/B.antt": "-- The extents are moved.\ndef Ruler : Type := 1;\n",
    "docs/C.md": "A row of cells.\n",
}
FOUND = [
    ("crates/reach_avoid/src/a.rt", 1, "odometer"),
    ("crates/reach_avoid/specs/B.antt", 2, "Ruler"),
    ("docs/C.md", 1, "row of cells"),
]


def module_of(path):
    """A program without a file's ending, as a module."""
    loader = importlib.machinery.SourceFileLoader("words", str(path))
    module = importlib.util.module_from_spec(importlib.util.spec_from_loader("words", loader))
    loader.exec_module(module)
    return module


class Glossary(ToolCase):
    """tests/words and its list."""

    @classmethod
    def setUpClass(cls):
        super().setUpClass()
        cls.search = module_of(TOP / "tests/words")
        cls.words = cls.search.words_of((TOP / cls.search.LIST).read_text())

    def found_in(self, folder):
        """Each word that is found in a folder: the file, the line and the word."""
        return [(str(path), number, said) for path, number, said, _ in self.search.places(self.words, folder)]

    def test_list(self):
        self.holds("the list has words", len(self.words) > 20)
        folders = {folder for word in self.words for folder in word.folders}
        lacking = {folder for folder in folders if not (TOP / folder).exists()}
        self.equal("folders of the list that aren't there", set(), lacking)

    def test_repository(self):
        found = [f"{path}:{number}: {said}" for path, number, said in self.found_in(TOP)]
        self.equal("words that the glossary replaces", [], found[:10])

    def test_planted_words_are_found(self):
        for name, text in PLANTED.items():
            self.placed(f"planted/{name}", text)
        self.equal("words that were planted", sorted(FOUND), sorted(self.found_in(self.folder / "planted")))
