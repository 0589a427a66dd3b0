"""The pages of docs/ that programs write, against their sources, and the page of names that a program prints."""

from .test_claim import written
from .tool_case import TOP, ToolCase


class Pages(ToolCase):
    """Pages that programs of tests/write make."""

    def fresh(self, page, program, rows):
        """A page is what its program writes, and has more than so many rows."""
        self.equal(f"{page}.md is fresh", (0, f"docs/{page}.md is fresh\n"), written(program, "--check"))
        self.holds(f"{page}.md has rows", (TOP / f"docs/{page}.md").read_text().count("\n| ") > rows)

    def test_crates(self):
        self.fresh("CRATES", "crates_page", 40)

    def test_models(self):
        self.fresh("MODELS", "models_page", 15)

    def test_names(self):
        status, names = written("names_page")
        self.holds("the page of names is printed", status == 0 and names.count("\n| ") > 40, names[-300:])
