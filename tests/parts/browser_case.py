"""A test case with a browser, in which pages of tools/page are looked at."""

import unittest
from pathlib import Path

from gaffcurrant_plant.texts.table import read_text

from .browser import Browser, browser_there
from .tool_case import TOP, ToolCase

# What the tests ask of a page.
PROBE = Path(__file__).with_name("page_probe.js").read_text(encoding="utf-8")
PANEL = "document.getElementById('panel').innerText"
SAID = "document.getElementById('said').textContent"


@unittest.skipUnless(browser_there(), "pages aren't looked at, chromium isn't there (apt-get install chromium)")
class BrowserCase(ToolCase):
    """Its tests open pages in one browser, one after the other. No page may end with an error, or ask a network."""

    @classmethod
    def setUpClass(cls):
        super().setUpClass()
        cls.browser = Browser(browser_there())
        cls.addClassCleanup(cls.browser.__exit__)

    def tearDown(self):
        self.equal("errors in pages", [], self.browser.errors)
        asked = [url for url in self.browser.requests if not url.startswith(("file:", "about:"))]
        self.equal("what pages ask of a network", [], asked)
        self.browser.errors.clear()
        self.browser.requests.clear()

    @classmethod
    def example(cls, path):
        """The path of a copy of a text of the examples, and the text."""
        data = (TOP / "examples" / path).read_bytes()
        return cls.placed(path.split("/")[1], data), read_text(data)

    def open(self, words, link=""):
        """Makes a page by tools/page and opens it with what stands behind `#`; answers its size in bytes."""
        path = self.folder / "page.html"
        status, _, error = self.tool("page", *words, "-o", path)
        self.equal(f"page of {[str(word)[-24:] for word in words]}", (0, ""), (status, error))
        ready = "window.gaffcurrant && gaffcurrant.desk.maps && location.hash.length > 1"
        self.browser.open(f"file://{path}{link}", ready)
        self.ask(PROBE + "window.probe = probe; 0")
        return path.stat().st_size

    def ask(self, script):
        """The value of a script of the page."""
        return self.browser.evaluate(script)
