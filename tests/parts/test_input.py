"""Bad input to each program of tools/: texts with a byte order mark or CRLF, cut texts, long words, a standard stream
that is closed or whose reader has gone, no home, an encoding without the units' signs. A line on standard error and
status 1 or 2, or the answer as ever."""

import os
import subprocess
import sys

from gaffcurrant_plant.texts.table import read_table, text_of_table

from .tool_case import TOP, ToolCase

BOM = b"\xef\xbb\xbf"
LONG = "9" * 5000
# The words behind the text's name.
WORDS = {"lint": [], "why": ["7"], "scale": [], "header": [], "diff": ["TABLE"], "sweep": [], "sim": ["3", "0", "7"]}
# Where a text is read all the same: models by both, and the program passes over carriage returns in a plant text.
AS_EVER = {(name, what) for name in ("scale", "sweep") for what in ("a byte order mark", "CRLF")} | {("lint", "CRLF")}
# Words that are none, in the place of those of the third line, and the status.
WRONG_WORDS = [
    ("why", ["7.5"], 2),
    ("why", [LONG], 2),
    ("why", [""], 2),
    ("why", ["7", "7"], 2),
    ("why", ["--deep", LONG], 2),
    ("why", ["99"], 1),
    ("sim", [LONG, "0", "7"], 2),
    ("sim", ["3", LONG, "7"], 2),
    ("sim", ["3", "0", LONG], 2),
    ("sim", ["3", "0", ""], 2),
    ("sim", ["3", "0", "7", "--turn", "1"], 2),
    ("scale", ["--try", LONG], 2),
    ("scale", ["--try", "0"], 2),
    ("sweep", ["--times", LONG], 2),
    ("sweep", ["--widths", ""], 2),
    ("sweep", ["--widths", "1e39"], 0),
    ("sweep", ["--workers", LONG], 2),
    ("header", ["--model", "/"], 1),
    ("header", ["--model", ""], 1),
    ("diff", ["/"], 1),
    ("diff", [""], 1),
]
SEEN_OF_EMPTY = "the text is empty, and a run that is refused leaves such a file"


class InputCase(ToolCase):
    """Has for each program a right text, and the answer to it."""

    @classmethod
    def setUpClass(cls):
        super().setUpClass()
        line, model = TOP / "examples/line", (TOP / "examples/double_integrator/double_integrator.model").read_bytes()
        table = read_table((line / "line.table").read_bytes())
        text = text_of_table(table.plant, table.rows).encode()
        cls.texts = {"lint": (line / "line.plant").read_bytes(), "scale": model, "sweep": model}
        cls.texts |= dict.fromkeys(("why", "header", "diff", "sim"), text)
        cls.table = cls.placed("right.table", text)
        cls.right = {name: cls.answer(name, cls.texts[name]) for name in cls.texts}

    @classmethod
    def words(cls, name):
        """The words behind the text's name."""
        return [str(cls.table) if word == "TABLE" else word for word in WORDS[name]]

    @classmethod
    def answer(cls, name, data, **more):
        return cls.tool(name, "-", *cls.words(name), data=data, **more)


class Damaged(InputCase):
    """Texts that are damaged, and words that are none."""

    def test_right_texts(self):
        for name, answer in self.right.items():
            self.equal(f"{name} of a right text", (0, ""), answer[::2])

    def test_damaged_texts(self):
        for name, text in self.texts.items():
            for what, bad in (
                ("a byte order mark", BOM + text),
                ("CRLF", text.replace(b"\n", b"\r\n")),
                ("nothing", b""),
                ("half of it", text[: len(text) // 2]),
                ("UTF-16", text.decode().encode("utf-16")),
                ("a zero byte", text.replace(b"state", b"sta\0te", 1)),
            ):
                self.answers_damaged(name, what, self.answer(name, bad))

    def answers_damaged(self, name, what, answer):
        if (name, what) in AS_EVER:
            wanted = without_seconds(name, self.right[name])
            self.equal(f"{name} of {what}", wanted, without_seconds(name, answer))
        elif name == "lint":
            got = (answer[0], answer[1].split(":")[0], answer[2])
            self.equal(f"lint of {what}", (1, "malformed", ""), got)
        else:
            self.equal(f"{name} of {what}", (1, "", 1), refusal(answer))

    def test_wrong_words(self):
        for name, words, status in WRONG_WORDS:
            answer = self.tool(name, "-", *words, data=self.texts[name])
            got = (answer[0], bool(answer[1]), refusal(answer)[2])
            self.equal(f"{name} {[word[:9] for word in words]}", (status, status == 0, min(status, 1)), got)

    def test_encoding(self):
        degrees = self.texts["scale"].replace(b"unit x m\n", "unit x °C\n".encode())
        ascii_only = self.environment(PYTHONIOENCODING="ascii", LC_ALL="C")
        wanted = self.answer("scale", degrees)
        self.equal("scale of a unit that isn't ASCII", wanted, self.answer("scale", degrees, env=ascii_only))


class Reasons(InputCase):
    """What is said of a text that is another one's, empty, or saved with the line ends of Windows; and the text's name,
    once."""

    def test_other_texts(self):
        plant, table = self.texts["lint"], self.texts["why"]
        for name, data, said in (
            ("why", b"", SEEN_OF_EMPTY),
            ("header", table.replace(b"\n", b"\r\n"), "the lines end as on Windows"),
            ("diff", plant, "the text is a plant text, not a table"),
            ("scale", plant, "the text is a plant text, and no model"),
            ("sweep", table, "the text is a table, and no model"),
        ):
            path = self.placed("reason", data)
            status, output, error = self.tool(name, path, *self.words(name))
            got = (status, output, error.count("\n"), error.count(str(path)))
            self.equal(f"{name} of another text", (1, "", 1, 1), got)
            self.holds(f"{name} says `{said}`", said in error, error)

    def test_files_that_are_not_there(self):
        for name, words in (("scale", []), ("sweep", []), ("header", ["--model"])):
            status, _, error = self.tool(name, *words, "/nowhere/file", *([self.table] if words else []))
            got = (status, error.count("/nowhere/file"))
            self.equal(f"{name} names a file that isn't there once", (1, 1), got)

    def test_empty_model(self):
        empty = self.placed("empty.model", "")
        error = self.tool("header", "--model", empty, self.table)[2]
        self.holds("header names the model that it can't read", str(empty) in error, error)

    def test_lint(self):
        for data, first, said in (
            (b"", "malformed: line 1", "the text is empty"),
            (self.texts["scale"], "malformed: line ", "tools/scale MODEL"),
            (self.texts["why"] * 2000, "limit: plant text", "the text is a table"),
            (b"patrol 1\n", "malformed: line 1", "the text is a patrol text"),
        ):
            status, output, _ = self.tool("lint", "-", data=data)
            is_told = status == 1 and output.startswith(first) and said in output
            self.holds(f"lint of another text says `{said}`", is_told, output)

    def test_states(self):
        whole = "the plant's whole units"
        for name, words, said in (
            ("why", ["7.5"], whole),
            ("sim", ["3", "0", "7.5"], whole),
            ("sim", ["3", "0", "7", "7"], "has 1 numbers (x), here are 2"),
            ("sim", ["3", "0", "99"], "x = 99 is outside 0 to 14; without --model"),
        ):
            error = self.tool(name, self.table, *words)[2]
            self.holds(f"{name} {words} says `{said}`", said in error, error)


class Streams(InputCase):
    """Standard streams that are closed or whose reader has gone, and no home."""

    def redirected(self, name, redirection, **more):
        """A run with a redirection of a shell."""
        command = [sys.executable, str(TOP / "tools" / name), "-", *self.words(name)]
        shell = ["bash", "-c", f'exec "$@" {redirection}', "bash", *command]
        return subprocess.run(shell, check=False, env=self.environment(), **more)

    def test_closed_input(self):
        for name in self.texts:
            done = self.redirected(name, "<&-", capture_output=True)
            got = (done.returncode, done.stdout, done.stderr.count(b"\n"))
            self.equal(f"{name} with a closed input", (1, b"", 1), got)

    def test_reader_that_has_gone(self):
        for name, text in self.texts.items():
            reading, writing = os.pipe()
            os.close(reading)
            done = self.redirected(name, "", input=text, stdout=writing, stderr=subprocess.PIPE)
            os.close(writing)
            got = (done.returncode, done.stderr.count(b"\n"), b"reader" in done.stderr)
            self.equal(f"{name} whose reader has gone", (1, 1, True), got)

    def test_closed_error_stream(self):
        for name, text in self.texts.items():
            data = text if name == "lint" else b"\xff"
            done = self.redirected(name, "2>&-", input=data, stdout=subprocess.PIPE)
            self.equal(f"{name} with a closed error stream", 0 if name == "lint" else 1, done.returncode)

    def test_home(self):
        without = {key: value for key, value in self.environment().items() if key != "HOME"}
        for name, text in self.texts.items():
            for what, homes in (("an empty home", {"HOME": "/nowhere"}), ("no home", {})):
                answer = self.answer(name, text, env=without | homes)
                wanted = without_seconds(name, self.right[name])
                self.equal(f"{name} with {what}", wanted, without_seconds(name, answer))


def refusal(answer):
    """The status, the output, and how many lines stand on standard error; what a traceback ends with."""
    status, output, error = answer
    return status, output, error[-200:] if "Traceback" in error else error.count("\n")


def without_seconds(name, answer):
    """An answer; of sweep without the seconds that its lines end with."""
    status, output, error = answer
    return status, [line.rsplit(" ", 1)[0] for line in output.splitlines()] if name == "sweep" else output, error
