"""A test case whose checks go on behind one that failed, and the count of them."""

import tempfile
import traceback
import unittest
from pathlib import Path

from .product import TOP, Product, has

# How much is shown of a value, and how many elements that differ.
SHOWN, FEW = 150, 6
NUMPY = "numpy isn't there (apt-get install python3-numpy)"
MPMATH = "mpmath isn't there (apt-get install python3-mpmath)"
MATPLOTLIB = "matplotlib isn't there (apt-get install python3-matplotlib)"

__all__ = ["TOP", "ToolCase", "Tally", "has", "needs_matplotlib", "needs_mpmath", "needs_numpy"]

needs_numpy = unittest.skipUnless(has("numpy"), NUMPY)
needs_mpmath = unittest.skipUnless(has("mpmath"), MPMATH)
needs_matplotlib = unittest.skipUnless(has("matplotlib"), MATPLOTLIB)


class ToolCase(Product, unittest.TestCase):
    """Tests of one subject. `folder` is theirs alone, and goes with them."""

    @classmethod
    def setUpClass(cls):
        room = tempfile.TemporaryDirectory()
        cls.addClassCleanup(room.cleanup)
        cls.folder = Path(room.name)

    @classmethod
    def placed(cls, name, content):
        """The path of a new file in the folder."""
        path = cls.folder / name
        path.parent.mkdir(parents=True, exist_ok=True)
        path.write_bytes(content.encode() if isinstance(content, str) else content)
        return path

    def equal(self, what, wanted, got):
        """Checks that both are the same."""
        with self.subTest(what):
            if not wanted == got:
                raise self.failureException(told(what, *difference(wanted, got)))

    def holds(self, what, fact, got=""):
        """Checks a fact, beside what is shown where it doesn't hold."""
        with self.subTest(what):
            if not fact:
                raise self.failureException(told(what, "that this holds", shortened(got) if got else fact))

    def refused(self, what, answer, said, status=1):
        """Checks a refusal: the status, nothing on the output, and on the error stream one line that says a part."""
        got, output, error = answer
        self.equal(what, (status, "", 1), (got, output, 1 if error.count("\n") == 1 else error[-SHOWN:]))
        self.holds(f"{what} says `{said}`", said in error, error)

    def left_out(self, reason):
        """Tells what isn't tried, and goes on."""
        with self.subTest(reason):
            self.skipTest(reason)


def told(what, wanted, got):
    return f"{what}\n    wanted: {wanted}\n    got:    {got}"


def shortened(value):
    """A value as it is shown: its end, if it is long, since a tool says last what went wrong."""
    said = repr(value)
    return said if len(said) <= 2 * SHOWN else f"{said[:SHOWN]} .. {said[-SHOWN:]}"


def difference(wanted, got, at=""):
    """Where two values differ, as two texts: elements of tuples and lists, a line of texts, keys of dictionaries."""
    kinds, longest = {type(wanted), type(got)}, max(map(length_of, (wanted, got)))
    if kinds == {tuple} and len(wanted) == len(got):
        return tuple_difference(wanted, got, at)
    if kinds == {list} and longest > FEW:
        return element_difference(wanted, got, at)
    if kinds in ({str}, {bytes}) and longest > SHOWN:
        return line_difference(wanted, got, at)
    if kinds == {dict}:
        return key_difference(wanted, got, at)
    return [f"{at} {shortened(one)}".strip() for one in (wanted, got)]


def length_of(value):
    return len(value) if hasattr(value, "__len__") else 0


def numbers_that_differ(wanted, got):
    """The numbers of elements that differ in two sequences."""
    return [k for k, (one, other) in enumerate(zip(wanted, got)) if not one == other]


def tuple_difference(wanted, got, at):
    """The elements in which two tuples differ."""
    numbers = numbers_that_differ(wanted, got)[:FEW] or [0]
    parts = [difference(wanted[k], got[k], f"{at}[{k}]") for k in numbers]
    return [", ".join(part) for part in zip(*parts)]


def element_difference(wanted, got, at):
    """The first element in which two lists differ; of lists that end there, what follows in the other."""
    for k in numbers_that_differ(wanted, got)[:1]:
        return difference(wanted[k], got[k], f"{at}[{k}]")
    ends = min(len(wanted), len(got))
    return [f"{at} {len(one)} elements, from [{ends}] on {shortened(one[ends:])}".strip() for one in (wanted, got)]


def key_difference(wanted, got, at):
    """The keys in which two dictionaries differ, with their values."""
    keys = sorted({key for key in wanted.keys() | got.keys() if not wanted.get(key) == got.get(key)}, key=str)
    return [f"{at} {shortened({key: one[key] for key in keys if key in one})}".strip() for one in (wanted, got)]


def line_difference(wanted, got, at):
    """The first line in which two texts differ."""
    lines = [one.splitlines() for one in (wanted, got)]
    number = next((k for k, pair in enumerate(zip(*lines)) if pair[0] != pair[1]), min(map(len, lines)))
    shown = [shortened(one[number]) if number < len(one) else "the text has ended" for one in lines]
    return [f"{at} line {number + 1}: {one}".strip() for one in shown]


class Tally(unittest.TestResult):
    """Counts checks that passed and failed, and prints those that failed. A test that made no check has failed."""

    def __init__(self, part):
        super().__init__()
        self.part, self.passed, self.failed = part, 0, 0
        self.at_start, self.skips = 0, set()

    def name_of(self, test):
        """PART.CASE.TEST, or PART.CASE of what its class prepares."""
        said = test.id().split(" [")[0]
        *_, case, name = said.rstrip(")").split(".")
        return f"{self.part}.{name}" if "(" in said else f"{self.part}.{case}.{name}"

    def fail(self, test, said):
        self.failed += 1
        print(f"failed {self.name_of(test)}: {said}", flush=True)

    def startTest(self, test):
        super().startTest(test)
        self.at_start = self.passed + self.failed

    def addSubTest(self, test, subtest, err):
        if err is None:
            self.passed += 1
        else:
            self.addError(test, err)

    def addError(self, test, err):
        is_check = isinstance(err[1], AssertionError) and str(err[1])
        self.fail(test, str(err[1]) if is_check else broken_off(err))

    addFailure = addError

    def addSuccess(self, test):
        if self.passed + self.failed == self.at_start:
            self.fail(test, "it made no check")

    def addSkip(self, test, reason):
        name = self.name_of(test)
        if (name.rpartition(".")[0], reason) not in self.skips:
            self.skips.add((name.rpartition(".")[0], reason))
            print(f"skipped {name}: {reason}", flush=True)


def broken_off(err):
    """What an exception says, and where it came from: the last line of the tests, and the line that raised it."""
    kind, fault, trace = err
    frames = [frame for frame in traceback.extract_tb(trace) if "/unittest/" not in frame.filename]
    own = [frame for frame in frames if "/tests/" in frame.filename] or frames
    lines = (f"{Path(one.filename).name}:{one.lineno} `{one.line}`" for one in own[-1:] + frames[-1:])
    said = " ".join(str(fault).split())
    places = ", ".join(dict.fromkeys(lines))
    return f"it was broken off\n    by:     {kind.__name__}: {said[:2 * SHOWN]}\n    at:     {places}"
