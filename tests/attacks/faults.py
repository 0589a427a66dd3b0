"""Each call of the program to the system fails in turn, and each ends the run as it has to."""

import os
import shutil
import subprocess
import tempfile
from pathlib import Path

from . import oracle
from .program import FORMS, PLANT, Form, differs, refusal

SOURCE = Path(__file__).resolve().with_name("faults.c")
MALFORMED = Form("synth 1", PLANT[:-4], oracle.synth)


class Shim:
    """The library that is preloaded, built when it is first asked for."""

    def __init__(self, program):
        self.program = program
        self.path = program.path.with_name("faults.so")

    def build(self):
        compiler = shutil.which("cc") or shutil.which("gcc") or shutil.which("clang")
        if compiler is None:
            return False
        subprocess.run([compiler, "-O2", "-shared", "-fPIC", "-o", self.path, SOURCE, "-ldl"], check=True)
        return True

    def end(self, form, faults=""):
        """How a run ends under faults, and how often it called each kind."""
        with tempfile.TemporaryFile("w+b") as tally:
            more = {"LD_PRELOAD": str(self.path), "FAULTS_COUNT": str(tally.fileno()), "FAULTS": faults}
            got = self.program.end(form.words, form.text, env=dict(os.environ, **more), pass_fds=[tally.fileno()])
            tally.seek(0)
            calls = {kind.decode(): int(number) for kind, number in map(bytes.split, tally.read().splitlines())}
        return got, calls


def is_allowed(kind, want, got):
    """What is wrong with an end under faults of a kind, or None."""
    if kind == "alloc":
        return refusal(want, got, 8, b"no memory\n")
    if kind == "read" and got == (6, b"", b"read fault\n"):
        return None
    if kind == "write" and got[0] == 7 and got[2] == b"" and want[1].startswith(got[1]) and got[1] != want[1]:
        return None
    if kind == "error" and got[:2] == want[:2] and want[2].startswith(got[2]):
        return None
    return differs(want, got)


# The calls that fail one by one, what else befalls each such run, and the kind that says how it may end.
SINGLY = [
    ("alloc", "", ""),
    ("alloc", "+", ""),
    ("thread", "", ""),
    ("thread", "+", ""),
    ("short_read", "", ""),
    ("short_write", "", ""),
    ("read", "", ""),
    ("read", "+", ""),
    ("write", "", ""),
    ("write", "+", ""),
    ("read", "", "short_read:1+,"),
    ("write", "", "short_write:1+,"),
    ("alloc", "", "thread:1+,"),
    ("alloc", "", "short_read:1+,short_write:1+,"),
]
ALL = ["short_read:1+", "short_write:1+", "short_read:1+,short_write:1+,thread:1+"]


def cases(program):
    shim = Shim(program)
    if not shim.build():
        print("skipped faults: there is no C compiler")
        return
    for form in FORMS:
        for kind, behind, beside in SINGLY:
            yield f"{form.name}: {beside}{kind}:N{behind}", one_by_one(shim, form, kind, behind, beside)
        for faults in ALL:
            yield f"{form.name}: {faults}", whole(shim, form, faults)
    for beside in ("", "short_error:1+,"):
        yield f"a malformed text: {beside}error:N", one_by_one(shim, MALFORMED, "error", "", beside)
    yield "a malformed text: short_error:1+", whole(shim, MALFORMED, "short_error:1+")


def one_by_one(shim, form, kind, behind, beside):
    """The first call of a kind fails, then the second, until a run comes to its end before the call that is to fail."""

    def judge():
        want = form.want()
        number = 0
        while True:
            number += 1
            faults = f"{beside}{kind}:{number}{behind}"
            got, calls = shim.end(form, faults)
            wrong = is_allowed(kind, want, got)
            if wrong or not calls:
                return f"under {faults}: {wrong or 'the calls were not counted'}"
            if calls[kind.removeprefix("short_")] < number:
                return differs(want, got)

    return judge


def whole(shim, form, faults):
    def judge():
        wrong = differs(form.want(), shim.end(form, faults)[0])
        return wrong and f"under {faults}: {wrong}"

    return judge
