"""The launcher, in a small repository with a kit that is a few lines of shell: when it builds, what it tells, and what
it hands on."""

import os
import re
import shutil

from .product import ran
from .tool_case import TOP, ToolCase

# Notes each crate that it proves. `rt ci` makes a program that prints its words, and ends with 7 for `check`, 2 for
# `demo` and 0 for others.
KIT = """#!/usr/bin/env bash
if [[ $1 == version ]]; then echo "a kit"; exit 0; fi
if [[ $1 == try ]]; then
  echo "${PWD##*/} try" >>"$CALLS"
  [[ "$*" == "try -- synth 1" ]] || echo "${*:2}" >>"$CALLS"
  cat
  exit 0
fi
compgen -G "crates/*/must-fail" >>"$CALLS"
while IFS=": " read -r crate _; do
  echo "$crate $1" >>"$CALLS"
  [[ -e crates/$crate/src/broken ]] && { echo "error: no proof"; echo "rt: $crate NOT PROVED"; exit 1; }
  [[ -e $KEPT && -z ${2-} ]] && { echo "rt: $crate is kept"; continue; }
  printf '%s\\n' "== $crate" logic=proved "rt: $crate proved"
done <crates.txt
mkdir -p crates/synth_cli/out
cat >crates/synth_cli/out/synth_cli <<'END'
#!/usr/bin/env bash
echo "$@"
[[ $1 == check ]] && exit 7
[[ $1 == demo ]] && echo usage >&2 && exit 2
exit 0
END
chmod +x crates/synth_cli/out/synth_cli
"""
# Stands for tools/library and tools/program: writes its words into the files that it has to make.
MAKER = """#!/usr/bin/env bash
echo "${0##*/} $*" >>"$CALLS"
[[ $PWD == */top ]] && exit 1
for file in gaffcurrant libgaffcurrant.a; do echo "$3" >"$4/$file"; done
"""
# Stands for tools/packaging/hand_on.py: prints its words, and what was made.
HAND_ON = """import sys
from pathlib import Path
made = sorted(str(path) for path in Path("made").rglob("*") if path.is_file()) if "--made" in sys.argv else ()
print(*sys.argv[1:3], *made)
"""
CRATES = """# lowest first
low: itoa
middle tests_may=Threads: low
aside: low
controller_c staticlib: low
synth_cli: middle low
"""
VERSION = "gaffcurrant 4.5.6\ncommit: not known: the sources aren't a clone of the repository\nkit: a kit\n"
BUILDS = ["low ci", "middle ci", "synth_cli ci"]
GCC = "aarch64-linux-gnu-gcc"
WHOLE = ["low ci", "middle ci", "controller_c ci", "synth_cli ci"]
LIBRARY, BOARD = "library --standing --target x86_64 made/x86_64 --jobs ", [
    "library --standing --target aarch64 made/aarch64 --jobs ",
    "program --standing --target aarch64 made/aarch64 --jobs ",
]


class Small:
    """A repository with three crates below the launcher, and one beside them."""

    def __init__(self, room):
        self.room, self.top = room, room / "top"
        self.calls, self.kept = room / "calls", room / "kept"
        for crate in ("low", "middle", "aside", "controller_c", "synth_cli"):
            self.write(f"crates/{crate}/src/lib.rt", crate)
        (self.top / "crates/low/must-fail").mkdir()
        self.write("crates/low/specs/Lib.antt", "specs")
        self.write("HANDLES", "Handles allowed: none.\n")
        self.write("crates.txt", CRATES)
        self.write("crates.seconds", "# crate, seconds\nlow 100\nmiddle 200\nsynth_cli 60\n")
        self.write("examples/line/line.plant", "a plant\n")
        self.write("CITATION.cff", "cff-version: 1.2.0\nversion: 4.5.6\n")
        shutil.copy(TOP / "gaffcurrant", self.top)
        self.write("tools/packaging/hand_on.py", HAND_ON)
        shutil.copy(TOP / "tools/packaging/verdicts.py", self.top / "tools/packaging")
        (self.top / "tools/runtime").mkdir()
        for path, text in (
            ("tools/library", MAKER),
            ("tools/program", MAKER),
            ("../kit/rt", KIT),
            (f"../kit/{GCC}", ""),
        ):
            self.write(path, text).chmod(0o755)

    def write(self, name, text):
        path = self.top / name
        path.parent.mkdir(parents=True, exist_ok=True)
        path.write_text(text)
        return path

    def run(self, *words, top=None, data=""):
        """Status, output, error, and the calls of the kit."""
        self.calls.write_text("")
        own = {"CALLS": str(self.calls), "KEPT": str(self.kept), "GIT_CEILING_DIRECTORIES": str(self.room)}
        environment = os.environ | own | {"PATH": f"{self.room / 'kit'}:{os.environ['PATH']}"}
        answer = ran((top or self.top) / "gaffcurrant", *words, env=environment, input=data)
        return *answer, self.calls.read_text().splitlines()

    def built(self, **more):
        """Whether a call that succeeds has built anew; else its answer."""
        status, output, error, calls = self.run("synth", "1", **more)
        if (status, output) != (0, "synth 1\n") or calls not in ([], BUILDS):
            return status, output, error, calls
        return bool(calls)


class LauncherCase(ToolCase):
    """Each test has a small repository of its own."""

    def setUp(self):
        room = self.folder / self._testMethodName
        room.mkdir()
        self.small = Small(room)


class Unbuilt(LauncherCase):
    """Before anything is built: forms are told at once, and a look proves nothing."""

    def test_words(self):
        for words, wanted, first in (
            (["--help"], 0, "forms:"),
            (["-h"], 0, "forms:"),
            (["solve"], 2, "usage"),
            ([], 2, "usage"),
            (["--look", "solve"], 2, "usage"),
        ):
            status, output, error, calls = self.small.run(*words)
            self.equal(f"launcher {words}", (wanted, "", first, []), (status, output, error.split("\n")[0], calls))
            self.holds(f"launcher {words} tells the forms", "sim N SEED X1 .. Xm" in error)

    def test_look(self):
        status, output, error, calls = self.small.run("--look")
        self.equal("launcher --look", (0, "a plant\n", ["synth_cli try"]), (status, output, calls))
        is_said = error.count("proved") == 2 and "not proved" in error
        self.holds("launcher --look says that nothing is proved", is_said, error)

    def test_look_with_words(self):
        status, output, error, calls = self.small.run("--look", "stay", "2", data="my plant\n")
        wanted = (0, "my plant\n", ["synth_cli try", "-- stay 2"])
        self.equal("launcher --look with words", wanted, (status, output, calls))
        is_said = error.count("proved") == 2 and "./gaffcurrant stay 2 proves" in error
        self.holds("launcher --look with words says that nothing is proved", is_said, error)

    def test_version(self):
        said = VERSION + "program: not built yet: the first command proves and builds it\n"
        self.equal("launcher --version before a build", (0, said, "", []), self.small.run("--version"))

    def test_forms_are_those_of_formats(self):
        kinds = "plant text|table text|not read|[^|]*script[^|]*"
        formats, script = (TOP / "docs/FORMATS.md").read_text(), (TOP / "gaffcurrant").read_text()
        rows = re.findall(rf"^\| `(\w+[^`]*)`(?:, [^|]*)? \| (?:{kinds}) \|", formats, re.M)
        told = [re.split(r" [<>]|  ", line)[0] for line in re.findall(r"^  \./gaffcurrant (\w.*)$", script, re.M)]
        self.equal("the launcher's forms are those of FORMATS", sorted(rows), sorted(told))


class FirstBuild(LauncherCase):
    """The first build, and what is told behind it."""

    def setUp(self):
        super().setUp()
        self.answer = self.small.run("synth", "1")

    def test_order_and_progress(self):
        """Its order, how far it is, and the time that is left by the known seconds."""
        status, output, error, calls = self.answer
        self.equal("launcher proves what the program stands on", (0, "synth 1\n", BUILDS), (status, output, calls))
        told = re.findall(r"(\d) of (\d) crates, about (\d+) minutes? left; (.*)", error)
        # 100 + 200 + 60 seconds of one processor.
        whole = -(-360 // (60 * len(os.sched_getaffinity(0))))
        wanted = [("0", "3", str(whole), "the first are being proved"), ("1", "3", "low is proved")]
        wanted += [("2", "3", "middle is proved"), ("3", "3", "0", "synth_cli is proved")]
        got = told[:1] + [(done, of, what) for done, of, _, what in told[1:-1]] + told[-1:]
        self.equal("launcher tells how far it is", wanted, got)

    def test_version(self):
        said = VERSION + "program: proved, and built from these sources\n"
        self.equal("launcher --version behind a build", (0, said, "", []), self.small.run("--version"))

    def test_full_device(self):
        status, _, error, _ = self.small.run("check")
        self.equal("launcher at a full device", (7, 1), (status, error.count("\n")))
        self.holds("launcher tells a full device", "device is full" in error, error)

    def test_usage(self):
        status, output, error, _ = self.small.run("demo", "0")
        self.equal("launcher hands on usage", (2, "demo 0\n", "usage"), (status, output, error.split("\n")[0]))
        self.holds("launcher tells the forms behind usage", "demo N W" in error)


class Rebuilds(LauncherCase):
    """The same content is never built twice, and other content always."""

    def setUp(self):
        super().setUp()
        self.small.run("synth", "1")
        self.source = self.small.top / "crates/low/src/lib.rt"
        self.specs = self.small.top / "crates/low/specs/Lib.antt"
        self.record = self.small.top / "crates/synth_cli/out/synth_cli.built_from"

    def test_same_content_does_not_build(self):
        self.equal("a second call doesn't build", False, self.small.built())
        self.source.touch()
        self.equal("touched files don't build", False, self.small.built())
        renewed = self.record.read_text()
        self.equal("the record is renewed once", (False, renewed), (self.small.built(), self.record.read_text()))
        self.specs.write_text("other")
        self.specs.write_text("specs")
        self.equal("a change that was taken back doesn't build", False, self.small.built())

    def test_copied_repository_does_not_build(self):
        copied = self.small.room / "copied"
        shutil.copytree(self.small.top, copied, copy_function=shutil.copyfile)
        for program in ("gaffcurrant", "crates/synth_cli/out/synth_cli"):
            (copied / program).chmod(0o755)
        self.equal("a copied repository doesn't build", False, self.small.built(top=copied))

    def test_crate_beside_the_program_does_not_build(self):
        self.small.write("crates/aside/src/lib.rt", "other")
        self.small.write("crates.txt", CRATES + "# a comment\nnew: low\n")
        self.equal("a crate that isn't below the program doesn't build", False, self.small.built())

    def test_other_content_builds_once(self):
        more = CRATES.replace("low: itoa", "low: rayon")
        for what, change in (
            ("a source", lambda: self.source.write_text("other")),
            ("a source taken back", lambda: self.source.write_text("low")),
            ("a definition", lambda: self.specs.write_text("other")),
            ("a file less", self.specs.unlink),
            ("a dependency more", lambda: self.small.write("crates.txt", more)),
            ("no record", self.record.unlink),
        ):
            change()
            self.equal(f"{what} builds once", (True, False), (self.small.built(), self.small.built()))

    def test_other_bytes_of_same_size_and_time_build(self):
        times = self.source.stat()
        self.source.write_text("wol")
        os.utime(self.source, ns=(times.st_atime_ns, times.st_mtime_ns))
        self.equal("other bytes of the same size and time build", True, self.small.built())

    def test_failed_proof(self):
        """A crate that isn't proved ends the build, and the next call tries again."""
        broken = self.small.write("crates/middle/src/broken", "")
        for _ in range(2):
            status, output, error, calls = self.small.run("synth", "1")
            self.equal("launcher at a failed proof", (70, "", BUILDS[:2]), (status, output, calls))
            is_told = all(said in error for said in ("no proof\n", "middle NOT PROVED\n", "wasn't built"))
            self.holds("launcher tells the failed proof", is_told, error)
        broken.unlink()
        self.equal("launcher behind a failed proof", False, self.small.built())
        self.small.write("crates/middle/src/lib.rt", "mended")
        self.equal("launcher behind a mended proof", (True, False), (self.small.built(), self.small.built()))


class HandOn(LauncherCase):
    """What is installed and archived is made of proved crates; an archive knows what the proofs said of each, or has
    them proved anew."""

    def setUp(self):
        super().setUp()
        self.place = self.small.room / "a place"
        self.verdicts = self.small.top / "crates.verdicts"

    def test_words(self):
        for words in (
            ["--install"],
            ["--archive"],
            ["--uninstall"],
            ["--target", "aarch64"],
            ["--target", "arm", self.place],
            ["--install", self.place, self.place],
        ):
            status, output, error, calls = self.small.run(*words)
            got = (status, output, error.split("\n")[0], calls)
            self.equal(f"launcher {list(map(str, words))}", (2, "", "usage", []), got)

    def test_uninstall(self):
        wanted = (0, f"uninstall {self.place}\n", "", [])
        self.equal("launcher --uninstall", wanted, self.small.run("--uninstall", self.place))

    def test_install_and_archive(self):
        """A line of the proofs of each crate is kept, and made again where it is missing."""
        made = "made/x86_64/gaffcurrant made/x86_64/libgaffcurrant.a made/x86_64/library.log"
        status, output, _, calls = self.small.run("--install", self.place)
        wanted = (0, f"install {self.place} {made}\n", [*WHOLE, LIBRARY])
        self.equal("launcher --install", wanted, (status, output, without_jobs(calls)))
        lines = [" ".join(line.split()[::2]) for line in self.verdicts.read_text().splitlines()]
        self.equal("lines of the proofs", [f"{call.split()[0]} logic=proved" for call in WHOLE], lines)
        self.small.kept.write_text("")
        board = ("gaffcurrant", "libgaffcurrant.a", "library.log", "program.log")
        made = f"{' '.join(f'made/aarch64/{name}' for name in board)} {made}"
        status, output, _, calls = self.small.run("--archive", self.place)
        wanted = (0, f"archive {self.place} {made}\n", [*WHOLE, LIBRARY, *BOARD])
        self.equal("launcher --archive of what was proved", wanted, (status, output, without_jobs(calls)))
        self.equal("lines of kept proofs stay", 4, self.verdicts.read_text().count("\n"))
        self.verdicts.write_text("".join(self.verdicts.read_text().splitlines(True)[1:]))
        self.equal("launcher --install without a line", WHOLE, self.small.run("--install", self.place)[3][:4])
        self.equal("a line that isn't known", 3, self.verdicts.read_text().count("\n"))
        self.equal("launcher --archive without a line", 0, self.small.run("--archive", self.place)[0])
        self.equal("proved anew", 4, self.verdicts.read_text().count("\n"))

    def test_target(self):
        status, output, _, calls = self.small.run("--target", "aarch64", self.place)
        wanted = (0, f"{self.place}/gaffcurrant\n", [*BUILDS, BOARD[1]], "aarch64\n")
        got = (status, output, without_jobs(calls), (self.place / "gaffcurrant").read_text())
        self.equal("launcher --target", wanted, got)

    def test_failed_proof(self):
        self.small.write("crates/low/src/broken", "")
        status, output, _, calls = self.small.run("--install", self.place)
        self.equal("launcher --install at a failed proof", (70, "", ["low ci"]), (status, output, calls))

    def test_library_that_is_not_made(self):
        self.small.write("tools/library", "#!/bin/sh\necho no library\nexit 3\n")
        status, output, error, _ = self.small.run("--install", self.place)
        self.equal("launcher --install without its library", (70, "", True), (status, output, "no library\n" in error))


def without_jobs(calls):
    return [re.sub(r"(--jobs )\d+$", r"\1", call) for call in calls]
