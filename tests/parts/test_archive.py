"""What is handed on: the tree of --install and its list, archives of the same bytes, and their use without the kit, by
a user who isn't root, below a path with a blank; manual pages, completion, and the lines of the proofs."""

import hashlib
import importlib.util
import json
import os
import re
import shutil
import stat
import subprocess
import sys
import tarfile
import unittest
from pathlib import Path

from .product import ran
from .tool_case import TOP, ToolCase

PACKAGING = TOP / "tools/packaging"
TOOLS = ("between", "check", "conform", "diff", "header", "lint", "page", "picture", "scale", "sim", "sweep", "why")
CALLS = ("begin_turn", "close", "control", "control_each", "follows", "open", "rank", "sizes", "version", "visit")
# Some of what is installed.
INSTALLED = [
    "bin/gaffcurrant",
    *(f"bin/gaffcurrant-{tool}" for tool in TOOLS),
    "include/gaffcurrant.h",
    "lib/libgaffcurrant.a",
    "lib/libgaffcurrant.so",
    "lib/pkgconfig/gaffcurrant.pc",
    "share/man/man1/gaffcurrant.1",
    "share/man/man1/gaffcurrant-why.1",
    "share/man/man3/gaffcurrant.3",
    "share/bash-completion/completions/gaffcurrant-why",
    "share/doc/gaffcurrant/docs/GUIDE.md",
    "share/doc/gaffcurrant/examples/line/line.plant",
]
NOBODY = 65534
LINE = "logic=proved functions=3 sum=0123 logic-built=trusted"
# Opens a text by Python's Controller, as a user's own program does.
OPENS = """import sys
from gaffcurrant_plant import Controller
with Controller(open(sys.argv[1], "rb").read()) as controller:
    print(controller.is_proved, controller.choice([20, 0]))
"""
# Writes the documents and the header into a folder.
WRITES = """import sys, tree
tree.write(tree.documents() | {tree.HEADER: tree.File(b"")}, tree.Path(sys.argv[1]))
"""
# The path of a relative link, without what follows it.
LINK = re.compile(r"\]\((?!https?:|mailto:)([^()\s#]+)")
MISSING = [program for program in ("rt", "cc", "ar", "tar", "xz") if shutil.which(program) is None]


def below(folder):
    """Paths of files and links, and of folders with a stroke at the end, below a folder."""
    paths = ((path, "/" if path.is_dir() and not path.is_symlink() else "") for path in folder.rglob("*"))
    return sorted(f"{path.relative_to(folder)}{end}" for path, end in paths)


@unittest.skipIf(MISSING, f"nothing is installed or archived, there is no {', '.join(MISSING)}")
class HandedOn(ToolCase):
    """What is built is handed on: it lies in the folder `made`, and the lines of the proofs in `verdicts`."""

    @classmethod
    def setUpClass(cls):
        super().setUpClass()
        cls.folder.chmod(0o755)
        made = cls.folder / "made/x86_64"
        made.mkdir(parents=True)
        shutil.copy(cls.program, made / "gaffcurrant")
        kept = ["--standing"] if (TOP / "crates/text_control/out/rlib/text_control.rlib").exists() else []
        status, output, error = ran(TOP / "tools/library", *kept, made, "--jobs", "1")
        if status:
            raise RuntimeError(f"tools/library: {error[-300:]}")
        (made / "library.log").write_text(output + error)
        spec = importlib.util.spec_from_file_location("verdicts", PACKAGING / "verdicts.py")
        verdicts = importlib.util.module_from_spec(spec)
        spec.loader.exec_module(verdicts)
        cls.placed("verdicts", f"base {verdicts.sums(TOP)['base']} {LINE}\n")
        cls.make_archives()
        cls.unpack()

    @classmethod
    def hand_on(cls, *words, **more):
        """Status, output and error of the program that installs and archives."""
        given = ["--made", cls.folder / "made", "--verdicts", cls.folder / "verdicts"]
        given = given if words[0] != "uninstall" else []
        return ran(sys.executable, PACKAGING / "hand_on.py", *words, *given, cwd=TOP, **more)

    @classmethod
    def make_archives(cls):
        """Makes them twice, at other times and by another mask."""
        cls.archived, cls.sums = [], []
        for number, (mask, zone) in enumerate(((0o022, "UTC"), (0o077, "Asia/Tokyo"))):
            cls.archives = cls.folder / f"archives {number}"
            cls.archived.append(cls.hand_on("archive", cls.archives, umask=mask, env=os.environ | {"TZ": zone}))
            files = {path.name: path.read_bytes() for path in cls.archives.iterdir()}
            cls.sums.append({name: hashlib.sha256(data).hexdigest() for name, data in files.items()})
        cls.archive = next(cls.archives.glob("gaffcurrant-*-x86_64-linux.tar.xz"))

    @classmethod
    def unpack(cls):
        """Unpacks an archive for a user without the kit, below a path with a blank."""
        cls.place, cls.home = cls.folder / "a place", cls.folder / "home"
        cls.place.mkdir()
        cls.home.mkdir()
        folders = [folder for folder in os.environ["PATH"].split(":") if not (Path(folder) / "rt").exists()]
        is_root = os.geteuid() == 0
        drop = ["setpriv", f"--reuid={NOBODY}", f"--regid={NOBODY}", "--clear-groups"]
        cls.drop = drop if is_root and shutil.which("setpriv") else []
        if cls.drop:
            # Python's own folders may be root's alone.
            folders = ["/usr/bin", "/bin"]
            for folder in (cls.place, cls.home):
                os.chown(folder, NOBODY, NOBODY)
        elif is_root:
            print("skipped archive.HandedOn: there is no setpriv, so the archive is used by root", flush=True)
        cls.users = {"PATH": ":".join(folders), "HOME": str(cls.home), "LC_ALL": "C.UTF-8"}
        # What was made by a strict mask, others can't read.
        readable = cls.folder / cls.archive.name
        shutil.copyfile(cls.archive, readable)
        readable.chmod(0o644)
        cls.unpacked = cls.user_runs("tar", "-xf", readable)
        cls.top = cls.place / cls.archive.name[: -len(".tar.xz")]
        cls.gate = cls.user_runs(cls.top / "bin/gaffcurrant", "synth", 2, data=cls.plant_text("gate"))[1]
        (cls.place / "gate.table").write_text(cls.gate)

    @classmethod
    def user_runs(cls, *words, data=b"", **more):
        done = subprocess.run(
            [*cls.drop, *map(str, words)],
            input=data,
            capture_output=True,
            check=False,
            cwd=cls.place,
            env=cls.users | more,
        )
        return done.returncode, done.stdout.decode("utf-8", "replace"), done.stderr.decode("utf-8", "replace")

    def install(self, stage):
        """Installs into a new tree; answers the folder, and what the program said."""
        top = self.folder / stage / "opt/a place"
        (top / "bin").mkdir(parents=True)
        (top / "bin/own").write_text("own")
        return top, self.staged(stage, "install")

    def staged(self, stage, word):
        return self.hand_on(word, "/opt/a place", umask=0o077, env=os.environ | {"DESTDIR": str(self.folder / stage)})

    def test_install(self):
        """What is installed is what the list tells, with its modes."""
        top, answer = self.install("listed")
        self.equal("installed", (0, f"{top}/bin/gaffcurrant\n", ""), answer)
        listed = (top / "lib/gaffcurrant/files").read_text().splitlines()
        self.equal("the list", below(top), sorted([*listed, "bin/", "bin/own"]))
        ours = [path for path in top.rglob("*") if not path.is_symlink() and path.name not in ("bin", "own")]
        self.equal("modes", {0o644, 0o755}, {stat.S_IMODE(path.lstat().st_mode) for path in ours})
        for name in INSTALLED:
            self.holds(f"{name} is installed", (top / name).exists())
        self.equal("no more tools", len(TOOLS) + 2, len(os.listdir(top / "bin")))
        self.equal("installed again", 0, self.staged("listed", "install")[0])
        self.equal("the list again", listed, (top / "lib/gaffcurrant/files").read_text().splitlines())
        path = {"PYTHONPATH": str(top / "lib/gaffcurrant")}
        self.equal("the module", 0, ran(sys.executable, "-c", "import gaffcurrant_plant", env=path)[0])

    def test_uninstall(self):
        """What was installed is taken away, and nothing else is."""
        top, _ = self.install("taken")
        (top / "share/man/man1/other.1").write_text("own")
        (top / "bin/gaffcurrant-why").unlink()
        self.equal("taken away", (0, "", ""), self.staged("taken", "uninstall"))
        left = ["bin/", "bin/own", "share/", "share/man/", "share/man/man1/", "share/man/man1/other.1"]
        self.equal("what is left", left, below(top))
        status, output, error = self.staged("taken", "uninstall")
        self.equal("taken away twice", (1, "", 1), (status, output, error.count("\n")))

    def test_files_that_are_not_its_own(self):
        top = self.folder / "own/opt/a place"
        (top / "bin").mkdir(parents=True)
        (top / "bin/gaffcurrant").write_text("own")
        status, output, error = self.staged("own", "install")
        got = (status, output, error.count("\n"), (top / "bin/gaffcurrant").read_text())
        self.equal("over a file that isn't its own", (1, "", 1, "own"), got)

    def test_wrong_lists(self):
        top, stage = self.folder / "wrong/opt/a place", self.folder / "wrong"
        (top / "bin").mkdir(parents=True)
        (top / "bin/own").write_text("own")
        (top / "lib/gaffcurrant").mkdir(parents=True)
        for path in ("../own", "/own", "bin/../../own"):
            (stage / "opt/own").write_text("own")
            (top / "lib/gaffcurrant/files").write_text(f"bin/own\n{path}\n")
            status, output, error = self.staged("wrong", "uninstall")
            is_left = (stage / "opt/own").exists() and (top / "bin/own").exists()
            self.equal(f"a list with {path}", (1, "", 1, True), (status, output, error.count("\n"), is_left))

    def manual(self):
        return {path.name: path.read_text() for path in (self.top / "share/man").rglob("*.[13]")}

    def test_manual_pages(self):
        """Pages of the program, of each tool with its options, and of each call of the header."""
        pages = self.manual()
        names = ["gaffcurrant.1", "gaffcurrant.3", *(f"gaffcurrant-{tool}.1" for tool in TOOLS)]
        names += [f"gaffcurrant_{call}.3" for call in CALLS]
        self.equal("manual pages", sorted(names), sorted(pages))
        for name, text in pages.items():
            has_parts = all(f"\n.SH {part}\n" in text for part in ("NAME", "SYNOPSIS", "SEE ALSO"))
            self.holds(f"{name} has its parts", text.startswith(".TH ") and has_parts)
        for tool in TOOLS:
            options = set(re.findall(r"(?:^  | )(--[a-z-]+)", self.tool(tool, "--help")[1], re.M))
            shown = pages[f"gaffcurrant-{tool}.1"].replace("\\-", "-")
            lacking = {option for option in options if option not in shown}
            self.equal(f"options of gaffcurrant-{tool}.1", set(), lacking)
        page, call = (
            pages["gaffcurrant.1"],
            "int32_t gaffcurrant_open(struct gaffcurrant *controller, const uint8_t *bytes",
        )
        has_forms = "\n.B gaffcurrant synth W < PLANT > TABLE\n" in page and "install" not in page
        self.holds("the forms in gaffcurrant.1", has_forms)
        self.holds("the call in gaffcurrant_open.3", call in pages["gaffcurrant_open.3"])

    @unittest.skipUnless(shutil.which("man"), "manual pages aren't laid out, there is no man")
    def test_manual_pages_are_laid_out(self):
        laid_out = os.environ | {"MANWIDTH": "200", "LC_ALL": "C.UTF-8"}
        for path in (self.top / "share/man").rglob("*.[13]"):
            status, _, error = ran("man", "--warnings", "-l", path, env=laid_out)
            self.equal(f"{path.name} is laid out", (0, ""), (status, error))

    def test_completion(self):
        """Words of the program and options of a tool, by bash."""
        complete = 'COMP_WORDS=("$@"); COMP_CWORD=$(($# - 1)); _gaffcurrant "$1"; echo "${COMPREPLY[@]}"'
        for words, wanted in (
            (["gaffcurrant", "s"], "synth stay sim"),
            (["gaffcurrant", "--v"], "--version"),
            (["gaffcurrant", "synth", ""], ""),
            (["gaffcurrant-why", "--de"], "--deep"),
            (["gaffcurrant-page", "-o"], "-o"),
            (["gaffcurrant-why", "x"], ""),
        ):
            script = self.top / "share/bash-completion/completions" / words[0]
            command = ["bash", "-c", f'. "$0"; {complete}', script, self.top / "bin" / words[0], *words[1:]]
            self.equal(f"completion of {words}", (0, f"{wanted}\n", ""), ran(*command))

    def test_archives(self):
        """Made twice they have the same bytes, and the sums are right."""
        for status, output, error in self.archived:
            self.equal("made", (0, 3, ""), (status, output.count("\n"), error))
        self.equal("two runs", *self.sums)
        lines = (self.archives / "SHA256SUMS").read_text().splitlines()
        wanted = {name: of for name, of in self.sums[0].items() if name != "SHA256SUMS"}
        self.equal("SHA256SUMS", wanted, dict(reversed(line.split("  ")) for line in lines))

    def test_proof(self):
        page, program = (self.archives / "PROOF").read_text(), self.program.read_bytes()
        self.holds("PROOF has the line that is known", f"    base {LINE}\n" in page)
        self.holds("PROOF tells the lines that aren't", "    synth_cli no line: an earlier run" in page)
        line = f"{hashlib.sha256(program).hexdigest()}  gaffcurrant (x86_64)\n"
        self.holds("PROOF has the sum of the program", line in page)
        trusted = "- The Rattle kit: its logic, its prover" in page
        is_told = trusted and "tools/runtime/heap.c" in page.split("## What is trusted")[1]
        self.holds("PROOF has what is trusted", is_told)

    def test_members(self):
        with tarfile.open(self.archive) as tar:
            members = tar.getmembers()
        owners, times = {(one.uid, one.gid) for one in members}, {one.mtime for one in members}
        modes = {one.mode for one in members if not one.issym()}
        self.equal("owners, modes and times", ({(0, 0)}, {0o644, 0o755}, 1), (owners, modes, len(times)))

    def test_unpacked(self):
        self.equal("no kit", None, shutil.which("rt", path=self.users["PATH"]))
        self.equal("unpacked", (0, "", ""), self.unpacked)

    def test_version(self):
        """--version of an unpacked archive says what PROOF does."""
        page = (self.top / "share/doc/gaffcurrant/PROOF").read_text()
        facts = dict(re.findall(r"^\| (\w+) \| (.*) \|$", page, re.M))
        wanted = (
            f"gaffcurrant {facts['version']}\ncommit: {facts['commit']}\nkit: {facts['kit']}\n"
            "program: proved, for Linux on x86_64; share/doc/gaffcurrant/PROOF has the verdicts\n"
        )
        self.equal("--version", (0, wanted, ""), self.user_runs(self.top / "bin/gaffcurrant", "--version"))

    def test_help(self):
        status, output, error = self.user_runs(self.top / "bin/gaffcurrant", "--help")
        guide = f"{self.top}/share/doc/gaffcurrant/docs/GUIDE.md"
        is_told = "\n  gaffcurrant synth W" in error and "--look" not in error and guide in error
        self.holds("--help", status == 0 and output == "" and is_told, error)

    def test_solves(self):
        """The text of an example is that of the repository's program."""
        for word, name in (("synth", "gate"), ("stay", "boost_stay"), ("patrol", "docks")):
            plant = (self.top / "share/doc/gaffcurrant/examples" / name / f"{name}.plant").read_bytes()
            answer = self.user_runs(self.top / "bin/gaffcurrant", word, 2, data=plant)
            self.equal(f"{word} of {name}", (0, self.solved(word, plant).decode(), ""), answer)

    def test_checks_and_runs(self):
        gaffcurrant, gate = self.top / "bin/gaffcurrant", self.gate.encode()
        self.equal("check", (0, "valid\n", ""), self.user_runs(gaffcurrant, "check", data=gate))
        answer = self.user_runs(gaffcurrant, "check", data=gate[:-5])
        self.equal("check of a cut table", (3, ""), answer[:2])
        status, trace, _ = self.user_runs(gaffcurrant, "sim", 100, 1, 20, 0, data=gate)
        has_arrived = status == 0 and trace.splitlines()[-1].startswith("arrived ")
        self.holds("sim", has_arrived, trace[-100:])
        status, output, error = self.user_runs(gaffcurrant, "solve")
        self.equal("another word", (2, "", "usage"), (status, output, error.split("\n")[0]))

    def test_tools(self):
        patrol = self.place / "docks.patrol"
        patrol.write_bytes((TOP / "examples/docks/docks.patrol").read_bytes())
        answer = self.user_runs(self.top / "bin/gaffcurrant-check", patrol)
        self.equal("the tools find the program", (0, "valid\n", ""), answer)
        table = self.place / "gate.table"
        self.equal("why", 0, self.user_runs(self.top / "bin/gaffcurrant-why", table, 20, 0)[0])
        page = self.place / "gate.html"
        status, _, error = self.user_runs(self.top / "bin/gaffcurrant-page", table, "-o", page)
        self.equal("page", (0, "", True), (status, error, page.exists() and page.stat().st_size > 90000))

    def test_header(self):
        """A header of a table, and the C of examples/device."""
        status, output, error = self.user_runs(self.top / "bin/gaffcurrant-header", self.place / "gate.table")
        (self.place / "table.h").write_text(output)
        self.equal("header", (0, ""), (status, error))
        main = self.top / "share/doc/gaffcurrant/examples/device/main.c"
        command = ["cc", "-std=c99", "-O2", "-Wall", f"-I{self.place}", main, "-o", self.place / "control"]
        self.equal("control.c is compiled", (0, "", ""), self.user_runs(*command))
        answer = self.user_runs(self.place / "control", data=b"20 0\n")
        self.equal("control.c at 20 0", (0, "100\n", ""), answer)

    def words_of_library(self):
        """The words for a compiler, by pkg-config, or by the variables that it would read."""
        folder = self.top / "lib/pkgconfig"
        if shutil.which("pkg-config", path=self.users["PATH"]):
            path = {"PKG_CONFIG_PATH": str(folder)}
            status, words, error = self.user_runs("pkg-config", "--cflags", "--libs", "gaffcurrant", **path)
            self.equal("pkg-config", (0, ""), (status, error))
            citation = (TOP / "CITATION.cff").read_text()
            version = re.search(r"^version: (\S+)$", citation, re.M).group(1)
            got = self.user_runs("pkg-config", "--modversion", "gaffcurrant", **path)[1]
            self.equal("pkg-config tells the version", f"{version}\n", got)
            return words.strip()
        self.left_out("there is no pkg-config, so gaffcurrant.pc is read by the tests")
        return read_by_hand(folder)

    def test_library(self):
        """The README's program in C, against the shared object and the archive."""
        readme = (self.top / "share/doc/gaffcurrant/examples/device/README.md").read_text()
        blocks = re.findall(r"```c\n(.*?)```", readme, re.DOTALL)
        (self.place / "sample.c").write_text(next(code for code in blocks if "gaffcurrant.h" in code))
        include, lib = json.dumps(str(self.top / "include")), self.top / "lib"
        for what, more in (
            ("shared object", f"{self.words_of_library()} -Wl,-rpath,{json.dumps(str(lib))}"),
            ("archive", f"-I{include} {json.dumps(str(lib / 'libgaffcurrant.a'))}"),
        ):
            answer = self.user_runs("sh", "-c", f"cc -std=c99 -O2 -Wall sample.c {more} -o sample")
            self.equal(f"a program of the {what} is compiled", (0, "", ""), answer)
            answer = self.user_runs(self.place / "sample", self.place / "gate.table")
            self.equal(f"a program of the {what}", (0, "100\n", ""), answer)

    def test_controller_of_python(self):
        script = self.place / "opens.py"
        script.write_text(OPENS)
        path = {"PYTHONPATH": str(self.top / "lib/gaffcurrant")}
        answer = self.user_runs("python3", script, self.place / "gate.table", **path)
        self.equal("Python's Controller", (0, "True (100,)\n", ""), answer)

    def test_needed_libraries(self):
        files = (self.top / "lib/gaffcurrant/gaffcurrant", self.top / "lib/libgaffcurrant.so")
        needed = [name for file in files for name in re.findall(r"^\s+(\S+)", self.user_runs("ldd", file)[1], re.M)]
        glibc = r"(linux-vdso|lib(c|m|pthread|dl|rt)|/lib\S*/ld-linux\S*)\.so"
        others = [name for name in needed if not re.match(glibc, name)]
        what = "what the program and the library need beside glibc"
        self.equal(what, (True, []), (len(needed) > 3, others))

    @unittest.skipUnless(shutil.which("readelf"), "the glibc that is needed isn't looked at, there is no readelf")
    def test_needed_glibc(self):
        """The program and the library need none later than the README says."""
        said = re.search(r"glibc ([0-9.]+) or\slater", (TOP / "README.md").read_text()).group(1)
        for name in ("lib/gaffcurrant/gaffcurrant", "lib/libgaffcurrant.so"):
            versions = ran("readelf", "--version-info", "--wide", self.top / name)[1]
            needed = set(re.findall(r"\bGLIBC_([0-9.]+)", versions))
            later = sorted(one for one in needed if numbers_in(one) > numbers_in(said))
            self.equal(f"versions of glibc that {name} needs", (True, []), (bool(needed), later))

    def test_home(self):
        """Nothing is written to it, by a tool and by the program."""
        self.user_runs(self.top / "bin/gaffcurrant-why", self.place / "gate.table", 20, 0)
        self.equal("what is written to the home", [], below(self.home))


class Documents(ToolCase):
    """The documents, beside the header, as they are below the tree's top."""

    def test_links(self):
        """No link leads out of the tree, or to nothing."""
        answer = ran(sys.executable, "-c", WRITES, self.folder, cwd=PACKAGING)
        self.equal("the documents are written", (0, "", ""), answer)
        pages = sorted((self.folder / "share/doc/gaffcurrant").rglob("*.md"))
        links = [(page, link) for page in pages for link in LINK.findall(page.read_text())]
        self.holds("the documents have links", len(links) > 200, str(len(links)))
        for page, link in links:
            target = (page.parent / link).resolve()
            is_there = target.exists() and self.folder.resolve() in target.parents
            self.holds(f"{link} of {page.relative_to(self.folder)} is there", is_there)


def numbers_in(version):
    return [int(number) for number in version.split(".")]


def read_by_hand(folder):
    """The words of gaffcurrant.pc."""
    read = (folder / "gaffcurrant.pc").read_text()
    known = {"pcfiledir": str(folder).replace(" ", "\\ ")}

    def filled(value):
        return re.sub(r"\$\{(\w+)\}", lambda found: known[found.group(1)], value)

    for name, value in re.findall(r"^(\w+)=(.*)$", read, re.M):
        known[name] = filled(value)
    return " ".join(map(filled, re.findall(r"^(?:Cflags|Libs): (.*)$", read, re.M)))


class Verdicts(ToolCase):
    """Lines of the proofs are kept for the files that they are about, and for no others."""

    def setUp(self):
        self.room = self.folder / self._testMethodName
        for crate in ("low", "high", "aside"):
            self.write(f"crates/{crate}/src/lib.rt", crate)
        self.write("HANDLES", "Handles allowed: none.\n")
        self.write("crates.txt", "# a comment\nlow: itoa\naside tests_may=Threads:\nhigh staticlib: low\n")
        self.take_kit("one")

    def write(self, name, text):
        return self.placed(f"{self._testMethodName}/{name}", text)

    def take_kit(self, version):
        self.write("kit/rt", f"#!/bin/sh\necho {version}\n").chmod(0o755)

    def verdicts(self, *words, data=""):
        path = os.environ | {"PATH": f"{self.room / 'kit'}:{os.environ['PATH']}"}
        return ran(sys.executable, PACKAGING / "verdicts.py", *words, input=data, cwd=self.room, env=path)

    def keep(self, *crates):
        self.verdicts("keep", "file", data=log_of(*crates))

    def lacks(self, what, *crates):
        self.equal(what, list(crates), self.verdicts("lacking", "file")[1].split())

    def test_logs(self):
        self.lacks("nothing is known", "low", "aside", "high")
        failed = "== aside\nlogic=not-proved\nrt: aside NOT PROVED\n"
        tests = "== high: its tests\nlogic=proved functions=1\nrt: high: its tests are proved\n"
        whole = log_of("low") + "rt: high is kept: an earlier run\n" + failed + tests
        answer = self.verdicts("keep", "file", data=whole)
        self.equal("the log is handed on", (0, whole, ""), answer)
        self.lacks("of what is kept, what failed, and of tests there is none", "aside", "high")
        self.keep("high")
        self.lacks("two runs", "aside")

    def test_changed_crates(self):
        self.keep("low", "high")
        self.write("crates/high/src/lib.rt", "changed")
        self.lacks("a changed crate", "aside", "high")
        self.write("crates/high/src/lib.rt", "high")
        self.write("crates/low/src/lib.rt", "changed")
        self.lacks("a changed crate below", "low", "aside", "high")
        self.keep("low")
        self.lacks("above a changed crate", "aside", "high")
        self.write("crates/low/src/lib.rt", "low")
        self.lacks("the old files again", "aside")
        self.equal("one line a crate and text", 3, (self.room / "file").read_text().count("\n"))

    def test_handles_and_kit(self):
        self.keep("low", "high")
        self.write("HANDLES", "Handles allowed: Wait.\n")
        self.lacks("other handles", "low", "aside", "high")
        self.write("HANDLES", "Handles allowed: none.\n")
        self.take_kit("two")
        self.lacks("another kit", "low", "aside", "high")

    def test_same_again(self):
        self.keep("low", "high")
        lines = sorted((self.room / "file").read_text().splitlines())
        self.keep("low")
        self.equal("the same again", lines, sorted((self.room / "file").read_text().splitlines()))


def log_of(*crates):
    return "".join(f"== {crate}\nwords\n{LINE}\nrt: {crate} proved\n" for crate in crates)
