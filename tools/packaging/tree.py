"""The tree that is installed and archived: what lies where below its top, whichever folder that is."""

from __future__ import annotations

import os
import re
import subprocess
import sys
import tempfile
from pathlib import Path
from typing import Collection, Dict, Iterable, Match, NamedTuple, Optional, Sequence, Union

from manual import Pages
from plain_wheel import found_in, module_files, programs

TOP = Path(__file__).resolve().parents[2]
TOOLS = TOP / "tools"
# The list of what was put where.
LIST = "lib/gaffcurrant/files"
DOCUMENTS = "share/doc/gaffcurrant"
HEADER = "include/gaffcurrant.h"
# Of the repository's documents those that are of use without it.
KEPT = ("README.md", "CHANGELOG.md", "CITATION.cff", "docs", "examples", "tools/README.md")
# These make pages and pictures of the repository by its tests.
LEFT = ("examples/pages",)
# A link of a document: its words, the path, and what may follow it.
LINKED = re.compile(r"\[([^][]*)\]\(([^()\s#]+)(#[^()\s]*)?\)")

LAUNCHER = """#!/usr/bin/env bash
# Runs the proved program on these words, by the settings of the allocator that fit it.
set -u
top=$(cd "$(dirname "$(readlink -f "${BASH_SOURCE[0]}")")/.." && pwd) || exit 70
program=$top/lib/gaffcurrant/gaffcurrant

%s

case ${1-} in
  --help | -h) forms; exit 0 ;;
  --version) cat "$top/lib/gaffcurrant/version"; exit 0 ;;
esac
run_program "$@"
"""
PKG_CONFIG = """prefix=${pcfiledir}/../..
libdir=${prefix}/lib
includedir=${prefix}/include

Name: gaffcurrant
Description: A controller by a table, a stay text or a patrol text, proved
Version: %s
Cflags: -I${includedir}
Libs: -L${libdir} -lgaffcurrant
"""


class File(NamedTuple):
    data: bytes
    mode: int = 0o644


class Link(NamedTuple):
    to: str


# Files and links by their paths.
Tree = Dict[str, Union[File, Link]]


class About(NamedTuple):
    """What the tree is made of."""

    version: str
    date: str
    commit: str
    kit: str


def about(kit: str) -> About:
    citation = (TOP / "CITATION.cff").read_text()
    version, date = (found_in(rf"^{key}: (\S+)$", citation)[1] for key in ("version", "date-released"))
    return About(version, date, commit(), kit)


def git(*words: str) -> Optional[str]:
    try:
        done = subprocess.run(["git", "-C", str(TOP), *words], capture_output=True, check=False)
    except OSError:
        return None
    return done.stdout.decode() if done.returncode == 0 else None


def commit() -> str:
    found = git("rev-parse", "HEAD")
    if not found:
        return "not known: the sources weren't a clone of the repository"
    return found.strip() + (", with changes" if git("status", "--porcelain", "--untracked-files=no") else "")


def tree_of(made: Path, known: About, processor: str, page: str) -> Tree:
    """The files and links by their paths. In the folder `made` lie the program and the library for the processor;
    `known` is the About, and page is what was proved."""
    names = [path.name for path in programs()]
    return (
        programs_of(made, known, processor, names)
        | library_of(made, known)
        | module()
        | manual_of(known, names)
        | completion_of(names)
        | documents()
        | {f"{DOCUMENTS}/PROOF": File(page.encode())}
    )


def programs_of(made: Path, known: About, processor: str, names: Sequence[str]) -> Tree:
    said = "\n".join(
        [
            f"gaffcurrant {known.version}",
            f"commit: {known.commit}",
            f"kit: {known.kit}",
            f"program: proved, for Linux on {processor}; {DOCUMENTS}/PROOF has the verdicts",
            "",
        ]
    )
    tree: Tree = {
        "bin/gaffcurrant": File(launcher().encode(), 0o755),
        "lib/gaffcurrant/version": File(said.encode()),
        "lib/gaffcurrant/gaffcurrant": File((made / "gaffcurrant").read_bytes(), 0o755),
    }
    tree |= {f"lib/gaffcurrant/{path.name}": File(path.read_bytes(), 0o755) for path in programs()}
    return tree | {f"bin/gaffcurrant-{name}": Link(f"../lib/gaffcurrant/{name}") for name in names}


def launcher() -> str:
    """The launcher of the program where it is installed, by functions of the repository's."""
    script = (TOP / "gaffcurrant").read_text()
    said, *others = (function(script, name) for name in ("forms", "say", "run_program"))
    said = re.sub(r"^  \./gaffcurrant --(?!help|version).*\n", "", said, flags=re.M)
    said = said.replace("./gaffcurrant", "gaffcurrant")
    said = re.sub(r"\bdocs/", f"$top/{DOCUMENTS}/docs/", said.replace("<<'FORMS'", "<<FORMS").replace("`", "\\`"))
    return LAUNCHER % "\n\n".join([said, *others])


def function(script: str, name: str) -> str:
    """A function of a script of bash, with the comment before it."""
    return found_in(rf"^(?:#[^\n]*\n)*{name}\(\) \{{(?:[^\n]*\}}$|\n(?:[^\n]*\n)*?\}}$)", script)[0]


def library_of(made: Path, known: About) -> Tree:
    name = f"libgaffcurrant.so.{known.version}"
    return {
        "lib/libgaffcurrant.a": File((made / "libgaffcurrant.a").read_bytes()),
        f"lib/{name}": File((made / "libgaffcurrant.so").read_bytes(), 0o755),
        f"lib/libgaffcurrant.so.{known.version.split('.')[0]}": Link(name),
        "lib/libgaffcurrant.so": Link(name),
        HEADER: File((TOP / HEADER).read_bytes()),
        "lib/pkgconfig/gaffcurrant.pc": File((PKG_CONFIG % known.version).encode()),
    }


def module() -> Tree:
    return {f"lib/gaffcurrant/{path.relative_to(TOOLS)}": File(path.read_bytes()) for path in module_files()}


def manual_of(known: About, names: Sequence[str]) -> Tree:
    pages = Pages(known.version, known.date, names)
    texts = pages.launcher(installed_forms()) | pages.library((TOP / HEADER).read_text())
    for name in names:
        texts |= pages.tool(name, help_of(name))
    return {f"share/man/man{name[-1]}/{name}": File(text.encode()) for name, text in texts.items()}


def installed_forms() -> str:
    """What the installed launcher's --help says."""
    with tempfile.TemporaryDirectory() as room:
        script = Path(room) / "bin/gaffcurrant"
        script.parent.mkdir()
        script.write_text(launcher())
        said = subprocess.run(["bash", script, "--help"], capture_output=True, check=True).stderr.decode()
        return said.replace(f"{room}/{DOCUMENTS}/", "")


def help_of(name: str) -> str:
    words = [sys.executable, str(TOOLS / name), "--help"]
    return subprocess.run(words, capture_output=True, check=True, env=os.environ | {"COLUMNS": "80"}).stdout.decode()


def completion_of(names: Sequence[str]) -> Tree:
    commands = ["gaffcurrant", *(f"gaffcurrant-{name}" for name in names)]
    script = (TOOLS / "packaging/completion.bash").read_text()
    script += f"complete -o default -F _gaffcurrant {' '.join(commands)}\n"
    folder = "share/bash-completion/completions"
    links: Tree = {f"{folder}/{name}": Link("gaffcurrant") for name in commands[1:]}
    return links | {f"{folder}/gaffcurrant": File(script.encode())}


def documents() -> Tree:
    """The repository's documents and examples; of a clone those that are its own."""
    own = git("ls-files", "-z", *KEPT)
    paths = (
        own.split("\0")[:-1]
        if own
        else [str(path.relative_to(TOP)) for one in KEPT for path in (TOP / one, *(TOP / one).rglob("*"))]
    )
    paths = [path for path in paths if path not in LEFT and "__pycache__" not in path and (TOP / path).is_file()]
    kept = {*paths, *folders(paths)}
    return {f"{DOCUMENTS}/{path}": document(path, kept) for path in sorted(paths)}


def document(path: str, kept: Collection[str]) -> File:
    """A document, whose links lead to what is kept of the repository, and to the header."""
    data = (TOP / path).read_bytes()
    if path.endswith(".md"):
        data = LINKED.sub(lambda found: link_in(path, found, kept), data.decode()).encode()
    return File(data, 0o755 if os.access(TOP / path, os.X_OK) else 0o644)


def link_in(path: str, found: Match[str], kept: Collection[str]) -> str:
    """A link of a document as it is in the tree; of one to a file of the repository that isn't kept only its words."""
    target = os.path.normpath(os.path.join(os.path.dirname(path), found[2]))
    if target in kept or not (TOP / target).exists():
        return found[0]
    if target == HEADER:
        return f"[{found[1]}]({os.path.relpath(HEADER, os.path.dirname(f'{DOCUMENTS}/{path}'))})"
    return found[1]


def folders(tree: Iterable[str]) -> list[str]:
    """The folders of a tree, the outer ones first."""
    return sorted({str(parent) for path in tree for parent in Path(path).parents} - {"."})


def write(tree: Tree, folder: Path) -> None:
    """Puts a tree below a folder that is there."""
    for name in folders(tree):
        if not (folder / name).is_dir():
            (folder / name).mkdir()
            (folder / name).chmod(0o755)
    for name, entry in tree.items():
        if isinstance(entry, Link):
            (folder / name).symlink_to(entry.to)
        else:
            (folder / name).write_bytes(entry.data)
            (folder / name).chmod(entry.mode)
