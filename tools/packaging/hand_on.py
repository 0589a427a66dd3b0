"""Installs the proved program, the C library and the tools, takes them away, and makes archives of them. ./gaffcurrant
calls it, with what it made:

    hand_on.py install PREFIX --made FOLDER --verdicts FILE    puts them below PREFIX, or below $DESTDIR/PREFIX
    hand_on.py uninstall PREFIX                                takes away what the list there names
    hand_on.py archive FOLDER --made FOLDER --verdicts FILE    makes an archive for each processor, sums, and the page \
PROOF

FOLDER/PROCESSOR of --made holds the program, the library and what the proofs said; the file of --verdicts, the lines of
the crates in the current folder."""

from __future__ import annotations

import argparse
import hashlib
import os
import subprocess
import sys
import tempfile
from pathlib import Path
from typing import Sequence

sys.dont_write_bytecode = True

import proof  # noqa: E402
import tree  # noqa: E402
import verdicts  # noqa: E402

SUMS = "SHA256SUMS"


class Trouble(Exception):
    """What is wrong, in one line."""


def below_destdir(prefix: str) -> Path:
    """The folder to write to, as DESTDIR asks."""
    return Path(os.environ.get("DESTDIR", "") + os.path.abspath(prefix))


def install(top: Path, entries: tree.Tree) -> None:
    """Puts a tree below a folder, in the place of one that was put there before, with a list of its files and of the
    folders that were made for them."""
    if (top / tree.LIST).is_file():
        uninstall(top)
    taken = [name for name in [*entries, tree.LIST] if os.path.lexists(top / name)]
    if taken:
        raise Trouble(f"{top / taken[0]} is there, and wasn't put there by --install")
    entries = entries | {tree.LIST: tree.File(b"")}
    made = [f"{name}/" for name in tree.folders(entries) if not (top / name).is_dir()]
    entries[tree.LIST] = tree.File("".join(f"{name}\n" for name in [*made, *sorted(entries)]).encode())
    top.mkdir(parents=True, exist_ok=True)
    tree.write(entries, top)


def uninstall(top: Path) -> None:
    """Takes away what the list names: files, what Python compiled of them, and the folders that were made for them,
    where these are then empty."""
    names = listed(top)
    files = [top / name for name in names if not name.endswith("/")]
    folders = [top / name for name in names if name.endswith("/")]
    caches = {path.parent / "__pycache__" for path in files if path.suffix == ".py"}
    for path in filter(os.path.lexists, files):
        remove(path)
    for folder in [*caches, *reversed(folders)]:
        if folder.is_dir() and not folder.is_symlink() and not any(folder.iterdir()):
            folder.rmdir()


def remove(path: Path) -> None:
    """Takes away a file, and what Python compiled of it."""
    path.unlink()
    for compiled in (path.parent / "__pycache__").glob(f"{path.stem}.*.pyc") if path.suffix == ".py" else ():
        compiled.unlink()


def listed(top: Path) -> list[str]:
    """The names in the list of what was installed below a folder."""
    try:
        names = (top / tree.LIST).read_text().splitlines()
    except FileNotFoundError:
        raise Trouble(f"nothing is installed below {top}: there is no {tree.LIST}") from None
    for name in names:
        if name.startswith("/") or ".." in Path(name).parts:
            raise Trouble(f"{top / tree.LIST} names {name}, which doesn't lie below {top}")
    return names


def time_of(known: tree.About) -> str:
    """The time of the files in an archive: that of the commit, or of the version."""
    of_commit = tree.git("log", "-1", "--format=%ct")
    return f"@{of_commit.strip()}" if of_commit else f"{known.date} 00:00 UTC"


def archive(folder: Path, entries: tree.Tree, name: str, time: str) -> None:
    """Writes FOLDER/NAME.tar.xz: the same bytes for the same tree."""
    with tempfile.TemporaryDirectory() as room:
        top = Path(room) / name
        top.mkdir()
        tree.write(entries, top)
        pack = [
            "tar",
            "--create",
            "--format=gnu",
            "--sort=name",
            f"--mtime={time}",
            "--owner=0",
            "--group=0",
            "--numeric-owner",
            "--mode=u=rwX,go=rX",
            name,
        ]
        press = ["xz", "--threads=1", "-9", "--check=crc64"]
        with open(folder / f"{name}.tar.xz", "wb") as file:
            packed = subprocess.Popen(pack, cwd=room, stdout=subprocess.PIPE, env=os.environ | {"LC_ALL": "C"})
            pressed = subprocess.run(press, stdin=packed.stdout, stdout=file, check=False)
            if packed.stdout is not None:
                packed.stdout.close()
            if packed.wait() or pressed.returncode:
                raise Trouble(f"{name}.tar.xz couldn't be written")


def archives(folder: Path, made: Path, known: tree.About, page: str) -> list[str]:
    """Makes an archive for each processor, the list of their sums, and the page; answers the files' names."""
    folder.mkdir(parents=True, exist_ok=True)
    names = []
    for processor in processors_of(made):
        name = f"gaffcurrant-{known.version}-{processor}-linux"
        archive(folder, tree.tree_of(made / processor, known, processor, page), name, time_of(known))
        names.append(f"{name}.tar.xz")
    (folder / "PROOF").write_text(page)
    names.append("PROOF")
    sums = [f"{hashlib.sha256((folder / name).read_bytes()).hexdigest()}  {name}\n" for name in names]
    (folder / SUMS).write_text("".join(sums))
    return [*names, SUMS]


def processors_of(made: Path) -> list[str]:
    """x86_64 first, on which the program is proved."""
    return sorted((path.name for path in made.iterdir()), reverse=True)


def main(words: Sequence[str]) -> int:
    reader = argparse.ArgumentParser(description=__doc__, formatter_class=argparse.RawDescriptionHelpFormatter)
    reader.add_argument("word", choices=("install", "uninstall", "archive"))
    reader.add_argument("folder")
    reader.add_argument("--made", type=Path)
    reader.add_argument("--verdicts", type=Path)
    given = reader.parse_args(words)
    try:
        if given.word == "uninstall":
            uninstall(below_destdir(given.folder))
            return 0
        known = tree.about(verdicts.kit() or "not known: there is no `rt`")
        page = proof.page(known, given.made, processors_of(given.made), verdicts.known(Path(), given.verdicts))
        if given.word == "install":
            top = below_destdir(given.folder)
            install(top, tree.tree_of(given.made / "x86_64", known, "x86_64", page))
            print(f"{top}/bin/gaffcurrant")
        else:
            for name in archives(Path(given.folder), given.made, known, page):
                print(os.path.join(given.folder, name))
    except (Trouble, OSError) as trouble:
        print(f"gaffcurrant: {trouble}", file=sys.stderr)
        return 1
    return 0


if __name__ == "__main__":
    sys.exit(main(sys.argv[1:]))
