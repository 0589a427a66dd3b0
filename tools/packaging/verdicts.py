"""Keeps the verdict line of each crate, as the kit's gate prints it, by a sum of what the verdict is about: the kit,
the crate's files, and those of the crates below. The gate prints no line of a crate that an earlier run proved, so its
line of then is kept here. In a folder with crates.txt:

rt ci | verdicts.py keep FILE    hands on what `rt ci` prints, and keeps the lines of the crates that it proves in the
file verdicts.py lacking FILE         prints the crates whose line isn't in the file

No line is kept of a crate whose files have changed meanwhile."""

from __future__ import annotations

import hashlib
import io
import os
import re
import subprocess
import sys
from pathlib import Path
from typing import Iterable, Optional, Sequence

PARTS = ("src", "specs", "proofs")
# Lines of older sources stay in the file, for whoever goes back to these, up to so many.
MOST = 1000


def kit() -> Optional[str]:
    """The kit's own line, or None where there is none."""
    try:
        said = subprocess.run(["rt", "version"], stdin=subprocess.DEVNULL, capture_output=True, check=False)
    except OSError:
        return None
    return said.stdout.decode().strip() or None


def crates(top: Path) -> dict[str, tuple[str, list[str]]]:
    """The crates of crates.txt, lowest first: each one's line, and the crates that it names."""
    lines = [
        line for line in (top / "crates.txt").read_text().splitlines() if line.strip() and not line.startswith("#")
    ]
    named = {line.split(":")[0].split()[0]: line for line in lines}
    below = {name: line.split(":", 1)[1].split() for name, line in named.items()}
    return {name: (line, [one for one in below[name] if one in named]) for name, line in named.items()}


def needed(top: Path, roots: Sequence[str]) -> list[str]:
    """The names of these crates and of all below, lowest first."""
    known = crates(top)
    found: set[str] = set()
    for name in reversed(known):
        if name in roots or name in found:
            found |= {name, *known[name][1]}
    return [name for name in known if name in found]


def sums(top: Path) -> dict[str, str]:
    """By each crate's name a sum of what a verdict on it is about."""
    found: dict[str, str] = {}
    every = repr((kit(), (top / "HANDLES").read_text()))
    for name, (line, below) in crates(top).items():
        folder = top / "crates" / name
        files = sorted(path for part in PARTS for path in (folder / part).rglob("*") if path.is_file())
        own = [(str(path.relative_to(folder)), hashlib.sha256(path.read_bytes()).hexdigest()) for path in files]
        found[name] = hashlib.sha256(repr((every, line, own, [found[one] for one in below])).encode()).hexdigest()
    return found


def said(log: str) -> dict[str, str]:
    """The verdict lines of a log of `rt ci`, by the crates' names."""
    found: dict[str, str] = {}
    name, verdict = "", None
    for line in log.splitlines():
        if line.startswith("== "):
            name, verdict = line[3:], None
        elif line.startswith("logic="):
            verdict = line
        elif verdict and line == f"rt: {name} proved":
            found[name] = verdict
    return found


def kept(file: Path) -> dict[tuple[str, str], str]:
    """The lines of the file, by name and sum."""
    found = re.findall(r"^(\w+) ([0-9a-f]{64}) (logic=proved .*)$", file.read_text() if file.exists() else "", re.M)
    return {(name, sum_of): line for name, sum_of, line in found}


def known(top: Path, file: Path) -> dict[str, str]:
    """The verdict lines of the crates as they stand."""
    lines = kept(file)
    return {name: lines[name, sum_of] for name, sum_of in sums(top).items() if (name, sum_of) in lines}


def keep(top: Path, file: Path, log: Iterable[str]) -> None:
    """Hands on the lines of a log, and keeps the verdicts."""
    before, lines = sums(top), []
    for line in log:
        sys.stdout.write(line)
        sys.stdout.flush()
        lines.append(line)
    verdicts, after = said("".join(lines)), sums(top)
    new = {
        (name, before[name]): verdicts[name] for name in verdicts if name in before and before[name] == after.get(name)
    }
    if new:
        old = {key: line for key, line in kept(file).items() if key not in new}
        all_of_them = [f"{name} {of_files} {line}\n" for (name, of_files), line in (old | new).items()]
        written = file.with_name(f"{file.name}.{os.getpid()}")
        written.write_text("".join(all_of_them[-MOST:]))
        written.replace(file)


def main(words: Sequence[str]) -> int:
    if len(words) != 2 or words[0] not in ("keep", "lacking"):
        print(__doc__)
        return 2
    top, file = Path(), Path(words[1])
    if words[0] == "keep":
        if isinstance(sys.stdin, io.TextIOWrapper):
            sys.stdin.reconfigure(errors="replace")
        keep(top, file, sys.stdin)
        return 0
    found = known(top, file)
    print("\n".join(name for name in crates(top) if name not in found), end="")
    return 0


if __name__ == "__main__":
    sys.exit(main(sys.argv[1:]))
