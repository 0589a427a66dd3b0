"""The page PROOF: what was proved, of which sources, by which kit, and what that rests on."""

from __future__ import annotations

import hashlib
import re
from pathlib import Path
from typing import Iterable, Mapping, Sequence

import verdicts
from plain_wheel import found_in
from tree import TOP, About

ROOTS = ("synth_cli", "controller_c")
FILES = ("gaffcurrant", "libgaffcurrant.a", "libgaffcurrant.so")
LACKING = "no line: an earlier run proved the same files over the same libraries, and what it printed isn't kept"

PAGE = """# What was proved

| | |
|---|---|
| version | {about.version} |
| commit | {about.commit} |
| kit | {about.kit} |
| logic | {logic} |

share/doc/gaffcurrant/docs/CLAIM.md says what the proofs mean, what is tested alone, and what is neither.

## Files

Sums (SHA-256) of what was built of the proved crates:

{files}

## Verdicts

The last line that the kit's prover printed of each crate, in `rt ci`, which proves from nothing. `functions` counts \
those
that were proved. A word with `=trusted` names what was taken as it was built: the kit's logic, and the libraries below,
whose own lines stand here.

{verdicts}

For the processors, whose files stand above:

{built}

## What is trusted

{trusted}

## What this page rests on

It was written by the program that made the files, on the machine on which the crates were proved. Nothing signs it, and
no part of it can be checked without the kit. With the kit, `./gaffcurrant --archive FOLDER` in a clone of the commit \
makes
all of it again.
"""


def page(about: About, made: Path, processors: Sequence[str], lines: Mapping[str, str]) -> str:
    """The page of what lies in made/PROCESSOR, with the verdict lines of the crates by their names."""
    names = verdicts.needed(Path(), ROOTS)
    logs = [
        (processor, log.read_text()) for processor in processors for log in sorted((made / processor).glob("*.log"))
    ]
    built = [f"{processor} {line}" for processor, log in logs for line in log.splitlines() if line.startswith("logic=")]
    logic = re.search(r"^logic \S+: (.*)$", logs[0][1], re.M)
    return PAGE.format(
        about=about,
        logic=logic.group(1) if logic else "not told",
        trusted=trusted(),
        built=indented(built),
        files=indented(
            f"{sum_of(made / processor / name)}  {name} ({processor})" for processor in processors for name in FILES
        ),
        verdicts=indented(f"{name} {lines.get(name, LACKING)}" for name in names),
    )


def sum_of(path: Path) -> str:
    return hashlib.sha256(path.read_bytes()).hexdigest()


def trusted() -> str:
    """The part of docs/CLAIM.md."""
    claim = (TOP / "docs/CLAIM.md").read_text()
    return found_in(r"^## What is trusted\n\n(.*?)(?=^## |\Z)", claim)[1].strip()


def indented(lines: Iterable[str]) -> str:
    return "\n".join(f"    {line}" for line in lines)
