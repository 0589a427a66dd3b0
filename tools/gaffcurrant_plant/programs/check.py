"""Says whether a stay text or a patrol text is the one of its plant, by solving it again; of a table what the program's
`check` says."""

from __future__ import annotations

import subprocess
from functools import partial

from ..command import Arguments, read_bytes, start
from ..faults import Refused, Trouble
from ..progress import Progress
from ..texts.solver import program, written
from ..texts.table import Text, parts_of, read_text


def check_table(data: bytes, path: str) -> str:
    """The program's `check` of a table."""
    done = subprocess.run([program(), "check"], input=data, capture_output=True, check=False)
    if done.returncode:
        said = (
            done.stderr.decode("utf-8", "replace").strip().splitlines()
            or [f"the program ended with status {done.returncode}"]
        )[-1]
        raise Trouble(f"{path}: {said}")
    return done.stdout.decode()


def check_text(text: Text, data: bytes, workers: int) -> str:
    """Whether a stay or a patrol text is what the program writes of its plant; raises Trouble with the first cell that
    differs."""
    right = written(text.kind, text.plant.text(), workers)
    if right == data:
        return "valid\n"
    other = read_text(right)
    for number, (given, due) in enumerate(zip(parts_of(text), parts_of(other))):
        turn = f"turn {number} " if text.kind == "patrol" else ""
        wrong = [cell for cell in given.rows.keys() | due.rows.keys() if given.rows.get(cell) != due.rows.get(cell)]
        if wrong:
            raise Trouble(f"invalid: {turn}cell {min(wrong)}")
    raise Trouble("invalid: the rows are right, and the plant isn't written as the program writes it")


def main(arguments: list[str]) -> None:
    parser = Arguments(
        prog="check",
        description=__doc__,
        epilog="It prints `valid`, or on standard error the first cell whose row isn't right. The program is "
        "./gaffcurrant, or what the environment variable GAFFCURRANT names. Status 0: valid; 1: it isn't, or "
        "the text isn't readable; 2: wrong words.",
    )
    parser.add_argument("text", metavar="TEXT", help="a table, a stay text or a patrol text, `-` for standard input")
    parser.add_argument("--workers", metavar="N", type=int, default=1, help="workers that solve the game")
    given = parser.parse_args(arguments)
    if not 1 <= given.workers <= 64:
        raise Trouble("--workers takes a number from 1 to 64", 2)
    data = read_bytes(given.text)
    try:
        with Progress("check").during("solving again"):
            text = read_text(data)
            said = check_table(data, given.text) if text.kind == "table" else check_text(text, data, given.workers)
    except Refused as refusal:
        raise Trouble(f"{given.text}: {refusal.answer}: {refusal.reason}") from None
    print(said, end="")


run = partial(start, "check", main)
