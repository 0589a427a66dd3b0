"""What may be wrong, as exceptions with one line of words each.

Failure     the family: all that a text, a model or a use of them may raise Fault     why a word, a line or a formula
isn't one; who reads the text makes a Refused or a Trouble of it, with the line Refused   the answer of the program to a
text that it refuses, and the reason Trouble   what is wrong with a model, a file or the arguments, with the exit status
Overflow  a bound of an expression leaves the range of 127 bits and a sign TooMuch   a count would take too long, and is
estimated instead

`NoRow` (texts/table.py) is a LookupError: a state has no row. `NoBox` (models/taylor_sampling.py) is a Trouble: shorter
steps are tried."""

from __future__ import annotations

from typing import Optional


class Failure(Exception):
    """What is wrong with a text, in words: each class of this package that a text may raise is one. model_line is the
    line of the model to which it belongs, where that is known."""

    model_line: Optional[int] = None

    def said(self) -> str:
        return str(self)


class Fault(Failure):
    """Why a word, a line or a formula isn't one, in words."""


class Refused(Failure):
    """The one answer of the program to a text that it refuses, and the reason in words. line is that of the plant
    text."""

    def __init__(self, answer: str, reason: str, line: Optional[int] = None) -> None:
        super().__init__(answer)
        self.answer, self.reason, self.line = answer, reason, line

    def said(self) -> str:
        return f"{self.answer}: {self.reason}"


class Trouble(Failure):
    """What is wrong, in one line, with the exit status."""

    def __init__(self, said: str, status: int = 1) -> None:
        super().__init__(said)
        self.status = status


class Overflow(Failure):
    """A span end or a deviation leaves the range of 127 bits and a sign."""


class TooMuch(Failure):
    """A count would take too many products."""
