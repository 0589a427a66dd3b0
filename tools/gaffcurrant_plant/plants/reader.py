"""Reads a plant text line by line, as the program does, and says in words why a line is refused."""

from __future__ import annotations

import difflib
import re
from typing import Iterable, Optional, Sequence, Sized

from ..faults import Fault, Refused
from . import expression
from .kinds import Box, Input, Node, Noise, State
from .plant import Plant, names_of

TEXT_LIMIT = 65536
MOST = {"state": 6, "input": 3, "noise": 6, "target": 64, "obstacle": 64}
VALUES = 64
NAME = re.compile(r"[A-Za-z][A-Za-z0-9_]*\Z")
NUMBER = re.compile(r"(0|-?[1-9][0-9]{0,17})\Z")
NO_NAMES = ("min", "max", "abs", "lut")
KEYWORDS = ("plant", "state", "input", "noise", "next", "target", "obstacle", "goal", "end")
FORMS = {
    "plant": "plant 1",
    "state": "state NAME LO HI WIDTH",
    "input": "input NAME V1 .. Vm",
    "noise": "noise NAME LO HI",
    "next": "next NAME = EXPRESSION",
    "goal": "goal reach",
    "end": "end",
}


def too_long() -> Refused:
    return Refused("limit: plant text", f"the text has more than {TEXT_LIMIT} bytes")


def lines_of(data: bytes) -> list[str]:
    """The lines of a text, one character for each byte."""
    lines = data.decode("latin-1").split("\n")
    return lines if lines[-1] else lines[:-1]


def words_of(line: str) -> list[str]:
    return [word for word in re.split("[ \t\r]+", line) if word]


def is_passed_over(line: str) -> bool:
    words = words_of(line)
    return not words or words[0].startswith("#")


def number_of(word: str) -> int:
    """The number that a word spells; else raises Fault."""
    if NUMBER.match(word):
        return int(word)
    if word.startswith("#"):
        raise Fault("a comment needs a line of its own")
    if re.match(r"[+-]?([0-9]+\.[0-9]*|\.[0-9]+|[0-9]+(\.[0-9]*)?[eE][+-]?[0-9]+)\Z", word):
        raise Fault(f"`{word}` is no whole number: choose a unit in which it is one, and scale the equations")
    if re.match(r"-?[0-9]{19,}\Z", word):
        raise Fault(f"`{word}` has more than 18 digits")
    if word == "-0":
        raise Fault("`-0` is written `0`")
    if re.match(r"-?0[0-9]+\Z", word):
        raise Fault(f"`{word}` has a leading zero")
    if re.match(r"\+[0-9]+\Z", word):
        raise Fault(f"`{word}` has a plus sign; a number has none")
    if re.match(r"[0-9-]+[,;]\Z", word):
        raise Fault(f"`{word}`: numbers are set apart by blanks alone")
    wrong = odd_byte(word)
    raise Fault(wrong if wrong else f"`{word}` is no number")


def odd_byte(word: str) -> Optional[str]:
    """What to say of a byte that no word has, or None."""
    if "\xe2\x88\x92" in word or "\xe2\x80\x93" in word:
        return "a typographic minus or dash stands there; write the minus of the keyboard, `-`"
    if "\xc2\xa0" in word:
        return "a no-break space stands there; write a plain one"
    for byte in word:
        if byte == "\0":
            return "there is a byte 0x00: the text may be kept in UTF-16; save it as plain text"
        if not 0x21 <= ord(byte) <= 0x7E:
            return f"the byte 0x{ord(byte):02X} may stand in comments alone"
    return None


def name_of(word: str, taken: Iterable[str]) -> str:
    """A new name; else raises Fault."""
    if word in NO_NAMES:
        raise Fault(f"`{word}` can't be a name")
    if not NAME.match(word):
        wrong = odd_byte(word)
        raise Fault(wrong if wrong else f"`{word}` is no name: a letter, then letters, digits and `_`")
    if len(word) > 32:
        raise Fault(f"the name has {len(word)} bytes, and 32 are the most")
    if word in taken:
        raise Fault(f"the name `{word}` is taken by an earlier line")
    return word


class Draft:
    """The plant as far as the lines before spell it."""

    def __init__(self) -> None:
        # The version, 0 before the first line.
        self.plant = 0
        self.states: list[State] = []
        self.inputs: list[Input] = []
        self.noises: list[Noise] = []
        self.equations: list[Node] = []
        self.targets: list[Box] = []
        self.obstacles: list[Box] = []
        self.goal, self.ended = "", False

    def names(self) -> list[str]:
        return names_of(self.states, self.inputs, self.noises)

    def due(self) -> list[str]:
        """The keywords that may come next."""
        if not self.plant:
            return ["plant"]
        if self.ended:
            return []
        if self.goal:
            return ["end"]
        if self.equations:
            return ["next"] if len(self.equations) < len(self.states) else ["target", "obstacle", "goal"]
        if self.noises:
            return ["noise", "next"]
        if self.inputs:
            return ["input", "noise", "next"]
        return ["state", "input", "noise", "next"] if self.states else ["state"]

    def read(self, line: str) -> None:
        words = words_of(line)
        keyword, rest = words[0], words[1:]
        due = self.due()
        if keyword not in due:
            raise Fault(self.misplaced(keyword, line, due))
        getattr(self, "read_" + keyword)(rest)

    def misplaced(self, keyword: str, line: str, due: list[str]) -> str:
        if not due:
            return f"`{keyword}` stands behind the `end` line; only comments may follow it"
        if line.startswith("\xef\xbb\xbf"):
            return "the text begins with a byte order mark; save it as plain text without one"
        if line.startswith(("\xff\xfe", "\xfe\xff")):
            return "the text is kept in UTF-16; save it as plain text"
        wrong = odd_byte(keyword)
        if wrong:
            return wrong
        if keyword.startswith(("//", ";", "%", "/*", "--")):
            return "a comment begins with `#`"
        if due == ["plant"] and keyword == "table":
            return "the text is a table; a plant text begins with `plant 1` or `plant 2`"
        if due == ["plant"]:
            return "the first line is `plant 1` or `plant 2`"
        if keyword in KEYWORDS:
            return self.out_of_order(keyword, due)
        near = difflib.get_close_matches(keyword.lower(), KEYWORDS + ("disturbance", "avoid"), 1, 0.7)
        if near:
            meant = {"disturbance": "noise", "avoid": "obstacle"}.get(near[0], near[0])
            return f"`{keyword}` is no keyword; is `{meant}` meant?"
        return f"`{keyword}` is no keyword; here {self.said(due)} may stand"

    def said(self, due: Iterable[str]) -> str:
        return " or ".join(f"`{word}`" for word in due)

    def out_of_order(self, keyword: str, due: list[str]) -> str:
        if due == ["next"]:
            missing = self.states[len(self.equations)][0]
            return f"the equation of {missing} is missing: `next {missing} = ..` is due before this line"
        if keyword == "plant":
            return "`plant` stands once, as the first line"
        if keyword == "next" and "state" not in due:
            return "each state has one equation, and all of them have theirs"
        if due == ["state"]:
            return f"a `state` line is due before `{keyword}`"
        if keyword == "end":
            return "`goal reach` or `goal keep` is due before `end`" if "goal" in due else "the equations are missing"
        if due == ["end"]:
            return f"behind the goal `end` is due; `{keyword}` lines come earlier"
        if keyword in ("target", "obstacle", "goal"):
            first = self.states[0][0]
            return f"the equations are missing: `next {first} = ..` is due before `{keyword}`"
        return f"`{keyword}` comes too late: the order is state, input, noise, next, target and obstacle, goal, end"

    def words(self, keyword: str, rest: Sequence[str], count: int) -> None:
        if len(rest) != count:
            raise Fault(
                f"`{FORMS[keyword]}` has {count} words behind `{keyword}`, here are {len(rest)}" + comment_in(rest)
            )

    def room(self, keyword: str, entries: Sized) -> None:
        if len(entries) >= MOST[keyword]:
            raise Fault(f"{MOST[keyword]} `{keyword}` lines are the most")

    def read_plant(self, rest: list[str]) -> None:
        if rest not in (["1"], ["2"]):
            raise Fault("the version is 1 or 2: `plant 1` or `plant 2`")
        self.plant = int(rest[0])

    def read_state(self, rest: list[str]) -> None:
        self.room("state", self.states)
        self.words("state", rest, 4)
        name = name_of(rest[0], self.names())
        low, high, width = map(number_of, rest[1:])
        if low > high:
            raise Fault(f"the range is turned round: {low} is more than {high}")
        if width < 1:
            raise Fault("the width of a cell is at least 1")
        size = high - low + 1
        if size % width:
            fewer, more = low + size // width * width - 1, low + (size // width + 1) * width - 1
            near = [f"`state {name} {low} {end} {width}`" for end in (fewer, more) if end >= low]
            raise Fault(
                f"{low} to {high} are {size} numbers, both ends included, and no multiple of {width}: "
                + " or ".join(near)
                + " would be one"
            )
        self.states.append((name, low, high, width))

    def read_input(self, rest: list[str]) -> None:
        self.room("input", self.inputs)
        if len(rest) < 2:
            raise Fault("`input NAME V1 .. Vm` has a name and at least one value")
        name = name_of(rest[0], self.names())
        values = [number_of(word) for word in rest[1:]]
        if len(values) > VALUES:
            raise Fault(f"{VALUES} values are the most of one input, here are {len(values)}")
        self.inputs.append((name, values))

    def read_noise(self, rest: list[str]) -> None:
        self.room("noise", self.noises)
        self.words("noise", rest, 3)
        name = name_of(rest[0], self.names())
        low, high = map(number_of, rest[1:])
        if low > high:
            raise Fault(f"the range is turned round: {low} is more than {high}")
        self.noises.append((name, low, high))

    def read_next(self, rest: list[str]) -> None:
        due = self.states[len(self.equations)][0]
        if len(rest) < 2 or rest[1] != "=":
            raise Fault(f"`next {due} = ..` has the `=` as a word of its own, blanks at both sides")
        if rest[0] != due:
            if rest[0] in [state[0] for state in self.states]:
                raise Fault(f"equations stand in the order of the states: that of {due} is due, not that of {rest[0]}")
            raise Fault(f"`{rest[0]}` is no state; the equation of {due} is due")
        self.equations.append(expression.parse(rest[2:], self.names(), self.plant))

    def read_box(self, keyword: str, rest: list[str], entries: list[Box]) -> None:
        self.room(keyword, entries)
        if len(rest) != 2 * len(self.states):
            names = " ".join(f"LO_{name} HI_{name}" for name, *_ in self.states)
            raise Fault(
                f"two numbers for each state are due, `{keyword} {names}`, here are {len(rest)}" + comment_in(rest)
            )
        numbers = [number_of(word) for word in rest]
        box = list(zip(numbers[::2], numbers[1::2]))
        for (low, high), (name, *_) in zip(box, self.states):
            if low > high:
                raise Fault(f"the range of {name} is turned round: {low} is more than {high}")
        entries.append(box)

    def read_target(self, rest: list[str]) -> None:
        self.read_box("target", rest, self.targets)

    def read_obstacle(self, rest: list[str]) -> None:
        self.read_box("obstacle", rest, self.obstacles)

    def read_goal(self, rest: list[str]) -> None:
        if rest not in (["reach"], ["keep"]):
            raise Fault("the goal is `goal reach` or `goal keep`" + comment_in(rest))
        if rest == ["keep"] and self.targets:
            raise Fault(
                "`goal keep` has no targets: it keeps the plant off the obstacles; take the `target` lines away, "
                "or let `goal reach` bring the plant into them"
            )
        self.goal = rest[0]

    def read_end(self, rest: list[str]) -> None:
        if rest:
            raise Fault("`end` stands alone in its line" + comment_in(rest))
        self.ended = True

    def made(self) -> Plant:
        """The plant, once all lines were read."""
        return Plant(
            self.states, self.inputs, self.noises, self.equations, self.targets, self.obstacles, self.goal, self.plant
        )


def comment_in(words: Iterable[str]) -> str:
    return "; a comment needs a line of its own" if any(word.startswith(("#", "//")) for word in words) else ""


def read_plant(data: bytes) -> Plant:
    """The plant that the bytes spell, or raises Refused, by the order of refusals, an overflow included."""
    if len(data) > TEXT_LIMIT:
        raise too_long()
    plant = read_lines(lines_of(data))
    plant.check_limits(Refused)
    plant.check_overflow(Refused)
    return plant


def read_lines(lines: Sequence[str]) -> Plant:
    """The plant that whole lines spell, limits aside, or raises Refused for the first line that doesn't fit."""
    draft = Draft()
    for number, line in enumerate(lines, 1):
        if is_passed_over(line):
            continue
        try:
            draft.read(line)
        except Fault as fault:
            raise Refused(f"malformed: line {number}", str(fault), number) from None
    if not draft.ended:
        due = draft.said(draft.due())
        raise Refused(
            f"malformed: line {len(lines) + 1}", f"the text ends before its `end` line; {due} is due", len(lines) + 1
        )
    return draft.made()
