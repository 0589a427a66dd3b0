"""Reads a model with real coefficients, for tools/scale, whose --help gives the lines of its text."""

from __future__ import annotations

import difflib
import math
import re
from contextlib import contextmanager
from fractions import Fraction
from typing import Callable, ContextManager, Iterator, NoReturn, Optional, Sequence

from ..faults import Failure, Fault, Trouble
from ..plants.reader import MOST, NAME, NO_NAMES, VALUES
from . import formula
from .half_plane import HalfPlane
from .kinds import ModelInput, ModelNoise, ModelState, Node, RealBox, Side, Word
from .linear import add_linear_system
from .polynomial import number_of

# Parts of a cell where the unit is chosen by itself: an odd number of which a decimal width has decimal parts.
FINENESS = 125


class Model:
    """states: (name, least, greatest, width, unit); inputs: (name, unit, values); noises: (name, least, greatest);
    equations: of `next` lines and linear systems, as formulas or polynomials; flows: of `d` lines; boxes: a keyword and
    two ends for each state; exact: the states that are whole numbers of units by themselves; between: the word by which
    the ways between samples are to be looked at, or None, has_bounds whether they are to stay in the domain."""

    def __init__(self) -> None:
        self.denominator: Optional[int] = None
        self.sample: Optional[Fraction] = None
        self.order: Optional[int] = None
        self.steps: Optional[int] = None
        self.pieces: Optional[int] = None
        self.version = 2
        self.states: list[ModelState] = []
        self.inputs: list[ModelInput] = []
        self.noises: list[ModelNoise] = []
        self.equations: list[Side] = []
        self.flows: list[Node] = []
        self.rows: dict[str, list[list[Fraction]]] = {"A": [], "B": [], "c": [], "w": []}
        self.boxes: list[tuple[str, RealBox]] = []
        self.half_planes: list[tuple[int, HalfPlane]] = []
        self.goal: Optional[str] = None
        self.between: Optional[str] = None
        self.has_bounds, self.exact = False, set[str]()
        # Units' words; numbers by name; the states that come round, with the line that says so.
        self.words: dict[str, str] = {}
        self.parameters: dict[str, Fraction] = {}
        self.wraps: dict[str, int] = {}
        # The line that is read, and those of the sampling time, the equations, the boxes and the variables.
        self.line, self.sample_line, self.order_line = 0, 0, 0
        self.equation_lines: list[int] = []
        self.box_lines: list[int] = []
        self.variable_lines: dict[str, int] = {}

    def names(self) -> list[str]:
        return self.state_names() + self.input_names() + self.noise_names()

    def state_names(self) -> list[str]:
        return [state[0] for state in self.states]

    def input_names(self) -> list[str]:
        return [name for name, *_ in self.inputs]

    def noise_names(self) -> list[str]:
        return [name for name, *_ in self.noises]

    @property
    def time(self) -> Fraction:
        """The sampling time; 1, a sample, without one."""
        return self.sample or Fraction(1)

    def at_equation(self, i: int) -> ContextManager[None]:
        """Says at which line of the model something is wrong with the equation of a state."""
        return at_line(self.equation_lines[i] if i < len(self.equation_lines) else None)


@contextmanager
def at_line(number: Optional[int]) -> Iterator[None]:
    """Puts a line's number, where there is one, before what is wrong."""
    try:
        yield
    except Trouble as trouble:
        if number is None or str(trouble).startswith("line "):
            raise
        raise Trouble(f"line {number}: {trouble}", trouble.status) from None
    except Failure as failure:
        failure.model_line = failure.model_line or number
        raise


def read_model(data: bytes) -> Model:
    """The model that a text spells; raises Trouble with the line."""
    model = Model()
    for number, line in enumerate(data.decode("utf-8", "replace").lstrip("\ufeff").splitlines(), 1):
        words = line.split("#")[0].split()
        if not words:
            continue
        model.line = number
        try:
            read_line(model, words)
        except Fault as fault:
            raise Trouble(f"line {number}: {fault}") from None
    if not model.states or model.goal is None:
        raise Trouble(
            "the model has no state" if not model.states else "the model has no `goal reach` line, and no `goal keep`"
        )
    check_equations(model)
    cover_half_planes(model)
    return model


def check_equations(model: Model) -> None:
    """Whether the lines give one equation for each state, in one of the three forms."""
    if model.flows and (model.equations or model.rows["A"]):
        raise Trouble(
            f"line {model.equation_lines[-1]}: a model has `next` lines, `d` lines or a matrix A, and no two of them"
        )
    if model.rows["A"]:
        add_linear_system(model)
    elif model.sample and model.equations:
        raise Trouble(
            f"line {model.sample_line}: `sample` is for lines `d` or A, B and c; `next` lines are sampled already"
        )
    if model.flows and not model.sample:
        raise Trouble(f"line {model.equation_lines[0]}: lines `d NAME = ..` need a sampling time, `sample T`")
    if len(model.equations or model.flows) != len(model.states):
        missing = model.states[len(model.equations or model.flows)][0]
        raise Trouble(
            f"the model has {len(model.states)} state{'s' * (len(model.states) != 1)} and "
            f"{len(model.equations or model.flows)} equations: `{'d' if model.sample else 'next'} "
            f"{missing} = ..` "
            "is missing"
        )


def cover_half_planes(model: Model) -> None:
    """Boxes for the half-planes, which share the obstacles that are left evenly."""
    left = MOST["obstacle"] - sum(keyword == "obstacle" for keyword, _ in model.boxes)
    for number, (line, half_plane) in enumerate(model.half_planes):
        boxes = half_plane.boxes(max(1, left // (len(model.half_planes) - number)))
        left -= len(boxes)
        model.boxes += [("obstacle", box) for box in boxes]
        model.box_lines += [line] * len(boxes)


def half_plane_of(model: Model, words: Sequence[str]) -> HalfPlane:
    """The half-plane of an inequality `SUM < SUM` or `SUM > SUM`."""
    text = " ".join(words)
    sides = re.split("[<>]", text)
    if "=" in text:
        fail("an inequality has `<` or `>`, and no `=`")
    if len(sides) != 2:
        fail("an inequality has one `<` or `>`")
    names = [state[0] for state in model.states]
    left, right = (formula.parse(side, names, model.parameters) for side in (sides if "<" in text else sides[::-1]))
    return HalfPlane(formula.polynomial_of(formula.add(left, formula.minus(right)), no_half_plane), model.states)


def no_half_plane(node: Node) -> NoReturn:
    fail("the sides of an inequality are sums of states and numbers, each state times a number")


def fail(said: str) -> NoReturn:
    raise Fault(said)


def read_line(model: Model, words: list[str]) -> None:
    keyword, rest = words[0], words[1:]
    if is_inequality(keyword, rest):
        model.half_planes.append((model.line, half_plane_of(model, rest)))
        return
    if keyword in NUMBER_READERS:
        named = 1 if keyword in ("state", "input", "noise") else 0
        with_numbers = [model.parameters.get(word, negated(model, word)) for word in rest[named:]]
        NUMBER_READERS[keyword](model, keyword, [*rest[:named], *with_numbers])
    elif keyword not in READERS or keyword == "end" and rest:
        fail(no_line(words))
    else:
        READERS[keyword](model, keyword, rest)


def read_denominator(model: Model, keyword: str, rest: list[Word]) -> None:
    value = numbers(rest, 1, keyword)[0]
    if value.denominator != 1 or value < 1:
        fail("the denominator is a whole number of at least 1")
    model.denominator = int(value)


def read_sample(model: Model, keyword: str, rest: list[Word]) -> None:
    model.sample, model.sample_line = numbers(rest, 1, keyword)[0], model.line
    if model.sample <= 0:
        fail("a sampling time is above 0")


def read_unit(model: Model, _: str, rest: list[str]) -> None:
    if len(rest) != 2 or rest[0] not in model.names() or not re.match(r"[^\s:]{1,16}\Z", rest[1]):
        fail(
            "`unit NAME WORD` has the name of a state or an input, and a word for its unit, of at most 16 characters "
            "and no colon"
        )
    model.words[rest[0]] = rest[1]


def read_row(model: Model, keyword: str, rest: list[Word]) -> None:
    """A row of the lines A, B, c and w."""
    size = {"A": len(model.states), "B": len(model.inputs), "c": 1, "w": 2}[keyword]
    row = numbers(rest, size, keyword)
    if keyword == "w" and row[0] > row[1]:
        fail("a line `w LO HI` has LO of at most HI")
    model.rows[keyword].append(row)
    if keyword == "A":
        model.equation_lines.append(model.line)


def read_end(_model: Model, _keyword: str, _rest: list[str]) -> None:
    """`end` stands for nothing."""


def is_inequality(keyword: str, rest: Sequence[str]) -> bool:
    return keyword == "obstacle" and any("<" in word or ">" in word for word in rest)


def negated(model: Model, word: str) -> Word:
    """The number of a parameter behind a minus, or the word as it is."""
    return -model.parameters[word[1:]] if word[:1] == "-" and word[1:] in model.parameters else word


def read_parameter(model: Model, _: str, rest: list[str]) -> None:
    """`param NAME VALUE`, a number by a formula of numbers and earlier parameters."""
    if len(rest) < 2:
        fail("`param NAME VALUE` has a name, and a number or a formula of numbers")
    check_name(model, "param", rest[0])
    node = formula.parse(" ".join(rest[2:] if rest[1] == "=" else rest[1:]), (), model.parameters)
    if node[0] != "num":
        fail(f"the value of `{rest[0]}` is a number, by + - * / ^ and earlier parameters")
    model.parameters[rest[0]] = node[1]


def read_between(model: Model, _: str, rest: list[str]) -> None:
    """`between`, with the word that solves the plant, and `bounds`."""
    if rest not in ([], ["stay"], ["patrol"], ["bounds"], ["stay", "bounds"], ["patrol", "bounds"]):
        fail(
            "`between` stands alone, or before the word that solves the plant, as `between patrol`, or before "
            "`bounds`, as `between patrol bounds`"
        )
    model.between, model.has_bounds = rest[0] if rest and rest[0] != "bounds" else "synth", rest[-1:] == ["bounds"]


def read_mark(model: Model, keyword: str, rest: list[str]) -> None:
    """`exact NAME`, of a state that is a whole number of units by itself; `wrap NAME`, of one that comes round: behind
    its range's end it is at the beginning."""
    if len(rest) != 1 or rest[0] not in [state[0] for state in model.states]:
        fail(f"`{keyword} NAME` has the name of a state, behind its `state` line")
    if keyword == "exact":
        model.exact.add(rest[0])
    else:
        model.wraps[rest[0]] = model.line


def no_line(words: Sequence[str]) -> str:
    """What to say of a line that begins with none of the keywords."""
    keyword = words[0]
    if keyword == "plant":
        return "the text is a plant text, and no model: it is solved as it is"
    if keyword in ("table", "stay", "patrol"):
        return f"the text is a {keyword}{' text' * (keyword != 'table')}, and no model"
    if words[1:2] == ["="] or "=" in keyword:
        return f"`{' '.join(words[:2])}` begins no line of a model; an equation is `next NAME = ..` or `d NAME = ..`"
    near = difflib.get_close_matches(keyword.lower(), KEYWORDS + tuple(MEANT), 1, 0.7)
    meant = f"; is `{MEANT.get(near[0], near[0])}` meant?" if near else ""
    return f"`{' '.join(words[:2])[:60]}` begins no line of a model{meant or '; see --help'}"


def read_equation(model: Model, keyword: str, rest: list[str]) -> None:
    count = len(model.equations) + len(model.flows)
    if model.equations and keyword == "d" or model.flows and keyword == "next":
        fail("a model has `next` lines, `d` lines or a matrix A, and no two of them")
    if len(rest) < 2 or rest[1] != "=":
        fail(f"`{keyword} NAME = EXPRESSION` has the `=` as a word of its own")
    if count >= len(model.states):
        fail(f"each state has one equation, behind the `state` lines; `{keyword} {rest[0]}` is one too many")
    due = model.states[count][0]
    if rest[0] != due:
        fail(
            f"the equations stand in the order of the states, one for each; `{keyword} {due} = ..` is due here, "
            f"not `{keyword} {rest[0]}`"
        )
    node = formula.parse(" ".join(rest[2:]), model.names(), model.parameters)
    if keyword == "next":
        model.equations.append(node)
    else:
        model.flows.append(node)
    model.equation_lines.append(model.line)


def read_box(model: Model, keyword: str, rest: list[Word]) -> None:
    names = [state[0] for state in model.states]
    if not names:
        fail(f"the `state` lines are due before `{keyword}`")
    form = f"{keyword} {' '.join(f'LO_{name} HI_{name}' for name in names)}"
    ends = numbers(with_any(model, form, rest), 2 * len(names), form)
    box = list(zip(ends[::2], ends[1::2]))
    for name, (low, high) in zip(names, box):
        if low >= high:
            fail(f"the range of {name} is turned round or empty: LO, {said(low)}, has to be below HI, {said(high)}")
    model.boxes.append((keyword, box))
    model.box_lines.append(model.line)


def with_any(model: Model, form: str, words: list[Word]) -> list[Word]:
    """The words of a box, with the ends of a state's range in the place of `*`."""
    if "*" not in words:
        return words
    due = 2 * len(model.states) - min(words.count("*"), len(model.states))
    if len(words) != due:
        fail(
            f"the line is `{form}`, with `*` in the place of two numbers for any: {due} words are due, here are "
            f"{len(words)}"
        )
    left = list(words)
    ends: list[Word] = []
    for _, low, high, *_ in model.states:
        ends += [left.pop(0), low, high][1:] if left[0] == "*" else [left.pop(0), left.pop(0)]
    return ends


def read_goal(model: Model, _: str, rest: list[str]) -> None:
    if rest not in (["reach"], ["keep"]):
        fail(
            "the goal is `goal reach` or `goal keep`"
            + (
                "; a plant that is to come and stay, or to patrol, has `goal reach`, and is solved by `stay` or "
                "`patrol`"
                if rest in (["stay"], ["patrol"])
                else ""
            )
        )
    if rest == ["keep"] and any(keyword == "target" for keyword, _ in model.boxes):
        fail(
            "`goal keep` has no targets: it keeps the plant in its ranges and off the obstacles; take the "
            "`target` lines away, or let `goal reach` bring the plant into them"
        )
    model.goal = rest[0]


# The least and the greatest number behind a keyword.
CHOICES = {"version": (1, 2), "order": (1, 4), "steps": (1, 8), "pieces": (2, 31)}

KEYWORDS = (
    "version",
    "param",
    "exact",
    "wrap",
    "denominator",
    "pieces",
    "sample",
    "order",
    "steps",
    "state",
    "input",
    "noise",
    "unit",
    "next",
    "target",
    "obstacle",
    "goal",
    "between",
)
# Words of others for the same.
MEANT = {"disturbance": "noise", "avoid": "obstacle"}


def read_choice(model: Model, keyword: str, rest: list[str]) -> None:
    low, high = CHOICES[keyword]
    value = numbers(rest, 1, keyword)[0]
    if value.denominator != 1 or not low <= value <= high:
        fail(f"`{keyword}` takes a whole number from {low} to {high}")
    setattr(model, keyword, int(value))
    if keyword == "order":
        model.order_line = model.line


def numbers(words: Sequence[Word], count: Optional[int], form: str) -> list[Fraction]:
    """So many numbers, or any where count is None; form is the keyword before them, or how the line is written."""
    if count is not None and len(words) != count:
        fail(
            f"{count} number{'s are' if count != 1 else ' is'} due behind `{form}`, here are {len(words)}"
            if " " not in form
            else f"the line is `{form}`: {count} number{'s are' if count != 1 else ' is'} due, here are {len(words)}"
        )
    return [word if isinstance(word, Fraction) else number_of(word) for word in words]


def read_variable(model: Model, keyword: str, rest: list[Word]) -> None:
    name = str(rest[0]) if rest else ""
    check_name(model, keyword, name)
    model.variable_lines[name] = model.line
    {"state": read_state, "input": read_input, "noise": read_noise}[keyword](model, name, *rest[1:])


def read_state(model: Model, name: str, *rest: Word) -> None:
    by_number = "cells" in rest[2:3]
    form = "state NAME LO HI WIDTH UNIT"
    low, high, width, unit = cells_by_number(rest) if by_number else numbers(rest, 4, form)
    if unit <= 0 or width <= 0 or low >= high:
        fail("a state has LO below HI, and a WIDTH and a UNIT above 0")
    check_widths(name, low, high, width, unit)
    model.states.append((name, low, high, width, unit))


def read_input(model: Model, name: str, *rest: Word) -> None:
    if len(rest) < 2:
        fail("`input NAME UNIT V1 .. Vm` has a unit and at least one value")
    unit, *values = numbers([rest[0], *(value for word in rest[1:] for value in listed(model, word))], None, "input")
    if unit <= 0:
        fail(f"`input NAME UNIT V1 .. Vm`: the unit stands before the values and is above 0, here it is {said(unit)}")
    if len(values) > VALUES:
        fail(f"{VALUES} values are the most of one input, here are {len(values)}")
    if wrong := [value for value in values if value % unit]:
        fail(
            f"the value {said(wrong[0])} of {name} is no multiple of its unit {said(unit)}, which stands before the "
            "values"
        )
    model.inputs.append((name, unit, values))


def read_noise(model: Model, name: str, *rest: Word) -> None:
    low, high = numbers(rest, 2, "noise NAME LO HI")
    if low > high:
        fail("a noise has LO of at most HI")
    model.noises.append((name, low, high))


def check_name(model: Model, keyword: str, name: str) -> None:
    """Whether a name may stand behind a keyword, and is new."""
    if not NAME.match(name) or name in NO_NAMES:
        fail(
            f"behind `{keyword}` a name is due: a letter, then letters, digits and `_`"
            + (f"; `{name[:60]}` is none" if name else "")
        )
    if name in model.names() or name in model.parameters:
        fail(f"behind `{keyword}` a new name is due; `{name}` is taken by an earlier line")


def listed(model: Model, word: Word) -> Sequence[Word]:
    """The values of a word of an `input` line: one number, or LO:STEP:HI."""
    if isinstance(word, Fraction) or ":" not in word:
        return [word]
    ends: list[Word] = [model.parameters.get(part, negated(model, part)) for part in word.split(":")]
    if len(ends) != 3:
        fail(f"`{word[:60]}` has the form LO:STEP:HI")
    low, step, high = numbers(ends, 3, "LO:STEP:HI")
    if step <= 0 or low > high:
        fail(f"`{word[:60]}`: in LO:STEP:HI the step is above 0, and LO at most HI")
    if (high - low) % step:
        last = low + (high - low) // step * step
        fail(
            f"`{word[:60]}`: HI - LO is no multiple of the step; {said(low)}:{said(step)}:{said(last)} or "
            f"{said(low)}:{said(step)}:{said(last + step)} would do"
        )
    return [low + k * step for k in range(min(int((high - low) / step) + 1, VALUES + 1))]


def check_widths(name: str, low: Fraction, high: Fraction, width: Fraction, unit: Fraction) -> None:
    """Whether cells of a width fill the range, and units a cell; says what would do."""
    for what, value in (("LO", low), ("WIDTH", width)):
        if value % unit:
            near = [said(end) for end in (value // unit * unit, (value // unit + 1) * unit) if what == "LO" or end > 0]
            fail(
                f"{what} of {name}, {said(value)}, is no multiple of the unit {said(unit)}; {what} "
                f"{' or '.join(near)} would be one, or take the unit {said(common_unit([low, width]))}"
            )
    if (high - low) % width:
        count = (high - low) // width
        near = [f"HI {said(low + number * width)} ({number} cells)" for number in (count, count + 1) if number > 0]
        fail(
            f"HI - LO of {name}, {said(high - low)}, is no multiple of the width {said(width)}; "
            f"{' or '.join(near)} would do, or `state {name} {said(low)} {said(high)} cells "
            f"{max(1, round((high - low) / width))}`"
        )


def common_unit(values: Sequence[Fraction]) -> Fraction:
    """The greatest number of which all of these are multiples."""
    denominator = math.lcm(*(value.denominator for value in values))
    return Fraction(math.gcd(*(int(value * denominator) for value in values)), denominator)


def cells_by_number(rest: Sequence[Word]) -> tuple[Fraction, Fraction, Fraction, Fraction]:
    """Range, width and unit of a state by `LO HI cells N`, with a unit of which a cell has an odd number where that can
    be; or by `LO HI cells N UNIT`."""
    low, high = numbers(rest[:2], 2, "state NAME LO HI cells N")
    count, *unit = numbers(rest[3:], len(rest[3:]) if len(rest) == 5 else 1, "cells")
    if count < 1 or count.denominator != 1 or low >= high:
        fail("`state NAME LO HI cells N` has LO below HI, and a whole number of cells of at least 1")
    width = (high - low) / count
    if unit:
        return low, high, width, unit[0]
    # LO has to be a whole number of units: so the parts of a cell are a multiple of this.
    return low, high, width, width / (FINENESS * (low / width).denominator)


def said(value: Fraction) -> str:
    """A fraction as a decimal number, exactly where that is short."""
    if value.denominator == 1:
        return str(value.numerator)
    try:
        short = f"{float(value):.9g}"
        return short if Fraction(short) == value else f"about {float(value):.6g}"
    except OverflowError:
        return "more than 10^300" if value > 0 else "less than -10^300"


# By its keyword what reads the rest of a line; and of a line in which parameters may stand for numbers.
READERS: dict[str, Callable[[Model, str, list[str]], None]] = {
    "param": read_parameter,
    "unit": read_unit,
    "between": read_between,
    "goal": read_goal,
    "end": read_end,
    **dict.fromkeys(("exact", "wrap"), read_mark),
    **dict.fromkeys(CHOICES, read_choice),
    **dict.fromkeys(("next", "d"), read_equation),
}
NUMBER_READERS: dict[str, Callable[[Model, str, list[Word]], None]] = {
    "denominator": read_denominator,
    "sample": read_sample,
    **dict.fromkeys(("state", "input", "noise"), read_variable),
    **dict.fromkeys(("A", "B", "c", "w"), read_row),
    **dict.fromkeys(("target", "obstacle"), read_box),
}
