"""The language of models in words.

`tools/scale --help` ends with `help_text()`, and `tests/write/models_page` writes `page()` to docs/MODELS.md.
"""

from __future__ import annotations

import textwrap

WIDTH = 120
COLUMN = 34

INTRODUCTION = """\
A model is a text of lines, usually in this order; a name is stated before the lines that use it. Numbers are decimal,
such as 0.05 or 5e-2, and in the model's own units. `#` begins a comment."""

# Each line of a model with its meaning.
LINES = {
    "version 1": (
        "Makes a plant of version 1, in which functions become `min` and `max` of straight lines. Without this "
        "line the plant is of version 2: functions become `lut`, and boxes lie within the spans over a "
        "cell."
    ),
    "denominator D": (
        "The coefficients become whole numbers over D. Without this line a power of ten is chosen, and "
        "polynomials are written about the middles of the ranges if that makes the boxes smaller."
    ),
    "pieces N": "Each function has N straight pieces, 2 to 31. Without this line it has as many as fit.",
    "sample T": "The sampling time of lines `A` or `d`.",
    "order K": (
        "The order of the Taylor polynomials of lines `d`, 1 to 4. Without this line it is the one that gives "
        "the smallest boxes (1 with `min`, `max`, `abs` or `lut` of what varies within a sample)."
    ),
    "steps N": (
        "A sample of lines `d` is N Taylor polynomials, one after the other, 1 to 8. Without this line it is as "
        "many as make the boxes smaller."
    ),
    "state NAME LO HI WIDTH UNIT": (
        "A state with LO <= x < HI and cells of WIDTH. UNIT is what the number 1 of the plant stands for."
    ),
    "state NAME LO HI cells N [UNIT]": (
        "The same by the number of cells. Without UNIT one is chosen of which a cell has an odd number."
    ),
    "exact NAME": (
        "The state is a whole number of units by itself, such as a direction, a mode or a number that never changes, "
        "and not a measured value."
    ),
    "input NAME UNIT V1 .. Vm": (
        "The values that the actuator can take, multiples of UNIT. LO:STEP:HI stands for the values from LO to HI."
    ),
    "noise NAME LO HI": "A disturbance anywhere between LO and HI; in lines `d` it may vary at any time.",
    "param NAME VALUE": (
        "A name for a number, in all lines below: a number, or a formula such as 2*pi/7 of numbers and earlier "
        "parameters."
    ),
    "wrap NAME": (
        "The state comes round, as an angle does: after HI it is at LO. The equations have to be the same a turn "
        "on. A cell whose box crosses the end counts as leading to every value of the state, so put the "
        "ends "
        "where the angle matters least. An exact state with cells of one unit comes round in version 1 "
        "too, and "
        "so do its boxes."
    ),
    "unit NAME WORD": "The name of a state's or an input's unit, such as m/s, for pictures (may be left out).",
    "next NAME = EXPRESSION": (
        "The next value, one line for each state in the states' order, with + - * / and ^ or ** (powers by numbers), "
        "sin cos tan asin acos atan "
        "sinh cosh tanh sqrt exp log abs, min(a, b), max(a, b), atan2(y, x) and pi. `lut(a, x0, y0, x1, "
        "y1, ..)` "
        "is a curve as it was measured, by 2 to 32 points with rising x: straight from point to point, "
        "and "
        "beyond them the first or the last y."
    ),
    "d NAME = EXPRESSION": (
        "The same as a differential equation, instead of the `next` lines. Equations that are linear, with "
        "numbers and parameters as weights of the states, and that name no state with another kind of "
        "equation, "
        "are sampled exactly, as lines `A` are."
    ),
    "target LO HI ..": "A box, LO <= x < HI for each state.",
    "obstacle LO HI ..": "The same. In both, `*` instead of LO HI stands for any value of a state.",
    "obstacle SUM < SUM": (
        "Or with >: a half-plane of one or two states, such as d < 1.4 * v. It is covered by boxes of cells."
    ),
    "goal reach": "Or `goal keep`.",
    "between [stay|patrol] [bounds]": (
        "Widens the obstacles until no way between two samples touches one (as --between), by the plant's table, "
        "or by what `stay` or `patrol` makes of it. With `bounds` no way leaves the domain either."
    ),
}

# Each further section with its paragraphs.
SECTIONS = {
    "A linear system": """\
Instead of the `next` lines a model may have a linear system x' = A x + B u + c + w. It has one line of each kind for
each state: `A a1 .. an`; `B b1 .. bm` (if there are inputs); `c c1` and `w LO HI` (may be left out). With a line
`sample T` the lines `A`, `B` and `c` are those of the differential equation dx/dt = A x + B u + c. It is sampled
exactly with the time T, the input held, to 20 decimals; `w` is what the disturbance adds in a sample.""",
    "What the noise of a state bounds": """\
A real state lies anywhere between a whole number of units and the next one. The coefficients are rounded to multiples
of 1/D, and the quotient is rounded down. The model's noises take any value. A measurement in doubles may be a
rounding error off, and so in the unit below or above: that adds a unit if the rest is whole. An `exact` state has no
noise.

Of functions the noise bounds what their straight pieces leave out. A function of one input alone is taken at the
input's values, so that this is next to nothing. Of differential equations the noise bounds what the Taylor polynomial
leaves out, by interval arithmetic over a box that holds the states on the way. Of a linear one it bounds only the
model's noises. Comments in the plant say which order, steps and form were chosen, and what else was tried with which
noise.""",
    "What it needs": """\
Functions and lines `d` need mpmath (Debian: apt-get install python3-mpmath), but for lines `d` that are all linear.
`between` needs numpy. Status 0: the plant was written; 1: the model can't be read or scaled; 2: wrong arguments.""",
}

PAGE = """\
# Models

A model is what an engineer writes, in metres and seconds. `tools/scale MODEL > NAME.plant` turns it into a plant text
of whole numbers ([FORMATS.md](FORMATS.md)). [GUIDE.md](GUIDE.md) says how to choose sampling time, cells and units.
`tools/scale` is tested, not proved.

`tests/write/models_page` writes this page from the text that `tools/scale --help` prints.

## The lines

{introduction}

| line | meaning |
|---|---|
{rows}

An example is [rail.model](../examples/rail/rail.model):

```
{example}```

{sections}
"""


def help_text() -> str:
    """The end of `tools/scale --help`."""
    lines = (
        textwrap.fill(meaning, WIDTH, initial_indent=f"  {line:{COLUMN - 2}}", subsequent_indent=" " * COLUMN)
        for line, meaning in LINES.items()
    )
    sections = (f"{title}:\n\n{text}" for title, text in SECTIONS.items())
    return "\n\n".join([INTRODUCTION, "\n".join(lines), *sections]) + "\n"


def page(example: str) -> str:
    """docs/MODELS.md, with a model as the example."""
    rows = "\n".join(f"| `{line.replace('|', chr(92) + '|')}` | {meaning} |" for line, meaning in LINES.items())
    sections = "\n\n".join(f"## {title}\n\n{text}" for title, text in SECTIONS.items())
    return PAGE.format(introduction=INTRODUCTION, rows=rows, example=example, sections=sections)
