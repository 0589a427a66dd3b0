"""Units of a plant's numbers: what the number 1 of a state or an input stands for in the model's own units, by the
model or by the comments that tools/scale writes into a plant text."""

from __future__ import annotations

import math
import re
from fractions import Fraction
from typing import TYPE_CHECKING, Iterable, Optional, Sequence

from ..command import read_bytes
from ..faults import Fault, Trouble
from ..models.polynomial import number_of

if TYPE_CHECKING:
    from ..models.kinds import Real
    from ..models.model import Model
    from .plant import Plant

NUMBER = re.compile(r"(0|-?[1-9][0-9]{0,17})\Z")
COMMENT = re.compile(r"# unit ([A-Za-z][A-Za-z0-9_]*) ([0-9.eE+-]+|[0-9]+/[1-9][0-9]*)(?: ([^:]*))?(?::.*)?\Z")
BY_ITSELF = ": a whole number by itself"


class Units:
    """sizes: for a name what its number 1 stands for; words: what the model's unit is called, where it is; exact: the
    states that are whole numbers of units by themselves."""

    def __init__(
        self,
        sizes: Optional[dict[str, Fraction]] = None,
        words: Optional[dict[str, str]] = None,
        exact: Iterable[str] = (),
    ) -> None:
        self.sizes, self.words, self.exact = sizes or {}, words or {}, exact

    def size(self, name: str) -> Fraction:
        return self.sizes.get(name, Fraction(1))

    def value(self, name: str, whole: Real) -> float:
        """A whole number in the model's units, as a number for a picture."""
        return float(whole * self.size(name))

    def whole(self, name: str, word: str) -> int:
        """The whole number of a value that a word gives in the model's units: that of the unit it lies in."""
        try:
            value = number_of(word)
        except Fault as fault:
            raise Trouble(str(fault), 2) from None
        if not self.sizes and value.denominator != 1:
            raise Trouble(f"`{word}` is no whole number; give --model for the model's units", 2)
        return math.floor(value / self.size(name))

    def word(self, name: str) -> str:
        """What stands behind a number: a blank and the unit's word, or nothing."""
        return f" {self.words[name]}" if self.words.get(name) else ""

    def size_said(self, name: str, whole: Real) -> str:
        """A width or a way of so many whole numbers: `0.5 m`."""
        return short(whole * self.size(name)) + self.word(name)

    def span_said(self, name: str, low: int, high: int) -> str:
        """The whole numbers from low to high: `390 to 399`, or `3.9 to 4 m`, since a real value lies between a whole
        number and the next, if it isn't one by itself."""
        if not self.sizes:
            return str(low) if low == high else f"{low} to {high}"
        if name in self.exact:
            return (
                self.size_said(name, low)
                if low == high
                else f"{short(low * self.size(name))} to {self.size_said(name, high)}"
            )
        return f"{short(low * self.size(name))} to {short((high + 1) * self.size(name))}{self.word(name)}"

    def label(self, name: str) -> str:
        """A name with what its unit is called: `v in m/s`."""
        return f"{name} in {self.words[name]}" if self.words.get(name) else name

    def said(self, name: str, whole: Real) -> str:
        """A value in words: `v = 0.6 m/s`."""
        return f"{name} = {short(whole * self.size(name))}{self.word(name)}"


def units_of(model: Model) -> Units:
    """The units of a model."""
    return Units(
        {state[0]: state[4] for state in model.states} | {name: unit for name, unit, _ in model.inputs},
        model.words,
        model.exact,
    )


def short(value: Real) -> str:
    """A fraction as a decimal number, of six digits where it isn't short."""
    said = decimal(value)
    return said if len(said) <= 12 else f"{float(value):.6g}"


MODEL_HELP = (
    "the model, or the plant text that tools/scale made of it: states, widths and inputs are in its units, "
    "in the words and in what is printed"
)


def units_for(path: Optional[str], plant: Plant) -> Units:
    """The units of a plant by the file that --model names, none without one; raises Trouble where it is of another
    plant."""
    if path is None:
        return Units()
    from ..models.agreement import check_variables_of

    data = read_bytes(path)
    units = read_units(path, data)
    check_variables_of(path, data, plant)
    return units


def state_of(plant: Plant, words: Sequence[str], units: Units) -> list[int]:
    """The whole numbers of a state that words give, in a model's units where these are known; raises Trouble."""
    if len(words) != len(plant.states):
        names = " ".join(state[0] for state in plant.states)
        raise Trouble(f"a state of this plant has {len(plant.states)} numbers ({names}), here are {len(words)}", 2)
    if units.sizes:
        return [units.whole(name, word) for (name, *_), word in zip(plant.states, words)]
    if wrong := [word for word in words if not NUMBER.match(word)]:
        raise Trouble(
            f"`{wrong[0][:60]}` is no whole number; a state is given in the plant's whole units, floor(value / "
            "unit), or with --model MODEL in the model's own",
            2,
        )
    return [int(word) for word in words]


def outside_said(plant: Plant, state: Sequence[int], units: Units) -> Optional[str]:
    """In which states a state is outside of the domain, and in which numbers it was understood; None where it is in
    it."""
    out = [
        f"{name} = {units.size_said(name, value)} is outside {units.span_said(name, low, high)}"
        for value, (name, low, high, _) in zip(state, plant.states)
        if not low <= value <= high
    ]
    told = (
        "; without --model these are whole numbers of the plant's units"
        if not units.sizes
        else "; with --model these are numbers in the model's units, and none of the plant's"
    )
    return ", ".join(out) + told if out else None


def decimal(value: Real) -> str:
    """A fraction whose denominator divides a power of ten, as a decimal number; others to twelve digits."""
    exact = Fraction(value)
    for places in range(41):
        if (exact * 10**places).denominator == 1:
            digits = f"{abs(exact.numerator * 10 ** places // exact.denominator):0{places + 1}d}"
            said = digits[:-places] + "." + digits[-places:] if places else digits
            return "-" * (exact < 0) + said
    return f"{float(exact):.12g}"


def exactly(value: Real) -> str:
    """A fraction as a decimal number where that ends, else as numerator and denominator, `2/875`."""
    said = decimal(value)
    return said if Fraction(said) == value else str(Fraction(value))


def read_units(path: str, data: bytes) -> Units:
    """The units by the text of a model, or of a plant that tools/scale has made; raises Trouble where there are
    none."""
    lines = [line.strip() for line in data.decode("utf-8", "replace").lstrip("\ufeff").splitlines()]
    first = next((line for line in lines if line and not line.startswith("#")), "")
    if first.split()[:1] in (["plant"], ["table"]):
        return units_by_comments(path, lines)
    from ..models.model import read_model

    try:
        return units_of(read_model(data))
    except Trouble as trouble:
        raise Trouble(f"{path}: {trouble}", trouble.status) from None


def units_by_comments(path: str, lines: Iterable[str]) -> Units:
    """The units by the comments of a plant text; raises Trouble where there are none."""
    found = [found.groups() for found in map(COMMENT.match, lines) if found]
    exact = {line.split()[2] for line in lines if COMMENT.match(line) and line.endswith(BY_ITSELF)}
    if not found:
        raise Trouble(f"{path}: the text has no comments `# unit NAME SIZE`, which tools/scale writes; give the model")
    try:
        sizes = {name: Fraction(size) if "/" in size else number_of(size) for name, size, _ in found}
    except Fault as fault:
        raise Trouble(f"{path}: {fault}") from None
    return Units(sizes, {name: word for name, _, word in found if word}, exact)
