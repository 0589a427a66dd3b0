"""Equations of a model in whole numbers of units: whole coefficients over a denominator, and the noise that bounds what
rounding, quantising, straight pieces and sampling do."""

from __future__ import annotations

import itertools
import math
from fractions import Fraction
from typing import TYPE_CHECKING, Dict, Iterable, Sequence

from ..plants.expression import DIGITS
from . import polynomial
from .curves import combined, product
from .kinds import Ends, Monomial, Polynomial
from .taylor_sampling import BESIDE

if TYPE_CHECKING:
    from .variables import Room

# The least number with more digits than a plant's may have.
TOO_LONG = int(10**DIGITS)
NEVER = (Fraction(0), Fraction(0))
# What the inputs weigh a product of states by, and this for each such product.
Group = Dict[Monomial, int]
Groups = Dict[Monomial, Group]


def size(interval: Ends) -> Fraction:
    return max(-interval[0], interval[1])


class Terms:
    """An equation in units as a polynomial of whole numbers. scales: the coefficients by monomial; sizes: what the
    product of a monomial's variables may come to; quantising, disturbance: the ends of what moves it beside these."""

    def __init__(self, room: Room, equation: Polynomial, unit: Fraction, is_moved: bool = False) -> None:
        self.room, self.unit = room, unit
        self.quantising = self.disturbance = NEVER
        kinds = {room.variables[one].kind for monomial in equation for one in monomial}
        self.has_curves, self.has_steps = "curve" in kinds, "step" in kinds
        steady = {monomial: coefficient for monomial, coefficient in equation.items() if not self.has_noise(monomial)}
        for monomial, coefficient in equation.items():
            if monomial not in steady:
                self.disturb(monomial, coefficient)
        self.scales = {monomial: self.scale_of(monomial, coefficient) for monomial, coefficient in steady.items()}
        if is_moved:
            self.scales = about_middles(room, self.scales)
        self.sizes = {monomial: product_of(size(self.range_of(name)) for name in monomial) for monomial in self.scales}
        for monomial, scale in self.scales.items():
            self.quantise(monomial, scale)

    def has_noise(self, monomial: Monomial) -> bool:
        return any(self.room.variables[name].kind == "noise" for name in monomial)

    def range_of(self, name: str) -> Ends:
        variable = self.room.variables[name]
        return variable.low, variable.high

    def scale_of(self, monomial: Monomial, coefficient: Fraction) -> Fraction:
        """The coefficient of whole numbers of units."""
        return coefficient / self.unit * product_of(self.room.variables[name].unit for name in monomial)

    def disturb(self, monomial: Monomial, coefficient: Fraction) -> None:
        """Takes in a term that has a noise."""
        around = [self.room.variables[name].around() for name in monomial]
        self.disturbance = combined(self.disturbance, times(self.scale_of(monomial, coefficient), around))

    def quantise(self, monomial: Monomial, scale: Fraction) -> None:
        """Takes in by how much a term moves where real values aren't their whole numbers."""
        variables = [self.room.variables[name] for name in monomial]
        for i, variable in enumerate(variables):
            if variable.error != NEVER:
                ranges = [(other.low, other.high) for other in variables[i + 1 :]]
                moved = [other.around() for other in variables[:i]] + [variable.error] + ranges
                self.quantising = combined(self.quantising, times(scale, moved))


def about_middles(room: Room, scales: Polynomial) -> Polynomial:
    """A polynomial of whole numbers with variables less the middle of their range in the place of those that stand in
    products."""
    moved = {name for monomial in scales if sum(map(room.varies, monomial)) > 1 for name in monomial}
    places = {name: room.about_middle(name) for name in moved}
    total: Polynomial = {}
    for monomial, scale in scales.items():
        term: Polynomial = {(): scale}
        for name in monomial:
            key, middle = places.get(name, (name, 0))
            term = polynomial.multiplied(term, polynomial.added({(key,): Fraction(1)}, {(): Fraction(middle)}))
        total = polynomial.added(total, term)
    return total


def product_of(values: Iterable[Fraction]) -> Fraction:
    product = Fraction(1)
    for value in values:
        product *= value
    return product


class Scaled:
    """An equation in units: whole coefficients over a denominator, and what the rounding leaves."""

    def __init__(self, terms: Terms, denominator: int, name: str = "") -> None:
        self.terms, self.room, self.name, self.denominator = terms, terms.room, name, denominator
        self.has_curves, self.has_steps, self.quantising, self.disturbance = (
            terms.has_curves,
            terms.has_steps,
            terms.quantising,
            terms.disturbance,
        )
        self.rounding = Fraction(0)
        self.round()

    def round(self) -> None:
        """Rounds the coefficients."""
        self.coefficients: dict[Monomial, int] = {}
        for monomial, scale in self.terms.scales.items():
            whole = round(scale * self.denominator)
            if whole:
                self.coefficients[monomial] = whole
            self.rounding += abs(scale - Fraction(whole, self.denominator)) * self.terms.sizes[monomial]
        common = math.gcd(self.denominator, *self.coefficients.values())
        self.denominator //= common
        self.coefficients = {monomial: whole // common for monomial, whole in self.coefficients.items()}

    def is_short(self) -> bool:
        """Whether its numbers have as many digits as a plant's may."""
        return max([self.denominator, *(abs(one) for one in self.coefficients.values())]) < TOO_LONG

    def left_over(self) -> Fraction:
        """The most that the quotient's rounding down may leave. The states add multiples of `step` to the dividend, and
        the inputs what they give, so not every remainder comes."""
        step = math.gcd(
            self.denominator,
            *(whole for monomial, whole in self.coefficients.items() if any(map(self.room.varies, monomial))),
        )
        of_inputs = {
            monomial: Fraction(whole)
            for monomial, whole in self.coefficients.items()
            if not any(map(self.room.varies, monomial))
        }
        names = sorted({name for monomial in of_inputs for name in monomial})
        choices = [self.room.variables[name].choices or set() for name in names]
        if math.prod(map(len, choices)) > 5000:
            return Fraction(self.denominator - 1, self.denominator)
        remainders = [
            polynomial.value_of(of_inputs, dict(zip(names, values))) % step for values in itertools.product(*choices)
        ]
        return Fraction(self.denominator - step + int(max(remainders)), self.denominator)

    def error(self) -> Ends:
        """What real value / unit - the whole number may be."""
        low = -self.rounding + self.quantising[0] + self.disturbance[0]
        return low, self.left_over() + self.rounding + self.quantising[1] + self.disturbance[1]

    def noise(self) -> tuple[int, int]:
        """The whole numbers by which the real next state, rounded down, may differ from the plant's. A measurement may
        be a rounding beside: so a value on the bound of a unit may count for the unit below or above."""
        low, high = self.error()
        return math.floor(low - BESIDE), math.floor(high + BESIDE)

    def text(self) -> str:
        """The equation without its noise. Where the state itself is only added, as in `x + v / 2`, it stands before the
        quotient with all that is a whole multiple of the denominator: the value is the same, and the program finds the
        boxes faster."""
        groups: Groups = {}
        for monomial, coefficient in self.coefficients.items():
            of_states = tuple(name for name in monomial if self.room.varies(name))
            of_inputs = tuple(name for name in monomial if not self.room.varies(name))
            groups.setdefault(of_states, {})[of_inputs] = coefficient
        if self.denominator == 1:
            return joined([self.grouped(of_states, group) for of_states, group in groups.items()])
        apart = {
            of_states: {of_inputs: coefficient // self.denominator for of_inputs, coefficient in group.items()}
            for of_states, group in groups.items()
            if self.is_added(groups) and self.is_apart(of_states, groups)
        }
        divided = {of_states: group for of_states, group in groups.items() if of_states not in apart}
        terms = [self.grouped(of_states, group) for of_states, group in apart.items()]
        return joined(terms + [self.quotient(divided, is_first=not terms)] if divided else terms)

    def is_added(self, groups: Groups) -> bool:
        return groups.get((self.name,)) == {(): self.denominator} and self.is_apart((self.name,), groups)

    def is_apart(self, of_states: Monomial, groups: Groups) -> bool:
        """Whether states have whole multiples of the denominator alone, and stand in no other term."""
        others = {name for other in groups if other != of_states for name in other}
        return others.isdisjoint(of_states) and all(
            weight % self.denominator == 0 for weight in groups[of_states].values()
        )

    def quotient(self, groups: Groups, is_first: bool) -> str:
        """The sum over the denominator. Behind another term it doesn't begin with a minus, which would turn its
        rounding round."""
        terms = [self.grouped(of_states, group) for of_states, group in groups.items()]
        total = joined(terms)
        is_sum = len(terms) > 1 or any(len(group) > 1 and not of_states for of_states, group in groups.items())
        if is_sum or not is_first and total.startswith("-"):
            return f"({total}) / {self.denominator}"
        return f"{total} / {self.denominator}"

    def grouped(self, of_states: Monomial, group: Group) -> str:
        """One product of states with what the inputs weigh it by, so that each state is named once where it can be."""
        if not of_states or len(group) == 1:
            return joined([self.term(coefficient, of_states + of_inputs) for of_inputs, coefficient in group.items()])
        weight = joined([self.term(coefficient, of_inputs) for of_inputs, coefficient in group.items()])
        return " * ".join(self.room.variables[name].text for name in of_states) + f" * ({weight})"

    def term(self, coefficient: int, names: Monomial) -> str:
        if not names:
            return str(coefficient)
        words = " * ".join(self.room.variables[name].text for name in names)
        return {1: words, -1: "-" + words}.get(coefficient) or f"{coefficient} * {words}"


def times(scale: Fraction, ranges: Iterable[Ends]) -> Ends:
    interval = (Fraction(scale), Fraction(scale))
    for one in ranges:
        interval = product(interval, one)
    return interval


def joined(terms: Sequence[str]) -> str:
    """Terms as a sum, a leading minus becoming a difference."""
    text = terms[0] if terms else "0"
    for one in terms[1:]:
        text += f" - {one[1:]}" if one.startswith("-") else f" + {one}"
    return text
