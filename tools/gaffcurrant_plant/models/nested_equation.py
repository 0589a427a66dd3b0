"""Polynomials about the middles of the ranges, in Horner's scheme: each variable is taken once out of the terms that
have it, and what it is a factor of is a whole number over a denominator of its own. So the terms' signs cancel in the
coefficients, and powers need no coefficients of many digits."""

from __future__ import annotations

import math
import re
from fractions import Fraction
from typing import TYPE_CHECKING, NamedTuple, Sequence

from ..plants.expression import DIGITS
from .curves import combined, product
from .kinds import Ends, Monomial, Polynomial
from .scaled_equation import Scaled, joined, size

if TYPE_CHECKING:
    from .variables import Room

# What terms that are left out may come to, in units.
LEFT_OUT = Fraction(1, 50)


class Inner(NamedTuple):
    """A whole number that stands for a polynomial times a denominator: its text, term by term, and the ends of what the
    polynomial is more."""

    terms: list[str]
    more: Ends


class Nested(Scaled):
    """An equation in units as a polynomial about the middles of the ranges; what Scaled has, it has."""

    def round(self) -> None:
        """Nests the terms, and rounds the coefficients."""
        kept, left_out = self.thinned()
        self.apart = (
            {monomial: scale for monomial, scale in kept.items() if self.is_apart_from(monomial, kept)}
            if self.adds_itself(kept)
            else {}
        )
        inner = self.nest(
            {monomial: scale for monomial, scale in kept.items() if monomial not in self.apart}, self.denominator
        )
        self.words = inner.terms
        low, high = inner.more
        self.more = low / self.denominator - left_out, high / self.denominator + left_out
        self.rounding = size(self.more)

    def is_short(self) -> bool:
        return all(len(number) <= DIGITS for term in self.words for number in re.findall("[0-9]+", term))

    def thinned(self) -> tuple[Polynomial, Fraction]:
        """The terms without those that come to next to nothing, and what these come to."""
        scales, left_out = self.terms.scales, Fraction(0)
        sizes = {monomial: abs(scale) * self.terms.sizes[monomial] for monomial, scale in scales.items()}
        kept = dict(scales)
        for monomial in sorted(scales, key=lambda one: sizes[one]):
            if left_out + sizes[monomial] > LEFT_OUT:
                break
            left_out += sizes[monomial]
            del kept[monomial]
        return kept, left_out

    def adds_itself(self, polynomial: Polynomial) -> bool:
        return polynomial.get((self.name,)) == 1 and self.is_apart_from((self.name,), polynomial)

    def is_apart_from(self, monomial: Monomial, polynomial: Polynomial) -> bool:
        """Whether a term is a variable alone, which stands in no other term, times a whole number."""
        return (
            len(monomial) == 1
            and self.room.varies(monomial[0])
            and polynomial[monomial].denominator == 1
            and not any(monomial[0] in other for other in polynomial if other != monomial)
        )

    def nest(self, polynomial: Polynomial, denominator: int) -> Inner:
        """The Inner of a polynomial times a denominator."""
        names = {name for monomial in polynomial for name in monomial}
        if not names:
            exact = polynomial.get((), Fraction(0)) * denominator
            whole = round(exact)
            return Inner([str(whole)] if whole else [], (exact - whole, exact - whole))
        name = max(
            sorted(names), key=lambda one: (self.room.varies(one), sum(one in monomial for monomial in polynomial))
        )
        factor = {without(monomial, name): scale for monomial, scale in polynomial.items() if name in monomial}
        rest = self.nest(
            {monomial: scale for monomial, scale in polynomial.items() if name not in monomial}, denominator
        )
        inner = self.factor(name, factor, denominator)
        return Inner(inner.terms + rest.terms, combined(inner.more, rest.more))

    def factor(self, name: str, polynomial: Polynomial, denominator: int) -> Inner:
        """The Inner of a variable times a polynomial."""
        finer = (
            1
            if all((scale * denominator).denominator == 1 for scale in polynomial.values())
            else self.finer_for(name, polynomial)
        )
        inner = self.nest(polynomial, denominator * finer)
        low, high = inner.more
        # What the finer denominator's rounding down leaves is 0 without one.
        more = low / finer, high / finer + Fraction(finer - 1, finer)
        return Inner(
            [times(self.room.variables[name].text, inner.terms, finer)] if inner.terms else [],
            product(self.terms.range_of(name), more),
        )

    def finer_for(self, name: str, polynomial: Polynomial) -> int:
        """By how much the denominator of what a variable is a factor of is greater: about as much as the variable
        is."""
        if not any(self.room.varies(one) for monomial in polynomial for one in monomial):
            return 1
        places = math.floor(math.log10(max(Fraction(1), size(self.terms.range_of(name)))))
        return int(10**places)

    def left_over(self) -> Fraction:
        return Fraction(self.denominator - 1, self.denominator) if self.words else Fraction(0)

    def error(self) -> Ends:
        low, high = combined(combined(self.more, self.quantising), self.disturbance)
        return low, high + self.left_over()

    def text(self) -> str:
        apart = (
            joined([self.term(int(scale), monomial) for monomial, scale in self.apart.items()]) if self.apart else ""
        )
        if not self.words:
            return apart or "0"
        total = joined(self.words)
        if self.denominator > 1:
            total = (
                f"({total}) / {self.denominator}"
                if len(self.words) > 1 or apart and total.startswith("-")
                else f"{total} / {self.denominator}"
            )
        return joined([apart, total]) if apart else total


def without(monomial: Monomial, name: str) -> Monomial:
    """A monomial without one of its factors."""
    at = monomial.index(name)
    return monomial[:at] + monomial[at + 1 :]


def times(text: str, terms: Sequence[str], finer: int) -> str:
    """The text of a variable times a sum over a denominator."""
    total = joined(terms)
    if finer > 1:
        return f"{text} * (({total}) / {finer})" if len(terms) > 1 else f"{text} * ({total} / {finer})"
    if len(terms) > 1:
        return f"{text} * ({total})"
    return {"1": text, "-1": f"-{text}"}.get(total) or (
        f"{total} * {text}" if total.lstrip("-").isdigit() else f"{text} * ({total})"
    )


def is_curved(room: Room, equation: Polynomial) -> bool:
    """Whether a polynomial has products of variables that vary, and no numbers known beforehand alone."""
    return any(sum(map(room.varies, monomial)) > 1 for monomial in equation)
