"""Polynomials with real coefficients kept as fractions, and decimal numbers.

A polynomial is a dict from a monomial to its coefficient; a monomial is the sorted tuple of its variables' names."""

from __future__ import annotations

import re
from fractions import Fraction
from typing import Any, Hashable, Mapping, TypeVar, overload

from ..faults import Fault
from .kinds import Polynomial, Real


def number_of(word: str) -> Fraction:
    """A decimal number as a fraction; else raises Fault."""
    if not re.match(r"[+-]?([0-9]+\.?[0-9]*|\.[0-9]+)([eE][+-]?[0-9]+)?\Z", word):
        raise Fault(f"`{word[:60]}` is no number{hint_of(word)}")
    if not re.match(r"[^eE]{1,40}([eE][+-]?[0-3]?[0-9])?\Z", word):
        raise Fault(f"`{word[:60]}` has more than 40 places or an exponent past 39")
    return Fraction(word)


def hint_of(word: str) -> str:
    """What may be meant by a word that is no number, or nothing."""
    if re.match(r"[+-]?[0-9]+,[0-9]+\Z", word):
        return "; decimals stand behind a point, as in 0.5"
    if re.match(r"[+-]?[0-9.]+[,;]\Z", word):
        return ": numbers are set apart by blanks alone"
    if word[:1] in ("\u2212", "\u2013"):
        return ": write the minus of the keyboard, `-`"
    if re.match(r"[+-]?([0-9.]+\*)?pi\Z", word):
        return ": write the decimal, or take the angle in degrees"
    return ""


Key = TypeVar("Key", bound=Hashable)


def added(left: Mapping[Key, Fraction], right: Mapping[Key, Fraction], sign: int = 1) -> dict[Key, Fraction]:
    total = dict(left)
    for monomial, coefficient in right.items():
        total[monomial] = total.get(monomial, Fraction(0)) + sign * coefficient
    return {monomial: coefficient for monomial, coefficient in total.items() if coefficient}


def multiplied(left: Polynomial, right: Polynomial) -> Polynomial:
    total: Polynomial = {}
    for first, a in left.items():
        for second, b in right.items():
            monomial = tuple(sorted(first + second))
            total[monomial] = total.get(monomial, Fraction(0)) + a * b
    return {monomial: coefficient for monomial, coefficient in total.items() if coefficient}


@overload
def value_of(polynomial: Polynomial, values: Mapping[str, Fraction]) -> Fraction:
    ...


@overload
def value_of(polynomial: Polynomial, values: Mapping[str, Real]) -> Real:
    ...


def value_of(polynomial: Polynomial, values: Mapping[str, Any]) -> Any:
    """The value at the numbers that a dict gives for the names."""
    total: Real = Fraction(0)
    for monomial, coefficient in polynomial.items():
        product: Real = coefficient
        for name in monomial:
            product = product * values[name]
        total += product
    return total
