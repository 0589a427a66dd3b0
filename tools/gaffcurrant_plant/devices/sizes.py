"""Sizes of units without loss: as doubles, and as fractions of whole numbers."""

from __future__ import annotations

from fractions import Fraction
from typing import Optional, Union

from ..plants.units import exactly

TOP = 2**63


def double_of(value: Union[int, Fraction]) -> str:
    """A size as a number of a program, which the nearest double is read from: a decimal number, or 17 digits where that
    doesn't end."""
    said = exactly(value)
    return f"{float(Fraction(value)):.17g}" if "/" in said else said


def fraction_of(value: Union[int, Fraction]) -> Optional[tuple[int, int]]:
    """Numerator and denominator where both are numbers of 64 bits, else None."""
    pair = Fraction(value).as_integer_ratio()
    return pair if all(abs(one) < TOP for one in pair) else None
