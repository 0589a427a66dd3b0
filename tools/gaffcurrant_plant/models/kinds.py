"""What the numbers, tuples and formulas are called of which models are made."""

from __future__ import annotations

from fractions import Fraction
from typing import Any, Dict, List, Protocol, Sequence, Tuple, TypeVar, Union

# A word of a line, or the number of the parameter that stands there.
Word = Union[str, Fraction]

# A least and a greatest number, and such a pair for each state.
Ends = Tuple[Fraction, Fraction]
RealBox = Sequence[Ends]

# (name, least, greatest, width, unit); (name, unit, values); (name, least, greatest).
ModelState = Tuple[str, Fraction, Fraction, Fraction, Fraction]
ModelInput = Tuple[str, Fraction, List[Fraction]]
ModelNoise = Tuple[str, Fraction, Fraction]

# The sorted names of a product's variables, and for each product its coefficient.
Monomial = Tuple[str, ...]
Polynomial = Dict[Monomial, Fraction]

# A node of a formula (formula.py), as in plants/kinds.py; its function: a name, a power, or straight pieces or their
# slope between points.
Node = Tuple[Any, ...]
Function = Union[str, Tuple[str, Any]]
RealPoints = Sequence[Tuple[Fraction, Fraction]]
# The right side of an equation.
Side = Union[Node, Polynomial]

# Real numbers by which a polynomial is worked out; and what formulas are evaluated to: these, intervals or arrays.
Real = Union[float, Fraction]

Value = TypeVar("Value")


# Ends of whole numbers, or a place between them.
Whole = Union[int, Fraction]
# An interval of mpmath, which has no types, and a box of such by the variables' names.
Interval = Any
Area = Dict[str, Interval]
# For each step the ends of what the polynomials leave out, and of the states behind it.
Course = List[Tuple[List[Ends], List[Ends]]]


class Maths(Protocol[Value]):
    """What `value_of` asks for. There are `least`, `greatest`, `size` and `sign` too, for formulas with min, max, abs
    and its derivative."""

    def number(self, value: Fraction, /) -> Value:
        ...

    def square(self, value: Value, /) -> Value:
        ...

    def atan2(self, one: Value, other: Value, node: Node, /) -> Value:
        ...

    def call(self, function: Function, value: Value, argument: Node, /) -> Value:
        ...
