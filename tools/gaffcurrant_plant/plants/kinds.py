"""What the numbers and tuples are called that plants are made of."""

from __future__ import annotations

from typing import Any, Callable, Mapping, Optional, Sequence, Tuple

# A cell and an input vector by their numbers, and how many samples suffice from a cell.
Cell = int
Vector = int
Rank = int

# What a row of a table gives its cell: a rank, None with goal keep, and an input, None in a target; and the same for
# the cells from a first to a last one.
Row = Tuple[Optional[Rank], Optional[Vector]]
RowRun = Tuple[Cell, Cell, Optional[Rank], Optional[Vector]]

# (name, least, greatest, width); (name, values); (name, least, greatest).
State = Tuple[str, int, int, int]
Input = Tuple[str, "list[int]"]
Noise = Tuple[str, int, int]

# A least and a greatest number, and such a pair for each state; ends of ranges, or first and last indices.
Interval = Tuple[int, int]
Box = Sequence[Interval]
# The least and the greatest point of a box.
Corners = Tuple[Sequence[int], Sequence[int]]
# The two ends of the range of each variable.
Area = Sequence[Interval]
# The two ends of a span, and a deviation.
Bounds = Tuple[int, int, int]

# A node of an expression (expression.py) and the points of a `lut`. What stands behind a node's kind differs from kind
# to kind; a union of these tuples would name itself, and mypy 1.0 ends by a fault of memory over such a union.
Node = Tuple[Any, ...]
Points = Sequence[Tuple[int, int]]
# An expression as a function of the variables, and its span as one of their area: over numbers, or over arrays.
Value = Callable[[Sequence[Any]], Any]
Span = Callable[[Sequence[Any]], Tuple[Any, Any]]
# The functions that both are made of, by their names.
Functions = Mapping[str, Callable[..., object]]
