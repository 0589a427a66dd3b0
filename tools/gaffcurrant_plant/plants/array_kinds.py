"""What arrays are called, by what they hold. Needs numpy."""

from __future__ import annotations

from typing import Any, Sequence, Tuple, Union

import numpy
from numpy.typing import NDArray

Flags = NDArray[numpy.bool_]
Wholes = NDArray[numpy.integer[Any]]
Reals = NDArray[numpy.floating[Any]]
# Whole numbers of 64 bits, or Python's own where these don't suffice.
Numbers = NDArray[Any]
# Numbers, or one that holds for all.
Column = Union[int, Numbers]
RealColumn = Union[float, Reals]
Ends = Tuple[Numbers, Numbers]
# For each state the first and the last indices of boxes.
Extents = Sequence[Sequence[Wholes]]
