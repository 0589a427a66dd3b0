"""What is drawn, by names of matplotlib's classes, and of Pillow's for an image: neither has types (matplotlib 3.6,
Pillow 9.4), so these stand for anything, and say what is meant."""

from __future__ import annotations

from typing import Any, Sequence, Tuple

Figure = Any
Axes = Any
Artist = Any
Colours = Any
Image = Any

# The least and the greatest number along an axis, or that has a colour; a point of the axes.
Limits = Tuple[float, float]
Place = Tuple[float, ...]
# The states of a run, one behind the other.
States = Sequence[Sequence[int]]
