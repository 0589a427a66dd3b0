"""Which states of a plant come round, as an angle does: those whose equation brings each value back into the state's
range, by `lut` with a saw's teeth, as tools/scale writes it, or by a quotient that takes whole turns away."""

from __future__ import annotations

from collections import Counter
from typing import TYPE_CHECKING, Optional

from .bounds import bounds_of
from .kinds import Node, Points

if TYPE_CHECKING:
    from .plant import Plant


def periods_of(plant: Plant) -> list[Optional[int]]:
    """For each state after how many numbers it comes round, which is the size of its range; None of a state that
    doesn't."""
    return [
        high - low + 1 if inner_of(node, low, high - low + 1) else None
        for node, (_, low, high, _) in zip(plant.equations, plant.states)
    ]


def rolled_out(plant: Plant) -> list[Node]:
    """A plant's equations without what brings values back into their ranges. An equation with a quotient that adds to
    its deviation is left as it is, since such a quotient makes the boxes wide."""
    return [unbent(plant, node, *state) for node, state in zip(plant.equations, plant.states)]


def unbent(plant: Plant, node: Node, _: str, low: int, high: int, width: int) -> Node:
    inner = inner_of(node, low, high - low + 1)
    if not inner or node[0] != "lut" and deviation_of(plant, inner):
        return node
    return inner


def deviation_of(plant: Plant, node: Node) -> int:
    """The deviation of a sum over the whole domain."""
    return bounds_of(node, plant.area, plant.variable_radii)[2]


def inner_of(node: Node, low: int, size: int) -> Optional[Node]:
    """What an equation brings into the range of so many numbers from the lowest one on, or None."""
    is_inner = (
        is_saw(node[2], low, size)
        if node[0] == "lut"
        else node[0] == "sub" and has_quotient(node[1], node[2], low, size)
    )
    inner: Optional[Node] = node[1] if is_inner else None
    return inner


def is_saw(points: Points, low: int, size: int) -> bool:
    """Whether points are those of two teeth or more that each rise over a turn from the lowest number to the highest.
    One alone holds values at its ends."""
    first = points[0][0]
    teeth = [
        point
        for begin in range(first, first + size * (len(points) // 2), size)
        for point in ((begin, low), (begin + size - 1, low + size - 1))
    ]
    return len(teeth) > 2 and (first - low) % size == 0 and list(points) == teeth


def has_quotient(value: Node, taken: Node, low: int, size: int) -> bool:
    """Whether what is taken from a value are the whole turns by which it is above its range."""
    if taken[0] != "mul" or ("num", size) not in taken[1:]:
        return False
    quotient = taken[1] if taken[2] == ("num", size) else taken[2]
    if quotient[0] != "div" or quotient[2] != size:
        return False
    (terms, number), (others, other) = terms_of(value), terms_of(quotient[1])
    return terms == others and number - other == low


def terms_of(node: Node, sign: int = 1) -> tuple[Counter[Node], int]:
    """The terms of a sum, each with how often it is added, and the sum of its numbers."""
    kind = node[0]
    if kind == "num":
        return Counter(), sign * node[1]
    if kind not in ("add", "sub", "neg"):
        return Counter({node: sign}), 0
    parts = [terms_of(node[1], -sign if kind == "neg" else sign)]
    if kind != "neg":
        parts.append(terms_of(node[2], -sign if kind == "sub" else sign))
    total: Counter[Node] = Counter()
    for terms, _ in parts:
        for term, count in terms.items():
            total[term] += count
    return Counter({term: count for term, count in total.items() if count}), sum(number for _, number in parts)
