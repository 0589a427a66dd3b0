"""What rows promise from sample to sample, of numbers and of arrays of them alike."""

from __future__ import annotations

from typing import TYPE_CHECKING, Any, overload

if TYPE_CHECKING:
    from ..plants.array_kinds import Flags, Wholes


@overload
def turn_after(turn: int, has_arrived: bool, turns: int) -> int:
    ...


@overload
def turn_after(turn: Wholes, has_arrived: Flags, turns: int) -> Wholes:
    ...


def turn_after(turn: Any, has_arrived: Any, turns: int) -> Any:
    """The turn of a patrol after a sample: the next one of so many where the sample is an arrival of the turn, else the
    same."""
    return (turn + has_arrived) % turns


@overload
def has_fallen(before: int, now: int) -> bool:
    ...


@overload
def has_fallen(before: Wholes, now: Wholes) -> Flags:
    ...


def has_fallen(before: Any, now: Any) -> Any:
    """Whether a rank is less than the rank a sample before, or both are 0."""
    return (now < before) | ((now == 0) & (before == 0))
