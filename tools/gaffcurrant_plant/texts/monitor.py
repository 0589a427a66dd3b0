"""Watches a plant that a table drives: whether the rank falls as the table promises."""

from __future__ import annotations

from typing import Iterable, Optional, SupportsInt, Union

from .promise import has_fallen
from .table import NoRow, Patrol, Table, whole_state


class Monitor:
    """Takes the state of each sample. Where the rank hasn't fallen, a disturbance, a sensor or the timing is out of its
    range: stop safely."""

    def __init__(self, table: Union[Table, Patrol], turn: int = 0) -> None:
        self.table, self.turn, self.has_begun = table, turn, False
        self.rank: Optional[int] = None

    def falls(self, state: Iterable[SupportsInt]) -> bool:
        """Whether the state has a row, and its rank has fallen since the sample before; at the first sample, and behind
        the target of a table or of a patrol's turn, any rank will do. With goal keep there are no ranks, and the row
        alone counts. Raises ValueError, and changes nothing, where the state isn't one whole number for each of the
        plant's."""
        whole, table = whole_state(self.table.plant, state), self.table
        if isinstance(table, Patrol):
            if self.has_begun:
                has_arrived, self.turn = table.visit(self.turn, whole)
                self.rank = None if has_arrived else self.rank
            table = table.turns[self.turn]
        self.has_begun = True
        try:
            rank, choice = table.row(whole)
        except NoRow:
            return False
        now, before = rank or 0, self.rank
        self.rank = None if choice is None else now
        return before is None or has_fallen(before, now)
