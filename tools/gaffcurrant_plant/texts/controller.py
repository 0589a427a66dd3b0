"""A controller by a table, a stay text or a patrol text: the proved library of crates/controller_c by ctypes where its
shared object is found (tools/library makes it), else the module's own reader."""

from __future__ import annotations

import ctypes
import os
from pathlib import Path
from typing import Any, Iterable, Optional, Sequence, SupportsInt, Union

from ..faults import Refused
from .table import NoRow, Table, Text, read_text, whole_of

# The folder in which the package lies.
TOOLS = Path(__file__).resolve().parents[2]

# The replies of include/gaffcurrant.h.
APPLY, ARRIVED, NO_ROW, WRONG_SIZE, CLOSED, OVERFLOW = 1, 0, -1, -2, -3, -4
FOLLOWED = 1
FAULTS = {1: "malformed: line {}", 2: "limit", 3: "no memory"}

# A number past 64 bits is outside every plant's ranges, as these are.
FARTHEST = 2**63 - 1

Values = Optional[tuple[int, ...]]


def numbers_of(values: Iterable[SupportsInt]) -> list[int]:
    """Whole numbers of 64 bits; raises ValueError where one is none."""
    return [max(-FARTHEST, min(FARTHEST, whole_of(value))) for value in values]


class Held(ctypes.Structure):
    """The struct gaffcurrant."""

    _fields_ = [("is_open", ctypes.c_bool), ("text", ctypes.c_void_p)]


def library_path() -> Optional[str]:
    """The shared object: what GAFFCURRANT_LIBRARY names, else the one of the repository in which this module lies,
    where it is built, else the one that was installed with the module."""
    if named := os.environ.get("GAFFCURRANT_LIBRARY"):
        return named
    for built in (TOOLS.parent / "crates/controller_c/out/libgaffcurrant.so", TOOLS.parent / "libgaffcurrant.so"):
        if built.is_file():
            return str(built)
    return None


def library_at(path: str) -> ctypes.CDLL:
    library = ctypes.CDLL(path)
    held, numbers, replies = ctypes.POINTER(Held), ctypes.POINTER(ctypes.c_int64), ctypes.POINTER(ctypes.c_int32)
    number, size = ctypes.POINTER(ctypes.c_uint32), ctypes.c_size_t
    calls: tuple[tuple[str, list[Any]], ...] = (
        ("open", [ctypes.c_char_p, size, number]),
        ("control", [numbers, size, numbers, size]),
        ("sizes", [number, number]),
        ("control_each", [numbers, size, numbers, size, replies, size]),
        ("rank", [numbers, size, number]),
        ("visit", [numbers, size, number]),
        ("begin_turn", [ctypes.c_uint32]),
        ("follows", [numbers, size] * 3),
        ("close", []),
    )
    for name, words in calls:
        call = getattr(library, f"gaffcurrant_{name}")
        call.argtypes, call.restype = [held, *words], None if name == "close" else ctypes.c_int32
    return library


class Library:
    """A text that the library holds. One thread at a time uses it."""

    def __init__(self, path: str, text: bytes) -> None:
        self.calls, self.held = library_at(path), Held()
        line, sizes = ctypes.c_uint32(), (ctypes.c_uint32(), ctypes.c_uint32())
        status = self.calls.gaffcurrant_open(self.held, text, len(text), line)
        if status:
            if status != 3:
                read_text(text)
            raise Refused(FAULTS[status].format(line.value), "the library refuses it")
        self.calls.gaffcurrant_sizes(self.held, *sizes)
        self.states, self.inputs = (size.value for size in sizes)
        self.turn = 0

    def replies(self, states: Sequence[Sequence[int]]) -> list[tuple[int, Values]]:
        count = len(states)
        numbers = [value for state in states for value in state]
        asked, values, replies = (
            (ctypes.c_int64 * len(numbers))(*numbers),
            (ctypes.c_int64 * (count * self.inputs))(),
            (ctypes.c_int32 * count)(),
        )
        status = self.calls.gaffcurrant_control_each(self.held, asked, len(asked), values, len(values), replies, count)
        if status:
            raise ValueError("the controller is closed" if status == CLOSED else f"a state has {self.states} numbers")
        starts = range(0, count * self.inputs, self.inputs) if self.inputs else [0] * count
        return [
            (reply, tuple(values[at : at + self.inputs]) if reply == APPLY else None)
            for reply, at in zip(replies, starts)
        ]

    def rank(self, state: Sequence[int]) -> Optional[int]:
        rank = ctypes.c_uint32()
        status = self.calls.gaffcurrant_rank(self.held, (ctypes.c_int64 * len(state))(*state), len(state), rank)
        if status < NO_ROW:
            raise ValueError("the controller is closed" if status == CLOSED else f"a state has {self.states} numbers")
        return rank.value if status == 1 else None

    def visit(self, state: Sequence[int]) -> bool:
        turn = ctypes.c_uint32()
        status: int = self.calls.gaffcurrant_visit(self.held, (ctypes.c_int64 * len(state))(*state), len(state), turn)
        if status < 0:
            raise ValueError("the controller is closed" if status == CLOSED else f"a state has {self.states} numbers")
        self.turn = turn.value
        return status == 1

    def begin_turn(self, turn: int) -> None:
        status = self.calls.gaffcurrant_begin_turn(self.held, turn) if 0 <= turn < 2**32 else WRONG_SIZE
        if status < 0:
            raise ValueError("the controller is closed" if status == CLOSED else f"there is no turn {turn}")
        self.turn = turn

    def follows(self, state: Sequence[int], values: Sequence[int], after: Sequence[int]) -> int:
        arrays = [(ctypes.c_int64 * len(numbers))(*numbers) for numbers in (state, values, after)]
        reply: int = self.calls.gaffcurrant_follows(
            self.held, *(part for array in arrays for part in (array, len(array)))
        )
        if reply in (WRONG_SIZE, CLOSED):
            raise ValueError(
                "the controller is closed"
                if reply == CLOSED
                else f"a state has {self.states} numbers, and there are {self.inputs} inputs"
            )
        return reply

    def close(self) -> None:
        self.calls.gaffcurrant_close(self.held)


class Rows:
    """The same by the module's own reader."""

    def __init__(self, text: bytes) -> None:
        read = read_text(text)
        self.text: Optional[Text] = read
        self.states, self.turn = len(read.plant.states), 0

    def replies(self, states: Sequence[Sequence[int]]) -> list[tuple[int, Values]]:
        return [self.reply(state) for state in states]

    def reply(self, state: Sequence[int]) -> tuple[int, Values]:
        try:
            values = self.due().choice(state)
        except NoRow:
            return NO_ROW, None
        return (ARRIVED if values is None else APPLY), values

    def rank(self, state: Sequence[int]) -> Optional[int]:
        try:
            return self.due().rank(state) or 0
        except NoRow:
            return None

    def visit(self, state: Sequence[int]) -> bool:
        text, has_arrived = self.opened(), False
        if text.kind == "patrol" and text.turns:
            has_arrived, self.turn = text.visit(self.turn, state)
        return has_arrived

    def begin_turn(self, turn: int) -> None:
        text = self.opened()
        if not 0 <= turn < (len(text.turns) if text.kind == "patrol" else 1):
            raise ValueError(f"there is no turn {turn}")
        self.turn = turn

    def follows(self, state: Sequence[int], values: Sequence[int], after: Sequence[int]) -> int:
        plant = self.opened().plant
        if len(values) != len(plant.inputs):
            raise ValueError(f"there are {len(plant.inputs)} inputs")
        cell, there, vectors = (
            plant.cell_of(state),
            plant.cell_of(after),
            [k for k in range(plant.vectors) if tuple(plant.vector(k)) == tuple(values)],
        )
        if cell is None or not vectors:
            return NO_ROW
        plant.check_overflow(Refused)
        low, high = plant.box(cell, vectors[0])
        if there is None or plant.leaves(low, high):
            return 0
        return int(
            all(
                first <= index <= last
                for (first, last), index in zip(plant.extents(low, high), plant.indices_of(there))
            )
        )

    def due(self) -> Table:
        """The rows of the turn that is due."""
        text = self.opened()
        if text.kind != "patrol":
            return text
        return text.turns[self.turn] if text.turns else Table(text.plant, {})

    def opened(self) -> Text:
        if self.text is None:
            raise ValueError("the controller is closed")
        return self.text

    def close(self) -> None:
        self.text = None


class Controller:
    """What a table, a stay text or a patrol text applies at states in whole units. is_proved: whether the library
    answers. Raises Refused where the bytes are no such text. Of a patrol `visit` is called at each sample but the
    first, before the inputs are asked for.

    library names the shared object; it is looked for where that is left out, and '' is for the module's own reader. A
    controller is closed by `close`, at the end of a `with`, or when it is collected; after that it raises ValueError,
    as at a state of a wrong size."""

    def __init__(self, text: Union[str, bytes], library: Optional[str] = None) -> None:
        data = text.encode() if isinstance(text, str) else bytes(text)
        path = library_path() if library is None else library
        self.is_proved = bool(path)
        self._rows: Union[Library, Rows] = Library(path, data) if path else Rows(data)

    def choice(self, state: Iterable[SupportsInt]) -> Values:
        """The values to apply at a state, one for each input, or None in a target, where nothing has to be; raises
        NoRow."""
        whole = self.whole(state)
        ((reply, values),) = self._rows.replies([whole])
        if reply == NO_ROW:
            raise NoRow(f"{whole} has no row")
        return values

    def choices(self, states: Iterable[Iterable[SupportsInt]]) -> list[tuple[int, Values]]:
        """The reply and the values at each of many states: (APPLY, values), (ARRIVED, None) or (NO_ROW, None)."""
        return self._rows.replies([self.whole(state) for state in states])

    def rank(self, state: Iterable[SupportsInt]) -> int:
        """The number of samples that suffice from a state, 0 with goal keep; raises NoRow."""
        whole = self.whole(state)
        rank = self._rows.rank(whole)
        if rank is None:
            raise NoRow(f"{whole} has no row")
        return rank

    def follows(
        self, state: Iterable[SupportsInt], values: Iterable[SupportsInt], after: Iterable[SupportsInt]
    ) -> bool:
        """Whether the next state lies in the successor box of the state's cell under these values of the inputs. Under
        the text's own inputs it does, if the plant obeys its equations. Raises NoRow if the state is outside the ranges
        or the values are no input vector, Refused if a number of the plant leaves the range."""
        whole, inputs = self.whole(state), numbers_of(values)
        reply = self._rows.follows(whole, inputs, self.whole(after))
        if reply == NO_ROW:
            raise NoRow(f"{whole} is outside the ranges, or {inputs} is no input vector")
        if reply == OVERFLOW:
            raise Refused("overflow", "a number of the plant leaves the range")
        return reply == FOLLOWED

    @property
    def turn(self) -> int:
        """The turn of a patrol that is due, from 0; 0 for other texts."""
        return self._rows.turn

    def visit(self, state: Iterable[SupportsInt]) -> bool:
        """Whether the next turn of a patrol begins at a state: where the state has come to the target of the turn that
        is due."""
        return self._rows.visit(self.whole(state))

    def begin_turn(self, turn: int) -> None:
        """Makes a turn of a patrol due, as after a restart of the loop; raises ValueError where there is no such
        turn."""
        self._rows.begin_turn(turn)

    def whole(self, state: Iterable[SupportsInt]) -> list[int]:
        """A state as whole numbers of 64 bits; raises ValueError where it is none, or has too few or too many
        numbers."""
        whole = numbers_of(state)
        if len(whole) != self._rows.states:
            raise ValueError(f"a state has {self._rows.states} numbers, here are {len(whole)}")
        return whole

    def close(self) -> None:
        """Frees the text; may be called twice."""
        if hasattr(self, "_rows"):
            self._rows.close()

    def __enter__(self) -> Controller:
        return self

    def __exit__(self, *fault: object) -> None:
        self.close()

    def __del__(self) -> None:
        self.close()
