"""Widens the obstacles of a plant's text until no way between two samples touches the model's own obstacles, or leaves
its domain: solves, encloses the ways, widens by a layer of cells where ways touch, and begins again. Needs numpy and
the program."""

from __future__ import annotations

import math
import time
from collections import Counter
from fractions import Fraction
from typing import TYPE_CHECKING, Callable, Iterable, Iterator, Optional, Sequence

from ..faults import Refused, Trouble
from ..models.model import said
from ..models.plant_text import box_text
from ..plants.reader import MOST
from ..plants.units import units_of
from ..progress import Progress
from ..texts.solver import written
from .doubles import need_numpy, numpy
from .enclosure import Looked

if TYPE_CHECKING:
    from ..models.kinds import Ends, RealBox
    from ..models.model import Model
    from ..models.plant_text import Planting
    from ..plants.array_kinds import Flags, Wholes
    from ..plants.plant import Plant

MOST_ROUNDS = 100
# Plants of a choice behind which it is told how long the rest may take, if it is longer than so many seconds.
FIRST, LONG = 3, 20
# By how much dearer a side is that has layers, by their number squared; and whether a way asks for a layer where it
# ends, and not only where it begins. All are tried, and what leaves the most rows is taken.
CHOICES = ((4, False), (0, False), (4, True), (0, True))


class Layers:
    """Layers of cells about each obstacle, and along the bounds of the domain: for each state those at the low and
    those at the high side."""

    def __init__(self, model: Model, dear: int, has_ends: bool) -> None:
        self.model, self.dear, self.has_ends = model, dear, has_ends
        self.obstacles = [box for keyword, box in model.boxes if keyword == "obstacle"]
        states = len(model.states)
        self.about, self.inside = numpy.zeros((len(self.obstacles), states, 2), dtype=int), numpy.zeros(
            (states, 2), dtype=int
        )
        self.lows, self.widths = [state[1] for state in model.states], [state[3] for state in model.states]
        self.counts = [int((state[2] - state[1]) / state[3]) for state in model.states]
        self.comes_round = [state[0] in model.wraps for state in model.states]
        self.taken = numpy.array(
            [[self.indices(i, *ends) for i, ends in enumerate(box)] for box in self.obstacles]
        ).reshape(-1, states, 2)

    def indices(self, i: int, low: Fraction, high: Fraction) -> tuple[int, int]:
        """The first and the last index that an obstacle meets along a state."""
        return math.floor((low - self.lows[i]) / self.widths[i]), math.ceil((high - self.lows[i]) / self.widths[i]) - 1

    def boxes(self) -> list[RealBox]:
        """The obstacles of the text, in the model's units."""
        boxes = [part for box in self.widened() for part in self.in_range(box)]
        whole = [(low, high) for _, low, high, *_ in self.model.states]
        for i, (low, high) in enumerate(whole):
            if self.inside[i][0]:
                boxes.append(whole[:i] + [(low, self.end(i, self.inside[i][0]))] + whole[i + 1 :])
            if self.inside[i][1]:
                boxes.append(whole[:i] + [(self.end(i, self.counts[i] - self.inside[i][1]), high)] + whole[i + 1 :])
        return boxes

    def widened(self) -> Iterator[RealBox]:
        """The obstacles with their layers, also where they go on behind the end of a range that comes round."""
        for box, layers, taken in zip(self.obstacles, self.about, self.taken):
            yield [
                (
                    self.end(i, taken[i][0] - layers[i][0]) if layers[i][0] else low,
                    self.end(i, taken[i][1] + 1 + layers[i][1]) if layers[i][1] else high,
                )
                for i, (low, high) in enumerate(box)
            ]

    def in_range(self, box: RealBox) -> Sequence[RealBox]:
        """The parts of a box that goes on behind the ends of ranges that come round, each in the ranges."""
        parts: list[list[Ends]] = [[]]
        for i, (low, high) in enumerate(box):
            least, most = self.lows[i], self.end(i, self.counts[i])
            ends = [(low, high)]
            if self.comes_round[i] and (low < least or high > most):
                period = most - least
                first = least + (low - least) % period
                ends = (
                    [(least, most)] if high - low >= period else [(first, most), (least, first + high - low - period)]
                )
            parts = [part + [end] for part in parts for end in ends]
        return parts

    def end(self, i: int, index: int) -> Fraction:
        return self.lows[i] + self.widths[i] * int(index)

    def widen(self, indices: Wholes, ends: Wholes, walls: Flags) -> None:
        """Adds a layer where ways touch: about each obstacle at the side beside which, for a layer's cells, most of the
        touching ways begin or end, and rather at one that has few layers, since many close a gap. indices and ends: a
        column for each of these ways, of the cell where it begins and of that where it ends; walls: which obstacles it
        may touch, and behind them which sides of the domain it may leave."""
        for number in numpy.flatnonzero(walls[: len(self.obstacles)].any(axis=1)):
            mine = numpy.concatenate([indices[:, walls[number]]] + [ends[:, walls[number]]] * self.has_ends, axis=1)
            first, last = (
                self.taken[number][:, 0] - self.about[number][:, 0],
                self.taken[number][:, 1] + self.about[number][:, 1],
            )
            size = numpy.minimum(last, numpy.array(self.counts) - 1) - numpy.maximum(first, 0) + 1
            votes = numpy.array([self.votes(i, mine[i], first[i], last[i]) for i in range(len(size))])
            costs = (numpy.prod(size) / size)[:, None] * (1 + self.dear * self.about[number] ** 2)
            i, side = numpy.unravel_index(numpy.argmax(votes / costs), votes.shape)
            self.about[number][i][side] += 1
        for at in numpy.flatnonzero(walls[len(self.obstacles) :].any(axis=1)):
            self.inside[at // 2][at % 2] += 1

    def votes(self, i: int, indices: Wholes, first: int, last: int) -> tuple[int, int]:
        """How many indices lie below and above an obstacle's first and last one; of a state that comes round at the
        side that is nearer."""
        if not self.comes_round[i]:
            return (indices < first).sum(), (indices > last).sum()
        above = (indices - last) % self.counts[i]
        is_beside = above < self.counts[i] - (last - first)
        is_above = above <= (first - indices) % self.counts[i]
        return (is_beside & ~is_above & (above > 0)).sum(), (is_beside & is_above & (above > 0)).sum()

    def said(self) -> Iterator[str]:
        """Comments on what was widened."""
        for number, (box, widened) in enumerate(zip(self.obstacles, self.widened()), 1):
            parts = [
                f"{name} {said(low)} to {said(high)}"
                for (name, *_), (low, high), own in zip(self.model.states, widened, box)
                if (low, high) != own
            ]
            if parts:
                yield f"#   obstacle {number} is widened to {', '.join(parts)}"
        for (name, low, high, *_), (first, last), i in zip(self.model.states, self.inside, range(len(self.inside))):
            if first or last:
                yield (
                    f"#   along the bounds of {name} what lies outside of {said(self.end(i, first))} to "
                    f"{said(self.end(i, self.counts[i] - last))} is an obstacle"
                )


def text_between(planting: Planting, word: str, has_bounds: bool, progress: Optional[Progress] = None) -> str:
    """The plant text whose table keeps the ways off the model's obstacles, and in its domain where that is asked
    for."""
    need_numpy()
    progress = progress or Progress("scale", has_lines=True)
    found: list[Widened] = []
    faults: list[Trouble] = []
    looks = Looks(planting, word, has_bounds, progress.tell)
    with progress.during(looks.said):
        for choice in CHOICES:
            looks.begin()
            most = max([one.rows for one in found], default=0)
            try:
                found.append(Widened(looks, *choice, most))
            except Trouble as trouble:
                faults.append(trouble)
            if found and found[0].rounds == 0:
                break
    if not found:
        raise faults[0]
    return max(found, key=lambda one: one.rows).text


class Look:
    """What a plant's table shows. rows: how many there are; indices and ends: those of the cells where touching ways
    begin and end, in columns; vectors: their inputs; walls: what they may touch."""

    def __init__(self, rows: int, indices: Wholes, ends: Wholes, vectors: Wholes, walls: Flags) -> None:
        self.rows, self.indices, self.ends, self.vectors, self.walls = rows, indices, ends, vectors, walls


class Looks:
    """Looks at plants, at each once, since several choices begin alike. choice: the number of the choice that is tried;
    counts: of each choice that was begun, how many ways may touch, plant by plant; seconds: what each look took; tell:
    says a line."""

    def __init__(
        self, planting: Planting, word: str, has_bounds: bool, tell: Callable[[str], None] = lambda _: None
    ) -> None:
        self.planting, self.model, self.word, self.has_bounds = planting, planting.model, word, has_bounds
        self.known: dict[str, Look] = {}
        self.last: Optional[Look] = None
        self.counts: list[list[int]] = []
        self.seconds: list[float] = []
        self.tell = tell
        self.ways = Looked(self.model, planting.plant, has_bounds)

    @property
    def choice(self) -> int:
        return len(self.counts)

    def begin(self) -> None:
        """Begins with the next choice."""
        self.counts.append([])

    def said(self) -> str:
        """How far it is."""
        if self.last is None:
            return "between: solving the plant as it is, and enclosing its ways"
        left = self.seconds_left()
        return (
            f"between: way {self.choice} of {len(CHOICES)} to widen obstacles, plant {len(self.known) + 1}; the "
            f"one before has {self.last.rows} rows, and the ways of {self.last.walls.shape[1]} may touch"
            + (f"; about {left:.0f} s left" if left is not None else "")
        )

    def at(self, text: str) -> Look:
        """The Look at a plant text."""
        if text not in self.known:
            begun = time.monotonic()
            self.known[text] = self.look(text)
            self.seconds.append(time.monotonic() - begun)
        self.last = look = self.known[text]
        self.counts[-1].append(look.walls.shape[1])
        if len(self.counts[0]) == FIRST and self.choice == 1:
            self.forecast()
        return look

    def forecast(self) -> None:
        """Tells how long the rest may take, where that is long."""
        left, counts = self.seconds_left(), ", ".join(map(str, self.counts[0]))
        if left is None and self.last and self.last.walls.any():
            self.tell(
                f"between: the ways that may touch don't become fewer so far ({counts}), so it can't be told how "
                f"long this takes; a plant takes {self.plant_seconds():.0f} s, and {MOST_ROUNDS} for each of "
                f"{len(CHOICES)} ways to widen obstacles are the most"
            )
        elif left is not None and left > LONG:
            self.tell(
                f"between: about {left:.0f} s more, if the ways that may touch become fewer as so far "
                f"({counts}): some {self.plants_left()} plants of {self.plant_seconds():.1f} s each, for "
                f"{len(CHOICES)} ways to widen obstacles"
            )

    def seconds_left(self) -> Optional[float]:
        """About how long the rest takes, or None where that can't be said."""
        plants = self.plants_left()
        return None if plants is None else plants * self.plant_seconds()

    def plant_seconds(self) -> float:
        """What a plant takes: the first one's ways are all new."""
        others = self.seconds[1:]
        return sum(others) / len(others) if others else self.seconds[0]

    def plants_left(self) -> Optional[int]:
        """About how many plants are still to be looked at, where the ways become fewer by the same factor from plant to
        plant; None where that can't be said."""
        own = widenings_left(self.counts[-1]) if self.counts else None
        usual = max([len(counts) for counts in self.counts[:-1]], default=None)
        if own is None and usual is not None:
            own = max(1, usual - len(self.counts[-1]))
        if own is None:
            return None
        return own + (len(CHOICES) - self.choice) * (usual or len(self.counts[-1]) + own)

    def look(self, text: str) -> Look:
        from ..texts.arrays import Turns

        try:
            read = Turns(written(self.word, text, 2))
            turns = [read.cells(turn) for turn in range(read.count)]
        except Refused as refusal:
            raise Trouble(f"between: the program answers `{refusal.answer}`: {refusal.reason}") from None
        found = [self.ways.touch(cells.won, cells.inputs) for cells in turns]
        if any(one.lost.any() for one in found):
            raise Trouble(
                "between: no enclosure of the ways was found; the sample is long beside the fastest time of the model"
            )
        walls = numpy.concatenate([one.walls for one in found], axis=-1)
        cells = numpy.concatenate([one.cells for one in found])
        vectors = numpy.concatenate([one.inputs[touch.cells] for one, touch in zip(turns, found)])
        indices = numpy.array(numpy.unravel_index(cells, self.planting.plant.counts))
        return Look(
            sum(int(one.won.sum()) for one in turns),
            indices,
            ends_of(self.planting.plant, cells, vectors),
            vectors,
            walls,
        )


def widenings_left(counts: Sequence[int]) -> Optional[int]:
    """In how many widenings numbers come below one that fall by the same factor each time; None for few, and for ones
    that don't fall."""
    if len(counts) < FIRST or counts[-1] >= counts[0]:
        return None
    if not counts[-1]:
        return 0
    factor = math.log(counts[0] / counts[-1]) / (len(counts) - 1)
    return min(MOST_ROUNDS, math.ceil(math.log(counts[-1]) / factor) + 1)


def ends_of(plant: Plant, cells: Wholes, vectors: Wholes) -> Wholes:
    """The indices, in columns, at which the middles of cells are a sample later, without disturbances."""
    batch = plant.arrays
    middles = batch.middles(batch.lows(batch.indices(cells)), vectors)
    return numpy.array(
        [
            numpy.broadcast_to((middle - low) // width, cells.shape)
            for middle, (_, low, _, width) in zip(middles, plant.states)
        ],
        dtype=int,
    )


class Widened:
    """text: the plant text; before and rows: the rows of its table without widened obstacles and with them; rounds: how
    often they were widened. Raises Trouble where no more rows would be left than another choice leaves: they become
    fewer from plant to plant."""

    def __init__(self, looks: Looks, dear: int, has_ends: bool, most: int) -> None:
        self.looks, self.planting, self.model = looks, looks.planting, looks.model
        self.layers, self.before, last = Layers(self.model, dear, has_ends), None, None
        for self.rounds in range(MOST_ROUNDS):
            self.text = self.text_of()
            look = looks.at(self.text)
            self.rows = look.rows
            self.before = self.rows if self.before is None else self.before
            if not self.rows:
                raise Trouble(self.nothing_left(last))
            if self.rows <= most:
                raise Trouble(f"between: another way to widen obstacles leaves {most} rows")
            if not look.walls.any():
                self.text = self.text_of(list(self.comments()))
                return
            self.layers.widen(look.indices, look.ends, look.walls)
            last = look
        raise Trouble(f"between: ways still touch after {MOST_ROUNDS} rounds")

    def nothing_left(self, last: Optional[Look]) -> str:
        """What to say where no row is left: which wall the most ways of the last rows touch, under which input most of
        these, and what may help."""
        if last is None:
            return (
                f"between: `{self.looks.word}` finds no row by the obstacles as they are; a line `between` is for "
                "a plant that has some"
            )
        counts = last.walls.sum(axis=1)
        wall, plant = int(numpy.argmax(counts)), self.planting.plant
        vector, many = Counter(last.vectors[last.walls[wall]].tolist()).most_common(1)[0]
        plant.units = units_of(self.model)
        where, under = self.looks.ways.walls.said(wall), plant.input_said(vector)
        others = f", or no input {under}" if plant.vectors > 1 else ""
        return (
            f"between: no row is left of {self.before} where all ways between samples keep off the obstacles. Of "
            f"the last {last.rows} rows the ways of {counts[wall]} touch {where}, of {many} under {under}. A "
            f"smaller `sample`, more room beside it{others} may help"
        )

    def comments(self) -> Iterator[str]:
        bounds = " or leaves its domain" * self.looks.has_bounds
        yield (
            f"# no way between two samples touches an obstacle of the model{bounds}: tools/between encloses the "
            "ways, tested and not proved"
        )
        yield from self.layers.said()
        yield f"#   this leaves {self.rows} of {self.before} rows, by `{self.looks.word}`"

    def text_of(self, comments: Iterable[str] = ()) -> str:
        """The text with the widened obstacles, and comments before its first line."""
        boxes = self.layers.boxes()
        if len(boxes) > MOST["obstacle"]:
            raise Trouble(f"between: {len(boxes)} obstacles are needed, and {MOST['obstacle']} are the most")
        lines = [line for line in self.planting.text.splitlines() if not line.startswith("obstacle ")]
        first = next(k for k, line in enumerate(lines) if line.startswith("plant "))
        last = next(k for k, line in enumerate(lines) if line.startswith("goal "))
        obstacles = [box_text(self.model, "obstacle", box) for box in boxes]
        return "\n".join(lines[:first] + list(comments) + lines[first:last] + obstacles + lines[last:]) + "\n"
