"""Draws a table with matplotlib along one or two states: the cells' colours, targets, obstacles, runs and successor
boxes."""

from __future__ import annotations

import math
from fractions import Fraction
from typing import TYPE_CHECKING, Iterable, Iterator, Optional, Sequence

from ..faults import Trouble
from .artists import Artist, Axes, Colours, Figure, Limits, Place, States

if TYPE_CHECKING:
    from ..plants.array_kinds import Flags, Numbers
    from ..plants.kinds import Box, Cell, Vector
    from ..texts.arrays import Cells, Masked
    from .view import View

NAN = math.nan

TARGET, OBSTACLE, RUN, BOX, PLAIN = "#d0006f", "#555555", "#111111", "#e06000", "#3b6ea5"
COLUMNS, BOXES, MARKED = 2000, 64, 120
# So many input vectors, or values of one input, have a colour each; more are a scale.
NAMED, DISTINCT = 16, 10
# Colours that can be told apart: up to seven also by the colour-blind (Okabe and Ito), past these sixteen.
FEW = ("#56b4e9", "#e69f00", "#009e73", "#f0e442", "#0072b2", "#d55e00", "#cc79a7")
MANY = (
    "#4363d8",
    "#f58231",
    "#3cb44b",
    "#ffe119",
    "#42d4f4",
    "#800000",
    "#f032e6",
    "#469990",
    "#9a6324",
    "#bfef45",
    "#911eb4",
    "#fabed4",
    "#808000",
    "#e6194b",
    "#dcbeff",
    "#000075",
)


def sequence(count: int = 256) -> Colours:
    """Colours from light to dark that keep their order in grey, none as light as the background."""
    import numpy
    from matplotlib import colormaps, colors

    return colors.ListedColormap(colormaps["viridis"](numpy.linspace(0.93, 0.0, max(count, 2))))


def distinct(count: int) -> Colours:
    from matplotlib import colors

    return colors.ListedColormap((FEW if count <= len(FEW) else MANY)[: max(count, 1)])


class Colouring:
    """What a colour tells: the rank, the input vector, the value of one input (variable: its number, which
    is 0 where there is one alone), or with goal keep the share that is kept. shown has its numbers, with those masked
    that have none, and known what the colours are of: few values or vectors have a colour of their own each, which
    is_named tells."""

    def __init__(self, cells: Cells, view: View, by_input: bool, variable: Optional[int] = None) -> None:
        import numpy

        self.view, self.plant = view, cells.plant
        self.ranks, inputs, self.won = cells.seen(view.axes, view.fixed)
        self.by_input = by_input or cells.plant.goal == "keep"
        self.variable = 0 if self.by_input and len(self.plant.inputs) == 1 else variable
        self.is_share = cells.plant.goal == "keep" and not by_input and bool(view.projected())
        if self.is_share:
            share = cells.share(view.axes, view.fixed)
            self.shown = masked(share, share <= 0)
        else:
            shown = inputs if self.by_input else self.ranks
            self.shown = masked(shown, ~self.won | (shown < 0))
        if self.by_input and not self.is_share and self.variable is not None:
            values = numpy.array(
                [self.plant.vector(number)[self.variable] for number in range(self.plant.vectors)], dtype=float
            )
            self.shown = masked(values[filled(self.shown)], self.shown.mask)
        shown_values = numpy.unique(self.shown.data[~self.shown.mask])
        self.present = [] if self.is_share else sorted(int(value) for value in shown_values)
        self.take(self.present)

    def take(self, vectors: Iterable[int]) -> None:
        """Takes the input vectors of which one of all panels shows each, so that a colour means one vector in all of
        them."""
        self.known = sorted(set(vectors)) if self.variable is None else sorted(set(self.plant.inputs[self.variable][1]))
        self.is_named = (
            self.by_input and not self.is_share and len(self.known) <= (NAMED if self.variable is None else DISTINCT)
        )

    def numbers(self) -> Masked:
        """What is shown as numbers between the limits: of named values their indices in the list."""
        import numpy

        if not self.is_named:
            return masked(self.shown.data * self.size(), self.shown.mask)
        return masked(numpy.searchsorted(self.known, filled(self.shown)), self.shown.mask)

    def size(self) -> float:
        """What the number 1 of a scale stands for in the units of the picture."""
        if self.variable is None or not self.by_input or self.is_share or not self.view.units.sizes:
            return 1
        return float(self.view.units.size(self.plant.inputs[self.variable][0]))

    def palette(self) -> Colours:
        return distinct(len(self.known)) if self.is_named else sequence()

    def limits(self) -> Limits:
        """The least and the greatest number that has a colour."""
        if self.is_share:
            return 0, 1
        if self.is_named:
            return 0, max(len(self.known) - 1, 1)
        if self.by_input and self.variable is not None:
            return self.known[0] * self.size(), self.known[-1] * self.size()
        return 0, max(self.present[-1] if self.present else 1, 1)

    def is_whole(self) -> bool:
        """Whether a scale has whole numbers alone."""
        return not self.is_share and self.size() == 1

    def label(self) -> str:
        if self.is_share:
            return "share that is kept"
        if self.by_input and self.variable is not None:
            return self.view.units.label(self.plant.inputs[self.variable][0])
        return "number of the input" if self.by_input else "rank: samples that suffice"

    def entries(self) -> list[Artist]:
        """The legend's entries for the values or vectors that have a colour each, as far as they are shown."""
        from matplotlib.patches import Patch

        palette = self.palette()
        return [
            Patch(facecolor=palette(number), label=self.said(value))
            for number, value in enumerate(self.known)
            if value in self.present
        ]

    def said(self, value: int) -> str:
        if self.variable is None:
            return self.view.input_said(value)
        return self.view.units.said(self.plant.inputs[self.variable][0], value)


def masked(values: Numbers, mask: Flags) -> Masked:
    """An array of which some values aren't to be shown."""
    from ..texts import arrays

    return arrays.masked(values, mask)


def filled(values: Masked) -> Numbers:
    """An array with 0 in the place of what isn't to be shown."""
    import numpy

    return numpy.where(values.mask, 0, values.data)


def draw_cells(figure: Figure, axes: Axes, view: View, colouring: Colouring, equal: bool = False) -> list[Artist]:
    """The cells' colours; answers the legend's entries for few inputs, and draws a bar for all else."""
    palette, limits = colouring.palette(), colouring.limits()
    if len(view.axes) == 2:
        axes.imshow(
            colouring.numbers().T,
            origin="lower",
            aspect="auto",
            interpolation="nearest",
            cmap=palette,
            vmin=limits[0],
            vmax=limits[1],
            extent=(*view.range(0), *view.range(1)),
            zorder=1,
        )
    else:
        draw_columns(axes, view, colouring, palette, limits)
    if colouring.is_named:
        return colouring.entries()
    if colouring.present or colouring.is_share:
        if len(view.axes) == 2 or colouring.by_input:
            draw_bar(figure, axes, limits, colouring.label(), colouring.is_whole(), beside=equal)
    return []


def draw_columns(axes: Axes, view: View, colouring: Colouring, palette: Colours, limits: Limits) -> None:
    """Along one state: the rank as the height, in one colour; or with goal keep columns of one height, coloured."""
    import numpy

    low, end = view.range(0)
    size = colouring.shown.size
    columns = min(size, COLUMNS)
    chosen = (numpy.arange(columns) * 2 + 1) * size // (2 * columns)
    at = low + (end - low) * numpy.arange(columns) / columns
    has_heights = view.plant.goal == "reach"
    heights = numpy.where(colouring.won, numpy.maximum(colouring.ranks, 0) + 0.4 if has_heights else 1.0, 0.0)[chosen]
    span = (limits[1] - limits[0]) or 1
    is_plain = not colouring.by_input
    colour = PLAIN if is_plain else palette((filled(colouring.numbers())[chosen] - limits[0]) / span)
    axes.bar(at, heights, (end - low) / columns, align="edge", color=colour, linewidth=0, zorder=1)


def draw_bar(
    figure: Figure, axes: Axes, limits: Limits, label: str, is_whole: bool, gap: float = 0.02, beside: bool = False
) -> None:
    """The colours' bar: in room taken from the axes, or, where these don't fill theirs, right beside them."""
    from matplotlib import cm, colors

    where = {"cax": axes.inset_axes([1.03, 0, 0.045, 1])} if beside else {"ax": axes, "pad": gap}
    bar = figure.colorbar(cm.ScalarMappable(colors.Normalize(*limits), sequence()), **where)
    bar.set_label(label, fontsize=9)
    bar.ax.tick_params(labelsize=8)
    if is_whole:
        bar.ax.yaxis.get_major_locator().set_params(integer=True)


def frame(axes: Axes, view: View, cells: Cells, equal: bool) -> None:
    """The ranges and labels of the axes. Along one state of a plant to be kept there is no second axis."""
    axes.set_xlim(*view.range(0))
    axes.set_xlabel(view.label(0))
    if len(view.axes) == 2:
        axes.set_ylim(*view.range(1))
        axes.set_ylabel(view.label(1))
        if equal:
            axes.set_aspect("equal")
    elif view.plant.goal == "keep":
        axes.set_ylim(0, 1)
        axes.set_yticks([])
    else:
        axes.set_ylim(0, max(int(cells.ranks.max()), 1) * 1.08 + 0.5)
        axes.set_ylabel("rank: samples that suffice")
    axes.tick_params(labelsize=8)
    for spine in axes.spines.values():
        spine.set_zorder(10)


def rectangle(axes: Axes, view: View, box: Box, **style: object) -> None:
    """A box of whole numbers, from its least number to the one behind its greatest."""
    from matplotlib.patches import Rectangle

    ends = [(view.at(axis, box[i][0]), view.at(axis, box[i][1] + 1)) for axis, i in enumerate(view.axes)]
    (left, right), (low, high) = ends[0], ends[1] if len(ends) == 2 else axes.get_ylim()
    axes.add_patch(Rectangle((left, low), right - left, high - low, **style))


def draw_boxes(axes: Axes, view: View, turn: Optional[int] = None) -> list[Artist]:
    """Targets and obstacles, and the legend's entries for them; in a turn of a patrol its target stands out."""
    from matplotlib.patches import Patch

    entries = []
    target = dict(facecolor="none", edgecolor=TARGET, linewidth=2, zorder=4)
    obstacle = dict(facecolor="#bbbbbb", edgecolor=OBSTACLE, hatch="////", linewidth=0.8, zorder=3)
    partly = dict(obstacle, facecolor="none", hatch="//", linestyle=":")
    whole = [box for box in view.plant.obstacles if view.covers(box)]
    others = [box for box in view.plant.obstacles if not view.covers(box)]
    targets = view.plant.targets if turn is None else [view.plant.targets[turn]]
    later = [] if turn is None else view.plant.targets[:turn] + view.plant.targets[turn + 1 :]
    for boxes, style, label in (
        (later, dict(target, linewidth=1, linestyle=":"), "target of another turn"),
        (targets, target, "target"),
        (whole, obstacle, "obstacle"),
        (others, partly, "obstacle for some of the other states"),
    ):
        met = [box for box in boxes if view.meets(box)]
        for box in met:
            rectangle(axes, view, box, **style)
        if met:
            entries.append(Patch(**{key: style[key] for key in style if key != "zorder"}, label=label))
    return entries


class Course:
    """The way of a run on the axes. places: of its samples, in the middles of their units; line: the points that are
    joined, NAN between the edges at which a state that comes round leaves and comes in; ends: for each sample the
    number of its point."""

    def __init__(self, view: View, cells: Cells, states: States) -> None:
        self.places = along(view, cells, states)
        periods = [view.period(axis) for axis in range(len(view.axes))] + [None] * (len(self.places) - len(view.axes))
        ranges = [view.range(axis) if period else None for axis, period in enumerate(periods)]
        samples, points, self.ends = list(zip(*self.places)), [], []
        for number, sample in enumerate(samples):
            if number and any(periods):
                for crossing in crossings(samples[number - 1], sample, periods, ranges):
                    points += [crossing[0], (NAN,) * len(sample), crossing[1]]
            self.ends.append(len(points))
            points.append(sample)
        self.line = [list(column) for column in zip(*points)]

    def upto(self, sample: int) -> list[list[float]]:
        """The line up to a sample."""
        return [column[: self.ends[sample] + 1] for column in self.line]


def crossings(
    start: Place, end: Place, periods: Sequence[Optional[float]], ranges: Sequence[Optional[Limits]]
) -> Iterator[tuple[Place, Place]]:
    """The points at which the way between two samples leaves the range of a state that comes round, each with that at
    which it comes in. The way is the shorter one round."""
    ways = [
        move if period is None else (move + period / 2) % period - period / 2
        for move, period in zip((b - a for a, b in zip(start, end)), periods)
    ]
    cuts = []
    for i, (way, span, period) in enumerate(zip(ways, ranges, periods)):
        if span and period and not span[0] <= start[i] + way <= span[1]:
            edge, other_edge = span[way > 0], span[way < 0]
            cuts.append(((edge - start[i]) / way, i, other_edge, math.copysign(period, way)))
    shifts = [0.0] * len(start)
    for share, i, other_edge, turn in sorted(cuts):
        left = [a + share * way + shift for a, way, shift in zip(start, ways, shifts)]
        shifts[i] -= turn
        yield tuple(left), tuple(left[:i] + [other_edge] + left[i + 1 :])


def along(view: View, cells: Cells, states: States) -> list[list[float]]:
    """The places of a run's states on the axes: the middles of their units."""
    places = [[view.at(axis, state[i] + Fraction(1, 2)) for state in states] for axis, i in enumerate(view.axes)]
    if len(places) > 1:
        return places
    if view.plant.goal == "keep":
        return places + [[(k + 0.5) / len(states) for k in range(len(states))]]
    return places + [[rank_at(cells, state, is_first=k == 0) for k, state in enumerate(states)]]


def rank_at(cells: Cells, state: Sequence[int], is_first: bool) -> float:
    """The rank at a state of a run; 0 where a patrol has arrived."""
    cell = cells.plant.cell_of(state)
    if cell is None:
        return float("nan")
    if cells.kind == "patrol" and not is_first and cells.is_arrival(cells.turn, cell):
        return 0
    return max(int(cells.ranks[cell]), 0)


def halo() -> list[Artist]:
    """What sets a line apart from dark cells."""
    from matplotlib.patheffects import withStroke

    return [withStroke(linewidth=2.0, foreground="white", alpha=0.6)]


def draw_runs(axes: Axes, view: View, cells: Cells, runs: Sequence[States], asked: int) -> list[Artist]:
    """Runs as lines; of a long one only some samples are marked. So many are asked for, of which some may be shown in
    other panels alone."""
    from matplotlib.lines import Line2D

    style = dict(color=RUN, linewidth=0.9, marker="o", markersize=2.4, markeredgewidth=0)
    most = 1
    for states in runs:
        course = Course(view, cells, states)
        places = course.places
        every = -(-len(states) // MARKED)
        most = max(most, every)
        axes.plot(
            *course.line,
            **style | {"marker": "", "linewidth": 0.9 if every == 1 else 0.6},
            path_effects=halo(),
            zorder=5,
        )
        axes.plot(*places, **style | {"linewidth": 0, "markevery": every}, zorder=5)
        axes.plot(
            places[0][:1],
            places[1][:1],
            marker="s",
            markersize=5,
            markerfacecolor="white",
            markeredgecolor=RUN,
            zorder=6,
        )
    label = "run, from the square" if asked == 1 else f"{asked} runs, from the squares"
    if cells.kind == "patrol":
        label = "a run's ways in this turn, from the squares"
    elif most > 1:
        label += f", up to {most} samples from mark to mark"
    elif len(view.axes) == 1 and view.plant.goal == "keep":
        label += ", upwards in time"
    return [Line2D([], [], **style, label=label)] if runs else []


def draw_successors(axes: Axes, view: View, cell: Cell, vectors: Sequence[Vector]) -> list[Artist]:
    """The successor boxes of one cell, each with the number of its input at its upper corner."""
    from matplotlib.patches import Patch

    plant = view.plant
    if len(vectors) > BOXES:
        raise Trouble(
            f"--boxes draws up to {BOXES} boxes, and there are {plant.vectors} input vectors; choose one by --input", 2
        )
    rectangle(
        axes,
        view,
        list(zip(plant.low(cell), plant.high(cell))),
        facecolor="white",
        edgecolor="black",
        linewidth=1.5,
        zorder=7,
    )
    labels = []
    for vector in vectors:
        low, high = plant.box(cell, vector)
        style = ":" if plant.leaves(low, high) else "-"
        rectangle(
            axes, view, list(zip(low, high)), facecolor="none", edgecolor=BOX, linewidth=1.5, linestyle=style, zorder=8
        )
        middle = axes.get_ylim()[1] * 0.9
        if len(view.axes) == 2:
            second = view.axes[1]
            middle = view.at(1, (low[second] + high[second] + 1) / 2)
        labels.append((view.at(0, high[view.axes[0]] + 1), middle, str(vector)))
    put_labels(axes, labels)
    return [
        Patch(facecolor="white", edgecolor="black", label="a cell"),
        Patch(facecolor="none", edgecolor=BOX, label="successor boxes, by input"),
    ]


def put_labels(axes: Axes, labels: Iterable[tuple[float, float, str]]) -> None:
    """Labels to the right of their points; those that would cover each other become one."""
    kept: list[tuple[tuple[float, float], tuple[float, float], list[str]]] = []
    for x, y, text in labels:
        at = axes.transData.transform((x, y))
        near = [other for other in kept if abs(other[0][0] - at[0]) < 30 and abs(other[0][1] - at[1]) < 16]
        if near:
            near[0][2].append(text)
        else:
            kept.append((at, (x, y), [text]))
    for _, point, texts in kept:
        axes.annotate(
            ", ".join(texts),
            point,
            xytext=(3, 0),
            textcoords="offset points",
            fontsize=8,
            color="black",
            verticalalignment="center",
            zorder=9,
            annotation_clip=True,
            bbox=dict(facecolor="white", edgecolor="none", pad=0.8, alpha=0.8),
        )


def put_legend(figure: Figure, entries: Sequence[Artist], width: float, height: float) -> None:
    """The legend below all panels, in as many columns as fit, with the room that it takes kept free."""
    if not entries:
        return
    widest = 0.6 + 0.066 * max(len(entry.get_label()) for entry in entries)
    columns = max(1, min(len(entries), int(width / widest)))
    room = (0.1 + 0.2 * -(-len(entries) // columns)) / height
    if figure.get_layout_engine():
        figure.get_layout_engine().set(rect=(0, room, 1, 1 - room))
    figure.legend(handles=entries, loc="lower center", ncols=columns, fontsize=8, frameon=False, borderpad=0.2)
