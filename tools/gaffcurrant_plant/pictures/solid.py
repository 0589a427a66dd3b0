"""Draws a table with matplotlib in three dimensions, along three states: blocks of cells with a row, cut open at one
corner so that the inside is seen, the targets' edges, and runs."""

from __future__ import annotations

import itertools
import math
from typing import TYPE_CHECKING, Iterable, Sequence

from . import flat as drawing
from .artists import Artist, Axes, Figure, States

if TYPE_CHECKING:
    from ..plants.array_kinds import Flags, Reals
    from ..texts.arrays import Cells
    from .flat import Colouring
    from .view import View

BLOCKS = 18
ELEVATION, AZIMUTH = 26, -52


def blocks_of(colouring: Colouring, counts: Sequence[int]) -> tuple[list[int], Reals, Flags]:
    """How many indices a block has along each state, and for each block its colour's number and whether half of its
    cells have a row."""
    import numpy

    sizes = [-(-count // BLOCKS) for count in counts]
    numbered = colouring.numbers()
    shown = numpy.where(numbered.mask, numpy.nan, numbered.data)
    padded = numpy.full([-(-count // size) * size for count, size in zip(counts, sizes)], numpy.nan)
    padded[tuple(slice(count) for count in counts)] = shown
    shape = [number for count, size in zip(padded.shape, sizes) for number in (count // size, size)]
    parts = padded.reshape(shape).transpose(0, 2, 4, 1, 3, 5).reshape(*shape[::2], -1)
    filled = numpy.mean(~numpy.isnan(parts), axis=-1) >= 0.5
    numbers = numpy.zeros(filled.shape)
    numbers[filled] = numpy.nanmin(parts[filled], axis=-1) if filled.any() else 0
    return sizes, numbers, filled


def draw_solid(figure: Figure, axes: Axes, view: View, colouring: Colouring) -> list[Artist]:
    """The blocks with a row but for the corner towards the viewer; answers the legend's entries."""
    import numpy

    counts = [view.plant.counts[i] for i in view.axes]
    sizes, numbers, filled = blocks_of(colouring, counts)
    halves = [size // 2 for size in filled.shape]
    filled[halves[0] :, : halves[1], halves[2] :] = False
    edges = [
        numpy.minimum(numpy.arange(size + 1) * block, count) for size, block, count in zip(filled.shape, sizes, counts)
    ]
    edges = [ends_of(view, axis, edge) for axis, edge in enumerate(edges)]
    low, high = colouring.limits()
    palette = colouring.palette()
    colours = palette((numbers - low) / ((high - low) or 1))
    faces = axes.voxels(
        *numpy.meshgrid(*edges, indexing="ij"), filled, facecolors=colours, edgecolor=(0, 0, 0, 0.12), linewidth=0.2
    )
    for block, face in faces.items():
        face.set_zorder(
            1 + sum(part * (index + 0.5) / size for part, index, size in zip(towards_viewer(), block, filled.shape))
        )
    if colouring.is_named:
        return colouring.entries()
    drawing.draw_bar(figure, axes, (low, high), colouring.label(), colouring.is_whole(), 0.12)
    return []


def ends_of(view: View, axis: int, edge: Iterable[int]) -> Reals:
    """The ends of blocks along an axis, in its units, by the indices at which they begin."""
    import numpy

    _, low, _, width = view.plant.states[view.axes[axis]]
    return numpy.array([view.at(axis, low + int(number) * width) for number in edge], dtype=float)


def towards_viewer() -> tuple[float, float, float]:
    """The direction from the middle to the viewer."""
    elevation, azimuth = map(math.radians, (ELEVATION, AZIMUTH))
    return math.cos(elevation) * math.cos(azimuth), math.cos(elevation) * math.sin(azimuth), math.sin(elevation)


def frame_solid(axes: Axes, view: View) -> None:
    for axis, set_range, set_label in zip(
        range(3), (axes.set_xlim, axes.set_ylim, axes.set_zlim), (axes.set_xlabel, axes.set_ylabel, axes.set_zlabel)
    ):
        set_range(*view.range(axis))
        set_label(view.label(axis), fontsize=9)
    axes.tick_params(labelsize=7)
    # Blocks have their order from draw_solid; edges and runs lie above them, also where these would hide them.
    axes.computed_zorder = False
    axes.view_init(elev=ELEVATION, azim=AZIMUTH)


def draw_edges(axes: Axes, view: View) -> list[Artist]:
    """The edges of targets and obstacles, as far as they lie in the domain."""
    from matplotlib.lines import Line2D

    entries = []
    for boxes, colour, label in (
        (view.plant.targets, drawing.TARGET, "target"),
        (view.plant.obstacles, drawing.OBSTACLE, "obstacle"),
    ):
        for box in filter(view.meets, boxes):
            ends = [
                (
                    max(view.at(axis, box[i][0]), view.range(axis)[0]),
                    min(view.at(axis, box[i][1] + 1), view.range(axis)[1]),
                )
                for axis, i in enumerate(view.axes)
            ]
            for one, other in itertools.combinations(itertools.product(*ends), 2):
                if sum(a != b for a, b in zip(one, other)) == 1:
                    axes.plot(
                        *zip(one, other), color=colour, linewidth=1.6 if colour == drawing.TARGET else 0.7, zorder=20
                    )
        if any(map(view.meets, boxes)):
            entries.append(Line2D([], [], color=colour, linewidth=1.4, label=label))
    return entries


def draw_solid_runs(axes: Axes, view: View, cells: Cells, runs: Sequence[States]) -> list[Artist]:
    from matplotlib.lines import Line2D

    for states in runs:
        course = drawing.Course(view, cells, states)
        axes.plot(*course.line, color=drawing.RUN, linewidth=1.2, zorder=30)
        axes.plot(
            *(column[:1] for column in course.places),
            marker="s",
            markersize=5,
            markerfacecolor="white",
            markeredgecolor=drawing.RUN,
            zorder=31,
        )
    label = "run, from the square" if len(runs) == 1 else f"{len(runs)} runs, from the squares"
    return [Line2D([], [], color=drawing.RUN, linewidth=1.2, label=label)] if runs else []
