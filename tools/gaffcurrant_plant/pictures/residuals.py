"""Draws with matplotlib what the steps of a log need beside the equations: over the log, and as histograms. Needs
numpy."""

from __future__ import annotations

from typing import Union

import numpy

from ..measured.conformity import Conformity
from ..plants.array_kinds import Flags, Numbers, Reals, Wholes
from .artists import Axes, Figure
from .flat import OBSTACLE, PLAIN, RUN, TARGET

# Columns in which so many steps are drawn, bars of a histogram, and unexplained steps that are marked.
COLUMNS, BARS, MARKED = 1500, 80, 4000


def draw_residuals(figure: Figure, conformity: Conformity) -> None:
    """Fills a figure: for each state what its equation leaves unexplained, over the samples and as a histogram, in the
    model's units; a band is the stated range."""
    plant, units = conformity.plant, conformity.plant.units
    panels = figure.subplots(len(plant.states), 2, squeeze=False, width_ratios=(3, 1), sharey="row")
    at, label = times_of(conformity)
    for (course, bars), (name, *_), needed, beyond, stated in zip(
        panels, plant.states, conformity.needed, conformity.beyond, conformity.stated()
    ):
        size = float(units.size(name))
        for axes in (course, bars):
            axes.axhspan(stated[0] * size, stated[1] * size, color=PLAIN, alpha=0.18, linewidth=0, zorder=0)
            axes.tick_params(labelsize=8)
        draw_course(course, at, needed * size, beyond != 0)
        course.set_ylabel(f"beside the equation of {units.label(name)}", fontsize=8)
        bars.hist(
            needed * size,
            bins=min(BARS, int(numpy.ptp(needed)) + 1) if needed.size else 1,
            orientation="horizontal",
            log=True,
            color=RUN,
        )
        bars.set_xlim(left=0.5)
    panels[-1][0].set_xlabel(label, fontsize=9)
    panels[-1][1].set_xlabel("steps", fontsize=9)
    said = f"{conformity.steps.size} steps, {conformity.share():.2%} explained by the stated ranges (bands)"
    panels[0][0].set_title(said, fontsize=9)


def times_of(conformity: Conformity) -> tuple[Union[Wholes, Reals], str]:
    """Where along the axis the steps stand: at their times, where the log is one run with times, else at their
    samples."""
    log = conformity.log
    if log.times is not None and log.runs() == 1:
        return log.times[conformity.steps], "time"
    return conformity.steps, "sample of the log"


def draw_course(axes: Axes, at: Union[Wholes, Reals], values: Numbers, is_beyond: Flags) -> None:
    """The values over the log: of many steps the least and the greatest in each column; those beyond the range are
    marked."""
    if at.size > 2 * COLUMNS:
        begins = numpy.arange(0, at.size, -(-at.size // COLUMNS))
        axes.fill_between(
            at[begins],
            numpy.minimum.reduceat(values, begins),
            numpy.maximum.reduceat(values, begins),
            color=OBSTACLE,
            linewidth=0.4,
            step="post",
        )
    else:
        axes.plot(at, values, ".", color=OBSTACLE, markersize=3)
    far = numpy.flatnonzero(is_beyond)
    far = far[:: max(1, -(-far.size // MARKED))]
    axes.plot(at[far], values[far], ".", color=TARGET, markersize=3)
