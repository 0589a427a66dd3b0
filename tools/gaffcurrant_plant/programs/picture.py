"""Draws tables, stay texts and patrol texts: the cells of one to three states coloured by rank or by input, targets,
obstacles, runs and successor boxes. Of a patrol text each turn has a panel."""

from __future__ import annotations

import logging
import os
import shutil
import tempfile
import warnings
from argparse import Namespace
from contextlib import contextmanager
from functools import lru_cache, partial
from pathlib import Path
from typing import TYPE_CHECKING, Iterator, List, Optional, Sequence, Tuple

from ..command import Arguments, need, read_bytes, start
from ..faults import Refused, Trouble
from ..plants.kinds import Cell, Vector
from ..plants.plant import Plant
from ..plants.units import Units, units_for
from ..progress import Progress

if TYPE_CHECKING:
    from ..pictures.artists import Artist, Axes, Figure, States
    from ..pictures.view import View
    from ..texts.arrays import Cells

# The samples of a run by a patrol, each with its turn.
Samples = List[Tuple[int, List[int]]]
# More panels stand in two rows.
IN_A_ROW = 3
# Runs from each state, and samples of a run.
MOST_RUNS, MOST_SAMPLES = 1000, 100_000


def parser_of_arguments() -> Arguments:
    parser = Arguments(
        prog="picture",
        description=__doc__,
        epilog="States that are neither axes nor fixed are projected: each place shows the cell of the least rank "
        "over them, or with goal keep the share of them that is kept. Needs matplotlib (Debian: apt-get "
        "install python3-matplotlib). Status 0: the picture was written; 1: it couldn't be; 2: wrong words.",
    )
    parser.add_argument(
        "tables",
        metavar="TABLE",
        nargs="+",
        help="a table, stay or patrol text, or `-` for standard input; several make panels side by side",
    )
    parser.add_argument("-o", "--output", metavar="FILE", help="the picture, FILE.png or FILE.svg")
    parser.add_argument(
        "--animate",
        metavar="FILE",
        help="a film of the runs, FILE.gif or FILE.mp4 (for which ffmpeg is needed); of a patrol text each frame "
        "shows the cells of the turn in which the run is",
    )
    parser.add_argument(
        "--model",
        metavar="FILE",
        help="the model, or the plant text that tools/scale made of it: axes, legend and the numbers of the words "
        "below are in its units",
    )
    parser.add_argument("--turn", metavar="J", type=int, help="of a patrol text this turn alone, from 0")
    parser.add_argument(
        "--axes", metavar="NAME", nargs="+", help="one, two or three states; the first two, where left out"
    )
    parser.add_argument("--fix", metavar="NAME=X", action="append", default=[], help="another state, fixed at a value")
    parser.add_argument("--inputs", action="store_true", help="colour by the input to apply instead of the rank")
    parser.add_argument(
        "--from",
        metavar="X",
        nargs="+",
        action="append",
        default=[],
        dest="starts",
        help="draw a run from this state; of a patrol in the turn that --from-turn names",
    )
    parser.add_argument(
        "--from-turn", metavar="J", type=int, help="the turn of a patrol with which runs begin, from 0 (0)"
    )
    parser.add_argument(
        "--runs", metavar="N", type=int, default=1, help="so many runs from each state, of the seeds 1 to N"
    )
    parser.add_argument("--samples", metavar="N", type=int, default=1000, help="the most samples of a run")
    parser.add_argument("--trace", metavar="FILE", action="append", default=[], help="draw a trace that `sim` wrote")
    parser.add_argument("--boxes", metavar="X", nargs="+", help="the successor boxes of the cell of this state")
    parser.add_argument(
        "--input",
        metavar="U",
        action="append",
        default=[],
        help="the name of an input: colour by its values, each of up to ten with a colour of its own; or, with "
        "--boxes, the number of an input vector, whose box alone is drawn",
    )
    parser.add_argument("--equal", action="store_true", help="both axes in one scale")
    parser.add_argument("--title", metavar="TEXT", help="a line above the picture")
    parser.add_argument(
        "--size", metavar="INCHES", type=float, nargs=2, default=(6.0, 4.5), help="width and height of a panel"
    )
    parser.add_argument("--dpi", metavar="N", type=int, default=100, help="pixels to the inch")
    return parser


def check_arguments(given: Namespace) -> None:
    if not (given.output or given.animate):
        raise Trouble("give a picture's name by -o FILE.png, or a film's by --animate FILE.gif", 2)
    if given.output and not given.output.endswith((".png", ".svg")):
        raise Trouble("the output's name ends in .png or .svg", 2)
    if given.animate and not given.animate.endswith((".gif", ".mp4")):
        raise Trouble("a film's name ends in .gif or .mp4", 2)
    if given.animate and (len(given.tables) > 1 or len(given.axes or []) > 2):
        raise Trouble("a film has one panel, along one or two states", 2)
    check_numbers(given)


def check_numbers(given: Namespace) -> None:
    ranges = [(given.runs, 1, MOST_RUNS), (given.samples, 0, MOST_SAMPLES), (given.dpi, 20, 600)]
    if not all(low <= number <= high for number, low, high in [*ranges, *((size, 1, 40) for size in given.size)]):
        raise Trouble(
            f"--runs is from 1 to {MOST_RUNS}, --samples from 0 to {MOST_SAMPLES}, --dpi from 20 to 600, --size "
            "from 1 to 40 inches",
            2,
        )


def load_matplotlib() -> Optional[str]:
    """matplotlib; answers a folder that was made for its settings, or None."""
    room = room_for_settings()
    try:
        import matplotlib
    except ImportError as error:
        if room:
            shutil.rmtree(room, ignore_errors=True)
        raise Trouble(f"matplotlib can't be loaded: {error}") from None
    matplotlib.use("Agg")
    # What it says of its fonts' cache is none of the picture's.
    logging.getLogger("matplotlib").setLevel(logging.ERROR)
    warnings.simplefilter("ignore")
    return room


def room_for_settings() -> Optional[str]:
    """A new folder for matplotlib's settings where the one that it would take isn't there and can't be made; else
    None."""
    given = os.environ.get("MPLCONFIGDIR")
    try:
        os.listdir(Path(given).parent if given else Path.home())
        for folder in (
            [Path(given)] if given else [Path.home() / ".config/matplotlib", Path.home() / ".cache/matplotlib"]
        ):
            folder.mkdir(parents=True, exist_ok=True)
            if not os.access(folder, os.W_OK):
                raise OSError
    except (OSError, RuntimeError):
        os.environ["MPLCONFIGDIR"] = tempfile.mkdtemp(prefix="gaffcurrant-")
        return os.environ["MPLCONFIGDIR"]
    return None


def runs_of(given: Namespace, cells: Cells, view: View) -> list[States]:
    """The states of all runs and traces to draw."""
    from ..texts.loop import read_trace, run

    plant = cells.plant
    runs: list[States] = []
    for path in given.trace:
        with named(path):
            runs.append(read_trace(read_bytes(path), plant))
    for words in given.starts:
        begin = view.state(words, "--from")
        if cells.won[plant.cell_of(begin)]:
            runs += [run(plant, cells.row_of, begin, seed, given.samples) for seed in seeds_of(given, plant)]
    return runs


def check_starts(given: Namespace, panels: Sequence[Panel]) -> None:
    """Each start has a row in some panel, of a patrol in its first turn."""
    turn = given.from_turn or 0
    for panel in panels:
        if given.from_turn is not None and not (panel.turn is not None and 0 <= turn < len(panel.cells.plant.targets)):
            raise Trouble(
                f"--from-turn {turn}: "
                + (
                    "it is for patrol texts"
                    if panel.turn is None
                    else f"the turns are 0 to {len(panel.cells.plant.targets) - 1}"
                ),
                2,
            )
    for words in given.starts:
        firsts = [(panel.view, panel.cells if panel.turn is None else panel.cells.of_turn(turn)) for panel in panels]
        if not any(cells.won[cells.plant.cell_of(view.state(words, "--from"))] for view, cells in firsts):
            raise Trouble(
                f"--from {' '.join(words)}: the cell of this state has no row"
                + (f" in turn {turn}" if panels[0].turn is not None else "")
            )


def seeds_of(given: Namespace, plant: Plant) -> Sequence[int]:
    return range(1, given.runs + 1) if plant.noises else [1]


def asked(given: Namespace, plant: Plant) -> int:
    """How many runs the words ask for."""
    return len(given.starts) * len(seeds_of(given, plant)) + len(given.trace)


def patrol_runs_of(given: Namespace, cells: Cells, view: View) -> list[Samples]:
    """Whole runs by a patrol, with their turns."""
    from ..texts.loop import patrol_run

    if given.trace:
        raise Trouble("--trace draws the traces of `sim`, which knows no patrols; give --from", 2)
    plant, begin_turn = cells.plant, given.from_turn or 0
    runs: list[Samples] = []
    for words in given.starts:
        begin = view.state(words, "--from")
        for seed in seeds_of(given, plant) if cells.of_turn(begin_turn).won[plant.cell_of(begin)] else []:
            samples = patrol_run(
                plant,
                lambda turn, cell: cells.of_turn(turn).row_of(cell),
                cells.is_arrival,
                begin,
                seed,
                given.samples,
                begin_turn,
            )
            runs.append(samples)
    return runs


def boxes_of(given: Namespace, view: View) -> tuple[Cell, Sequence[Vector]]:
    """The cell and the input vectors of the successor boxes to draw."""
    plant = view.plant
    cell = plant.cell_of(view.state(given.boxes, "--boxes"))
    if cell is None:
        raise Trouble("--boxes: the state is outside the domain")
    _, vector = inputs_asked(given, plant)
    return cell, range(plant.vectors) if vector is None else [vector]


def inputs_asked(given: Namespace, plant: Plant) -> tuple[Optional[int], Optional[Vector]]:
    """The number of the input by which is to be coloured, and that of the vector whose box is to be drawn, each None
    where it isn't asked for."""
    names, variable, vector = [name for name, _ in plant.inputs], None, None
    for word in given.input:
        if word in names:
            variable = names.index(word)
        elif given.boxes and word.isdecimal() and int(word) < plant.vectors:
            vector = int(word)
        else:
            numbers = (
                f", and the input vectors are 0 to {plant.vectors - 1}"
                if given.boxes
                else "; the number of an input vector goes with --boxes"
            )
            raise Trouble(f"--input {word}: the inputs are {', '.join(names) or 'none'}{numbers}", 2)
    return variable, vector


class Panel:
    """One table on its axes; entries are the legend's."""

    def __init__(self, figure: Figure, cells: Cells, given: Namespace, units: Units) -> None:
        from ..pictures.flat import Colouring
        from ..pictures.view import View

        self.figure, self.given = figure, given
        self.cells = cells
        self.turn = cells.turn if cells.kind == "patrol" else None
        self.view = View(self.cells.plant, units, given.axes, given.fix)
        variable, _ = inputs_asked(given, cells.plant)
        self.colouring = Colouring(self.cells, self.view, given.inputs or variable is not None, variable)

    def draw(self, tell_version: bool, axes: Axes) -> None:
        from ..texts.loop import stretches

        of_patrol = self.turn is not None
        # Whole runs by a patrol, which a film shows, and their parts in this turn.
        self.samples = patrol_runs_of(self.given, self.cells, self.view) if of_patrol else []
        parts = (stretches(samples, self.cells.turn) for samples in self.samples)
        self.runs: list[States] = (
            [part for some in parts for part in some] if of_patrol else runs_of(self.given, self.cells, self.view)
        )
        self.axes = axes
        self.entries = self.draw_solid() if len(self.view.axes) == 3 else self.draw_flat()
        said = [f"plant {self.cells.plant.version}"] * tell_version + (
            [] if self.turn is None else [f"turn {self.turn}"]
        )
        axes.set_title(", ".join(said + list(filter(None, [self.view.note(self.colouring.is_share)]))), fontsize=9)

    def draw_flat(self) -> list[Artist]:
        from ..pictures import flat as drawing

        axes, view = self.axes, self.view
        entries = drawing.draw_cells(self.figure, axes, view, self.colouring, self.given.equal)
        drawing.frame(axes, view, self.cells, self.given.equal)
        boxes = drawing.draw_boxes(axes, view, self.turn)
        runs = (
            []
            if self.given.animate
            else drawing.draw_runs(axes, view, self.cells, self.runs, asked(self.given, view.plant))
        )
        sides = drawing.draw_successors(axes, view, *boxes_of(self.given, view)) if self.given.boxes else []
        return boxes + runs + sides + entries

    def draw_solid(self) -> list[Artist]:
        from ..pictures import solid

        entries = solid.draw_solid(self.figure, self.axes, self.view, self.colouring)
        solid.frame_solid(self.axes, self.view)
        return (
            solid.draw_edges(self.axes, self.view)
            + solid.draw_solid_runs(self.axes, self.view, self.cells, self.runs)
            + entries
        )


@lru_cache(maxsize=None)
def bytes_at(path: str) -> bytes:
    """The bytes of a text, which standard input gives once."""
    return read_bytes(path)


def units_of_tables(given: Namespace) -> Units:
    """The units of the model; raises Trouble where a table is of another one."""
    from ..texts.rows import VERSIONS, front_of

    units = Units()
    for path in given.tables if given.model is not None else ():
        with named(path):
            units = units_for(given.model, front_of(bytes_at(path), tuple(VERSIONS)).plant)
    return units


def cells_of(given: Namespace) -> Iterator[Cells]:
    """What the panels show: each table or stay text, and each turn of a patrol text."""
    from ..texts.arrays import Turns

    for path in given.tables:
        with named(path):
            turns = Turns(bytes_at(path))
            if given.turn is None:
                yield from [turns.cells(number) for number in range(turns.count)]
            elif not turns.is_patrol or not 0 <= given.turn < turns.count:
                raise Trouble(f"--turn {given.turn}: {path} has no such turn", 2)
            else:
                yield turns.cells(given.turn)


@contextmanager
def named(path: str) -> Iterator[None]:
    """Says which text is refused."""
    try:
        yield
    except Refused as refusal:
        raise Trouble(f"{path}: {refusal.answer}: {refusal.reason}") from None


def drawn(given: Namespace, units: Units) -> tuple[Figure, list[Panel]]:
    """The figure with a panel for each table and each turn, and the panels."""
    from matplotlib import pyplot
    from ..pictures.flat import put_legend

    shown = list(cells_of(given))
    if not shown:
        raise Trouble("the patrol has no target, so there is nothing to draw")
    columns = len(shown) if len(shown) <= IN_A_ROW else -(-len(shown) // 2)
    rows = -(-len(shown) // columns)
    width, height = given.size[0] * columns, given.size[1] * rows
    figure = pyplot.figure(figsize=(width, height), layout="constrained")
    panels = [Panel(figure, cells, given, units) for cells in shown]
    vectors = [vector for panel in panels for vector in panel.colouring.present]
    for panel in panels:
        panel.colouring.take(vectors)
    check_starts(given, panels)
    tell_versions = len({panel.cells.plant.version for panel in panels}) > 1
    entries: dict[str, Artist] = {}
    for number, panel in enumerate(panels, 1):
        panel.draw(
            tell_versions,
            figure.add_subplot(rows, columns, number, projection="3d" if len(panel.view.axes) == 3 else None),
        )
        for entry in panel.entries:
            entries.setdefault(entry.get_label(), entry)
    put_legend(figure, list(entries.values()), width, height)
    if given.title:
        figure.suptitle(given.title, fontsize=11)
    return figure, panels


def write(given: Namespace, units: Units) -> None:
    if given.output:
        with Progress("picture").during("drawing"):
            figure, _ = drawn(given_with(given, animate=None), units)
            figure.savefig(
                given.output, dpi=given.dpi, metadata={"Date": None} if given.output.endswith(".svg") else None
            )
    if given.animate:
        write_scenes(given, units)


def write_scenes(given: Namespace, units: Units) -> None:
    """The film: of a patrol text, where no turn is chosen, each frame shows the cells of the turn in which the run
    is."""
    from ..pictures import flat as drawing
    from ..pictures import film

    with named(given.tables[0]):
        shown = next(cells_of(given_with(given, output=None)), None)
    turns = range(len(shown.plant.targets)) if shown and shown.kind == "patrol" and given.turn is None else [given.turn]
    scenes, course = [], []
    for turn in turns:
        figure, (panel,) = drawn(given_with(given, turn=turn, output=None), units)
        is_patrol = panel.turn is not None
        runs: list[States] = panel.runs
        if is_patrol:
            runs = [[state for _, state in samples] for samples in panel.samples]
        if len(turns) > 1 and len(runs) > 1:
            raise Trouble(
                "a film of a patrol shows one run, and the cells of its turn; choose the cells of a turn by --turn", 2
            )
        # The number of the scene at each sample of the longest run.
        course = [0] * max(map(len, runs), default=0)
        if len(turns) > 1:
            course = [turn for samples in panel.samples for turn, _ in samples]
        courses = [drawing.Course(panel.view, panel.cells, states) for states in runs]
        scenes.append(film.Scene(figure, panel.axes, courses, panel.turn, given.dpi))
    film.write_film(scenes, course, given.animate)


def given_with(given: Namespace, **others: object) -> Namespace:
    """The words with others in the place of some."""
    return type(given)(**vars(given) | others)


def main(arguments: list[str]) -> int:
    given = parser_of_arguments().parse_args(arguments)
    check_arguments(given)
    need("this", "numpy", "matplotlib", *["PIL"] * (given.animate is not None))
    units = units_of_tables(given)
    room = load_matplotlib()
    try:
        write(given, units)
    except (ValueError, RuntimeError, OverflowError) as error:
        raise Trouble(f"this can't be drawn: {error}") from None
    except OSError as error:
        raise Trouble(f"{error.filename or given.output or given.animate}: {error.strerror or error}") from None
    finally:
        if room:
            shutil.rmtree(room, ignore_errors=True)
    return 0


run = partial(start, "picture", main)
