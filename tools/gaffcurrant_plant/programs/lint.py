"""Says why a plant text is refused, and what of it is accepted in silence and hardly meant."""

from __future__ import annotations

import itertools
import math
import random
from functools import partial
from typing import Callable, Iterable, Iterator, Optional, Sequence

from ..command import Arguments, prefer, read_bytes, start
from ..faults import Overflow, Refused
from ..models.agreement import EXACT
from ..plants.bounds import bounds_of, value_at
from ..plants.expression import parts_of, text_of, walk
from ..plants.kinds import Cell, Corners, Interval, Node, State, Vector
from ..plants.plant import EDGES, Plant
from ..plants.reader import read_plant
from ..plants.units import COMMENT, read_units, short
from ..progress import Progress

# The first line of a text by tools/scale, whose noise has in it what a quotient rounds.
MADE, ROUNDED = b"# Made by tools/scale", "multiplies what a quotient has rounded"
# Words with which a model may begin.
MODEL_WORDS = ("version", "denominator", "pieces", "sample", "order", "steps")
SAMPLE, EDGE_SAMPLE, BARE_SAMPLE, NAMED_INPUTS, COUNTED_PAIRS = 2000, 200, 12, 8, 50_000


def constant(node: Node) -> Optional[int]:
    """The value of an expression without variables, or None."""
    if node[0] == "num":
        return int(node[1])
    parts = parts_of(node)
    values = [value for value in map(constant, parts) if value is not None]
    if node[0] == "var" or len(values) < len(parts):
        return None
    first = values[0]
    made: dict[str, Callable[[], int]] = {
        "neg": lambda: -first,
        "abs": lambda: abs(first),
        "div": lambda: first // int(node[2]),
        "add": lambda: first + values[1],
        "sub": lambda: first - values[1],
        "mul": lambda: first * values[1],
        "min": lambda: min(values),
        "max": lambda: max(values),
        "lut": lambda: value_at(node[2], first),
    }
    return made[node[0]]()


def quotients(plant: Plant) -> Iterator[str]:
    """Quotients of numbers alone that lose their remainder, and quotients that are multiplied afterwards."""
    names = plant.names()
    for (name, *_), equation in zip(plant.states, plant.equations):
        for node in walk(equation):
            if node[0] == "div" and (value := constant(node[1])) is not None and value % node[2]:
                yield (
                    f"equation of {name}: `{text_of(node, names)}` is {value // node[2]}, since quotients round "
                    f"down; multiply first and divide last, as in 2 * v / {node[2]}"
                )
            if node[0] == "mul" and any(magnifies(plant, *pair) for pair in (node[1:], node[:0:-1])):
                yield f"equation of {name}: `{text_of(node, names)}` {ROUNDED}; multiply first and divide last"


def magnifies(plant: Plant, quotient: Node, factor: Node) -> bool:
    """Whether a product enlarges what a quotient of variables has rounded. `x / 5 * 5` is left alone: it is how a value
    is rounded to multiples, or wraps round."""
    if quotient[0] != "div" or constant(quotient) is not None or constant(factor) == quotient[2]:
        return False
    try:
        low, high, _ = bounds_of(factor, plant.area, [0] * len(plant.area))
    except Overflow:
        return True
    return max(-low, high) > 1


def repeats(plant: Plant) -> Iterator[str]:
    """Variables that stand more than once in an equation: each of these counts for the deviation."""
    names = plant.names()
    for (name, *_), uses in zip(plant.states, plant.rolled.uses):
        often = [names[i] for i, count in uses.items() if count > 1 and radius_of(plant, i)]
        if often:
            yield (
                f"equation of {name}: {', '.join(often)} stands in it more than once, and each place may add to "
                "the deviation"
            )


def radius_of(plant: Plant, variable: int) -> int:
    radii = plant.radii + [0] * len(plant.inputs) + [high - low for _, low, high in plant.noises]
    return radii[variable]


def unused(plant: Plant) -> Iterator[str]:
    used = {i for uses in plant.uses for i in uses}
    names = plant.names()
    for i, name in enumerate(names):
        if i in used:
            continue
        if i < len(plant.states):
            yield f"the state {name} stands in no equation"
        elif i < len(plant.states) + len(plant.inputs):
            count = len(plant.inputs[i - len(plant.states)][1])
            yield f"the input {name} stands in no equation, and makes {count} times the pairs"
        else:
            yield f"the noise {name} stands in no equation"
    for name, values in plant.inputs:
        if len(set(values)) < len(values):
            yield f"the input {name} has a value more than once; only the first is ever chosen"


def goals(plant: Plant) -> Iterator[str]:
    """What the targets and obstacles leave to be won."""
    if plant.goal == "keep" and not plant.obstacles:
        yield "there is no obstacle: the plant is to be kept in the domain alone"
    if plant.goal == "reach" and not plant.targets:
        yield "there is no target, so no cell can be won"
    for number, box in enumerate(plant.targets, 1):
        extents = plant.inner_extents(box)
        for ends, extent, state in zip(box, extents, plant.states):
            if said := ill_fitting(ends, extent, state):
                yield f"target {number}: {said}"
        if plant.obstacles and all(first <= last for first, last in extents) and is_hidden(plant, extents):
            yield f"target {number}: an obstacle meets each of its cells"


def ill_fitting(ends: Interval, extent: Interval, state: State) -> Optional[str]:
    """What to say of a target's ends along a state between which no cells fit, or not up to the ends."""
    (low, high), (first, last), (name, least, most, width) = ends, extent, state
    if high < least or low > most:
        return f"{low} to {high} is outside of the range of {name}, {least} to {most}"
    if first > last:
        return (
            f"no cell of {name} lies between {low} and {high}; cells begin at {least} + {width} * k and have "
            f"{width} numbers"
        )
    begin, end = least + first * width, least + (last + 1) * width - 1
    if begin > low > max(least, begin - width) or most > high != end:
        return f"of {low} to {high} the cells of {name} fill {begin} to {end} alone"
    return None


def narrow_target(plant: Plant) -> Iterator[str]:
    """Whether the one target has fewer indices along a state than each sampled box: then nothing is won from
    outside."""
    met = indices_met(plant, min) if plant.goal == "reach" and len(plant.targets) == 1 else None
    for (first, last), (name, *_), fewest in (
        zip(plant.inner_extents(plant.targets[0]), plant.states, met) if met else ()
    ):
        count = last - first + 1
        if 0 < count < fewest:
            yield (
                f"the target has {count} cell{'s' * (count > 1)} along {name}, and each sampled box meets "
                f"{fewest} at least: mostly nothing is won from outside; a wider target, a smaller noise "
                "or "
                "narrower cells help"
            )


def is_hidden(plant: Plant, fitting: Sequence[Interval], most: int = 4000) -> bool:
    """Whether all cells of a block are obstacles; a large block isn't looked through."""
    cells = [0]
    for (first, last), count in zip(fitting, plant.counts):
        cells = [cell * count + index for cell in cells for index in range(first, last + 1)]
        if len(cells) > most:
            return False
    return all(plant.is_obstacle(cell) for cell in cells)


def sampled(plant: Plant) -> Iterator[str]:
    """What a sample of the cells shows: whether inputs are enabled, and whether they lead out of the cell."""
    draws = random.Random(1)
    every = plant.cells <= SAMPLE
    cells = range(plant.cells) if every else sorted(draws.sample(range(plant.cells), SAMPLE))
    vectors = some_vectors(plant, draws, 32)
    cells = [cell for cell in cells if not plant.is_goal(cell) and not plant.is_obstacle(cell)]
    dead, stuck = dead_and_stuck(plant, cells, vectors)
    of = f"{len(cells)} {'' if every else 'sampled '}cells that are neither goal nor obstacle"
    inputs = "every input" if plant.vectors <= 32 else "each of 32 sampled inputs"
    if dead:
        yield f"at {dead} of {of} the box of {inputs} leaves the domain"
    if stuck and plant.goal == "reach":
        yield (
            f"at {stuck} of {of} {inputs} that is enabled may lead back into the cell itself, and such a cell "
            "isn't won; a longer sampling time, a smaller deviation or narrower cells help"
        )


def dead_and_stuck(plant: Plant, cells: Sequence[Cell], vectors: Sequence[Vector]) -> tuple[int, int]:
    """At how many cells each input leaves the domain, and at how many the others all may lead back into the cell."""
    boxes, dead, stuck = plant.boxes(cells, vectors), 0, 0
    for number, cell in enumerate(cells):
        ways = [box for box in boxes[number * len(vectors) : (number + 1) * len(vectors)] if not plant.leaves(*box)]
        dead += not ways
        stuck += bool(ways) and all(has_cell(plant, box, cell) for box in ways)
    return dead, stuck


def some_vectors(plant: Plant, draws: random.Random, most: int) -> Sequence[Vector]:
    """All input vectors, or so many that are drawn."""
    vectors = range(plant.vectors)
    return vectors if plant.vectors <= most else sorted(draws.sample(vectors, most))


def has_cell(plant: Plant, box: Corners, cell: Cell) -> bool:
    """Whether a box in the domain meets a cell."""
    return all(first <= index <= last for (first, last), index in zip(plant.extents(*box), plant.indices_of(cell)))


def of_no_use(plant: Plant) -> Iterator[str]:
    """Input vectors without which the same would be won or kept."""
    if not plant.batch() or plant.vectors < 2:
        return
    from ..plants.useless_inputs import useless

    idle, beaten = useless(plant)
    if idle or beaten:
        yield no_use_said(plant, idle, beaten)


def no_use_said(plant: Plant, idle: Sequence[Vector], beaten: Sequence[Vector]) -> str:
    """What to say of input vectors that lead nowhere, and of those that others do as well as."""
    reaches, count = plant.goal == "reach", len(idle) + len(beaten)
    leads = "back into the cell or out of the domain" if reaches else "out of the domain"
    said = [f"{len(idle)} lead{'s' * (len(idle) == 1)} {leads} everywhere ({vectors_said(plant, idle)})"] * bool(idle)
    boxes = "has boxes" if len(beaten) == 1 else "have boxes"
    others = f"{len(beaten)} {boxes} that hold those of another one everywhere ({vectors_said(plant, beaten)})"
    said += [others] * bool(beaten)
    is_one, it_takes, without = ("is", "It takes", "it") if count == 1 else ("are", "They take", "them")
    same = "won with the same ranks" if reaches else "kept"
    stays = "; `stay` may need what leads back" if reaches and idle else ""
    return (
        f"{count} of {plant.vectors} input vectors {is_one} of no use: {' and '.join(said)}. {it_takes} "
        f"{100 * count / plant.vectors:.3g} per cent of the pairs, and without {without} the same cells are "
        f"{same}{stays}"
    )


def vectors_said(plant: Plant, vectors: Sequence[Vector]) -> str:
    """Some input vectors in words: the values of each input that all of them have together, where they are all that
    have these; else the first ones."""
    shared = [{plant.vector(vector)[i] for vector in vectors} for i in range(len(plant.inputs))]
    if math.prod(map(len, shared)) == len(vectors):
        said = [
            f"{name} = "
            f"{' or '.join(short(value * plant.units.size(name)) for value in sorted(part))}{plant.units.word(name)}"
            for (name, values), part in zip(plant.inputs, shared)
            if len(part) < len(set(values))
        ]
        if said:
            return ", ".join(said)
    more = f" and {len(vectors) - 3} more" if len(vectors) > 3 else ""
    return "; ".join(map(plant.input_said, vectors[:3])) + more


def growth(plant: Plant) -> Iterator[str]:
    """The deviations beside half a cell, and how many indices a box meets: in version 2, where boxes may be less than
    the deviation makes them, those of sampled pairs too. Of a state that comes round both are those about the middle,
    wherever its range ends."""
    met = indices_met(plant) if plant.version > 1 else None
    for equation, (name, *_, width) in enumerate(plant.states):
        moves = [plant.rolled.bounds(equation, vector)[2] for vector in range(plant.vectors)]
        least, most = min(moves), max(moves)
        said = between(plant, name, least, most)
        count = min(2 * most // width + (2 if 2 * most % width else 1), plant.counts[equation])
        sampled_ones = f", of sampled boxes up to {met[equation]}" if met else ""
        yield (
            f"deviation of {name}: {said}; half a cell is {plant.units.size_said(name, width // 2)}; a box meets "
            f"up to {count} cell{'s' * (count > 1)} along {name}{sampled_ones}" + end_said(plant, equation, count)
        )


def end_said(plant: Plant, equation: int, count: int) -> str:
    """What boxes of a state meet that reach across the end of its range, where it comes round and they meet more than
    others."""
    is_wide = plant.rolled.equations[equation] is not plant.equations[equation] and most_across(plant, equation) > count
    return f", and all {plant.counts[equation]} across the range's end" if is_wide else ""


def most_across(plant: Plant, equation: int) -> int:
    """The most indices that sampled boxes meet along a state which comes round, those across its range's end among
    them."""
    extents = [plant.extents(*box)[equation] for box in plant.boxes(*sampled_pairs(plant)) if not plant.leaves(*box)]
    return max((last - first + 1 for first, last in extents), default=0)


def indices_met(plant: Plant, end: Callable[[Iterable[int]], int] = max) -> Optional[list[int]]:
    """The most indices, or the fewest, that boxes of sampled pairs in the domain meet along each state; None where
    there is no such box."""
    extents = [
        plant.extents(*box) for box in plant.rolled.boxes(*sampled_pairs(plant)) if not plant.rolled.leaves(*box)
    ]
    return [end(last - first + 1 for first, last in of_state) for of_state in zip(*extents)] or None


def bare_steps(plant: Plant, exact: set[str]) -> Iterator[str]:
    """States that are measured, without noise, and that an input moves by whole cells wherever they are."""
    vectors = some_vectors(plant, random.Random(2), EDGE_SAMPLE)
    centres = [plant.centre(cell) for cell in random.Random(4).choices(range(plant.cells), k=BARE_SAMPLE)]
    first_noise = len(plant.states) + len(plant.inputs)
    for i, (name, *_, width) in enumerate(plant.states):
        if width == 1 or name in exact or any(variable >= first_noise for variable in plant.uses[i]):
            continue
        ways = ((vector, way_everywhere(plant, i, vector, centres)) for vector in vectors)
        vector, way = next(((vector, way) for vector, way in ways if way and way % width == 0), (0, 0))
        if way:
            yield (
                f"{name} has no noise, and moves by whole cells, by {plant.units.size_said(name, way)} under "
                f"{plant.input_said(vector)}: a measurement that is a rounding beside a cell's bound "
                "counts for "
                "the next cell; add a noise of -1 to 1, unless the state is a whole number by itself"
            )


def way_everywhere(plant: Plant, i: int, vector: Vector, centres: Sequence[Sequence[int]]) -> Optional[int]:
    """By how much an input vector moves a state from each of some centres; None where that isn't the same."""
    ways = {plant.rolled.step(centre, plant.vector(vector), plant.rest)[i] - centre[i] for centre in centres}
    return ways.pop() if len(ways) == 1 else None


def thin_obstacles(plant: Plant) -> Iterator[str]:
    """Obstacles that a sampled step passes over along one state, seen at samples alone."""
    for i, ((name, least, most, _), way) in enumerate(zip(plant.states, longest_ways(plant))):
        ends = (box[i] for box in plant.obstacles)
        widths = [high - low + 1 if low > least and high < most else way for low, high in ends]
        thin = [number for number, width in enumerate(widths, 1) if width < way]
        if thin:
            more = f", and so {'is' if len(thin) == 2 else 'are'} {len(thin) - 1} more" if len(thin) > 1 else ""
            wide, far = (plant.units.size_said(name, size) for size in (widths[thin[0] - 1], way))
            yield (
                f"obstacle {thin[0]} is {wide} wide along {name}, and a sample goes up to {far}{more}: the plant "
                "may pass it between two samples; make it wider, or let tools/between look at the ways"
            )


def longest_ways(plant: Plant) -> list[int]:
    """For each state how far a sample goes, at most, of those from sampled pairs."""
    ways = [0] * len(plant.states)
    cells, vectors = sampled_pairs(plant)
    for (cell, _), (low, high) in zip(itertools.product(cells, vectors), plant.rolled.boxes(cells, vectors)):
        ends = zip(ways, low, high, plant.low(cell), plant.high(cell))
        if not plant.rolled.leaves(low, high):
            ways = [max(way, abs(first - bottom), abs(last - top)) for way, first, last, bottom, top in ends]
    return ways


def steps(plant: Plant) -> Iterator[str]:
    """How far the inputs move the middles of sampled cells, beside the width of a cell; a state that comes round is
    counted on behind its range's end."""
    draws = random.Random(2)
    cells = range(plant.cells) if plant.cells <= EDGE_SAMPLE else draws.sample(range(plant.cells), EDGE_SAMPLE)
    vectors = some_vectors(plant, draws, EDGE_SAMPLE)
    centres = [plant.centre(cell) for cell in cells]
    moved = {
        vector: [plant.rolled.step(centre, plant.vector(vector), plant.rest) for centre in centres]
        for vector in vectors
    }
    for i, (name, *_, width) in enumerate(plant.states):
        ends: dict[Interval, list[Vector]] = {}
        for vector in vectors:
            moves = [middle[i] - centre[i] for middle, centre in zip(moved[vector], centres)]
            ends.setdefault((min(moves), max(moves)), []).append(vector)
        yield f"step of {name}: {steps_said(plant, name, ends)}; a cell is {plant.units.size_said(name, width)} wide"


def steps_said(plant: Plant, name: str, ends: dict[Interval, list[Vector]]) -> str:
    if len(ends) == 1 or len(ends) > NAMED_INPUTS:
        return between(plant, name, min(low for low, _ in ends), max(high for _, high in ends))
    said = []
    for (low, high), vectors in ends.items():
        more = f" and {len(vectors) - 1} more" if len(vectors) > 1 else ""
        said.append(f"{between(plant, name, low, high)} under {plant.input_said(vectors[0])}{more}")
    return "; ".join(said)


def between(plant: Plant, name: str, low: int, high: int) -> str:
    """Numbers from one to another, in the plant's units."""
    unit = plant.units
    return (
        unit.size_said(name, low) if low == high else f"{short(low * unit.size(name))} to {unit.size_said(name, high)}"
    )


def sure_moves(plant: Plant) -> Iterator[str]:
    """With goal keep: the states in which no sampled input moves a cell for sure to one side. Nothing is regained there
    at an edge. A step grows with the sampling time, while what it has to exceed mostly grows less: so there is a
    shortest sampling time."""
    if plant.goal != "keep":
        return
    cells, vectors = sampled_pairs(plant)
    pairs = list(zip(itertools.product(cells, vectors), plant.boxes(cells, vectors)))
    moves = {side: [sides_of(plant, cell, vector, box, side) for (cell, vector), box in pairs] for side in (-1, 1)}
    for i, (name, *_) in enumerate(plant.states):
        # What comes round has no edge.
        if plant.counts[i] == 1 or plant.periods[i]:
            continue
        for side, word in ((-1, "down"), (1, "up")):
            step, needed = max((move[i] for move in moves[side]), key=lambda one: one[0] - one[1])
            if step < needed:
                longer = f"; a sampling time about {needed / step:.1f} times as long may do" if step > 0 else ""
                yield (
                    f"no sampled input moves {name} {word} for sure, out of its cell: that takes a step of "
                    f"{plant.units.size_said(name, needed)}, and the best is "
                    f"{plant.units.size_said(name, step)}; what comes near an edge may never come back, "
                    "and "
                    f"mostly nothing is kept{longer}"
                )


def sampled_pairs(plant: Plant) -> tuple[list[Cell], Sequence[Vector]]:
    """Cells and input vectors of which all pairs are a sample."""
    draws = random.Random(3)
    vectors = range(plant.vectors) if plant.vectors <= 32 else draws.sample(range(plant.vectors), 32)
    return [draws.randrange(plant.cells) for _ in range(EDGE_SAMPLE)], vectors


def sides_of(plant: Plant, cell: Cell, vector: Vector, box: Corners, side: int) -> list[tuple[int, int]]:
    """For each state the middle's step to a side, and the step with which the box would be beside the cell."""
    low, high = box
    ends = zip(
        plant.step(plant.centre(cell), plant.vector(vector), plant.rest),
        plant.centre(cell),
        low,
        high,
        plant.low(cell),
        plant.high(cell),
    )
    moves = []
    for middle, centre, first, last, bottom, top in ends:
        step = (middle - centre) * side
        room = first - top if side > 0 else bottom - last
        moves.append((step, step - room + 1))
    return moves


def sizes(plant: Plant) -> Iterator[str]:
    total, exact = plant.edges()
    about = "" if exact else "about "
    share = 100 * total / EDGES
    said = (
        f"{share:.2g} per cent"
        if 0.01 <= share < 100
        else "under 0.01 per cent"
        if share < 0.01
        else f"{total / EDGES:.1f} times"
    )
    yield (
        f"{plant.cells} cells, {plant.vectors} input vector{'s' * (plant.vectors != 1)}, {plant.pairs} pairs, "
        f"{about}{total} edges: {said} of the {EDGES} that are the most"
    )


def second_version(plant: Plant) -> Iterator[str]:
    """How many edges fewer a small plant of version 1 would have in version 2, where they are a twentieth or more."""
    if plant.version > 1 or plant.pairs > COUNTED_PAIRS:
        return
    other = Plant(
        plant.states, plant.inputs, plant.noises, plant.equations, plant.targets, plant.obstacles, plant.goal, 2
    )
    (first, first_exact), (second, second_exact) = plant.edges(), other.edges()
    if first_exact and second_exact and second * 20 <= first * 19:
        yield f"with `plant 2` as the first line the boxes would have {second} edges in place of {first}"


def notes(plant: Plant) -> Iterator[str]:
    for kind, part in (
        ("note", goals),
        ("note", narrow_target),
        ("note", unused),
        ("note", quotients),
        ("note", repeats),
        ("note", sampled),
        ("note", thin_obstacles),
        ("note", sure_moves),
        ("note", second_version),
        ("note", of_no_use),
        ("size", growth),
        ("size", steps),
        ("size", sizes),
    ):
        for said in part(plant):
            yield f"{kind}: {said}"


def other_text(data: bytes) -> Optional[str]:
    """What a text is that is refused since it is no plant text, or nothing."""
    head = data[:40].split()[:1]
    if head in ([b"table"], [b"stay"], [b"patrol"]):
        kind = head[0].decode() + " text" * (head != [b"table"])
        return f"the text is a {kind}; a plant text begins with `plant 1` or `plant 2`"
    if not data:
        return "the text is empty; a plant text begins with `plant 1` or `plant 2`"
    first = next(
        (
            line.split()
            for line in data.decode("latin-1").splitlines()
            if line.split() and not line.split()[0].startswith("#")
        ),
        [""],
    )
    if first[0] in MODEL_WORDS or first[0] == "state" and len(first) == 6 or first[0] == "state" and "cells" in first:
        return (
            "the text is a model, it seems: `tools/scale MODEL > NAME.plant` makes a plant text of it, which "
            "begins with `plant 1` or `plant 2`"
        )
    return None


def lint(data: bytes) -> tuple[list[str], bool]:
    """The lines to print, and whether the text is refused."""
    try:
        plant = read_plant(data)
    except Refused as refusal:
        return [refusal.answer, f"why: {other_text(data) or refusal.reason}"], True
    if any(COMMENT.match(line) for line in data.decode("utf-8", "replace").splitlines()):
        plant.units = read_units("the text", data)
    total, is_exact = plant.edges()
    if total > EDGES and is_exact:
        return ["limit: edges", f"why: {total} edges, and {EDGES} are the most"], True
    return ["accepted", *edges_said(total), *notes_of(data, plant)], False


def edges_said(total: int) -> Iterator[str]:
    """What to say of a sample's number of edges past the limit."""
    if total > EDGES:
        yield (
            f"note: about {total} edges by a sample of pairs, and {EDGES} are the most: `limit: edges` is "
            "likely; wider cells, fewer inputs or a smaller deviation help"
        )


def notes_of(data: bytes, plant: Plant) -> Iterator[str]:
    """The notes on a text: on one by tools/scale without those on what its noise has in it."""
    exact = {name.decode() for name in EXACT.findall(data)}
    yield from (f"note: {said}" for said in bare_steps(plant, exact))
    is_made = data.startswith(MADE)
    yield from (note for note in dict.fromkeys(notes(plant)) if not (is_made and ROUNDED in note))


def main(arguments: list[str]) -> int:
    parser = Arguments(
        prog="lint",
        description=__doc__,
        epilog="The first line is `accepted`, or what the program answers to the text, with the reason in the "
        "second. Behind `note:` stands what is hardly meant, behind `size:` how large the abstraction "
        "is. "
        "Status 0: accepted; 1: refused or not readable; 2: wrong words.",
    )
    parser.add_argument("plant", metavar="PLANT", help="the plant text, `-` for standard input")
    given = parser.parse_args(arguments)
    prefer("numpy")
    data = read_bytes(given.plant)
    with Progress("lint").during("counting edges, and looking at inputs"):
        lines, refused = lint(data)
    print("\n".join(lines))
    return 1 if refused else 0


run = partial(start, "lint", main)
