"""Ways from random points of cells by fine steps of their own, beside the enclosures of tools/between."""

import math

from gaffcurrant_plant.models.model import read_model

from .tool_case import has

if has("numpy"):
    import numpy
    from gaffcurrant_plant.ways.enclosure import Ways

NAMES = ("sin", "cos", "tan", "asin", "acos", "atan", "atan2", "sinh", "cosh", "tanh", "sqrt", "exp", "log", "pi")
FUNCTIONS = {name: getattr(math, name) for name in NAMES}
# A model, its right sides as Python, and whether they are derivatives.
MODELS = [
    (
        "sample 0.3\nstate x 0 4 0.1 0.001\nstate y 0 4 0.1 0.001\nstate h -3.2 3.2 0.1 0.001\ninput v 0.5 -1 1\n"
        "input t 0.1 -1.5 0 1.5\nnoise e -0.05 0.05\n"
        "d x = v*cos(h + e)\nd y = v*sin(h + e)\nd h = v*t\ngoal keep\n",
        ["v*cos(h + e)", "v*sin(h + e)", "v*t"],
        True,
    ),
    (
        "sample 0.1\nstate a -3.5 3.5 cells 70\nstate w -4 4 cells 40\ninput u 0.1 -3 0 3\nnoise f -0.2 0.2\nd a = w\n"
        "d w = 9.81*sin(a) - 0.1*w*abs(w) + u*cos(a) + f\ngoal keep\n",
        ["w", "9.81*sin(a) - 0.1*w*abs(w) + u*cos(a) + f"],
        True,
    ),
    (
        "sample 0.5\nstate d 1 31 0.5 0.01\nstate v 2 22 0.5 0.01\ninput u 0.5 -2 0 2\nnoise s -0.1 0.1\n"
        "d d = 12 - v + s\nd v = u*10/(5 + v) - 0.002*v^2 + "
        "exp(-v/4)/3 + sqrt(v)/9 - log(v)/8 + tan(v/40) + min(d, v)/50 - max(d/30, 0.5) + v^1.5/90\ngoal keep\n",
        [
            "12 - v + s",
            "u*10/(5 + v) - 0.002*v**2 + exp(-v/4)/3 + sqrt(v)/9 - log(v)/8 + tan(v/40) + min(d, v)/50 - "
            "max(d/30, 0.5) + v**1.5/90",
        ],
        True,
    ),
    (
        "sample 0.4\nstate x -2 2 0.1 0.01\nstate v -2 2 0.1 0.01\ninput u 0.1 -1 0 1\nA 0 1\nA -0.5 -0.2\nB 0\nB 1\n"
        "goal keep\n",
        ["v", "-0.5*x - 0.2*v + u"],
        True,
    ),
    (
        "state x 0 9 0.1 0.01\nstate y -2 2 0.1 0.01\ninput u 0.1 -1 0 1\nnoise w -0.05 0.05\n"
        "next x = x + 0.5*sin(y) + u + w\nnext y = y - 0.1*x*y + u^3 + w\ngoal keep\n",
        ["x + 0.5*sin(y) + u + w", "y - 0.1*x*y + u**3 + w"],
        False,
    ),
    (
        "sample 0.2\nstate x -0.6 0.6 0.1 0.01\nstate y 1 2 0.1 0.01\ninput u 0.1 -1 0 1\n"
        "d x = asin(x/2) - acos(y/4)/9 + atan(y - x) + tanh(x*y) + u/2\n"
        "d y = sinh(x) - cosh(x)/2 + atan2(y, x)/9 - atan2(x, y)\ngoal keep\n",
        [
            "asin(x/2) - acos(y/4)/9 + atan(y - x) + tanh(x*y) + u/2",
            "sinh(x) - cosh(x)/2 + atan2(y, x)/9 - atan2(x, y)",
        ],
        True,
    ),
]
CELLS, POINTS, COUNT, FINE = 40, 12, 4, 10


def compiled(model, sides):
    """The right sides as a function of states, inputs and noises."""
    names = [entry[0] for entry in [*model.states, *model.inputs, *model.noises]]
    room = dict(FUNCTIONS)
    exec(f"def side({', '.join(names)}):\n    return {', '.join(sides)},", room)
    return room["side"]


def followed(model, side, is_flow, start, inputs, draws):
    """The states on a way, each with the number of its substep; the disturbances change now and then, those of `next`
    lines once a sample."""
    ranges = [(float(low), float(high)) for _, low, high in model.noises]
    noises, state = [draws.uniform(*ends) for ends in ranges], list(start)
    after = side(*state, *inputs, *noises)
    for k in range(COUNT * FINE):
        if not is_flow:
            share = (k + 1) / (COUNT * FINE)
            yield k // FINE, [a + share * (b - a) for a, b in zip(start, after)]
            continue
        if draws.random() < 0.2:
            noises = [draws.choice([*ends, draws.uniform(*ends)]) for ends in ranges]
        state = stepped(side, state, [*inputs, *noises], float(model.sample) / (COUNT * FINE))
        yield k // FINE, state


def stepped(side, state, rest, step):
    """The state after a step of the midpoint method."""
    one = side(*state, *rest)
    half = side(*[a + step / 2 * b for a, b in zip(state, one)], *rest)
    return [a + step * b for a, b in zip(state, half)]


def faults_of(text, sides, is_flow, draws):
    """What is wrong with the enclosures of a model: states on ways that lie outside, and cells without an enclosure."""
    model = read_model(text.encode())
    side, ways = compiled(model, sides), Ways(model)
    for _ in range(3):
        vector = [float(draws.choice(values)) for _, _, values in model.inputs]
        lows, widths = drawn_cells(model, draws)
        named = dict(zip([entry[0] for entry in model.inputs], vector))
        boxes = list(ways.boxes(ways.areas(lows, lows + widths - 1), named, COUNT))
        found = boxes[-1][1]
        if found.sum() < CELLS // 2:
            yield f"only {found.sum()} of {CELLS} cells have an enclosure"
        for cell in numpy.flatnonzero(found):
            for _ in range(POINTS):
                start = drawn_point(model, lows[:, cell].tolist(), widths.tolist(), draws)
                way = followed(model, side, is_flow, start, vector, draws)
                for state in (state for at, state in way if not holds(boxes[at][0], cell, state)):
                    yield f"from {start} under {vector}: {state} is outside"


def drawn_cells(model, draws):
    """The least numbers of cells, and the widths, along each state."""
    lows = [
        [int(low / unit) + draws.randrange(int((high - low) / width)) * int(width / unit) for _ in range(CELLS)]
        for _, low, high, width, unit in model.states
    ]
    return numpy.array(lows), numpy.array([[int(width / unit)] for *_, width, unit in model.states])


def drawn_point(model, lows, widths, draws):
    """A real state of a cell, mostly on its bounds."""
    shares = [draws.choice([0.0, 1.0, draws.random()]) for _ in model.states]
    units = [unit for *_, unit in model.states]
    return [float((low + share * width[0]) * unit) for low, width, share, unit in zip(lows, widths, shares, units)]


def holds(box, cell, state):
    return all(one.low[cell] - 1e-5 <= value <= one.high[cell] + 1e-5 for one, value in zip(box, state))
