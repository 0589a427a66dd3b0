"""tools/scale where a sample is cut into several Taylor steps: as many as make the boxes less, or as the model says;
real steps from random points lie within the noise."""

import re

from gaffcurrant_plant.plants.reader import read_plant

from .real_models import GOAL, RealCase
from .tool_case import TOP, needs_mpmath

BOAT = "version 2\nsample 0.25\n{}state v -4 4 cells 32\ninput u 0.1 -1 0 1\nd v = u - 0.4*v*abs(v)\n" + GOAL
# With how many steps of a sample.
MODELS = {
    "a boat with drag": (
        4,
        "version 2\nsample 0.25\nstate x 0 40 cells 40\nstate v -4 4 cells 32\ninput u 0.1 -1 0 1\n"
        "noise f -0.02 0.02\nd x = v\n"
        "d v = u - 0.4*v*abs(v) + f\n" + GOAL,
    ),
    "a boat in version 1": (
        4,
        BOAT.format("steps 4\n").replace("version 2", "version 1").replace("v*abs(v)", "max(v, -0.5)"),
    ),
    "a damped pendulum": (
        1,
        "version 2\nsample 0.2\nstate a -2 2 cells 40\nstate w -4 4 cells 40\ninput u 0.1 -1 0 1\nd a = w\n"
        "d w = 4*u - 4*sin(a) - 3*w\n" + GOAL,
    ),
}
COMPLAINTS = [
    ("steps 9\n", "line 1: `steps` takes a whole number from 1 to 8"),
    ("version 2\nsample 1\norder 1\nsteps 8\nstate x 0 1 0.1 0.1\nd x = sin(x)\n", "the plant would be refused"),
]


@needs_mpmath
class Steps(RealCase):
    """Models of which a sample is several steps."""

    def test_models(self):
        for what, (count, text) in MODELS.items():
            plant = self.steps_lie_within_noise(what, text)
            self.equal(f"{what}: the steps of a sample", count, steps_said(plant))

    def test_refused(self):
        self.are_refused(COMPLAINTS)

    def test_boat(self):
        """The guide's noises of a boat's speed by the number of steps. The model chooses four by itself."""
        guide, counts = (TOP / "docs/GUIDE.md").read_text(), (None, 1, 2, 3, 4)
        texts = {count: self.scaled(BOAT.format(f"steps {count}\n" if count else "")) for count in counts}
        chosen, four = ([line for line in texts[count].splitlines() if line[:1] != "#"] for count in (None, 4))
        self.equal("the boat chooses four steps", four, chosen)
        rows = re.findall(r"^\| ([1234]) \| (-\d+) to (\d+) \|$", guide, re.M)
        noises = {count: read_plant(texts[count].encode()).noises[0][1:] for count in counts[1:]}
        got = [(str(count), *map(str, ends)) for count, ends in noises.items()]
        self.equal("the guide's noises of the boat", rows, got)


def steps_said(plant_text):
    """How many steps a plant's comment tells; one where it tells of none."""
    said = re.search(r"by a Taylor polynomial of order \d, in (\d) steps", plant_text)
    return int(said[1]) if said else 1
