"""Samples of a state, values of the inputs and a next state, and what gaffcurrant_follows answers to them by the boxes
of the module: about the corners of boxes, and along many steps."""

import random

from .device_readers import random_states

# Pairs of a cell and an input vector, and the steps from each: 10,000 of a plant.
PAIRS, STEPS = 1000, 10
LEAST, GREATEST = -(2**63), 2**63 - 1


def followed_samples(plant):
    """Samples from random states: to themselves, under values that are no vector, to a next state by the equations, and
    to the corners of the box and one past them in each state; and the answers."""
    chance, samples = random.Random(7), []
    for state in random_states(plant)[:150]:
        cell, vector = plant.cell_of(state), chance.randrange(plant.vectors)
        values = list(plant.vector(vector))
        samples += [(state, given, state) for given in (values, *strange_values(plant, values))]
        if cell is not None:
            noise = [chance.randint(low, high) for _, low, high in plant.noises]
            samples.append((state, values, plant.step(state, values, noise)))
            samples += [(state, values, corner) for corner in corners_about(plant, *plant.box(cell, vector))]
    return samples, [str(followed(plant, *sample)) for sample in samples]


def strange_values(plant, values):
    """Values of which one is none of its input's."""
    for i, (_, listed) in enumerate(plant.inputs):
        for value in (LEAST, GREATEST, values[i] - 1, values[i] + 1, values[i] + 10**15):
            if value not in listed:
                yield [*values[:i], value, *values[i + 1 :]]


def corners_about(plant, low, high):
    """The least and the greatest points of a box of cells, and one past each of them in each state."""
    ends = [
        (first + begin * width, first + (end + 1) * width - 1)
        for (begin, end), (_, first, _, width) in zip(plant.extents(low, high), plant.states)
    ]
    least, greatest = [one for one, _ in ends], [one for _, one in ends]
    return [
        least,
        greatest,
        *([*least[:i], least[i] - 1, *least[i + 1 :]] for i in range(len(ends))),
        *([*greatest[:i], greatest[i] + 1, *greatest[i + 1 :]] for i in range(len(ends))),
    ]


def followed(plant, state, values, after):
    """The answer by the cells that meet the box of the state's cell."""
    vectors = [k for k in range(plant.vectors) if list(plant.vector(k)) == list(values)]
    if plant.cell_of(state) is None or not vectors:
        return -1
    return int(plant.cell_of(after) in plant.successors(plant.cell_of(state), vectors[0]))


def steps_of(plant):
    """Many steps: half by the plant's equations under its noises, the others up to three cells beside; the answers, by
    comparing numbers with the ends of the box; and how many of the steps by the equations leave their box though it
    lies in the domain."""
    chance, samples, wanted, strayed = random.Random(8), [], [], 0
    for _ in range(PAIRS):
        cell, vector = chance.randrange(plant.cells), chance.randrange(plant.vectors)
        low, high = plant.box(cell, vector)
        least, greatest = corners_about(plant, low, high)[:2]
        is_told = not plant.leaves(low, high)
        for step in range(STEPS):
            state, after = drawn_step(plant, cell, vector, chance)
            if step % 2:
                move_beside(plant, after, chance)
            is_inside = is_told and all(map(is_between, least, after, greatest))
            strayed += is_told and not is_inside and not step % 2
            samples.append((state, list(plant.vector(vector)), after))
            wanted.append(str(int(is_inside)))
    return samples, wanted, strayed


def drawn_step(plant, cell, vector, chance):
    """A state of a cell, and the next one under a drawn noise."""
    state = [drawn(chance, *ends) for ends in zip(plant.low(cell), plant.high(cell))]
    noise = [drawn(chance, first, last) for _, first, last in plant.noises]
    return state, list(plant.step(state, plant.vector(vector), noise))


def drawn(chance, first, last):
    """An end of a range, or anything in it."""
    return chance.choice([first, last, chance.randint(first, last)])


def move_beside(plant, state, chance):
    """Moves a state along one axis, by up to three cells."""
    i = chance.randrange(len(state))
    state[i] += chance.choice([-1, 1]) * chance.randint(1, 3 * plant.states[i][3])


def is_between(first, number, last):
    return first <= number <= last
