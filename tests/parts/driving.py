"""Runs by stay texts and patrol texts under random and extreme disturbances, judged by what the texts promise."""

from gaffcurrant_plant.texts.solver import simulate

SAMPLES = 120


def runs_of(table, draws, starts=6):
    """What is wrong with runs from so many random cells of each turn, under random and extreme disturbances, and how
    many there were."""
    is_patrol = table.kind == "patrol"
    judge, parts = (patrol_fault, table.turns) if is_patrol else (stay_fault, [table])
    faults, count = [], 0
    for turn, part in enumerate(parts):
        for cell in draws.sample(sorted(part.rows), min(starts, len(part.rows))):
            start = [draws.randint(low, high) for low, high in zip(table.plant.low(cell), table.plant.high(cell))]
            fault = judge(table, start, turn, draws)
            faults += [f"from {start} in turn {turn}: {fault}"] if fault else []
            count += 1
    return faults, count


def noises_of(plant, draws):
    """A disturbance of each sample: ends of the ranges in half of the runs, else anything in them."""
    extreme = draws.random() < 0.5

    def disturbance(*_):
        return [draws.choice((low, high)) if extreme else draws.randint(low, high) for _, low, high in plant.noises]

    return disturbance


def lies_in(state, box):
    return all(low <= value <= high for value, (low, high) in zip(state, box))


def lies_in_any(state, boxes):
    return any(lies_in(state, box) for box in boxes)


def stay_fault(table, start, _, draws):
    """The rank falls to 0 within itself, and from then on the state lies in a target; no state lies in an obstacle."""
    plant, left = table.plant, table.rank(start)
    for sample in simulate(table, start, noises_of(plant, draws), SAMPLES):
        if sample.rank > left or lies_in_any(sample.state, plant.obstacles):
            return f"{sample} with {left} left"
        if left == 0 and not lies_in_any(sample.state, plant.targets):
            return f"{sample} is in no target"
        left = max(left - 1, 0)
    return None


def patrol_fault(patrol, start, turn, draws):
    """Each visit comes within the rank of the row with which its turn began; no state lies in an obstacle."""
    plant, left = patrol.plant, patrol.turns[turn].rank(start)
    run = simulate(patrol, start, noises_of(plant, draws), SAMPLES, turn=turn)
    for before, sample in zip(run, run[1:]):
        if lies_in_any(sample.state, plant.obstacles):
            return f"{sample} lies in an obstacle"
        left -= 1
        has_come = arrived(patrol, before, sample)
        if has_come and not lies_in(sample.state, plant.targets[before.turn]):
            return f"{sample} isn't in the target of turn {before.turn}"
        if not has_come and (left < 1 or sample.rank > left):
            return f"{sample} with {left} left"
        left = sample.rank if has_come else left
    return None


def arrived(patrol, before, sample):
    """Whether a sample is an arrival in the target that was due."""
    alone = len(patrol.turns) == 1 and patrol.plant.cell_of(sample.state) in patrol.turns[0].arrivals
    return sample.turn != before.turn or alone
