"""Linear equations of a model: those of the lines A, B, c and w, and those that are found among its `d` lines. Both are
sampled exactly."""

from __future__ import annotations

from fractions import Fraction
from typing import TYPE_CHECKING, Optional, Sequence

from ..faults import Trouble
from .formula import ZERO, add, made, mul, names_of, number
from .kinds import Ends, Node, Polynomial
from .linear_sampling import held_integrals, sampled
from .polynomial import added

if TYPE_CHECKING:
    from .linear_sampling import Matrix
    from .model import Model


def add_linear_system(model: Model) -> None:
    """Makes equations of the lines A, B, c and w."""
    if model.equations:
        raise Trouble(f"line {model.equation_lines[-1]}: a model has `next` lines or a matrix A, not both")
    for keyword, rows in model.rows.items():
        wanted = len(model.states) if rows or keyword == "A" or (keyword == "B" and model.inputs) else 0
        if len(rows) != wanted:
            raise Trouble(
                f"the model has {len(rows)} line{'s' * (len(rows) != 1)} `{keyword}`, and {wanted} "
                f"{'is' if wanted == 1 else 'are'} due, one for each state"
            )
    of_states, of_inputs = one_sample(model)
    for i in range(len(model.states)):
        terms: Polynomial = {(state[0],): a for state, a in zip(model.states, of_states[i])}
        terms.update({(entry[0],): b for entry, b in zip(model.inputs, of_inputs[i])})
        terms[()] = of_inputs[i][-1]
        if model.rows["w"]:
            low, high = model.rows["w"][i]
            name = f"w_{model.states[i][0]}"
            model.noises.append((name, low, high))
            terms[name,] = Fraction(1)
        model.equations.append(added({}, terms))


def one_sample(model: Model) -> tuple[Matrix, Matrix]:
    """The matrices of a step: A, and B with c as its last column, sampled where the model has a sampling time."""
    constants = model.rows["c"] or [[Fraction(0)] for _ in model.states]
    inputs = [list(b) + c for b, c in zip(model.rows["B"] or [[] for _ in model.states], constants)]
    if not model.sample:
        return model.rows["A"], inputs
    return sampled(model.rows["A"], inputs, model.sample, model)


class Linear:
    """What a right side is where it is linear: weights of the states, weights of the noises, and a formula of the
    inputs for the rest."""

    def __init__(self, weights: dict[str, Fraction], held: Node) -> None:
        self.weights, self.held = weights, held

    def plus(self, other: Linear) -> Linear:
        return Linear(added(self.weights, other.weights), add(self.held, other.held))

    def times(self, factor: Fraction) -> Linear:
        return Linear({name: weight * factor for name, weight in self.weights.items()}, mul(number(factor), self.held))


def linear_of(node: Node, varying: frozenset[str]) -> Optional[Linear]:
    """The Linear of a node over the names that vary within a sample, or None."""
    if varying.isdisjoint(names_of(node)):
        return Linear({}, node)
    if node[0] == "var":
        return Linear({node[1]: Fraction(1)}, ZERO)
    if node[0] == "add":
        one, other = (linear_of(part, varying) for part in node[1:])
        return one.plus(other) if one and other else None
    if node[0] == "mul" and any(part[0] == "num" for part in node[1:]):
        factor, rest = node[1:] if node[1][0] == "num" else node[:0:-1]
        part = linear_of(rest, varying)
        return part.times(factor[1]) if part else None
    return None


class Block:
    """The states of `d` lines whose equations are linear, with constant weights, and name no state that isn't among
    them: in groups that name none of each other's."""

    def __init__(self, model: Model) -> None:
        self.model = model
        self.samples: dict[tuple[str, Fraction], tuple[Matrix, Matrix]] = {}
        self.integrals: dict[tuple[str, Fraction], list[Fraction]] = {}
        names = [state[0] for state in model.states]
        self.middles = {name: (low + high) / 2 for name, low, high in model.noises}
        self.radii = {name: (high - low) / 2 for name, low, high in model.noises}
        sides = {
            name: linear_of(side, frozenset(names) | frozenset(self.middles)) for name, side in zip(names, model.flows)
        }
        self.sides = {name: side for name, side in sides.items() if side}
        while wrong := [
            name
            for name, side in self.sides.items()
            if any(other in sides and other not in self.sides for other in side.weights)
        ]:
            for name in wrong:
                del self.sides[name]
        self.groups = self.grouped()

    def __contains__(self, name: str) -> bool:
        return name in self.sides

    def is_whole(self) -> bool:
        """Whether all states are in it."""
        return len(self.sides) == len(self.model.states)

    def grouped(self) -> dict[str, list[str]]:
        """For each state the names of those that hang together with it."""
        groups = {name: [name] for name in self.sides}
        for name, side in self.sides.items():
            for other in side.weights:
                if other in groups and groups[other] is not groups[name]:
                    joined = [one for one in self.sides if one in groups[name] or one in groups[other]]
                    groups.update((one, joined) for one in joined)
        return groups

    def matrix(self, group: Sequence[str]) -> Matrix:
        return [[self.sides[name].weights.get(other, Fraction(0)) for other in group] for name in group]

    def sample_of(self, group: Sequence[str], time: Fraction) -> tuple[Matrix, Matrix]:
        """The matrices of a group after a time: of its states, and of what is held."""
        key = group[0], time
        if key not in self.samples:
            unit = [[Fraction(one == other) for other in group] for one in group]
            self.samples[key] = sampled(self.matrix(group), unit, time, self.model)
        return self.samples[key]

    def node(self, name: str, time: Fraction) -> Node:
        """The formula of a state after a time."""
        group = self.groups[name]
        row = group.index(name)
        of_states, of_held = (matrix[row] for matrix in self.sample_of(group, time))
        total = ZERO
        for other, weight in zip(group, of_states):
            total = add(total, mul(number(weight), made("var", other)))
        for other, weight in zip(group, of_held):
            total = add(total, mul(number(weight), self.constant(other)))
        return total

    def constant(self, name: str) -> Node:
        """What is held of a state's right side, with the noises in their middles."""
        middle = sum(
            (
                weight * self.middles[noise]
                for noise, weight in self.sides[name].weights.items()
                if noise in self.middles
            ),
            Fraction(0),
        )
        return add(self.sides[name].held, number(middle))

    def rest(self, name: str, time: Fraction) -> Ends:
        """The ends of what the noises, which may vary at any time, move a state."""
        group = self.groups[name]
        columns = [
            [self.sides[one].weights.get(noise, Fraction(0)) * radius for one in group]
            for noise, radius in self.radii.items()
        ]
        columns = [column for column in columns if any(column)]
        if not columns:
            return Fraction(0), Fraction(0)
        key = group[0], time
        if key not in self.integrals:
            self.integrals[key] = held_integrals(self.matrix(group), columns, time, self.model)
        moved = self.integrals[key][group.index(name)]
        return -moved, moved
