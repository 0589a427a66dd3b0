"""Makes the plant text of a model, with comments on its units and on what its noises bound."""

from __future__ import annotations

import math
import re
from fractions import Fraction
from typing import Optional, Sequence, Tuple, Union

from ..faults import Failure, Refused, Trouble
from ..plants import expression
from ..plants.bounds import span_of
from ..plants.kinds import Node as PlantNode
from ..plants.plant import Plant
from ..plants.reader import read_plant
from ..plants.units import decimal, exactly
from .kinds import Ends, ModelState, Node, Polynomial, RealBox, Side
from .linear import Block
from .model import Model, at_line, said
from .nested_equation import Nested
from .polynomial import added
from .scaled_equation import NEVER, Scaled, Terms
from .taylor_sampling import BESIDE, Flow
from .variables import MOST_PLACES, Room, Variable, finest

# What was tried, in words, and the planting or what is wrong with it.
Tried = Tuple[str, "Union[Planting, Failure]"]
LIES = "a real value lies between its whole number and the next one"
# Numbers of units up to which equations come.
MOST = 10**16
# What is left out is much beside a cell from this share of it on.
WIDE = Fraction(1, 4)


class Planting:
    """text: the plant text; plant: as it is read; ranges: the ends of each state's noise; size: of its boxes, once that
    is known. flow: of differential equations; block: those of them that are linear; is_nested: whether polynomials are
    about the middles of the ranges."""

    def __init__(
        self, model: Model, pieces: int, flow: Optional[Flow], block: Optional[Block], is_nested: bool
    ) -> None:
        self.model, self.flow, self.block = model, flow, block
        self.size: Optional[float] = None
        self.room = Room(model, pieces, is_nested)
        equations = self.sampled(flow) if flow else self.straight()
        for i, equation in enumerate(equations):
            self.check_size(i, equation)
        self.denominator = denominator_of(model, self.room, equations)
        self.scaled = [self.scaled_of(*pair) for pair in zip(model.states, equations)]
        self.ranges = [self.noise_of(i, *pair) for i, pair in enumerate(zip(model.states, self.scaled))]
        self.text = self.plant_text()
        self.plant = self.read()

    def check_size(self, i: int, equation: Polynomial) -> None:
        """Raises Trouble where an equation comes to more units than a plant's numbers have."""
        name, *_, unit = self.model.states[i]
        low, high = self.room.range_of(equation)
        if (most := max(-low, high)) >= MOST * unit:
            with self.model.at_equation(i):
                raise Trouble(
                    f"the equation of {name} may come to {about(most)} over the ranges, {about(most / unit)} "
                    f"units of {name}, and {about(MOST)} are the most; smaller factors, or narrower "
                    "ranges of "
                    "what stands in it, do it"
                )

    def scaled_of(self, state: ModelState, equation: Polynomial) -> Scaled:
        """An equation in units, over the denominator that those without products have in common, or over one of its
        own."""
        if self.room.form_of(equation) is Scaled:
            return Scaled(Terms(self.room, equation, state[-1]), self.denominator, state[0])
        return finest(self.room, equation, state[-1], state[0])

    def straight(self) -> list[Polynomial]:
        """The equations of `next` lines, and of `d` lines that are all linear."""
        model, block = self.model, self.block
        if block is None:
            return [self.flattened(i, node) for i, node in enumerate(model.equations)]
        return [
            self.step_of(i, block.node(state[0], model.time), block.rest(state[0], model.time))
            for i, state in enumerate(model.states)
        ]

    def read(self) -> Plant:
        """The plant of the text; a refusal says to which line of the model it belongs, where it belongs to one."""
        try:
            return read_plant(self.text.encode())
        except Refused as refusal:
            refusal.model_line = self.model_line(refusal)
            raise

    def model_line(self, refusal: Refused) -> Optional[int]:
        """The line of the model to which a refusal belongs, or None."""
        overflow = re.match(r"overflow: equation (\d+) ", refusal.answer)
        lines = [line.split() for line in self.text.splitlines()[: refusal.line or 0]]
        words = lines[-1] if lines else []
        if words[:1] in (["target"], ["obstacle"]):
            return self.model.box_lines[sum(line[:1] in (["target"], ["obstacle"]) for line in lines) - 1]
        names = self.noise_names if words[:1] == ["noise"] else [state[0] for state in self.model.states]
        if overflow or words[:1] in (["next"], ["noise"]):
            return self.model.equation_lines[int(overflow.group(1)) if overflow else names.index(words[1])]
        return self.model.variable_lines.get(words[1]) if words[:1] in (["state"], ["input"]) else None

    def flattened(self, i: int, node: Side) -> Polynomial:
        """A state's equation, or its step, as a polynomial."""
        with self.model.at_equation(i):
            return self.room.flattened(node)

    def noise_of(self, i: int, state: ModelState, equation: Scaled) -> tuple[int, int]:
        """The ends of a state's noise; an exact state has none, and raises Trouble where its next value may lie beside
        a whole number of units."""
        if state[0] not in self.model.exact:
            return equation.noise()
        if equation.error() != NEVER:
            low, high = map(said, equation.error())
            with self.model.at_equation(i):
                raise Trouble(
                    f"`exact {state[0]}` is for a state that is a whole number of units by itself, and its next "
                    f"value may lie {low} to {high} units beside one"
                )
        return 0, 0

    def sampled(self, flow: Flow) -> list[Polynomial]:
        """The equations of the last step of a sample, in which variables stand for the states behind the step before.
        Each has a noise for what its polynomial leaves out."""
        before: dict[str, Node] = {}
        for step, (_, ends) in enumerate(flow.course, 1):
            equations = [
                self.step_of(i, *pair) for i, pair in enumerate(zip(flow.nodes(step, before), flow.rests(step)))
            ]
            if step < flow.count:
                before = {
                    state[0]: self.behind_step(i, step, equation, end)
                    for i, (state, equation, end) in enumerate(zip(self.model.states, equations, ends))
                }
        return equations

    def behind_step(self, i: int, step: int, equation: Polynomial, ends: Ends) -> Node:
        """The formula of a state behind a step."""
        with self.model.at_equation(i):
            return self.room.behind_step(self.model.states[i], step, equation, ends)

    def step_of(self, i: int, node: Node, rest: Ends) -> Polynomial:
        """The polynomial of a state's step, with a noise for what it leaves out."""
        noise = f"@rest {self.model.states[i][0]}"
        self.room.variables[noise] = Variable("noise", Fraction(1), *rest)
        return added(self.flattened(i, node), {(noise,): Fraction(1)})

    def is_rest_wide(self, share: Fraction = WIDE) -> bool:
        """Whether a polynomial leaves out more than a share of a cell."""
        flow = self.flow
        return flow is not None and any(
            high - low > share * state[3]
            for step in range(flow.count)
            for state, (low, high) in zip(self.model.states, flow.rests(step + 1))
        )

    def nodes_in(self, steps: int) -> int:
        """How many nodes the longest expression would have with so many steps, each like this one."""
        own = [sum(1 for _ in expression.walk(node)) for node in self.plant.equations]
        nodes = own
        for _ in range(steps - 1):
            nodes = [
                one + sum(count * nodes[at] for at, count in uses.items() if at < len(nodes))
                for one, uses in zip(own, self.plant.uses)
            ]
        return max(nodes)

    def is_curved(self) -> bool:
        """Whether polynomials may be about the middles of the ranges: where an equation has products of what varies,
        and the model gives no denominator."""
        return not self.model.denominator and self.room.has_products

    def plant_text(self) -> str:
        model = self.model
        taken = set(model.names())
        self.noise_names = names = [noise_name(state[0], taken) for state in model.states]
        lines = self.comments(names) + [f"plant {model.version}"]
        for name, low, high, width, unit in model.states:
            lines.append(f"state {name} {low / unit} {high / unit - 1} {width / unit}")
        for name, unit, values in model.inputs:
            lines.append(" ".join([f"input {name}"] + [str(value / unit) for value in values]))
        lines += [
            f"noise {name} {low} {high}" for name, (low, high) in zip(names, self.ranges) if (low, high) != (0, 0)
        ]
        for state, equation, name, ends in zip(model.states, self.scaled, names, self.ranges):
            text = equation.text() + (f" + {name}" if ends != (0, 0) else "")
            lines.append(f"next {state[0]} = {self.wrapped(state, text) if state[0] in model.wraps else text}")
        for (keyword, box), line in zip(model.boxes, model.box_lines):
            with at_line(line):
                lines.append(box_text(model, keyword, box))
        return "\n".join(lines + [f"goal {model.goal}", "end", ""])

    def sampling_said(self) -> list[str]:
        """The comments on how differential equations are sampled."""
        model, lines = self.model, []
        if self.flow:
            steps = f", in {self.flow.count} steps" if self.flow.count > 1 else ""
            lines.append(f"# sampled with {said(model.time)} by a Taylor polynomial of order {self.flow.order}{steps}")
        linear = [state[0] for state in model.states if self.block and state[0] in self.block]
        if linear:
            lines.append(
                f"# sampled with {said(model.time)} exactly: the linear equation{'s' * (len(linear) > 1)} of "
                f"{', '.join(linear)}"
            )
        return lines

    def denominators_said(self) -> list[str]:
        """The comments on the denominators of the equations."""
        nested = [
            f"{state[0]} over {equation.denominator}"
            for state, equation in zip(self.model.states, self.scaled)
            if isinstance(equation, Nested)
        ]
        lines = [f"# coefficients are whole numbers over {self.denominator}"] if len(nested) < len(self.scaled) else []
        return lines + [f"# polynomials about the middles of the ranges: {', '.join(nested)}"] * bool(nested)

    def tell(self, chosen: str, tried: Sequence[Tried]) -> None:
        """Says in the text what was chosen, and what else was tried with which noise."""
        if not tried:
            return
        lines = [
            f"# chosen: {chosen}",
            *(
                f"#   tried: {words}: {one.noise_said() if isinstance(one, Planting) else reason_of(one)}"
                for words, one in tried
            ),
        ]
        at = self.text.index("\nplant ")
        self.text = self.text[:at] + "".join(f"\n{line}" for line in lines) + self.text[at:]

    def noise_said(self) -> str:
        """The noise of each state, in units."""
        return "a noise of " + ", ".join(
            f"{low} to {high} for {state[0]}" for state, (low, high) in zip(self.model.states, self.ranges)
        )

    def wrapped(self, state: ModelState, text: str) -> str:
        """The expression of a state that comes round. Of an exact one it is by a quotient. Else it is `lut` with a
        saw's teeth, of which each is as long as the range and one unit wide where it falls: so a box that lies within a
        turn is moved as it is, and one across the range's end becomes the whole range."""
        model, (name, low, high, _, unit) = self.model, state
        first, turn = int(low / unit), int((high - low) / unit)
        if name in model.exact:
            moved = f"{text} - {first}" if first > 0 else f"{text} + {-first}" if first else text
            return f"{text} - ({moved}) / {turn} * {turn}"
        area = [(int(low / unit), int(high / unit) - 1) for _, low, high, _, unit in model.states]
        area += [(int(min(values) / unit), int(max(values) / unit)) for _, unit, values in model.inputs]
        area += [ends for ends in self.ranges if ends != (0, 0)]
        names = model.names()[: len(model.states) + len(model.inputs)] + [
            one for one, ends in zip(self.noise_names, self.ranges) if ends != (0, 0)
        ]
        least, most = span_of(self.parsed(name, text, names), area)
        turns = range((least - first) // turn, (most - first) // turn + 1)
        if len(turns) * 2 > expression.MOST_POINTS:
            raise Trouble(
                f"line {model.wraps[name]}: `wrap {name}`: within a sample the state may come round {len(turns)} "
                f"times, and {expression.MOST_POINTS // 2} are the most"
            )
        points = [
            point
            for k in turns
            for point in ((first + k * turn, first), (first + (k + 1) * turn - 1, first + turn - 1))
        ]
        return text if len(turns) == 1 else f"lut({text}, {', '.join(f'{x}:{y}' for x, y in points)})"

    def parsed(self, name: str, text: str, names: Sequence[str]) -> PlantNode:
        with at_line(self.model.equation_lines[[state[0] for state in self.model.states].index(name)]):
            return expression.parse(text.split(), names, self.model.version)

    def comments(self, names: Sequence[str]) -> list[str]:
        model = self.model
        lines = ["# Made by tools/scale from a model with real coefficients."]
        lines += [
            f"{unit_said(model, name, unit)}: {'a whole number by itself' if name in model.exact else LIES}"
            for name, *_, unit in model.states
        ]
        lines += [unit_said(model, name, unit) for name, unit, _ in model.inputs]
        lines += [f"# a measured value may be a rounding beside, up to {said(BESIDE)} of a unit"] * any(
            name not in model.exact for name, *_ in model.states
        )
        lines += self.denominators_said() + self.sampling_said()
        kinds = {self.room.variables[name].kind for name in self.room.curves.values()}
        if "listed" in kinds:
            lines.append("# functions of one input alone are taken at its listed values")
        if "curve" in kinds:
            lines.append(f"# functions are made of up to {self.room.pieces} straight pieces")
        for state, equation, ends, name in zip(model.states, self.scaled, self.ranges, names):
            low, high = (said(end) for end in equation.quantising)
            with_others = " and ".join(
                ["straight pieces"] * equation.has_curves + ["the steps before the last"] * equation.has_steps
            )
            beside = f", with {with_others}," if with_others else ""
            lines.append(
                f"# {name}: quantising{beside} moves {state[0]} by {low} to {high} units, rounded coefficients "
                f"by at most {said(equation.rounding)},"
            )
            low, high = (said(end) for end in equation.disturbance)
            added_by = "the model's noises and sampling add" if self.flow else "the model's noises add"
            lines.append(
                f"#   the quotient leaves at most {said(equation.left_over())}, {added_by} {low} to {high}: "
                f"{ends[0]} to {ends[1]}"
            )
        return lines


def reason_of(failure: Failure) -> str:
    """Why something that was tried isn't, without the line."""
    return re.sub(
        r"^(line \d+: )?(the plant would be refused, )?(in what becomes of this line: )?",
        "",
        " ".join(failure.said().split()),
    )[:160]


def denominator_of(model: Model, room: Room, equations: Sequence[Polynomial]) -> int:
    """The model's denominator; else the least power of ten over which no rounding is more than a tenth of a unit, or
    that of the least rounding."""
    if model.denominator:
        return model.denominator
    plain = [
        Terms(room, equation, state[-1])
        for equation, state in zip(equations, model.states)
        if room.form_of(equation) is Scaled
    ]
    best, least = 1, None
    for places in range(MOST_PLACES + 1):
        scaled = [Scaled(terms, 10**places) for terms in plain]
        worst = max([one.rounding for one in scaled], default=Fraction(0))
        if least is not None and not all(one.is_short() for one in scaled):
            break
        if least is None or worst < least:
            best, least = 10**places, worst
        if least <= Fraction(1, 10):
            break
    return best


def noise_name(state: str, taken: set[str]) -> str:
    name = f"r_{state}"[:32]
    while name in taken:
        name = "r" + name[:31]
    taken.add(name)
    return name


def box_text(model: Model, keyword: str, box: RealBox) -> str:
    """A target holds the whole numbers whose unit lies in it, an obstacle those whose unit meets it."""
    words = [keyword]
    for (low, high), (name, least, most, _, unit) in zip(box, model.states):
        if keyword == "target" and (high <= least or low >= most):
            raise Trouble(
                f"the target's {name}, {decimal(low)} to {decimal(high)}, is outside of the range of {name}, "
                f"{decimal(least)} to {decimal(most)}"
            )
        if keyword == "target":
            first, last = math.ceil(low / unit), math.floor(high / unit) - 1
        else:
            first, last = math.floor(low / unit), math.ceil(high / unit) - 1
        if first > last:
            raise Trouble(
                f"{'an' if keyword == 'obstacle' else 'a'} {keyword} from {decimal(low)} to {decimal(high)} "
                f"holds no whole unit of {name}, which is {decimal(unit)}"
            )
        words += [str(first), str(last)]
    return " ".join(words)


def about(value: Union[int, Fraction]) -> str:
    """A number of any size in few digits."""
    return f"{float(value):.3g}" if -(10**300) < value < 10**300 else "more than 10^300"


def unit_said(model: Model, name: str, unit: Fraction) -> str:
    """The comment by which the other programs know a unit."""
    return f"# unit {name} {exactly(unit)}" + (f" {model.words[name]}" if name in model.words else "")
