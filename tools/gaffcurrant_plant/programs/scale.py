"""Turns a model with real coefficients into a plant text of whole numbers, whose noise bounds what rounding, \
quantising, sampling and
straight pieces instead of functions do."""

from __future__ import annotations

import argparse
from argparse import Namespace
from functools import partial

from ..command import Arguments, check_there, prefer, read_bytes, start
from ..faults import Trouble
from ..models.best_plant import needs_mpmath, planted
from ..models.model import Model, read_model
from ..models.model_language import help_text
from ..models.plant_text import Planting
from ..models.trial import trial

WORDS = ("synth", "stay", "patrol")


def parser_of_arguments() -> Arguments:
    parser = Arguments(
        prog="scale", description=__doc__, epilog=help_text(), formatter_class=argparse.RawDescriptionHelpFormatter
    )
    parser.add_argument("model", metavar="MODEL", help="the model text, `-` for standard input")
    parser.add_argument(
        "--try",
        type=int,
        metavar="N",
        dest="trials",
        help="compare plant and model on N random states instead, and print the differences that were seen",
    )
    parser.add_argument(
        "--between",
        action="store_true",
        help="as a line `between`: solve the plant by the program, enclose the ways between samples, widen the "
        "obstacles by cells where ways touch, and begin again until none does; needs numpy",
    )
    parser.add_argument("--by", choices=WORDS, help="the command by which --between solves the plant (synth)")
    parser.add_argument("--bounds", action="store_true", help="with --between, no way leaves the domain either")
    parser.add_argument(
        "--version", type=int, choices=(1, 2), help="make a plant of this version, whatever the model's line says"
    )
    return parser


def main(arguments: list[str]) -> int:
    given = parser_of_arguments().parse_args(arguments)
    prefer("mpmath", "numpy")
    if given.trials is not None and not 1 <= given.trials <= 10**7:
        raise Trouble("--try takes a number from 1 to 10000000", 2)
    data = read_bytes(given.model)
    try:
        model, planting = planted_as_asked(data, given)
    except Trouble as trouble:
        raise Trouble(f"{given.model}: {trouble}", trouble.status) from None
    if given.trials is not None:
        return tried(model, planting, given.trials)
    print(planting.text, end="")
    return 0


def planted_as_asked(data: bytes, given: Namespace) -> tuple[Model, Planting]:
    """The model, and its plant with the obstacles that are asked for."""
    model = read_model(data)
    model.version = given.version or model.version
    is_widened = given.trials is None and (given.between or model.between)
    if is_widened:
        check_there("`between`", "numpy", *["mpmath"] * needs_mpmath(model))
    planting = planted(model)
    if is_widened:
        from ..ways.wider_obstacles import text_between

        word, has_bounds = given.by or model.between or WORDS[0], given.bounds or model.has_bounds
        planting.text = text_between(planting, word, has_bounds)
    return model, planting


def tried(model: Model, planting: Planting, count: int) -> int:
    """Prints by how much plant and model differ at random states; answers the status."""
    outside = 0
    for state, seen, (low, high) in zip(model.states, trial(model, planting.plant, count), planting.ranges):
        print(
            f"{state[0]}: differences from {seen.low} to {seen.high} on {count} random states; the noise allows "
            f"{low} to {high}"
        )
        outside += not seen.lies_in(low, high)
    return 1 if outside else 0


run = partial(start, "scale", main)
