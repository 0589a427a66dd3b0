"""Plants and tables of Gaffcurrant for Python: solving, choosing inputs, simulating (docs/PYTHON.md).

The subpackages are `plants`, `models`, `texts`, `devices`, `pictures`, `pages`, `ways`, `measured` and `programs`; each
says what it is about, and tools/README.md what is where. `arrays`, `logs`, `conforming`, `diagnosing`, `ranging`,
`promises` and `real` are for notebooks, and need numpy."""

from .faults import Refused, Trouble
from .plants.reader import read_plant
from .plants.units import Units, read_units
from .texts.controller import Controller
from .texts.monitor import Monitor
from .texts.solver import Sample, patrol, scale, simulate, solve, stay
from .texts.table import NoRow, Patrol, Stay, Table, read_table, read_text, text_of_patrol, text_of_stay, text_of_table

__all__ = [
    "Controller",
    "Monitor",
    "NoRow",
    "Patrol",
    "Refused",
    "Sample",
    "Stay",
    "Table",
    "Trouble",
    "Units",
    "patrol",
    "read_plant",
    "read_table",
    "read_text",
    "read_units",
    "scale",
    "simulate",
    "solve",
    "stay",
    "text_of_patrol",
    "text_of_stay",
    "text_of_table",
]
