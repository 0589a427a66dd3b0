"""Rows of tables as arrays, runs as arrays; needs numpy."""

from .texts.arrays import NONE, Cells, Run, Turns, run_of, whole_states

__all__ = ["Cells", "NONE", "Run", "Turns", "run_of", "whole_states"]
