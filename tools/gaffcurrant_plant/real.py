"""Runs of a model in doubles; needs numpy."""

from .ways.real_runs import Outcome, real_runs

__all__ = ["Outcome", "real_runs"]
