"""Ranges of disturbances that explain a log; needs numpy."""

from .measured.ranges import with_ranges

__all__ = ["with_ranges"]
