"""Usual mistakes in a log, in words; needs numpy."""

from .measured.diagnosis import diagnosed

__all__ = ["diagnosed"]
