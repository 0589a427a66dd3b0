"""Logs of a plant; needs numpy."""

from .measured.logs import Log, log_of, read_log

__all__ = ["Log", "log_of", "read_log"]
