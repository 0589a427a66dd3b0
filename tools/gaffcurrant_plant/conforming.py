"""Whether measured steps belong to a plant; needs numpy."""

from .measured.conformity import Conformity, conform

__all__ = ["Conformity", "conform"]
