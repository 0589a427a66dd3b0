"""What a text promises, beside a log; needs numpy."""

from .measured.promises import Promises, promises_of

__all__ = ["Promises", "promises_of"]
