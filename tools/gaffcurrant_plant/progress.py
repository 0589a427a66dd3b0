"""Says how far something is that takes long."""

from __future__ import annotations

import sys
import threading
import time
from contextlib import contextmanager
from typing import Callable, Iterator, Union

# Seconds from line to line of what takes long, off a terminal.
EVERY = 10


class Progress:
    """How far something is that takes more than two seconds, or for how long it goes on, in one line on a terminal;
    anywhere else nothing, or where has_lines says so a line every ten seconds."""

    def __init__(self, name: str, has_lines: bool = False) -> None:
        self.name, self.begun, self.told = name, time.monotonic(), 0.0
        self.is_on = sys.stderr is not None and sys.stderr.isatty()
        self.has_lines = has_lines and sys.stderr is not None and not self.is_on
        self.is_shown = False

    def show(self, share: float) -> None:
        """Tells what share is done, at most some times a second."""
        now = time.monotonic()
        if self.is_on and now - self.begun > 2 and now - self.told > 0.2:
            left = (now - self.begun) * (1 - share) / share if share > 0 else 0
            self.put(f"{share:.0%}, about {left:.0f} s left", now)

    def say(self, said: str) -> None:
        """Tells what goes on and for how long so far: some times a second on a terminal, elsewhere every ten
        seconds."""
        now = time.monotonic()
        if self.is_on and now - self.begun > 2 and now - self.told > 0.2:
            self.put(f"{said}, {now - self.begun:.0f} s so far", now)
        elif self.has_lines and now - max(self.begun, self.told) > EVERY:
            self.told = now
            print(f"{self.name}: {said}, {now - self.begun:.0f} s so far", file=sys.stderr, flush=True)

    def tell(self, said: str) -> None:
        """Says a line that stays."""
        if self.is_on or self.has_lines:
            self.end()
            print(f"{self.name}: {said}", file=sys.stderr, flush=True)

    def put(self, said: str, now: float) -> None:
        self.told, self.is_shown = now, True
        print(f"\r{self.name}: {said} \033[K", end="", file=sys.stderr, flush=True)

    @contextmanager
    def during(self, what: Union[str, Callable[[], str]]) -> Iterator[None]:
        """Says for how long something goes on that can't say how far it is; what is a text, or gives one."""
        ended = threading.Event()

        def watch() -> None:
            while not ended.wait(0.5):
                self.say(what() if callable(what) else what)

        watcher = threading.Thread(target=watch, daemon=True)
        if self.is_on or self.has_lines:
            watcher.start()
        try:
            yield
        finally:
            ended.set()
            if watcher.is_alive():
                watcher.join()
            self.end()

    def end(self) -> None:
        """Takes the line away."""
        if self.is_shown:
            print("\r\033[K", end="", file=sys.stderr, flush=True)
            self.is_shown = False
