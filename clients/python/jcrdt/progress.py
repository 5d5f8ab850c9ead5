"""How far long work is."""

import argparse
import sys
import time
from typing import Callable, Optional

from .terminal import say_error

# What long work calls now and then: what was done, how many times so far, and how many there are in all where that is known.
Report = Callable[[str, int, Optional[int]], None]
# How often a tool says how far it is, in seconds. What takes less says nothing.
EVERY = 3.0


def silent(_what: str, _done: int, _total: Optional[int] = None) -> None:
    """Says nothing."""


class Progress:
    """Says how far work is by a line now and then, as `exchange: 12,800 operations handed over`."""

    def __init__(self, name: str, tell: Callable[[str], None], clock: Callable[[], float] = time.monotonic) -> None:
        """`tell` takes the lines, `clock` says what time it is, in seconds."""
        self._name, self._tell, self._clock = name, tell, clock
        self._next = clock() + EVERY

    def __call__(self, what: str, done: int, total: Optional[int] = None) -> None:
        now = self._clock()
        if now >= self._next:
            self._next = now + EVERY
            self._tell(f"{self._name}: {done:,}{f' of {total:,}' if total is not None else ''} {what}")


def add_argument(parser: argparse.ArgumentParser) -> None:
    """Adds the option by which a tool says how far it is."""
    parser.add_argument("--progress", action="store_true", help=f"a line on standard error each {EVERY:g} s; at a terminal always")


def progress_of(name: str, is_wanted: bool) -> Report:
    """What a tool of this name calls: it says how far it is at a terminal, or where that is wanted."""
    if is_wanted or sys.stderr.isatty():
        return Progress(name, say_error)
    return silent
