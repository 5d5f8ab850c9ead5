"""Lines for a person, which never hold up who writes them."""

import os
import queue
import select
import threading
import time
from typing import Optional

from .wire import shown_safely

# So many lines wait at most; those beyond are dropped and counted.
MOST = 1000
# The longest line, in characters.
LONGEST = 1000


class Notes:
    """Lines to a descriptor, written by a thread of its own. A descriptor that takes nothing, as a full pipe or
    a terminal after Ctrl-S, delays nobody. Control characters are escaped."""

    def __init__(self, descriptor: int) -> None:
        self._descriptor, self._dropped = descriptor, 0
        self._lines: "queue.Queue[Optional[str]]" = queue.Queue(MOST)
        self._thread = threading.Thread(target=self._write_all, daemon=True)
        self._thread.start()

    def tell(self, line: str) -> None:
        """Hands over a line without its newline. Returns at once."""
        try:
            self._lines.put_nowait(shown_safely(line)[:LONGEST])
        except queue.Full:
            self._dropped += 1

    def end(self, seconds: float) -> None:
        """Waits until all is written, at most so long. What isn't by then is lost."""
        until = time.monotonic() + seconds
        while time.monotonic() < until:
            try:
                self._lines.put(None, timeout=0.1)
                break
            except queue.Full:
                continue
        self._thread.join(max(0.0, until - time.monotonic()))

    def _write_all(self) -> None:
        while True:
            line = self._lines.get()
            if line is None:
                return
            dropped, self._dropped = self._dropped, 0
            if dropped:
                self._write(f"{dropped} lines were dropped: nobody read them in time")
            self._write(line)

    def _write(self, line: str) -> None:
        rest = line.encode(errors="replace") + b"\n"
        while rest:
            try:
                rest = rest[os.write(self._descriptor, rest):]
            except BlockingIOError:
                select.select([], [self._descriptor], [], 1)
            except OSError:
                return
