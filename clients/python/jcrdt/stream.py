"""Lines over two file descriptors, a socket's or those of two pipes, with limits of time and length."""

import os
import select
import time
from typing import Callable, List, Optional

from .line_reader import CHUNK, LineReader, lines_of
from .limits import Limits
from .wire import Lost, Misbehaved


class Stream:
    """Sends lines, and reads lines at the same time: a server that can't write replies reads nothing more."""

    def __init__(self, reader: int, writer: int, close: Callable[[], None], limits: Limits) -> None:
        self.reader, self.writer, self.limits, self.close = reader, writer, limits, close
        self.lines = LineReader(limits.reply_bytes)
        for descriptor in {reader, writer}:
            os.set_blocking(descriptor, False)

    def swap(self, requests: List[bytes]) -> List[bytes]:
        """Sends lines without newlines, all at once, and returns as many replies: the last may come before all is
        sent, since it refuses a line that is too long. Raises Lost if the other side ends, takes too long, or sends a
        line that is too long."""
        view = memoryview(lines_of(requests))
        replies: List[bytes] = []
        last = began = time.monotonic()
        while len(replies) < len(requests):
            line = self.lines.reply()
            if line is not None:
                replies.append(line)
                began = time.monotonic()
                continue
            ready = self._wait(bool(view), self._left(last, began))
            if ready is None:
                raise Lost(f"no reply for {min(self.limits.silence, self.limits.slowest):g} s")
            if ready & select.POLLOUT:
                view = view[self._send(view):]
            if ready & ~select.POLLOUT:
                self._read()
                last = time.monotonic()
        return replies

    def wait_for_push(self, seconds: float) -> None:
        """Reads until a push has come, or for so many seconds. Raises Misbehaved for a line that answers no
        request."""
        until = time.monotonic() + seconds
        while True:
            line = self.lines.reply()
            if line is not None:
                raise Misbehaved(f"{line[:60]!r}, which answers no request")
            if self.lines.pushes or self._wait(False, until - time.monotonic()) is None:
                return
            self._read()

    def _left(self, last: float, began: float) -> float:
        """How long the next byte may take, in seconds."""
        return min(last + self.limits.silence, began + self.limits.slowest) - time.monotonic()

    def _wait(self, sending: bool, seconds: float) -> Optional[int]:
        """What is ready, as bits of poll, or None after so many seconds."""
        waiting = select.poll()
        if self.reader == self.writer:
            waiting.register(self.reader, select.POLLIN | (select.POLLOUT if sending else 0))
        else:
            waiting.register(self.reader, select.POLLIN)
            if sending:
                waiting.register(self.writer, select.POLLOUT)
        found = waiting.poll(max(0.0, seconds) * 1000)
        if not found:
            return None
        bits = 0
        for descriptor, ready in found:
            # A pipe whose reader has ended: writing to it fails, and says so.
            gone = descriptor == self.writer != self.reader and ready & (select.POLLERR | select.POLLHUP)
            bits |= select.POLLOUT if gone else ready
        return bits

    def _send(self, data: memoryview) -> int:
        """How many bytes were sent. If the other side has ended all count as sent: its last replies are read, and
        then their end is noticed."""
        try:
            return os.write(self.writer, data[:CHUNK])
        except BlockingIOError:
            return 0
        except OSError:
            return len(data)

    def _read(self) -> None:
        try:
            data = os.read(self.reader, CHUNK)
        except BlockingIOError:
            return
        except OSError as error:
            raise Lost(f"the connection ended: {error}") from error
        if not data:
            raise Lost("the server has ended the session")
        self.lines.feed(data)
