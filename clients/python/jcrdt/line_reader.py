"""Lines out of bytes as they come, for both transports: replies apart from pushes, and no line beyond a limit."""

from collections import deque
from typing import Any, Deque, List, Optional, Tuple

from .wire import LINE_LIMIT, Misbehaved, decoded_reply, is_push_line

# How many bytes are read at once.
CHUNK = 1 << 16
# How many pushes are kept that nobody has asked for: the oldest ones go first.
KEPT_PUSHES = 10_000


class LineReader:
    """What has come of a connection and wasn't taken yet. `pushes` has what a hub sent without a request, the oldest
    first, as `["changed",doc,FRONT]`."""

    def __init__(self, limit: int) -> None:
        """No line may have more than `limit` bytes."""
        self.limit = limit
        self.pushes: Deque[List[Any]] = deque(maxlen=KEPT_PUSHES)
        self._rest = bytearray()
        # How far `_rest` was searched for a newline.
        self._searched = 0

    def feed(self, data: bytes) -> None:
        """Takes the next bytes of the connection."""
        self._rest += data

    def reply(self) -> Optional[bytes]:
        """The next line that is no push, without its newline; None if it isn't there yet. Raises Misbehaved for a line
        that is too long, or a push that is none."""
        while True:
            line = self._line()
            if line is None or not is_push_line(line):
                return line
            self._keep(line)

    def piece(self) -> Optional[Tuple[bytes, bool]]:
        """What is there of the next line that is no push, and whether that ends it; None if nothing is. So a line may
        be longer than memory. The first piece has the line's first LINE_LIMIT bytes, or all of it."""
        at = self._rest.find(b"\n", self._searched)
        if at < 0 and len(self._rest) < LINE_LIMIT:
            self._searched = len(self._rest)
            return None
        if is_push_line(self._rest[:32]):
            line = self._line()
            if line is None:
                return None
            self._keep(line)
            return self.piece()
        return self.rest_of_piece()

    def rest_of_piece(self) -> Optional[Tuple[bytes, bool]]:
        """What is there behind a piece that didn't end its line."""
        if not self._rest:
            return None
        at = self._rest.find(b"\n")
        piece = bytes(self._rest if at < 0 else self._rest[:at])
        del self._rest[:len(piece) + (at >= 0)]
        self._searched = 0
        return piece, at >= 0

    def _line(self) -> Optional[bytes]:
        at = self._rest.find(b"\n", self._searched)
        length = len(self._rest) if at < 0 else at
        if length > self.limit:
            raise Misbehaved(f"a reply of more than {self.limit} bytes")
        if at < 0:
            self._searched = length
            return None
        line = bytes(self._rest[:at])
        del self._rest[:at + 1]
        self._searched = 0
        return line

    def _keep(self, line: bytes) -> None:
        try:
            self.pushes.append(decoded_reply(line))
        except ValueError as error:
            raise Misbehaved(f"{line[:60]!r}: {error}") from None


def lines_of(requests: List[bytes]) -> bytes:
    """Lines without newlines as they are sent."""
    return b"".join(request + b"\n" for request in requests)
