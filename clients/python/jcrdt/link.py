"""A relay's session of a server: it reads no reply beyond a limit, and compares what a document of any length shows."""

import hashlib

from .aio import Due, Session, connection_to
from .limits import Limits
from .line_reader import LineReader
from .replies import rest_of
from .wire import Front, LINE_LIMIT, Misbehaved, REPLICA_LIMIT, encoded

# An `ops` of 64 operations has at most 4 MiB.
LIMITS = Limits(begin=15.0, silence=15.0, slowest=120.0, reply_bytes=8 << 20)
# The longest `show` that is compared, in bytes.
SHOWN_BYTES = 1 << 30


class Shown(Due):
    """A reply of any length: its first bytes, and the digest of all of it."""

    def __init__(self) -> None:
        super().__init__(1, lambda _: None)
        self.digest, self.first, self.length = hashlib.sha256(), b"", 0

    def consume(self, lines: LineReader) -> bool:
        while True:
            found = lines.rest_of_piece() if self.length else lines.piece()
            if found is None:
                return False
            piece, is_end = found
            self.first = self.first or piece[:LINE_LIMIT]
            self.length += len(piece)
            self.digest.update(piece)
            if self.length > SHOWN_BYTES:
                raise Misbehaved(f"a reply of more than {SHOWN_BYTES >> 20} MiB")
            if is_end:
                return True


class Link(Session):
    """One session of a server, for a relay."""

    async def front(self, document: str) -> Front:
        """The front of a document. Raises Misbehaved for what no document has."""
        front = await super().front(document)
        if len(front) > REPLICA_LIMIT:
            raise Misbehaved(f"a front of {len(front)} replicas")
        return front

    async def shown(self, document: str) -> bytes:
        """A digest of all that a document shows, of any length."""
        shown = Shown()
        await self._ask([encoded(["show", document, [0]])], shown)
        if not shown.first.startswith(b'["show",'):
            rest_of(shown.first, "show")
            raise Misbehaved("a reply to `show` that is none")
        return shown.digest.digest()


async def link_to(address: str) -> Link:
    """Connects to a server at HOST:PORT. Raises OSError where it can't be reached, ValueError where it is no
    address."""
    return Link(*await connection_to(address, LIMITS.begin), LIMITS)
