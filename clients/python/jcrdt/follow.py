"""Each change of a document, once, for as long as the caller likes."""

import time
from typing import Iterator, List, Optional

from .protocol import NUMBERS
from .session import Session, connected
from .stored_log import FOLLOW_SECONDS, StoredLog
from .wire import Front, Lost, Operation, Refused, covers, covers_all

# The first pause before a connection is tried again, and the longest, in seconds.
SHORTEST, LONGEST = 0.2, 5.0
# What is answered to `stored` where it isn't known that an operation is in the file.
UNKNOWN = frozenset(NUMBERS[name] for name in ("bad-request", "not-kept"))


def followed(address: str, document: str, front: Optional[Front] = None, every: float = 0.5) -> Iterator[Operation]:
    """Yields each operation of a document that the front doesn't cover, in log order, for ever. It connects again
    whenever the server or hub at HOST:PORT has gone. Keep `front_after` of what was handled: with it the next start
    goes on from there.

    A hub says when something has changed. If it knows what is in the server's file, an operation is yielded once it
    is there. A server is asked every so many seconds, and yields what is logged: a kill may take the last of it
    back, and then its writer may write it again. `followed_file` yields only what is on disk.

    Raises Refused if the document can't be opened, and Renewed where a hub has renewed it since the front: begin anew
    without one. What was logged last in the generation before is in `operations("DOCUMENT/GENERATION", front)` of a session
    that has opened that, if the hub has kept it."""
    known, pause, disk = dict(front or {}), SHORTEST, Disk(document)
    while True:
        try:
            with connected(address) as session:
                session.open(document)
                pause = SHORTEST
                for _ in session.watch(document, every):
                    for operation in disk.stored(session, list(session.operations(document, known))):
                        known = front_after(known, operation)
                        yield operation
        except ConnectionError:
            time.sleep(pause)
            pause = min(2 * pause, LONGEST)


def followed_file(path: str, document: str, front: Optional[Front] = None,
                  every: float = FOLLOW_SECONDS) -> Iterator[Operation]:
    """Yields each operation of a document in the server's file that the front doesn't cover, in log order, for
    ever. What is in the file survives a kill. The file may come later, and be replaced."""
    known = dict(front or {})
    while True:
        try:
            with StoredLog(path) as log:
                place = 0
                while True:
                    if log.counts.get(document, 0) < place:
                        place = 0
                    for operation in log.operations(document, place):
                        place += 1
                        if not covers(known, operation[1]):
                            known = front_after(known, operation)
                            yield operation
                    while not log.refresh():
                        time.sleep(every)
        except (ValueError, FileNotFoundError):
            time.sleep(every)


def front_after(front: Front, operation: Operation) -> Front:
    """The front that covers the operation as well."""
    counter, replica = operation[1]
    return {**front, replica: counter}


class Disk:
    """What a hub knows of the server's file."""

    def __init__(self, document: str) -> None:
        self.document, self.is_known = document, False

    def stored(self, session: Session, operations: List[Operation]) -> List[Operation]:
        """The operations, once all of them are in the server's file if a hub knows. Raises Lost if the server has
        lost some, or a hub that knew doesn't any more. A hub may have gone on with another start of the server
        between two of them: so the last one of each replica is asked for."""
        last: Front = dict((replica, counter) for counter, replica in (operation[1] for operation in operations))
        try:
            for replica, counter in last.items():
                session.stored(self.document, [counter, replica])
                self.is_known = True
        except Refused as cause:
            # No hub, or one that doesn't know the file, or what it asked for was lost by a kill.
            if cause.number not in UNKNOWN:
                raise
            if self.is_known or not covers_all(session.front(self.document), last):
                raise Lost(f"{self.document}: not all that was read is known to be in the file") from None
        return operations
