"""What who runs a hub does with its documents: `node clients/hub/hub.mjs --data DIR ..`, which runs their servers.

    desk = Desk("DIR")
    desk.rename("trip", "journey")
    for line in desk.export("journey"):
        print(line)

It asks the hub that has DIR, over a socket there: whoever may open that folder may use it. A client lists and creates documents by its
session, as far as the hub lets it.
"""

import os
import socket
from typing import Any, Dict, Iterator, List, NamedTuple, Optional

from . import wire
from .line_reader import CHUNK
from .wire import Away, Lost


class DocumentState(NamedTuple):
    """A document of a hub: whether its server runs, and how many clients have it open. The others are None where they aren't known:
    operations and replicas are those of now, or when its server ended, `lag` is how many seconds that took for a reply just now."""

    name: str
    is_open: bool
    clients: int
    operations: Optional[int] = None
    replicas: Optional[int] = None
    lag: Optional[float] = None


class Desk:
    """The documents of the hub that has a folder. Threads and processes may share it. Each call raises Away, and does nothing, where no
    hub has the folder; ValueError with the hub's words for what can't be done, which changes nothing; and Lost where the hub ends before
    it has answered: then it may be done or not."""

    def __init__(self, folder: str, seconds: float = 60.0) -> None:
        """A line of a reply may take so many seconds."""
        self.folder, self.seconds = os.path.abspath(folder), seconds

    def list(self) -> List[DocumentState]:
        """All documents, in byte order of their names."""
        return [_state_of(wire.decoded(line)) for line in self._lines("list")]

    def create(self, document: str) -> None:
        """Makes a document. A name has 1 to 32 of a-z, 0-9, -."""
        self._done("create", document)

    def rename(self, document: str, other: str) -> None:
        """Gives a document another name. Clients that have it open lose their connection, and find none of the old name. With
        `--redis` it is refused."""
        self._done("rename", document, other)

    def delete(self, document: str) -> str:
        """Puts a document into the bin, and returns what it is called there, NAME.TIME. Clients that have it open lose their
        connection. With `--redis` only its home does, all hubs do then, and its name isn't used again."""
        [entry] = self._done("delete", document)
        return entry

    def deleted(self) -> List[str]:
        """What is in the bin, the oldest first. It stays there until somebody removes its folder."""
        return self._done("bin")

    def restore(self, entry: str, document: Optional[str] = None) -> None:
        """Takes a document out of the bin, under its name or another one."""
        self._done("restore", entry, *([] if document is None else [document]))

    def renew(self, document: str) -> str:
        """Puts what a document shows into its next generation now, and returns that. Requests of clients wait for moments."""
        [generation] = self._done("renew", document)
        return generation

    def export(self, document: str) -> Iterator[str]:
        """Yields a document's operations as lines, in the order of its log, as the tool `load` takes them. DOCUMENT/GENERATION is one of
        before."""
        for line in self._lines("export", document):
            yield line.decode()

    def _done(self, *words: str) -> List[str]:
        return [line.decode() for line in self._lines(*words)]

    def _lines(self, *words: str) -> Iterator[bytes]:
        """Sends a command, and yields the lines of its reply."""
        with self._connected() as connection, connection.makefile("rb", CHUNK) as replies:
            connection.sendall(wire.encoded(list(words)) + b"\n")
            try:
                for line in replies:
                    if line == b'["done"]\n':
                        return
                    if line.startswith(b'["error",'):
                        raise ValueError(wire.decoded(line)[1])
                    yield line[:-1]
            except OSError as error:
                raise Lost(f"{self.folder}: the hub doesn't answer: {error}") from error
        raise Lost(f"{self.folder}: the hub has ended meanwhile")

    def _connected(self) -> socket.socket:
        connection = socket.socket(socket.AF_UNIX, socket.SOCK_STREAM)
        try:
            connection.settimeout(self.seconds)
            connection.connect(os.path.join(self.folder, "control"))
            return connection
        except OSError as error:
            connection.close()
            raise Away(f"no hub has {self.folder}: {error}") from error


def _state_of(state: Dict[str, Any]) -> DocumentState:
    return DocumentState(state["name"], state["isOpen"], state["clients"], *map(state.get, ("operations", "replicas", "lag")))
