"""A session: requests and replies over TCP (`serve`, a hub's lines) or over pipes (`run`).

    with jcrdt.connected("127.0.0.1:7001") as server:
        server.open("trip")
        server.put("trip", [0], {"title": "Oslo", "days": [{"town": "Oslo"}, {"town": "Bergen"}]})
        print(server.plain("trip", [0]))

A cursor is a list: first 0 for the document or the name of a variable, then texts (down into maps)
and indices (into lists: 0 is the head, 1 the first element).

Errors: `Refused` (nothing was changed), `Lost` (a change may have been made or not), `Away` (nothing
was done, no server was reached). Lost and Away are ConnectionErrors. After a Lost of the connection,
and after an exception in the middle of a reply (Ctrl-C), the session can't be used any more: each
request raises Lost. Threads may share a session: each request has its reply before the next is sent.
Processes can't: after a fork the session is the parent's, and raises Lost in the child.
"""

import os
import socket
import threading
import time
from types import TracebackType
from typing import Any, Deque, Iterable, Iterator, List, Literal, Optional, Sequence, Tuple, Type, TypeVar

from . import generations, loading, mending, nested, wire
from .generations import Generation
from .limits import SIGN_SECONDS, USUAL, Limits
from .protocol import NUMBERS
from .replies import Reply, chains_in, checked_beginning, front_in, id_in, logged_in, page_in, reply_of
from .steps import Steps
from .stream import Stream
from .tagged import tagged
from .wire import Away, Chain, Cursor, Front, Id, Lost, Misbehaved, Operation, Refused, Renewed, Size, encoded

T = TypeVar("T")
FORKED = "it was opened in another process: connect in this one"


class Session:
    """One session of a server or a hub. Made by `connected` or `started`."""

    def __init__(self, stream: Stream) -> None:
        self.stream = stream
        self.lock = threading.RLock()
        self.broken: Optional[str] = None
        self.process = os.getpid()
        # HOST:PORT, if it is one over TCP.
        self.address: Optional[str] = None

    def __repr__(self) -> str:
        return f"<Session of {self.address or 'a program'}{f', ended: {self.broken}' if self.broken else ''}>"

    def __enter__(self) -> "Session":
        return self

    def __exit__(self, kind: Optional[Type[BaseException]], error: Optional[BaseException],
                 trace: Optional[TracebackType]) -> None:
        self.close()

    def close(self) -> None:
        """Ends the connection. What was applied stays. In a child of the process that opened it, the session goes on in
        that one."""
        if self.process != os.getpid():
            # Another thread may have had the lock at the fork, and is in the parent alone.
            self.stream.close()
            return
        with self.lock:
            if self.broken != "it is closed":
                self.broken = "it is closed"
                self.stream.close()

    @property
    def seconds(self) -> float:
        """How long a reply may take."""
        return self.stream.limits.silence

    @seconds.setter
    def seconds(self, seconds: float) -> None:
        self.stream.limits = self.stream.limits._replace(silence=seconds)

    @property
    def pushes(self) -> Deque[List[Any]]:
        """What a hub has sent without a request, the oldest first: `["changed",doc,FRONT]` and others."""
        return self.stream.lines.pushes

    # Requests and replies.

    def begin(self) -> None:
        """Waits until the session has begun. Raises Lost if it doesn't, or if that is no server of jcrdt, and Refused if a
        hub doesn't admit this client."""
        try:
            line = self.answer(encoded(["version"]))
        except Lost as error:
            if str(error).startswith("no reply"):
                error = Lost(f"no session begins within {self.seconds:g} s: the server's sessions may be used up")
            raise error from None
        checked_beginning(line)

    def answers(self, lines: List[bytes]) -> List[bytes]:
        """Sends lines without newlines, all at once, and returns the lines of their replies."""
        self._check_process()
        with self.lock:
            self._check()
            # An exception on the way, as Ctrl-C, leaves replies unread: the next request must not take them for its own.
            self.broken = "an earlier request has no reply yet"
            try:
                replies = self.stream.swap(lines)
            except Lost as error:
                self.broken = str(error)
                raise
            self.broken = None
        return replies

    def _check_process(self) -> None:
        if self.process != os.getpid():
            raise Lost(f"this session can't be used here: {FORKED}")

    def _check(self) -> None:
        if self.broken is not None:
            raise Lost(f"this session can't be used any more: {self.broken}")

    def answer(self, line: bytes) -> bytes:
        """Sends one line of bytes, which has no newline, and returns the line of its reply."""
        return self.answers([line])[0]

    def ask(self, *request: Any) -> List[Any]:
        """Sends one request and returns what stands behind the word of its reply. Raises Refused, Lost or Away."""
        [reply] = self.ask_all([request])
        if isinstance(reply, Exception):
            raise reply
        return reply

    def ask_all(self, requests: Iterable[Sequence[Any]]) -> List[Reply]:
        """Sends many requests at once. Returns each reply as `ask` does, and for a refused one its error: those
        behind it are under way by then."""
        asked = list(requests)
        found = self.answers([encoded(request) for request in asked])
        try:
            replies = [reply_of(line, request) for request, line in zip(asked, found)]
        except Misbehaved as error:
            self.broken = str(error)
            raise
        for request, reply in zip(asked, replies):
            if isinstance(reply, Renewed):
                reply.document = str(request[1])
                reply.generation = self.history(reply.document)[-1].name
        return replies

    def run(self, steps: Steps[T]) -> T:
        """Asks what the steps want, and returns what they found. Other threads wait meanwhile."""
        self._check_process()
        with self.lock:
            try:
                requests = next(steps)
                while True:
                    requests = steps.send(self.ask_all(requests))
            except StopIteration as end:
                found: T = end.value
                return found

    def next_push(self, seconds: float) -> Optional[List[Any]]:
        """The oldest line that a hub has sent without a request, or None if there is none within so many
        seconds. Requests of other threads wait meanwhile."""
        kept = self.kept_push()
        if kept is not None:
            return kept
        self._check_process()
        with self.lock:
            self._check()
            try:
                self.stream.wait_for_push(seconds)
            except Lost as error:
                self.broken = str(error)
                raise
        return self.kept_push()

    def kept_push(self) -> Optional[List[Any]]:
        """The oldest push that came with replies, or None. Nothing is read for it."""
        try:
            return self.pushes.popleft()
        except IndexError:
            return None

    # Changes. Each returns the id of the new operation.

    def open(self, document: str) -> int:
        """Opens a document in this session, and returns the number of the seat."""
        return int(self.ask("open", document)[0])

    def assign(self, document: str, cursor: Cursor, value: Any) -> Id:
        return id_in(self.ask("assign", document, cursor, value))

    def insert(self, document: str, cursor: Cursor, value: Any) -> Id:
        """Inserts after the element at the cursor: index 0 stands for the place before the first."""
        return id_in(self.ask("insert", document, cursor, value))

    def delete(self, document: str, cursor: Cursor) -> Id:
        return id_in(self.ask("delete", document, cursor))

    def add(self, document: str, cursor: Cursor, number: int) -> Id:
        """Adds an integer of 64 bits to the counter at the cursor."""
        return id_in(self.ask("add", document, cursor, number))

    def let(self, document: str, name: str, cursor: Cursor) -> None:
        """Binds a name to a place. It goes on to mean that element when the list moves. If the cursor has an
        index, another session may have moved the list before: `bind` binds an element by its id."""
        self.ask("let", document, name, cursor)

    def bind(self, document: str, name: str, cursor: Cursor, element: Id) -> bool:
        """Binds a name to the element of this id in the list at the cursor, and checks that it is that one.
        Returns False if the element isn't there (any more). Raises TimeoutError if others change the list so fast
        that it isn't met for 10 s, and Renewed where it is one of a generation of before."""
        return self.run(nested.bind(document, name, cursor, element))

    def append(self, document: str, cursor: Cursor, value: Any) -> Id:
        """Inserts a value, nested or not, behind the last element of the list at the cursor, as `put` writes it.
        Returns the element's id."""
        return self.extend(document, cursor, [value])[0]

    def extend(self, document: str, cursor: Cursor, values: Sequence[Any]) -> List[Id]:
        """Inserts values behind the last element of the list at the cursor. Returns their ids. Raises as `put`."""
        return self.run(nested.extend(document, cursor, values))

    def put(self, document: str, cursor: Cursor, value: Any, only: Optional[Literal["changed"]] = None) -> None:
        """Assigns a nested value: {} or [] first, and then what is in it, one request each. It takes what
        `plain` gives: a counter begins at its sum. Other sessions may change the same lists meanwhile: each
        element is bound and checked before it is filled, and one that was deleted meanwhile is left out.

        With only="changed" it sends what differs from what is there, and nothing where nothing does. Elements of
        lists that change stay the same elements, and what is no part of the value is deleted.

        Raises ValueError for a value that can't be put, before anything is changed: one that isn't made of dicts
        with texts as keys, lists, integers of 64 bits, texts of at most 4,096 bytes, True, False and None, or a
        conflict of two values (make it one by `settled`).

        Raises Refused (18, log-full) before anything is changed if the document has no room for all of it, as far
        as its front and the counters of its operations say: see room.py. So nothing is left half made but where
        others take the room meanwhile, or the connection fails: after such a Refused or Lost the first part of the
        value is there."""
        self.run(nested.put(document, cursor, value) if only is None else mending.put_changed(document, cursor, value))

    # Readings.

    def keys(self, document: str, cursor: Cursor) -> List[str]:
        return list(self.ask("keys", document, cursor)[0])

    def values(self, document: str, cursor: Cursor) -> List[Any]:
        """The scalars at the cursor, in the order of their ids: more than one is a conflict."""
        return list(self.ask("values", document, cursor)[0])

    def items(self, document: str, cursor: Cursor) -> List[Any]:
        """The elements of a list, `[id, scalars]` each."""
        return list(self.ask("items", document, cursor)[0])

    def conflicts(self, document: str, cursor: Cursor) -> List[Any]:
        return list(self.ask("conflicts", document, cursor)[0])

    def sum(self, document: str, cursor: Cursor) -> int:
        return int(self.ask("sum", document, cursor)[0])

    def show(self, document: str, cursor: Cursor) -> List[Any]:
        """The branches at the cursor, with the ids of values."""
        return list(self.ask("show", document, cursor)[0])

    def plain(self, document: str, cursor: Cursor) -> Any:
        """The value at the cursor as plain JSON, with a Counter for a counter and a Conflict where several
        values are."""
        return wire.plain(self.show(document, cursor))

    def export(self, document: str, cursor: Cursor = (0,)) -> Any:
        """The value at the cursor as JSON that keeps counters and conflicts by tags: see tagged.py."""
        return tagged(self.plain(document, cursor))

    def load_json(self, document: str, cursor: Cursor, data: Any) -> int:
        """Makes what is at the cursor into a value that `export` gave, by sending what differs alone. Returns how many
        operations that took. Each value of a conflict that isn't there yet is made by a replica of its own, of which a
        document has 256.

        Raises ValueError for what is no such value, or a cursor with an index or a name, and Refused (18, 19) where the
        document has no room, both before anything is changed. Otherwise as `put` with only="changed"."""
        return self.run(loading.load_json(document, cursor, data))

    # What servers deliver to each other.

    def deliver(self, document: str, operation: Operation) -> int:
        """Returns how many operations were logged: 0 where it is known already, or held until what it depends
        on has come."""
        return logged_in(self.ask("deliver", document, operation))

    def front(self, document: str) -> Front:
        """The last logged counter of each replica."""
        return front_in(self.ask("front", document))

    def operations(self, document: str, front: Optional[Front] = None) -> Iterator[Operation]:
        """Yields in log order the operations that the front doesn't cover, asking for 64 at a time. Raises Lost
        for what is no operation, or comes twice."""
        known = dict(front or {})
        while True:
            page = page_in(self.ask("ops", document, wire.pairs_of(known), wire.PAGE), known)
            yield from page
            if len(page) < wire.PAGE:
                return

    def chains(self, document: str, after: Front, front: Front) -> List[Chain]:
        """By which two logs are compared: for each pair of `front` the replica, the counter, and the SHA-256 in hex
        of the lines of the replica's operations with counters above that of `after`, or 0, and at most that of
        `front`, in log order."""
        return chains_in(self.ask("chains", document, wire.pairs_of(after), wire.pairs_of(front)))

    def held(self, document: str) -> List[Any]:
        """The operations that wait for others: `[id, [missing id, ..]]` each."""
        return list(self.ask("held", document)[0])

    def forget(self, document: str, operation_id: Id) -> None:
        self.ask("forget", document, operation_id)

    # What changes, and what a server that was killed may have lost.

    def watch(self, document: str, seconds: float = 0.5, timeout: Optional[float] = None) -> Iterator[Front]:
        """Yields the front at once, and again each time that it has changed; with a timeout until it hasn't for so many
        seconds. A hub says when that is. A server is asked every so many seconds, and each question is one of the
        1,000,000 lines of a session. Between two yields the session may be used. Where a hub renews the document, the next
        front is that of the next generation: `generation_of(front)` says of which one it is."""
        pushed = self._is_pushed(document)
        last: Optional[Front] = None
        until = float("inf")
        while True:
            front = self.front(document)
            left = until - time.monotonic()
            if front != last:
                yield front
                last = front
                until = time.monotonic() + timeout if timeout is not None else until
            elif left <= 0:
                return
            elif not pushed:
                self._rest(min(seconds, left))
            else:
                # Pushes of other documents end the wait, too. Without any the hub is asked for a sign of life.
                self.next_push(min(SIGN_SECONDS, left))

    def _rest(self, seconds: float) -> None:
        """Waits, and asks for a sign of life now and then, so that the server doesn't take this session for one that is left."""
        until = time.monotonic() + seconds
        while (left := until - time.monotonic()) > SIGN_SECONDS:
            time.sleep(SIGN_SECONDS)
            self.version()
        time.sleep(max(0.0, left))

    def _is_pushed(self, document: str) -> bool:
        """Whether a hub says when the document changes."""
        try:
            self.ask("watch", document)
            return True
        except Refused as cause:
            if cause.number != NUMBERS["bad-request"]:
                raise
            return False

    def unsaved(self, document: str, ids: Iterable[Id]) -> List[Id]:
        """Those of the ids that the server doesn't have. `applied` says that an operation is logged. It is in the
        file later, and a kill in between loses it: see `Writes`. What a generation of before had at its end counts as
        there: the document shows it."""
        return self.run(generations.unsaved(document, ids))

    def stored(self, document: str, operation_id: Id) -> None:
        """Waits until the operation is in the server's file. Only a hub answers that, and refuses with 104 if it
        can't know. A server refuses with 2."""
        self.ask("stored", document, operation_id)

    def size(self, document: str) -> Size:
        """How much the document has. Servers before 1.2.0 refuse it with 2."""
        return Size(*self.ask("size", document))

    def copied(self, document: str, operation_id: Id) -> bool:
        """Whether the server's file has the operation of this id now. Servers before 1.2.0 refuse it with 2."""
        return bool(self.ask("copied", document, operation_id)[0])

    # Which documents there are, at a hub that runs their servers.

    def create(self, document: str) -> None:
        """Makes a document, which isn't open by that: its server is started once somebody opens it. A name has 1 to 32 of
        a-z, 0-9, -.

        Raises Refused, and makes none: 105 (there-already) where there is one of this name, 103 (not-allowed) where this
        client may not, 2 (bad-request) for what is no name, and by a server and a hub that has one. Raises Away where the
        hub has no room for more, or its disk is full."""
        self.ask("create", document)

    def list(self) -> List[str]:
        """The names of all documents that this client may read, in byte order, asking for 1,000 at a time. One that is
        made or renamed meanwhile may be in it or not. Raises Refused: 103 where this client may not ask that, 2 by a server
        and a hub that has one."""
        names: List[str] = []
        while True:
            [page] = self.ask("list", names[-1] if names else "")
            names += page
            if len(page) < wire.LISTED:
                return names

    def history(self, document: str) -> List[Generation]:
        """The generations of a document that is open; the last of them takes changes. One of before is opened as
        DOCUMENT/GENERATION and only read, if the hub has kept it: a change of it is refused by 103. Raises Refused: 5
        (not-open), and 2 by a server and a hub that has one."""
        return generations.generations_in(self.ask("history", document))

    def elements_since(self, document: str, generation: str) -> List[Tuple[Id, Id]]:
        """The elements that a generation of before showed at its end, and what they are now, over all generations since:
        pairs of ids, as `Replica.remake_in` takes them. Those that were deleted since aren't in it. Raises ValueError where
        the document, which is open, has no such generation, and Refused as `history`."""
        return self.run(generations.elements_since(document, generation))

    def account(self, document: str) -> int:
        return int(self.ask("account", document)[0])

    def version(self) -> int:
        return int(self.ask("version")[0])

    def quit(self) -> None:
        """Ends the session. Its documents stay."""
        self.ask("quit")


def connected(address: str, seconds: float = USUAL.silence, begin: float = USUAL.begin,
              limit: int = USUAL.reply_bytes) -> Session:
    """Connects to a server or a hub's lines at HOST:PORT. Use it in `with`, or `close` it.

    A reply may take so many seconds, and have at most `limit` bytes: else the session ends by Lost. Raises Away
    if nobody listens there, or if no session begins within `begin` seconds: a server whose sessions are used
    up takes a connection and doesn't answer. Raises Refused (103) if a hub doesn't admit this client, and
    ValueError for what is no HOST:PORT."""
    host, port = wire.host_and_port(address)
    try:
        connection = socket.create_connection((host, port), timeout=begin)
    except OSError as error:
        raise Away(f"{address}: {error}") from error
    connection.setsockopt(socket.IPPROTO_TCP, socket.TCP_NODELAY, 1)
    limits = Limits(begin, begin, reply_bytes=limit)
    session = Session(Stream(connection.fileno(), connection.fileno(), connection.close, limits))
    try:
        session.begin()
    except Lost as error:
        session.close()
        raise Away(f"{address}: {error}") from None
    except BaseException:
        session.close()
        raise
    session.seconds, session.address = seconds, address
    return session
