"""Sessions for asyncio: what jcrdt.Session has, as coroutines, with many requests under way.

    async with jcrdt.aio.connected("127.0.0.1:7001") as server:
        await server.open("trip")
        await server.put("trip", [0], {"title": "Oslo"})
        print(await server.plain("trip", [0]))

Tasks of one event loop may share a session: requests are sent at once, in the order of the calls, and each gets its own
reply. The request of a task that is cancelled goes on: its reply is dropped, and a change is made. Errors are those of
jcrdt.Session. After a fork the session is the parent's, and raises Lost in the child.
"""

import asyncio
import os
import socket
from collections import deque
from types import TracebackType
from typing import Any, AsyncIterator, Callable, Deque, Generator, Iterable, List, Literal, Optional, Sequence, Tuple, Type, TypeVar

from . import generations, loading, mending, nested, wire
from .generations import Generation
from .limits import SIGN_SECONDS, USUAL, Limits
from .line_reader import CHUNK, LineReader, lines_of
from .protocol import NUMBERS
from .replies import Reply, chains_in, checked_beginning, front_in, id_in, logged_in, page_in, reply_of
from .session import FORKED
from .steps import Steps
from .tagged import tagged
from .wire import Away, Chain, Cursor, Front, Id, Lost, Misbehaved, Operation, Refused, Renewed, Size, encoded

T = TypeVar("T")
# After so many replies that are there already other tasks get their turn.
YIELD = 16


class Due:
    """Replies that are due: so many lines, each for `take`."""

    def __init__(self, count: int, take: Callable[[bytes], Any]) -> None:
        self.left, self.take = count, take
        self.ended: "asyncio.Future[None]" = asyncio.get_running_loop().create_future()

    def consume(self, lines: LineReader) -> bool:
        """Takes the next reply. Returns whether all of it was there."""
        line = lines.reply()
        if line is None:
            return False
        if not self.ended.done():
            self.take(line)
        return True


class Session:
    """One session of a server or a hub, for the tasks of one event loop. Made by `connected`."""

    def __init__(self, reader: asyncio.StreamReader, writer: asyncio.StreamWriter, limits: Limits) -> None:
        self.limits = limits
        # HOST:PORT, if `connected` made it.
        self.address: Optional[str] = None
        self.process, self._loop = os.getpid(), asyncio.get_running_loop()
        self._reader, self._writer, self._lines = reader, writer, LineReader(limits.reply_bytes)
        self._due: Deque[Due] = deque()
        self._why: Optional[str] = None
        # When the reply that is due was asked for, and when the last bytes came.
        self._asked = self._heard = self._loop.time()
        # Set, and then another one, when a push has come, or the session has ended.
        self._news = asyncio.Event()
        # `put`, `append` and `extend` bind the same names.
        self._writing = asyncio.Lock()
        self._tasks = [asyncio.ensure_future(self._read()), asyncio.ensure_future(self._watch_time())]

    def __repr__(self) -> str:
        return f"<aio.Session of {self.address or 'a server'}{f', ended: {self._why}' if self._why else ''}>"

    @property
    def pushes(self) -> Deque[List[Any]]:
        """What a hub has sent without a request, the oldest first: `["changed",doc,FRONT]` and others."""
        return self._lines.pushes

    async def __aenter__(self) -> "Session":
        return self

    async def __aexit__(self, kind: Optional[Type[BaseException]], error: Optional[BaseException],
                        trace: Optional[TracebackType]) -> None:
        await self.close()

    async def close(self) -> None:
        """Ends the connection. What was applied stays. Who waits for a reply gets Lost. In a child of the process that
        opened it, it does nothing."""
        if self.process == os.getpid():
            self.abort()
            await asyncio.gather(*self._tasks, return_exceptions=True)

    def abort(self) -> None:
        """As `close`, and doesn't wait."""
        self._end(Lost("it is closed"))
        for task in self._tasks:
            task.cancel()

    # Requests and replies.

    async def ask_lines(self, lines: Sequence[bytes], take: Optional[Callable[[bytes], Any]] = None) -> List[bytes]:
        """Sends lines without newlines, all at once. Hands the line of each reply to `take` as it comes, or returns all
        of them."""
        replies: List[bytes] = []
        if lines:
            await self._ask(lines, Due(len(lines), take or replies.append))
        return replies

    async def _ask(self, lines: Sequence[bytes], due: Due) -> None:
        self._check()
        if not self._due:
            self._asked = self._loop.time()
        self._due.append(due)
        self._writer.write(lines_of(list(lines)))
        await due.ended

    def _check(self) -> None:
        if self.process != os.getpid():
            raise Lost(f"this session can't be used here: {FORKED}")
        if asyncio.get_running_loop() is not self._loop:
            raise RuntimeError("this session is another event loop's: connect in this one")
        if self._why is not None:
            raise Lost(f"this session can't be used any more: {self._why}")

    async def ask(self, *request: Any) -> List[Any]:
        """Sends one request and returns what stands behind the word of its reply. Raises Refused, Lost or Away."""
        [reply] = await self.ask_all([request])
        if isinstance(reply, Exception):
            raise reply
        return reply

    async def ask_all(self, requests: Iterable[Sequence[Any]]) -> List[Reply]:
        """Sends many requests at once. Returns each reply as `ask` does, and for a refused one its error: those
        behind it are under way by then."""
        asked = list(requests)
        found = await self.ask_lines([encoded(request) for request in asked])
        try:
            replies = [reply_of(line, request) for request, line in zip(asked, found)]
        except Misbehaved as error:
            self._end(error)
            raise
        for request, reply in zip(asked, replies):
            if isinstance(reply, Renewed):
                reply.document = str(request[1])
                reply.generation = (await self.history(reply.document))[-1].name
        return replies

    async def run(self, steps: Steps[T]) -> T:
        """Asks what the steps want, and returns what they found."""
        try:
            requests = next(steps)
            while True:
                requests = steps.send(await self.ask_all(requests))
        except StopIteration as end:
            found: T = end.value
            return found

    async def _read(self) -> None:
        """Hands out what comes, until the session ends."""
        try:
            while True:
                data = await self._reader.read(CHUNK)
                if not data:
                    raise Lost("the server has ended the session")
                self._heard = self._loop.time()
                self._lines.feed(data)
                await self._hand_out()
        except asyncio.CancelledError:
            raise
        except Exception as error:  # pylint: disable=broad-except
            # What `take` raises is told to who asked.
            self._end(error if not isinstance(error, OSError) or isinstance(error, Lost) else Lost(f"the connection ended: {error}"))

    async def _hand_out(self) -> None:
        count, pushes = 0, len(self._lines.pushes)
        while self._due and self._due[0].consume(self._lines):
            due = self._due[0]
            due.left -= 1
            self._asked = self._loop.time()
            if not due.left:
                self._due.popleft()
                if not due.ended.done():
                    due.ended.set_result(None)
            count += 1
            if count % YIELD == 0:
                await asyncio.sleep(0)
        if not self._due:
            line = self._lines.reply()
            if line is not None:
                raise Misbehaved(f"{line[:60]!r}, which answers no request")
        if len(self._lines.pushes) > pushes:
            self._tell_news()

    def _tell_news(self) -> None:
        self._news.set()
        self._news = asyncio.Event()

    def _end(self, error: Exception) -> None:
        """Ends the connection: who waits for a reply gets the error."""
        if self._why is not None:
            return
        self._why = str(error)
        self._writer.transport.abort()
        for due in self._due:
            if not due.ended.done():
                due.ended.set_exception(error)
        self._due.clear()
        self._tell_news()

    async def _watch_time(self) -> None:
        """Ends the connection of a server that owes a reply and is silent, or never ends it."""
        silence, slowest = self.limits.silence, self.limits.slowest
        while self._why is None:
            await asyncio.sleep(min(silence, slowest) / 15)
            now = self._loop.time()
            if self._due and now - max(self._asked, self._heard) >= silence:
                self._end(Lost(f"no reply for {silence:g} s"))
            elif self._due and now - self._asked >= slowest:
                self._end(Lost(f"no whole reply for {slowest:g} s"))

    async def next_push(self, seconds: float) -> Optional[List[Any]]:
        """The oldest line that a hub has sent without a request, or None if there is none within so many seconds."""
        until = self._loop.time() + seconds
        while not self._lines.pushes:
            if not await self._has_news(self._news, until - self._loop.time()):
                return None
        push: List[Any] = self._lines.pushes.popleft()
        return push

    async def _has_news(self, news: asyncio.Event, seconds: float) -> bool:
        """Waits for a push at most so many seconds, and returns whether one came."""
        self._check()
        try:
            await asyncio.wait_for(news.wait(), max(0.0, seconds))
        except asyncio.TimeoutError:
            return False
        self._check()
        return True

    # Changes. Each returns the id of the new operation.

    async def open(self, document: str) -> int:
        """Opens a document in this session, and returns the number of the seat."""
        return int((await self.ask("open", document))[0])

    async def assign(self, document: str, cursor: Cursor, value: Any) -> Id:
        return id_in(await self.ask("assign", document, cursor, value))

    async def insert(self, document: str, cursor: Cursor, value: Any) -> Id:
        """Inserts after the element at the cursor: index 0 stands for the place before the first."""
        return id_in(await self.ask("insert", document, cursor, value))

    async def delete(self, document: str, cursor: Cursor) -> Id:
        return id_in(await self.ask("delete", document, cursor))

    async def add(self, document: str, cursor: Cursor, number: int) -> Id:
        """Adds an integer of 64 bits to the counter at the cursor."""
        return id_in(await self.ask("add", document, cursor, number))

    async def let(self, document: str, name: str, cursor: Cursor) -> None:
        """Binds a name to a place: see jcrdt.Session.let."""
        await self.ask("let", document, name, cursor)

    async def bind(self, document: str, name: str, cursor: Cursor, element: Id) -> bool:
        """Binds a name to the element of this id in the list at the cursor: see jcrdt.Session.bind."""
        return await self.run(nested.bind(document, name, cursor, element))

    async def append(self, document: str, cursor: Cursor, value: Any) -> Id:
        """Inserts a value, nested or not, behind the last element of the list at the cursor. Returns its id."""
        return (await self.extend(document, cursor, [value]))[0]

    async def extend(self, document: str, cursor: Cursor, values: Sequence[Any]) -> List[Id]:
        """Inserts values behind the last element of the list at the cursor. Returns their ids. Another nested write of
        this session waits meanwhile."""
        async with self._writing:
            return await self.run(nested.extend(document, cursor, values))

    async def put(self, document: str, cursor: Cursor, value: Any, only: Optional[Literal["changed"]] = None) -> None:
        """Assigns a nested value, one request for each part, or what differs alone: see jcrdt.Session.put. Another nested
        write of this session waits meanwhile. A task that is cancelled leaves the first part of it there."""
        async with self._writing:
            await self.run(nested.put(document, cursor, value) if only is None else
                            mending.put_changed(document, cursor, value))

    # Readings.

    async def keys(self, document: str, cursor: Cursor) -> List[str]:
        return list((await self.ask("keys", document, cursor))[0])

    async def values(self, document: str, cursor: Cursor) -> List[Any]:
        """The scalars at the cursor, in the order of their ids: more than one is a conflict."""
        return list((await self.ask("values", document, cursor))[0])

    async def items(self, document: str, cursor: Cursor) -> List[Any]:
        """The elements of a list, `[id, scalars]` each."""
        return list((await self.ask("items", document, cursor))[0])

    async def conflicts(self, document: str, cursor: Cursor) -> List[Any]:
        return list((await self.ask("conflicts", document, cursor))[0])

    async def sum(self, document: str, cursor: Cursor) -> int:
        return int((await self.ask("sum", document, cursor))[0])

    async def show(self, document: str, cursor: Cursor) -> List[Any]:
        """The branches at the cursor, with the ids of values."""
        return list((await self.ask("show", document, cursor))[0])

    async def plain(self, document: str, cursor: Cursor) -> Any:
        """The value at the cursor as plain JSON, with Counter and Conflict: see jcrdt.Session.plain."""
        return wire.plain(await self.show(document, cursor))

    async def export(self, document: str, cursor: Cursor = (0,)) -> Any:
        """The value at the cursor as JSON that keeps counters and conflicts by tags: see jcrdt.Session.export."""
        return tagged(await self.plain(document, cursor))

    async def load_json(self, document: str, cursor: Cursor, data: Any) -> int:
        """Makes what is at the cursor into a value that `export` gave: see jcrdt.Session.load_json."""
        async with self._writing:
            return await self.run(loading.load_json(document, cursor, data))

    # What servers deliver to each other.

    async def deliver(self, document: str, operation: Operation) -> int:
        """Returns how many operations were logged: 0 where it is known already, or held."""
        return logged_in(await self.ask("deliver", document, operation))

    async def front(self, document: str) -> Front:
        """The last logged counter of each replica."""
        return front_in(await self.ask("front", document))

    async def operations(self, document: str, front: Optional[Front] = None) -> AsyncIterator[Operation]:
        """Yields in log order the operations that the front doesn't cover, asking for 64 at a time."""
        known = dict(front or {})
        while True:
            page = page_in(await self.ask("ops", document, wire.pairs_of(known), wire.PAGE), known)
            for operation in page:
                yield operation
            if len(page) < wire.PAGE:
                return

    async def chains(self, document: str, after: Front, front: Front) -> List[Chain]:
        """Digests of what the server has of some replicas, as `Session.chains`."""
        return chains_in(await self.ask("chains", document, wire.pairs_of(after), wire.pairs_of(front)))

    async def held(self, document: str) -> List[Any]:
        """The operations that wait for others: `[id, [missing id, ..]]` each."""
        return list((await self.ask("held", document))[0])

    async def forget(self, document: str, operation_id: Id) -> None:
        await self.ask("forget", document, operation_id)

    async def watch(self, document: str, seconds: float = 0.5, timeout: Optional[float] = None) -> AsyncIterator[Front]:
        """Yields the front at once, and again each time that it has changed, until the loop over it is left; with a timeout
        until it hasn't changed for so many seconds. A hub says when that is; a server is asked every so many seconds.
        Pushes stay for `next_push`."""
        pushed = await self._is_pushed(document)
        last: Optional[Front] = None
        until = float("inf")
        while True:
            news = self._news
            front = await self.front(document)
            left = until - self._loop.time()
            if front != last:
                yield front
                last = front
                until = self._loop.time() + timeout if timeout is not None else until
            elif left <= 0:
                return
            elif pushed:
                await self._has_news(news, min(SIGN_SECONDS, left))
            else:
                await self._rest(min(seconds, left))

    async def _rest(self, seconds: float) -> None:
        """Waits, and asks for a sign of life now and then: see jcrdt.Session."""
        until = self._loop.time() + seconds
        while (left := until - self._loop.time()) > SIGN_SECONDS:
            await asyncio.sleep(SIGN_SECONDS)
            await self.version()
        await asyncio.sleep(max(0.0, left))

    async def _is_pushed(self, document: str) -> bool:
        """Whether a hub says when the document changes."""
        try:
            await self.ask("watch", document)
            return True
        except Refused as cause:
            if cause.number != NUMBERS["bad-request"]:
                raise
            return False

    async def unsaved(self, document: str, ids: Iterable[Id]) -> List[Id]:
        """Those of the ids that the server doesn't have: see jcrdt.Session.unsaved."""
        return await self.run(generations.unsaved(document, ids))

    async def stored(self, document: str, operation_id: Id) -> None:
        """Waits until the operation is in the server's file: see jcrdt.Session.stored."""
        await self.ask("stored", document, operation_id)

    async def size(self, document: str) -> Size:
        """How much the document has: see jcrdt.Session.size."""
        return Size(*await self.ask("size", document))

    async def copied(self, document: str, operation_id: Id) -> bool:
        """Whether the server's file has the operation: see jcrdt.Session.copied."""
        return bool((await self.ask("copied", document, operation_id))[0])

    # Which documents there are, at a hub that runs their servers.

    async def create(self, document: str) -> None:
        """Makes a document: see jcrdt.Session.create."""
        await self.ask("create", document)

    async def list(self) -> List[str]:
        """The names of all documents that this client may read, in byte order: see jcrdt.Session.list."""
        names: List[str] = []
        while True:
            [page] = await self.ask("list", names[-1] if names else "")
            names += page
            if len(page) < wire.LISTED:
                return names

    async def history(self, document: str) -> List[Generation]:
        """The generations of a document; the last of them takes changes: see jcrdt.Session.history."""
        return generations.generations_in(await self.ask("history", document))

    async def elements_since(self, document: str, generation: str) -> List[Tuple[Id, Id]]:
        """The elements of a generation of before, and what they are now: see jcrdt.Session.elements_since."""
        return await self.run(generations.elements_since(document, generation))

    async def account(self, document: str) -> int:
        return int((await self.ask("account", document))[0])

    async def version(self) -> int:
        return int((await self.ask("version"))[0])

    async def quit(self) -> None:
        """Ends the session. Its documents stay."""
        await self.ask("quit")


async def connection_to(address: str, seconds: float) -> Tuple[asyncio.StreamReader, asyncio.StreamWriter]:
    """Connects to HOST:PORT. Raises OSError where it can't be reached, ValueError where it is no address."""
    host, port = wire.host_and_port(address)
    try:
        reader, writer = await asyncio.wait_for(asyncio.open_connection(host, port, limit=CHUNK), seconds)
    except asyncio.TimeoutError:
        raise Lost(f"no connection for {seconds:g} s") from None
    writer.transport.get_extra_info("socket").setsockopt(socket.IPPROTO_TCP, socket.TCP_NODELAY, 1)
    return reader, writer


async def _session_at(address: str, limits: Limits) -> Session:
    wire.host_and_port(address)
    session = None
    try:
        session = Session(*await connection_to(address, limits.begin), limits)
        [line] = await asyncio.wait_for(session.ask_lines([b'["version"]']), limits.begin)
        checked_beginning(line)
        session.address = address
        return session
    except BaseException as error:
        if session:
            await session.close()
        if isinstance(error, asyncio.TimeoutError):
            raise Away(f"{address}: no session begins within {limits.begin:g} s: the server's sessions may be used up") from None
        if isinstance(error, OSError):
            raise Away(f"{address}: {error}") from error
        raise


class Connecting:
    """What `connected` returns: await it, or use it in `async with`."""

    def __init__(self, address: str, limits: Limits) -> None:
        self._address, self._limits = address, limits
        self._session: Optional[Session] = None

    def __await__(self) -> Generator[Any, None, Session]:
        return _session_at(self._address, self._limits).__await__()

    async def __aenter__(self) -> Session:
        self._session = await self
        return self._session

    async def __aexit__(self, *_: Any) -> None:
        if self._session:
            await self._session.close()


def connected(address: str, seconds: float = USUAL.silence, begin: float = USUAL.begin, limit: int = USUAL.reply_bytes) -> Connecting:
    """Connects to a server or a hub's lines at HOST:PORT: `async with connected(address) as server`, or
    `server = await connected(address)` and later `await server.close()`.

    Its limits and errors are those of jcrdt.connected: a reply may take so many seconds and have at most `limit` bytes.
    Raises Away if no session begins within `begin` seconds, Refused (103) if a hub doesn't admit this client, and
    ValueError for what is no HOST:PORT."""
    return Connecting(address, USUAL._replace(begin=begin, silence=seconds, reply_bytes=limit))
