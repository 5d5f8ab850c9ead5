"""The part of a relay that stands on Redis: the operations of each document in a Redis Stream.

An entry of the stream jcrdt:DOC has a field `ops`, an array of operations as JSON text, and `by`, which connection
of a relay added it. Or it has `op`, the text of one operation, as relays before 1.2.0 added them. A relay that adds
some adds before them what they depend on. An operation may be there more than once. Each connection reads the
stream from its beginning. What isn't an operation is named and skipped. The stream is never cut by a relay; what
was cut or emptied by others is noticed and added again.

It needs redis-py 4.3 or later: `pip install './clients/python[redis]'` in the clone, or python3-redis of Debian.
"""

import asyncio
import contextlib
import importlib
import random
import secrets
import time
import urllib.parse
from typing import TYPE_CHECKING, Any, Dict, List, Optional, Set, Tuple

from .link import LIMITS
from .operation_log import OPERATION_BYTES, Early, Log, Source, operation_in
from .wire import Misbehaved, OPERATION_LIMIT, Operation, Refused, checked_operation, decoded, encoded, host_and_port
from . import relay as relays

if TYPE_CHECKING:
    from .relay import Relay

# What an entry's text has beside its operations, at most: brackets and commas.
BATCH_ROOM = 1002
# How many entries are read at once.
PAGE = 32
# How many operations an entry has at most, and how many bytes, unless it has one: so none of many is too long for a line.
BATCH, BATCH_BYTES = 1000, OPERATION_BYTES - BATCH_ROOM
# How many milliseconds a reading waits for more, and about how often a cut is looked for, in seconds.
WAIT, LOOK_EVERY = 500, 5.0
# How many bad entries are named.
NAMED = 10


class Address:
    """Where a Redis is: a URL, or HOST:PORT. Raises ValueError for what is none, and ImportError without the
    package redis."""

    def __init__(self, text: str) -> None:
        self.url = text
        if "://" not in text:
            host_and_port(text)
            self.url = f"redis://{text}"
        try:
            self._module: Any = importlib.import_module("redis.asyncio")
        except ImportError:
            raise ImportError("--redis needs the package redis: pip install redis, or python3-redis of Debian") from None
        # It is made now, so that a wrong URL is told at once.
        self.client()
        parts = urllib.parse.urlsplit(self.url)
        place = f"{parts.hostname or ''}:{parts.port}" if parts.port else parts.hostname or ""
        self.name = f"redis {place}{parts.path.rstrip('/')}"
        errors = importlib.import_module("redis.exceptions")
        self.error: Any = errors.RedisError
        # What a Redis answers that is there and does what it is asked, but for this.
        # A wrong password is a refusal of Redis, though later versions of the library call it an error of the connection.
        self.response_errors: Any = (errors.ResponseError, errors.AuthenticationError)

    def client(self) -> Any:
        """A client, which connects with its first request."""
        return self._module.from_url(self.url, socket_timeout=LIMITS.silence, socket_connect_timeout=LIMITS.begin)


def said_by(error: Exception) -> str:
    """What Redis refuses, without the text of the command, which may have what is in a document. A version of the library loses what
    Redis says to one of several commands: then it is the error's class."""
    text = str(error).split(" caused error: ")[-1].strip('(",)')
    return type(error).__name__ if text == "{exception.args}" else text


class StreamSource(Source):
    """A stream has what several servers made, also of a union beyond a document's limit."""

    def add(self, replica: str) -> None:
        self.count += 1
        if self.count > 4 * OPERATION_LIMIT:
            raise Misbehaved(f"more than {4 * OPERATION_LIMIT} operations")


class Stream(relays.Place):
    """How far the stream of one document is."""

    def __init__(self, member: "Streams", log: Log, client: Any) -> None:
        super().__init__(member.address, None, log, {}, StreamSource(), member.troubles)
        self.member, self.client, self.key = member, client, f"jcrdt:{log.name}"
        self._next = self._pause()
        self._pulling, self._pushing = asyncio.Lock(), asyncio.Lock()
        self._begin()

    def _begin(self) -> None:
        """Nothing of the stream was read yet. `there` has the places in the log of what is in it."""
        self._last, self._first, self._count = b"0-0", b"", 0
        self._there: Set[int] = set()
        # What is added from now on needn't be read.
        self._by = secrets.token_hex(8).encode()
        self._early = Early(self.log, self.source)
        self._ready, self._from = False, 0

    @staticmethod
    def _pause() -> float:
        """When to look for a cut. Relays look at different times, so that one adds what all would add."""
        return time.monotonic() + LOOK_EVERY * random.uniform(0.5, 1.5)

    def agrees(self) -> bool:
        return self._ready and len(self._there) == len(self.log.operations)

    def lacks(self) -> int:
        return len(self.log.operations) - len(self._there)

    async def round(self) -> int:
        await self.pull()
        return await self.push()

    async def pull(self, wait: Optional[int] = None) -> None:
        """Reads to the end of the stream; with a wait also what comes within so many milliseconds."""
        async with self._pulling:
            while True:
                found = await self.client.xread({self.key: self._last}, count=PAGE, block=wait)
                entries = found[0][1] if found else []
                self._take(entries)
                if len(entries) < PAGE:
                    break
                wait = None
            if time.monotonic() >= self._next:
                await self._look_for_a_cut()
                self._next = self._pause()
            self._ready = True

    def _take(self, entries: List[Tuple[bytes, Dict[bytes, bytes]]]) -> None:
        for entry_id, fields in entries:
            self._count += 1
            self._first = self._first or entry_id
            self._last = entry_id
            if fields.get(b"by") == self._by:
                continue
            try:
                self._there.update(self._early.take(self._operations(entry_id, fields)))
            except Misbehaved as error:
                self.member.skipped(self.key, entry_id, str(error))
        with contextlib.suppress(Misbehaved):
            self._there.update(self._early.again())

    def _operations(self, entry_id: bytes, fields: Dict[bytes, bytes]) -> List[Operation]:
        """The operations of an entry. What is none is named, and the others are taken."""
        found: List[Operation] = []

        def skip(error: Exception) -> None:
            self.member.skipped(self.key, entry_id, "it has no field `ops`" if isinstance(error, KeyError) else str(error))

        try:
            if b"op" in fields:
                return [operation_in(fields[b"op"])]
            text = fields[b"ops"]
            batch = decoded(text)
            if not isinstance(batch, list):
                raise ValueError("it is no array of operations")
        except (KeyError, ValueError, Refused) as error:
            skip(error)
            return found
        for it in batch:
            try:
                operation = checked_operation(it)
                if len(text) > OPERATION_BYTES and len(encoded(operation)) > OPERATION_BYTES:
                    raise ValueError("it is longer than a line")
                found.append(operation)
            except (ValueError, Refused) as error:
                skip(error)
        return found

    async def _look_for_a_cut(self) -> None:
        """Compares how many entries the stream has with how many were read. One look sees one moment."""
        async with self.client.pipeline(transaction=True) as asking:
            asking.xread({self.key: self._last}, count=PAGE)
            asking.xlen(self.key)
            asking.xrange(self.key, count=1)
            found, length, first = await asking.execute()
        entries = found[0][1] if found else []
        self._take(entries)
        self._tell_waiting()
        if len(entries) == PAGE or length == self._count and (first[0][0] if first else b"") == self._first:
            return
        self._begin()
        while True:
            found = await self.client.xread({self.key: self._last}, count=PAGE)
            if not found:
                break
            self._take(found[0][1])
        self.troubles.begin(f"{self.key}: cut", "", f"{self.server}: {self.key}: entries are gone; {self.lacks()} operations are added again")
        self._ready = True
        self.news.set()

    def _tell_waiting(self) -> None:
        if self._early.count:
            self.troubles.begin(f"{self.key}: waiting", "", f"{self.server}: {self.key}: {self._early.count} operations wait for others "
                                "that it lacks")
        else:
            self.troubles.end(f"{self.key}: waiting", f"{self.server}: {self.key}: no operation waits for others")
        if self.agrees():
            # The next cut is another one.
            self.troubles.end(f"{self.key}: cut")

    async def push(self) -> int:
        """Adds what the stream lacks, many operations with an entry. Returns how many that were."""
        added = 0
        async with self._pushing:
            while self._ready and self._from < len(self.log.operations):
                batch = self._next_batch()
                there = self._there
                if batch:
                    texts = (self.log.operations[at].text for at in batch)
                    await self.client.xadd(self.key, {"by": self._by, "ops": b"[" + b",".join(texts) + b"]"})
                there.update(batch)
                added += len(batch)
        return added

    def _next_batch(self) -> List[int]:
        batch: List[int] = []
        size, operations = 0, self.log.operations
        while self._from < len(operations) and len(batch) < BATCH:
            if self._from not in self._there:
                size += len(operations[self._from].text)
                if batch and size > BATCH_BYTES:
                    break
                batch.append(self._from)
            self._from += 1
        return batch


class Streams(relays.Member):
    """The streams of all documents, as one more that is kept in agreement."""

    def __init__(self, relay: "Relay", address: Address) -> None:
        super().__init__(relay, address.name)
        self._address = address
        self._skipped: Set[Tuple[str, bytes]] = set()

    def skipped(self, key: str, entry_id: bytes, why: str) -> None:
        """Names an entry that is no operation, the first few."""
        if (key, entry_id) in self._skipped or len(self._skipped) > NAMED:
            return
        self._skipped.add((key, entry_id))
        self.relay.tell(f"{self.address}: {key}: entry {entry_id.decode(errors='replace')} is skipped: {why:.200}"
                        if len(self._skipped) <= NAMED else
                        f"{self.address}: {key}: more entries are skipped, which aren't named")

    async def session(self) -> None:
        client = self._address.client()
        try:
            await client.ping()
            self.places = [Stream(self, log, client) for log in self.relay.logs]
            self.is_connected()
            # What the streams have is known before anything is added.
            await relays.all_of(*(place.pull() for place in self.places))
            await relays.all_of(*(self._read(place) for place in self.places), *(self._add(place) for place in self.places))
        except self._address.response_errors as error:
            raise relays.Unable(said_by(error)) from None
        except self._address.error as error:
            raise ConnectionError(str(error)) from None
        finally:
            with contextlib.suppress(OSError, asyncio.TimeoutError, self._address.error):
                # Later versions call it `aclose`.
                await asyncio.wait_for(getattr(client, "aclose", client.close)(), 1)

    async def _read(self, place: Any) -> None:
        while True:
            await place.pull(WAIT)
            self.is_connected()

    async def _add(self, place: Any) -> None:
        while True:
            place.news.clear()
            await place.push()
            if not place.news.is_set():
                await place.news.wait()
