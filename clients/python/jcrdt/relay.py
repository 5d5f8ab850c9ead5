"""Keeps servers in agreement for as long as it runs: what one accepts is delivered to all others.

A relay is one lasting session of each server, and asks each for news every so many seconds. It keeps
nothing in files: started again, it reads the documents anew. A server that is away is tried again. One
that sends what no server sends is named, left out, and tried again after a while, up to a minute
later; the others go on meanwhile. Whatever is wrong has a line when it begins, each hour while it lasts,
and when it has ended. A relay holds what the documents have in memory: at most 100,000
operations from each server and 1 GiB for each document.
"""

import argparse
import asyncio
import contextlib
import os
import signal
import time
from typing import Any, Awaitable, Callable, Dict, Iterable, List, Optional, Sequence, Set, Tuple

from .chains import (AskSoon, Compared, Difference, LogsDiffer, Piece, can_ask, first_difference_soon, has_all, is_beginning,
                     of_aio_session)
from .limits import SIGN_SECONDS
from .link import Link, link_to
from .notes import Notes
from .pages import serve_pages
from .operation_log import Known, Listener, Log, Source
from .protocol import NAME_USED_TWICE, NUMBERS
from .pull import pull
from .relay_health import pages
from .replies import page_in
from .troubles import Troubles
from .wire import (PAGE, Away, Chain, Front, Lost, Misbehaved, Operation, Refused, covers, decoded, decoded_reply, encoded,
                   host_and_port, is_integer, pairs_of, refusal)

# How much is delivered before the replies are awaited, in bytes.
CHUNK = 1 << 20
# The pauses before a connection is tried again, in seconds: the first, the longest for a server that is away,
# and the longest for one that misbehaves.
SHORTEST, LONGEST, LEFT_OUT = 0.2, 5.0, 60.0
# How long the relay tries to bring about agreement at its end, and then to compare what is shown, in seconds.
LAST_ROUNDS, LAST_LOOK = 4.0, 4.0
# How often servers that agree are asked for what they show, in seconds. It is more where a look takes long.
LOOK_EVERY, LOOK_SHARE = 60.0, 50
# How often a server is asked whether it lost operations, in seconds.
FRONT_EVERY = 2.0
# How long who ends waits for its lines to be read, in seconds.
LAST_LINES = 1.0
# How the reply begins to a delivery that was logged alone.
APPLIED = b'["applied",1,0,'
# Refusals that may be none the next time.
PASSING = frozenset(NUMBERS[name] for name in ("held-full", "no-memory"))
ADVICE = {
    NUMBERS["no-such-document"]: "start the server with this document on its command line",
    NUMBERS["forked"]: "a name was used by two starts: keep one side (GUIDE, \"When two starts had one name\")",
    NUMBERS["id-conflict"]: "a name was used by two starts: keep one side (GUIDE, \"When two starts had one name\")",
    NUMBERS["own-name"]: "two servers have one name, or one lacks its file or has an older one: give it a new name",
    NUMBERS["held-full"]: "operations wait there for others: `held` names them; the relay delivers again",
    NUMBERS["log-full"]: "the document is full: renew it (python3 -m jcrdt renew)",
    NUMBERS["too-many-replicas"]: "the document has had 256 starts of servers: renew it (python3 -m jcrdt renew)",
    NUMBERS["no-memory"]: "the server lacks memory; the relay delivers again",
    NUMBERS["not-allowed"]: "the hub doesn't let the relay write",
}
BROKEN = "its maker broke the rules: find out which program made it"

Tell = Callable[[str], None]


def advice(cause: Refused) -> str:
    """What to do about a refusal."""
    return f"{cause}: {ADVICE.get(cause.number, BROKEN)}"


def reason(error: BaseException) -> str:
    """What an error says, without its address or class."""
    if isinstance(error, OSError) and error.errno and not isinstance(error, (Lost, Away)):
        return os.strerror(error.errno)
    return str(error)


class Unable(Exception):
    """A member that is there and can't do what is asked, as a Redis without memory."""


class Place(Listener):
    """How far one server is at one document."""

    def __init__(self, server: str, link: Optional[Link], log: Log, has: Front, source: Source, troubles: Troubles) -> None:
        super().__init__(log, has, source)
        self.server, self._link, self.troubles = server, link, troubles
        # What was refused, by number: how many, and the first. And whether something is to be delivered again.
        self.refused: Dict[int, Tuple[int, Tuple[int, str], Refused]] = {}
        self.again = False
        # How many of the log's operations were looked at, and with how many contested replicas.
        self._at = self._contested = 0
        # The ids of what this server refused or can't take without it, and which contested ones it has judged.
        self._stopped: Set[Tuple[int, str]] = set()
        self._judged: Set[int] = set()
        self._released, self._next_front = False, time.monotonic() + FRONT_EVERY
        self._busy = asyncio.Lock()
        # Up to where it has what the log has, and where it has something else: then it is left out.
        self._compared = Compared()
        self._can_ask: Optional[bool] = None if link else False
        self.difference: Optional[LogsDiffer] = None

    @property
    def link(self) -> Link:
        """The session of the server."""
        assert self._link is not None
        return self._link

    @property
    def has_session(self) -> bool:
        """Whether it is a server, which can show its document."""
        return self._link is not None

    def agrees(self) -> bool:
        """Whether it has all of the log, as far as fronts say."""
        return self.has == self.log.front and not self.refused and not self.again and self.difference is None

    def lacks(self) -> int:
        """How many operations of the log it doesn't have."""
        return sum(not covers(self.has, it[:2]) for it in self.log.operations)

    async def round(self) -> int:
        """Takes what is new and delivers what is lacking. Returns how many operations were logged there."""
        async with self._busy:
            if time.monotonic() >= self._next_front:
                await self._look_for_a_loss()
            await self.pull()
            return await self.push()

    async def compare(self, front: Front) -> None:
        """Raises LogsDiffer where the server, which has all of a front, has other operations of it than the log has of another server.
        What the log has of who can't be asked is contested: each server judges it. Raises Lost where a hub's server was killed since
        it had all of that."""
        link, log = of_aio_session(self.link, self.log.name), self.log
        if self._can_ask is None:
            self._can_ask = await can_ask(link)
        while self._can_ask:
            here = {replica: counter for replica, counter in log.front.items() if replica not in log.contested}
            found = await first_difference_soon(_of_log(log), link, here, front, self._compared)
            if found is None:
                break
            await self._check_loss(front, found)
            self._judge(*found)
        for replica, counter in self._compared.same.items():
            self._note_same(replica, counter)

    async def _check_loss(self, before: Front, found: Difference) -> None:
        """Raises Lost where the server has less than it had before, or has the same as the log by now where digests differed: what
        it lacked when it was asked for digests is no difference."""
        now = await self.link.front(self.log.name)
        if not has_all(now, before) or not await self._has_another(now, found):
            raise Lost(f"{self.log.name}: the server has lost what it had a moment ago")

    async def _has_another(self, now: Front, found: Difference) -> bool:
        """Whether the server, which has this front, has another operation than the log where their digests differed."""
        if is_beginning(found):
            return True
        front = {**now, found.replica: found.counter - 1}
        page = page_in(await self.link.ask("ops", self.log.name, pairs_of(front), PAGE), front)
        there = next((it for it in page if it[1][1] == found.replica), None)
        return there is not None and encoded(there) not in self.log.at

    def _judge(self, replica: str, counter: int) -> None:
        """Raises LogsDiffer where another server has what the log has, and this one hasn't."""
        if counter <= self.log.sure.get(replica, 0):
            raise LogsDiffer(replica, counter)
        self.log.contest(replica)

    def _note_same(self, replica: str, counter: int) -> None:
        """Notes that the server has what the log has of a replica, up to a counter."""
        self._compared.note(replica, counter)
        if self._can_ask and replica not in self.log.contested:
            self.log.sure[replica] = max(counter, self.log.sure.get(replica, 0))

    async def check(self, operations: Sequence[Operation]) -> None:
        """Compares all that the server must have, as it has these operations, before they are added to the log."""
        if not operations:
            return
        front = dict(self.has)
        # The last one of a replica knows what those before it know.
        for _, (counter, replica), known, *_ in {it[1][1]: it for it in operations}.values():
            for name, last in [*known, (replica, counter)]:
                front[name] = max(last, front.get(name, 0))
        await self.compare(front)
        for operation in operations if self._can_ask else ():
            if self.log.conflicts(operation):
                self._judge(operation[1][1], operation[1][0])

    async def begin_anew(self) -> None:
        """Looks again at all that the server has."""
        self._forget(await self.link.front(self.log.name))

    def _forget(self, front: Front) -> None:
        self.has, self._at = front, 0
        self._compared = Compared()
        self.own.clear()
        self._judged.clear()

    def handed_out(self, places: Iterable[int], front: Front) -> None:
        super().handed_out(places, front)
        for counter, replica, _ in map(self.log.operations.__getitem__, places):
            self._note_same(replica, counter)

    async def pull(self) -> None:
        """Adds to the log what the server has beyond it."""
        await pull(self.link, self)

    async def _look_for_a_loss(self) -> None:
        """Begins anew with a server that lost operations: behind a hub it was killed and started again."""
        self._next_front = time.monotonic() + FRONT_EVERY
        front = await self.link.front(self.log.name)
        if any(counter > front.get(replica, 0) for replica, counter in self.has.items()):
            self._forget(front)

    async def push(self) -> int:
        """Delivers what the server lacks. Returns how many operations it logged."""
        await self.compare(self.has)
        logged = 0
        while True:
            chunk = self._next_chunk()
            if chunk:
                logged += await self._deliver(chunk)
            elif self._released or self._contested < len(self.log.contested):
                self._released, self._contested, self._at = False, len(self.log.contested), 0
            else:
                return logged

    def _next_chunk(self) -> List[int]:
        """The places in the log of the next operations that the server lacks and may take."""
        chunk, size, operations = [], 0, self.log.operations
        while self._at < len(operations) and size < CHUNK:
            if self._is_due(self._at, operations[self._at]):
                chunk.append(self._at)
                size += len(operations[self._at].text)
            self._at += 1
        return chunk

    def _is_due(self, at: int, operation: Known) -> bool:
        """Whether to deliver it. A contested one is judged by the server itself, once."""
        if operation.replica in self.log.contested:
            return at not in self._judged and not self._depends_on_stopped(operation)
        return not covers(self.has, operation[:2]) and not self._is_stopped(operation)

    def _is_stopped(self, operation: Known) -> bool:
        return operation[:2] in self._stopped or self._depends_on_stopped(operation)

    def _depends_on_stopped(self, operation: Known) -> bool:
        """Whether it depends on one that was refused: it would be held for ever."""
        if not self._stopped:
            return False
        front = decoded(operation.text)[2]
        if not any((counter, name) in self._stopped for name, counter in front):
            return False
        self._stopped.add((operation.counter, operation.replica))
        return True

    async def _deliver(self, chunk: List[int]) -> int:
        begin = b'["deliver",%s,' % encoded(self.log.name)
        operations = [self.log.operations[at] for at in chunk]
        replies = await self.link.ask_lines([begin + it.text + b"]" for it in operations])
        logged = 0
        waiting: List[Tuple[Known, Optional[Refused]]] = []
        for at, operation, line in zip(chunk, operations, replies):
            # Most replies are of one kind, and needn't be parsed.
            reply: List[Any] = ["applied", 1] if line.startswith(APPLIED) else _delivery_reply(line)
            if reply[0] == "applied":
                logged += reply[1]
            if self._heard(at, operation, reply):
                waiting.append((operation, None if reply[0] == "held" else Refused(reply[1])))
        await self._look_at_waiting(waiting)
        return logged

    def _heard(self, at: int, operation: Known, reply: List[Any]) -> bool:
        """Notes the reply to a delivery. Returns whether the operation is to be delivered again."""
        operation_id = (operation.counter, operation.replica)
        if reply[0] in ("applied", "known"):
            self._judged.add(at)
            self.has[operation.replica] = max(operation.counter, self.has.get(operation.replica, 0))
            self._note_same(operation.replica, operation.counter)
            if operation_id in self._stopped:
                self._stopped.discard(operation_id)
                self._released = True
            return False
        if reply[0] == "held":
            return True
        cause = refusal(reply, "deliver")
        if not isinstance(cause, Refused):
            # A hub lost its server, or has none at the moment.
            self.again = True
            return False
        if cause.number in PASSING:
            return True
        self._judged.add(at)
        if cause.number in NAME_USED_TWICE and self._can_ask and operation.replica not in self.log.contested:
            # It had others before it was compared, or it is over an older file and has none yet.
            self._judge(operation.replica, operation.counter)
        self._tell_refusal(operation_id, cause)
        count, first, found = self.refused.get(cause.number, (0, operation_id, cause))
        self.refused[cause.number] = (count + 1, first, found)
        if cause.number in NAME_USED_TWICE:
            self.log.contest(operation.replica)
        if not covers(self.has, operation_id):
            self._stopped.add(operation_id)
        return False

    def _tell_refusal(self, operation_id: Tuple[int, str], cause: Refused) -> None:
        counter, replica = operation_id
        self.troubles.begin(f"{self.log.name}: refused", str(cause.number),
                            f"{self.server}: {self.log.name}: refused {counter} of {replica}: {advice(cause)}")

    def tell_if_agreed(self) -> None:
        """Says that nothing is refused any more, where something was."""
        if self.agrees():
            self.troubles.end(f"{self.log.name}: refused", f"{self.server}: {self.log.name}: it has all, and refuses nothing")

    async def _look_at_waiting(self, waiting: Sequence[Tuple[Known, Optional[Refused]]]) -> None:
        """Lets the server forget what waits for a refused operation, since it would wait for ever. All else that
        was held or put off is delivered again."""
        again = [it for it in waiting if not self._is_stopped(it[0])]
        forgotten = [encoded(["forget", self.log.name, [it.counter, it.replica]]) for it, cause in waiting
                     if not cause and self._is_stopped(it)]
        self.again = self.again or bool(again)
        for operation, cause in again:
            # What is forgotten makes room for what was put off.
            if cause and not forgotten:
                self._tell_refusal(operation[:2], cause)
        await self.link.ask_lines(forgotten)

    async def look_again(self) -> None:
        """Begins anew with what the server has, since something was held or put off."""
        self.again = False
        self.has.update(await self.link.front(self.log.name))
        self._at = 0


def _of_log(log: Log) -> AskSoon:
    """A relay's log, as a side that is compared."""
    async def ask(pieces: List[Piece]) -> List[List[Chain]]:
        return [log.chains(*piece) for piece in pieces]

    return ask


def _delivery_reply(line: bytes) -> List[Any]:
    """A reply to `deliver`. Raises Misbehaved for what is none."""
    try:
        reply = decoded_reply(line)
    except ValueError as error:
        raise Misbehaved(f"a reply that is none: {error}") from None
    word, rest = reply[0], reply[1:]
    right = (word == "no" or word == "known" and not rest or word == "held" and len(rest) == 1
             or word == "applied" and len(rest) == 3 and is_integer(rest[0]) and rest[0] > 0)
    if not right:
        raise Misbehaved("a reply to `deliver` that is none")
    return reply


async def all_of(*coroutines: Awaitable[Any]) -> List[Any]:
    """Runs all until they end, or one of them fails."""
    tasks = [asyncio.ensure_future(it) for it in coroutines]
    try:
        return list(await asyncio.gather(*tasks))
    finally:
        for task in tasks:
            task.cancel()
        await asyncio.gather(*tasks, return_exceptions=True)


async def settle(places: Sequence[Place]) -> int:
    """Pulls from all and delivers to all until a round logs nothing. Returns how many were logged."""
    total = 0
    while True:
        await all_of(*(place.pull() for place in places))
        logged = sum(await all_of(*(place.push() for place in places)))
        total += logged
        if not logged:
            return total


async def shown(place: Place) -> Optional[Tuple[bytes, bytes]]:
    """The front of a server and a digest of what its document shows. None if it changed meanwhile."""
    front = encoded(pairs_of(await place.link.front(place.log.name)))
    digest = await place.link.shown(place.log.name)
    return (front, digest) if front == encoded(pairs_of(await place.link.front(place.log.name))) else None


async def shown_alike(places: Sequence[Place]) -> Optional[bool]:
    """Whether servers of one front show the same. None if a document changed meanwhile. If they don't, a
    name was used by two starts, or one of them isn't what it says."""
    found = await all_of(*(shown(place) for place in places if place.has_session))
    known: Dict[bytes, bytes] = {}
    for front, digest in (it for it in found if it):
        if known.setdefault(front, digest) != digest:
            return False
    return True if all(found) and len(known) <= 1 else None


class Member:
    """One of those that are kept in agreement. It may go and come, and may be no server at all."""

    def __init__(self, relay: "Relay", address: str) -> None:
        self.relay, self.address = relay, address
        self.places: List[Place] = []
        self.sources = {log.name: Source() for log in relay.logs}
        self.troubles: Troubles = Troubles(relay.tell, relay.clock)
        # Whether there is a connection that works.
        self.is_on: bool = False
        self._strikes, self._since = 0, 0.0
        self._is_new = True

    def is_connected(self) -> None:
        """To be called at a connection that works, and after each round. One that misbehaved is to do well
        for a while before that is said."""
        self.is_on = True
        if self._strikes and self.relay.clock() - self._since < LEFT_OUT:
            return
        self._strikes = 0
        self.troubles.end("connection", f"{self.address}: connected")
        if self._is_new:
            self._is_new = False
            self.relay.tell(f"{self.address}: connected")

    async def session(self) -> None:
        """Connects, and exchanges until that fails."""
        raise NotImplementedError

    async def run(self) -> None:
        """Connects again and again. Whatever goes wrong is told, and never ends it."""
        pause = SHORTEST
        while True:
            start = self._since = self.relay.clock()
            try:
                await self.session()
            except Misbehaved as error:
                self._misbehaved(error)
                pause = min(LEFT_OUT, 2.0 ** min(self._strikes, 10) / 2)
            except (OSError, Refused) as error:
                self._is_away(reason(error))
                pause = SHORTEST if self.relay.clock() - start > LONGEST else min(2 * pause, LONGEST)
            except Exception as error:  # pylint: disable=broad-except
                self._misbehaved(error)
                longest = LONGEST if isinstance(error, Unable) else LEFT_OUT
                pause = min(longest, 2.0 ** min(self._strikes, 10) / 2)
            finally:
                for place in self.places:
                    place.close()
                    self.relay.count_refused(place)
                self.places, self.is_on = [], False
            await self.relay.sleep(pause)

    def _is_away(self, why: str) -> None:
        self._is_out(f"not connected: {why}; trying again")

    def _misbehaved(self, error: Exception) -> None:
        why = {Misbehaved: f"it sends {error}", Unable: str(error)}.get(type(error), f"{type(error).__name__}: {error}")
        self._is_out(f"left out: {why:.300}; trying again now and then")
        self._strikes += 1

    def _is_out(self, why: str) -> None:
        # The line of an outage says that it is connected, also the first time.
        self._is_new = False
        self.troubles.begin("connection", why, f"{self.address}: {why}")


class Server(Member):
    """One server."""

    async def session(self) -> None:
        link = await link_to(self.address)
        try:
            await self._open(link)
            self.is_connected()
            # Also where it has none of the documents: it is looked at again when it starts again.
            await all_of(_stays(link), *(self._keep(place) for place in self.places))
        finally:
            await link.close()

    async def _open(self, link: Link) -> None:
        for log in self.relay.logs:
            try:
                await link.ask("open", log.name)
            except Refused as cause:
                # It is left out until the server starts again: a connection is one of its sessions.
                self.troubles.begin(f"{log.name}: not opened", str(cause), f"{self.address}: {log.name}: {advice(cause)}")
                continue
            self.troubles.end(f"{log.name}: not opened", f"{self.address}: {log.name}: it is opened")
            has = await link.front(log.name)
            self.places.append(Place(self.address, link, log, has, self.sources[log.name], self.troubles))

    async def _keep(self, place: Place) -> None:
        pause = self.relay.every
        while True:
            place.news.clear()
            try:
                logged = await place.round()
            except LogsDiffer as error:
                await self._leave_out(place, error)
                continue
            self._take_in(place)
            self.is_connected()
            place.tell_if_agreed()
            if place.again:
                await asyncio.sleep(pause)
                pause = self.relay.every if logged else min(2 * pause, max(LONGEST, self.relay.every))
                await place.look_again()
            elif not place.news.is_set():
                with contextlib.suppress(asyncio.TimeoutError):
                    await asyncio.wait_for(place.news.wait(), self.relay.every)


    async def _leave_out(self, place: Place, error: LogsDiffer) -> None:
        """Says that the server has other operations than the log, and waits before it is looked at again."""
        place.difference, name = error, place.log.name
        self.is_connected()
        self.troubles.begin(f"{name}: differs", error.replica, f"{self.address}: {name}: left out: from {error.counter} on it has other "
                            f"operations of {error.replica} than the others: {ADVICE[NUMBERS['id-conflict']]}")
        await self.relay.sleep(LEFT_OUT)
        await place.begin_anew()

    def _take_in(self, place: Place) -> None:
        place.difference = None
        self.troubles.end(f"{place.log.name}: differs", f"{self.address}: {place.log.name}: it has the operations of the others again")


class Relay:
    """Servers, and perhaps streams, that are kept in agreement at some documents."""

    def __init__(self, addresses: Sequence[str], documents: Sequence[str], every: float, tell: Tell, say: Tell,
                 clock: Callable[[], float] = time.monotonic, sleep: Callable[[float], Awaitable[None]] = asyncio.sleep) -> None:
        """`tell` takes the lines for standard error, `say` those for standard output. `clock` and `sleep` are those by which
        members are tried again, in seconds."""
        self.logs = [Log(name) for name in documents]
        self.every, self.tell, self.say, self.clock, self.sleep = every, tell, say, clock, sleep
        self.troubles: Troubles = Troubles(tell, clock)
        self.members: List[Member] = [Server(self, address) for address in addresses]
        # For each server, document and number: how often it refused, and why.
        self._refused: Dict[Tuple[str, str, int], Tuple[int, Refused]] = {}
        # The documents that were shown differently, and the fronts at which all showed the same.
        self._differing: Set[str] = set()
        self._alike: Dict[str, Front] = {}

    def places(self, log: Log) -> List[Place]:
        """Those that are connected and have the document."""
        return [place for member in self.members for place in member.places if place.log is log]

    def _agreeing(self, log: Log) -> List[Place]:
        """All places, if there is one of each member and their fronts agree. Otherwise none."""
        places = self.places(log)
        return places if len(places) == len(self.members) and all(place.agrees() for place in places) else []

    def count_refused(self, place: Place) -> None:
        """Keeps what a place refused for the end."""
        for number, (count, _, cause) in place.refused.items():
            key = (place.server, place.log.name, number)
            self._refused[key] = (max(count, self._refused.get(key, (0, cause))[0]), cause)

    async def _look(self, log: Log) -> None:
        """Says that all agree, once after each change of who is there. That is so if they show the same, and is
        looked at again now and then."""
        said: List[Place] = []
        at, next_look, pause = None, 0.0, 0.0
        while True:
            await asyncio.sleep(max(pause, min(0.1, self.every)))
            places, now, pause = self._agreeing(log), time.monotonic(), 0.0
            if not places or (places, log.front) == at or (places == said and now < next_look):
                continue
            front = dict(log.front)
            alike = await self._alike_now(places)
            if alike is None:
                pause = 5 * (time.monotonic() - now)
                continue
            at, next_look = (places, front), now + max(LOOK_EVERY, LOOK_SHARE * (time.monotonic() - now))
            self._note_look(log, front, alike)
            if alike and places != said:
                if self._agreeing(log) != places:
                    # Something came meanwhile, or a stream was cut: it is said when they agree again.
                    at, pause = None, 5 * (time.monotonic() - now)
                    continue
                self.say(f"{log.name}: all {len(places)} agree")
            said = places if alike else []

    async def _alike_now(self, places: Sequence[Place]) -> Optional[bool]:
        try:
            return await shown_alike(places)
        except Exception:  # pylint: disable=broad-except
            # Its session tells what is wrong.
            return None

    def _note_look(self, log: Log, front: Front, alike: bool) -> None:
        if alike:
            self._differing.discard(log.name)
            self._alike[log.name] = front
            self.troubles.end(log.name)
            return
        self.troubles.begin(log.name, "differ", f"{log.name}: the fronts agree, and the documents differ: a name was used by two starts")
        if log.name not in self._differing:
            self._differing.add(log.name)
            # Each server is asked for everything: what differs is delivered, and refused with its id.
            for replica in list(log.front):
                log.contest(replica)

    async def run(self) -> bool:
        """Keeps all in agreement until SIGTERM or Ctrl-C. Returns whether all agreed at the end. Another signal
        then ends the process at once."""
        ended, loop = asyncio.Event(), asyncio.get_running_loop()
        for number in (signal.SIGTERM, signal.SIGINT):
            loop.add_signal_handler(number, self._end_soon, ended)
        running = [asyncio.ensure_future(it) for it in (*(member.run() for member in self.members),
                                                        *(self._look(log) for log in self.logs))]
        waiting = asyncio.ensure_future(ended.wait())
        await asyncio.wait([waiting, *running], return_when=asyncio.FIRST_COMPLETED)
        for task in running:
            if task.done():
                task.result()
        good = all(await asyncio.gather(*(self._end(log) for log in self.logs)))
        for member in self.members:
            for place in member.places:
                self.count_refused(place)
        for (server, document, _), (count, cause) in sorted(self._refused.items(), key=lambda it: it[0]):
            self.say(f"{server}: {document}: refused {count}: {advice(cause)}")
        for task in running:
            task.cancel()
        await asyncio.wait(running, timeout=1)
        return good

    @staticmethod
    def _end_soon(ended: asyncio.Event) -> None:
        ended.set()
        loop = asyncio.get_running_loop()
        for number in (signal.SIGTERM, signal.SIGINT):
            loop.remove_signal_handler(number)
            signal.signal(number, signal.SIG_DFL)

    async def _end(self, log: Log) -> bool:
        """The last rounds of one document, and its front. Returns whether all agree."""
        await _within(LAST_ROUNDS, self._last_rounds(log))
        places = self.places(log)
        there = {place.server for place in places}
        gone = [member.address for member in self.members if member.address not in there]
        self.say(f"{log.name}: {len(log.operations)} operations, front {encoded(pairs_of(log.front)).decode()}")
        for place in places:
            if place.difference is not None:
                self.say(f"{log.name}: {place.server} is left out: it has other operations of {place.difference.replica}")
            elif place.lacks():
                self.say(f"{log.name}: {place.server} lacks {place.lacks()}")
        if gone:
            self.say(f"{log.name}: not reached: {', '.join(gone)}")
        if gone or not all(place.agrees() for place in places):
            return False
        if self._alike.get(log.name) != log.front:
            alike = await _within(LAST_LOOK, self._alike_now(places))
            if not alike:
                self.say(f"{log.name}: the documents differ: a name was used by two starts" if alike is False else
                         f"{log.name}: what the servers show wasn't compared: that took too long")
                return False
        return log.name not in self._differing

    async def _last_rounds(self, log: Log) -> None:
        """Rounds of all, until one logs nothing. One that fails doesn't hold up the others."""
        logged = 1
        while logged:
            rounds = [place.round() for place in self.places(log)]
            found = await asyncio.gather(*rounds, return_exceptions=True)
            logged = sum(it for it in found if isinstance(it, int))


async def _stays(link: Link) -> None:
    """Asks for a sign of life now and then, so that the server doesn't take this session for one that is left, however seldom it is
    asked for news."""
    while True:
        await link.ask("version")
        await asyncio.sleep(min(LONGEST, SIGN_SECONDS))


async def _within(seconds: float, coroutine: Awaitable[Any]) -> Any:
    """What a coroutine returns; None if it takes longer."""
    try:
        return await asyncio.wait_for(coroutine, seconds)
    except asyncio.TimeoutError:
        return None


def _arguments(words: Optional[Sequence[str]]) -> argparse.Namespace:
    parser = argparse.ArgumentParser(
        prog="python3 -m jcrdt relay", formatter_class=argparse.RawDescriptionHelpFormatter,
        description="Keeps servers in agreement for as long as it runs: what one accepts is delivered to all others.",
        epilog="""Servers have different names. They may go, and come back. One that misbehaves is left out.

With --redis the sites needn't reach each other. Each runs a relay with its own servers, and what these
accept is in a Redis Stream, jcrdt:DOC. Several relays may share a server or a Redis. What is cut from a
stream is added again.

Standard output has a line when all agree for the first time, and again after some came or went: their
fronts are the same, none refused an operation, and all show the same. After SIGTERM or Ctrl-C it has the
fronts, and what was refused; a second one ends the relay at once. Standard error has a line where a
server comes or goes, is left out, or refuses something: when that begins, each hour while it lasts, and
when it has ended. Of one cause at most ten lines are written in an hour.

status: 0 all agreed at the end, 1 they didn't, 2 the command line is wrong""")
    parser.add_argument("servers", nargs="+", metavar="SERVER", help="HOST:PORT")
    parser.add_argument("--doc", action="append", required=True, dest="documents", metavar="DOC",
                        help="a document; may be repeated")
    parser.add_argument("--redis", metavar="URL", default=os.environ.get("JCRDT_REDIS"),
                        help="redis://[[USER]:PASSWORD@]HOST:PORT[/N], rediss://.. (TLS), unix://PATH, or HOST:PORT. Others "
                        "of this machine see it, but not the variable JCRDT_REDIS in its place")
    parser.add_argument("--health", metavar="HOST:PORT", help="where monitors may ask for /health (200, or 503 with the cause) and "
                        "/metrics; off if not given")
    parser.add_argument("--every", type=float, default=0.2, metavar="SECONDS",
                        help="how often each server is asked for news (0.2)")
    asked = parser.parse_args(words)
    try:
        for address in asked.servers:
            host_and_port(address)
        if asked.health is not None:
            host_and_port(asked.health)
        if not 0 < asked.every <= 3600:
            raise ValueError("--every takes seconds above 0, up to 3600")
        if len(set(asked.servers)) < len(asked.servers) or len(set(asked.documents)) < len(asked.documents):
            raise ValueError("a server or document is named twice")
        if asked.redis:
            from . import redis_link
            asked.redis = redis_link.Address(asked.redis)
    except (ValueError, ImportError) as error:
        parser.error(str(error))
    return asked


def run(words: Optional[Sequence[str]] = None) -> int:
    """Runs a relay with the words of a command line until SIGTERM or Ctrl-C. Returns its status."""
    asked = _arguments(words)
    errors, output = Notes(2), Notes(1)

    async def keep() -> bool:
        relay = Relay(asked.servers, asked.documents, asked.every, errors.tell, output.tell)
        if asked.redis:
            from . import redis_link
            relay.members.append(redis_link.Streams(relay, asked.redis))
        if asked.health is not None:
            await serve_pages(*host_and_port(asked.health), pages(relay))
        return await relay.run()

    loop = asyncio.new_event_loop()
    try:
        asyncio.set_event_loop(loop)
        good = loop.run_until_complete(keep())
    except OSError as error:
        errors.tell(f"relay: {asked.health}: {error.strerror or error}")
        good = False
    finally:
        output.end(LAST_LINES)
        errors.end(LAST_LINES)
    return 0 if good else 1


def main(words: Optional[Sequence[str]] = None) -> int:
    """`run`, and ends the process with its status: a name that is still looked up doesn't delay that."""
    os._exit(run(words))
