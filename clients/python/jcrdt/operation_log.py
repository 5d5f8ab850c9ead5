"""The operations that are known of a document, each behind those that it depends on, whoever handed them out.

A peer may send anything: an operation is checked by its shape before it counts, and none is taken before what it
depends on is there.
"""

import asyncio
import hashlib
from bisect import bisect_right
from typing import Any, Dict, Iterable, List, NamedTuple, Optional, Sequence, Set, Tuple

from .wire import (Chain, Front, LINE_LIMIT, Misbehaved, OPERATION_LIMIT, Operation, PAGE, REPLICA_LIMIT, checked_operation, covers,
                   decoded, encoded, pairs_of)

# So many bytes of operations of one document are kept.
LOG_BYTES = 1 << 30
# How an operation begins that isn't the first of an array. A text in it has no quotation marks that aren't escaped.
NEXT = b',["op",'
# An operation of more bytes fits no line of `deliver`.
OPERATION_BYTES = LINE_LIMIT - 60
# How long the others let one server hand out what all have, while it does so, and in all, in seconds.
STANDSTILL, LONGEST_TURN = 0.5, 10.0


class Known(NamedTuple):
    """An operation of a Log."""

    counter: int
    replica: str
    text: bytes


class Source:
    """Who handed out operations of a document, and how many that nobody had handed out before."""

    def __init__(self) -> None:
        self.count = 0
        self.replicas: Set[str] = set()

    def add(self, replica: str) -> None:
        """Counts one. Raises Misbehaved beyond what a document can have."""
        self.count += 1
        self.replicas.add(replica)
        if self.count > OPERATION_LIMIT or len(self.replicas) > REPLICA_LIMIT:
            raise Misbehaved(f"it hands out {self.count} operations of {len(self.replicas)} replicas, "
                             "more than a document can have")


class Log:
    """The operations that are known of a document, each behind those that it depends on.

    Each front names ids of operations, and an operation is taken once all of these are there. So a
    made-up counter is never taken. Two that follow one of a replica are both taken, and the replica is
    contested: from then on each server is asked for all of that replica, and decides by itself."""

    def __init__(self, name: str) -> None:
        self.name = name
        self.operations: List[Known] = []
        # The last counter of each replica.
        self.front: Front = {}
        self.contested: Set[str] = set()
        # Up to which counter of each replica a server that was asked has had the same.
        self.sure: Front = {}
        self.at: Dict[bytes, int] = {}
        self.size = 0
        # Set when an operation is added or a replica contested, for those that deliver them.
        self.listeners: Set[asyncio.Event] = set()
        # Who asks a server for many, so that no two ask for the same.
        self.turn: "Optional[Turn]" = None
        # For each replica its counters, and 0 before them; and whether something follows each.
        self._chains: Dict[str, Dict[int, bool]] = {}
        # For each replica the places of its operations.
        self._places: Dict[str, List[int]] = {}

    def has_id(self, counter: int, replica: str) -> bool:
        """Whether an operation of this id is there."""
        return counter in self._chains.get(replica, ())

    def missing(self, operation: Operation) -> Optional[Tuple[int, str]]:
        """The first id that an operation depends on and that isn't there."""
        chains = self._chains
        for replica, counter in operation[2]:
            chain = chains.get(replica)
            if chain is None or counter not in chain:
                return counter, replica
        return None

    def add(self, operation: Operation, source: Optional[Source] = None) -> int:
        """Adds a checked operation whose dependencies are there, unless it is known. Returns its place."""
        place = self.put(operation, encoded(operation), source)
        self.notify()
        return place

    def put(self, operation: Operation, text: bytes, source: Optional[Source]) -> int:
        """As `add`, with what `encoded` makes of it. Nobody is notified: that is done once for many."""
        if text in self.at:
            return self.at[text]
        (counter, replica), front = operation[1], operation[2]
        if source:
            source.add(replica)
        if self.size + len(text) > LOG_BYTES:
            raise Misbehaved(f"more than {LOG_BYTES >> 20} MiB of operations")
        chain = self._chains.setdefault(replica, {0: False})
        before = 0
        for name, number in front:
            if name == replica:
                before = number
                break
        if chain[before] or counter in chain:
            self.contest(replica)
        chain[before] = True
        chain.setdefault(counter, False)
        self.at[text] = len(self.operations)
        self._places.setdefault(replica, []).append(len(self.operations))
        self.operations.append(Known(counter, replica, text))
        self.size += len(text)
        if counter > self.front.get(replica, 0):
            self.front[replica] = counter
        return self.at[text]

    def conflicts(self, operation: Operation) -> bool:
        """Whether it would contest a replica that isn't contested: another operation has its id, or follows the one before it."""
        (counter, replica), front = operation[1], operation[2]
        chain = self._chains.get(replica, {})
        before = next((number for name, number in front if name == replica), 0)
        is_other = counter in chain or chain.get(before, False)
        return is_other and replica not in self.contested and encoded(operation) not in self.at

    def chains(self, after: Front, last: Front) -> List[Chain]:
        """Digests of what is there of some replicas, none of which is contested, as a server gives them."""
        return [(replica, counter, self._digest(replica, after.get(replica, 0), counter)) for replica, counter in sorted(last.items())]

    def _digest(self, replica: str, after: int, last: int) -> str:
        digest, places = hashlib.sha256(), self._places.get(replica, [])
        counters = _Counters(self.operations, places)
        for at in places[bisect_right(counters, after):bisect_right(counters, last)]:
            digest.update(self.operations[at].text + b"\n")
        return digest.hexdigest()

    def contest(self, replica: str) -> bool:
        """Notes that servers have different operations of a replica. Returns whether that is new."""
        if replica in self.contested:
            return False
        self.contested.add(replica)
        self.notify()
        return True

    def notify(self) -> None:
        for event in self.listeners:
            event.set()


class _Counters(Sequence[int]):
    """The counters of some operations of a log."""

    def __init__(self, operations: List[Known], places: List[int]) -> None:
        self._operations, self._places = operations, places

    def __len__(self) -> int:
        return len(self._places)

    def __getitem__(self, at: Any) -> Any:
        return self._operations[self._places[at]].counter


class Early:
    """Operations that came before something that they depend on, of one who hands them out."""

    def __init__(self, log: Log, source: Source) -> None:
        self.log, self.source, self.count, self.size = log, source, 0, 0
        self._waiting: Dict[Tuple[int, str], List[Tuple[Operation, bytes]]] = {}

    def take(self, operations: Iterable[Operation]) -> List[int]:
        """Adds to the log what it can, also of what waited. Returns their places there. Raises Misbehaved
        where more waits than a document can have."""
        batch = list(operations)
        return self._take(list(zip(batch, texts_of(batch))))

    def _take(self, batch: List[Tuple[Operation, bytes]]) -> List[int]:
        log, source, taken = self.log, self.source, []
        rest, before = batch[::-1], len(log.operations)
        try:
            while rest:
                operation, text = rest.pop()
                missing = log.missing(operation)
                if missing:
                    self._wait(missing, operation, text)
                    continue
                taken.append(log.put(operation, text, source))
                if self._waiting:
                    rest += self._released(tuple(operation[1]))
        finally:
            if len(log.operations) > before:
                log.notify()
        return taken

    def again(self) -> List[int]:
        """Takes what waited for operations that others handed out."""
        there = [it for it in self._waiting if self.log.has_id(*it)]
        return self._take([waited for it in there for waited in self._released(it)])

    def missing(self) -> List[Tuple[int, str]]:
        """The ids that are waited for."""
        return sorted(self._waiting)

    def _wait(self, missing: Tuple[int, str], operation: Operation, text: bytes) -> None:
        self.count += 1
        self.size += len(text)
        if self.count > OPERATION_LIMIT or self.size > LOG_BYTES:
            raise Misbehaved("too many operations without those that they depend on")
        self._waiting.setdefault(missing, []).append((operation, text))

    def _released(self, operation_id: Any) -> List[Tuple[Operation, bytes]]:
        released = self._waiting.pop(operation_id, [])
        self.count -= len(released)
        self.size -= sum(len(text) for _, text in released)
        return released


def texts_of(operations: Sequence[Operation]) -> List[bytes]:
    """Checked operations as `encoded` writes each. Many at once take a third of the time."""
    if not operations:
        return []
    first, *others = encoded(operations)[1:-1].split(NEXT)
    if len(others) + 1 != len(operations):
        # A replica of this name looks so in a front.
        return [encoded(it) for it in operations]
    return [first, *(NEXT[1:] + it for it in others)]


def operation_in(text: Any) -> Operation:
    """The operation of a text. Raises ValueError or Refused for what is none, or fits no line."""
    operation = checked_operation(decoded(text))
    if len(text) > OPERATION_BYTES or len(encoded(operation)) > OPERATION_BYTES:
        raise ValueError("it is longer than a line")
    return operation


class Listener:
    """What a Log is delivered to. `has` is how far it is by its own word, `own` up to where it handed out all itself
    of contested replicas, and `news` is set when the log has more."""

    def __init__(self, log: Log, has: Front, source: Optional[Source] = None) -> None:
        self.log, self.has, self.source = log, has, source or Source()
        self.own: Front = {}
        self.news = asyncio.Event()
        log.listeners.add(self.news)

    def close(self) -> None:
        """The log tells it nothing more."""
        self.log.listeners.discard(self.news)

    async def check(self, operations: Sequence[Operation]) -> None:
        """Is awaited before these operations, which it handed out, are added to the log. Raises LogsDiffer where they can't belong
        to it; here nothing says so."""

    def known(self, replica: str) -> int:
        """Up to which counter a replica's operations needn't be handed out."""
        return (self.own if replica in self.log.contested else self.log.front).get(replica, 0)

    def request(self, front: Optional[Front] = None) -> Tuple[Front, bytes]:
        """A request for a page beyond a front, or beyond what is known."""
        if front is None:
            front = {replica: self.known(replica) for replica in self.has}
        return front, encoded(["ops", self.log.name, pairs_of(front), PAGE])

    def handed_out(self, places: Iterable[int], front: Front) -> None:
        """Notes that it has these operations of the log, which it was asked for behind a front. A replica may be
        contested since then, and the front beyond what it handed out itself: then it is asked for all of that."""
        for counter, replica, _ in map(self.log.operations.__getitem__, places):
            self.has[replica] = max(counter, self.has.get(replica, 0))
            own = self.own.get(replica, 0)
            if replica in self.log.contested and front.get(replica, 0) <= own:
                self.own[replica] = max(counter, own)

    def contests(self, front: Front, operations: Iterable[Operation]) -> bool:
        """Looks at operations that weren't taken. What they depend on and the request's front covered is
        another operation in the log: the replica is contested. Returns whether one is now."""
        found = False
        for operation in operations:
            for replica, counter in operation[2]:
                if not self.log.has_id(counter, replica) and covers(front, (counter, replica)):
                    found = self.log.contest(replica) or found
        return found


class Turn:
    """Holds one server back while another hands out what both have, unless that one stands still."""

    def __init__(self, log: Log) -> None:
        self.log, self.since, self.moved = log, 0.0, 0.0

    def move(self) -> None:
        """Says that something came."""
        self.moved = asyncio.get_running_loop().time()

    async def __aenter__(self) -> "Turn":
        loop = asyncio.get_running_loop()
        while True:
            other = self.log.turn
            if other is None or loop.time() > min(other.moved + STANDSTILL, other.since + LONGEST_TURN):
                break
            await asyncio.sleep(0.02)
        self.log.turn, self.since, self.moved = self, loop.time(), loop.time()
        return self

    async def __aexit__(self, *_: Any) -> None:
        if self.log.turn is self:
            self.log.turn = None
