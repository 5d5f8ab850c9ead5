"""Writes that survive a kill of the server."""

import time
import weakref
from collections import deque
from typing import Any, Deque, Dict, Iterable, List, Optional, Tuple

from . import wire
from .generations import FIRST, generation_of
from .stored_log import StoredLog
from .session import Session
from .wire import Away, Cursor, Front, Id, Lost, Operation, Refused

# How often `flush` looks into the file, and how often it asks the server for a sign of life, in seconds.
LOOK_SECONDS, SIGN_SECONDS = 0.02, 1.0
# Sent twice, they do the same.
REPEATABLE = ("assign", "delete")


class Write:
    """A request, and the id of its operation once it has a reply. With `number` it assigns a total that is known once it is sent."""

    def __init__(self, request: List[Any], number: Optional[int] = None) -> None:
        self.request, self.number = request, number
        self.id: Optional[Id] = None
        self.refused: Optional[Refused] = None

    def is_in(self, operation: Operation) -> bool:
        """Whether it may have made this operation: what it does, and the keys of maps to its place, from a variable on if it has one."""
        word, _, cursor, *value = self.request
        texts = [it for it in cursor[1:] if isinstance(it, str)]
        path, last = operation[3]
        found = [key for key in [*(it for _, it in path), last] if isinstance(key, str)]
        found = found if cursor[0] == 0 else found[max(0, len(found) - len(texts)):]
        return wire.encoded(operation[4]) == wire.encoded([word, *value]) and found == texts


class Writes:
    """The writes of one document by this client, kept so that none is lost when the server is killed.

        writes = Writes("d")
        writes.send(server, "assign", [0, "title"], "Plan")     # as often as one likes, until the connection fails
        writes.flush(server, file="trip.db")                    # now they are on disk
        writes.send_again(server)                               # in the first session after a Lost, behind open("d")

    A refused write is dropped: nothing was changed. One whose reply is missing (Lost) stays in `waiting`, as does
    one that reached no server (Away). What the server has isn't sent again, since that would be a second
    operation. A write without a reply is sent again: an `insert` or `add` may then be there twice, an `assign` or
    `delete` does the same once more. `unknown` is that write; `drop_unknown` takes it for done. `add` of this class counts
    once in any case, by a key of the writer's own. An index in a cursor means what is there at that time. If servers exchange, a peer may deliver what was lost: let it do so
    before `send_again`. Writes with replies are kept until `flush`, or until another start of the server has them. A server that was
    started over an older file under its old NAME gives ids out again: `send_again` and `flush` compare what these mean now. Where a hub
    renews the document, what was answered before is in what it shows, and isn't sent again.
    """

    def __init__(self, document: str) -> None:
        self.document = document
        # The writes with replies that may not be on disk yet, and those without replies.
        self.answered: Deque[Write] = deque()
        self.waiting: Deque[Write] = deque()
        self.unknown: Optional[Write] = None
        # The totals of own keys that this object added to.
        self._totals: Dict[Tuple[Any, ...], int] = {}
        # The sessions that have answered all of it, or were found to have it.
        self._known: "weakref.WeakSet[Session]" = weakref.WeakSet()

    def send(self, server: Session, word: str, cursor: Cursor, *value: Any) -> Id:
        """Sends what waits and then this request, and returns the id of its operation. Raises Refused if it is
        refused, Lost or Away if it or one before it isn't answered: it stays."""
        return self._sent(server, Write([word, self.document, cursor, *value]))

    def add(self, server: Session, cursor: Cursor, number: int, key: str) -> Id:
        """Adds a number exactly once, however often connections break and the server is killed. It is no `add` of a counter:
        each writer has a key of its own in the map at the cursor, and assigns its running total there, which may be repeated.
        The sum is that of all keys: `sum(server.plain(document, cursor).values())`.

        `key` is this writer's alone: no other process or machine ever uses it at the same time. It may be used again later,
        behind a `flush`: the total that is there is read with the first addition. The cursor has no index.

        Raises as `send`, and what waits has the addition then: after a Lost or Away don't call it again for the same one, but
        `send_again`. Raises ValueError, and keeps nothing, where something else than one integer is at the key."""
        return self._sent(server, Write(["assign", self.document, [*cursor, key]], number))

    def _sent(self, server: Session, write: Write) -> Id:
        self.waiting.append(write)
        self._send_waiting(server)
        if write.refused:
            raise write.refused
        assert write.id is not None
        return write.id

    def _without_totals(self, writes: Iterable[Write]) -> None:
        """Takes additions back that are sent again: one of them may be refused this time."""
        for write in writes:
            if write.number is not None and len(write.request) > 3:
                del write.request[3:]
                self._totals[tuple(write.request[2])] -= write.number

    def _set_total(self, server: Session, write: Write) -> None:
        """Completes the request of an addition."""
        place = tuple(write.request[2])
        if place not in self._totals:
            there = server.values(self.document, list(place))
            if len(there) > 1 or not all(map(wire.is_integer, there)):
                self.waiting.popleft()
                raise ValueError(f"{self.document}: {place[-1]} has something else than one integer")
            self._totals[place] = there[0] if there else 0
        assert write.number is not None
        self._totals[place] += write.number
        write.request.append(self._totals[place])

    def send_again(self, server: Session) -> Tuple[int, List[Refused]]:
        """Sends what the server lacks, in its order. Returns how many writes that were, and the Refused among
        them."""
        self.waiting.extendleft(reversed(self._take_lost(server)))
        self._without_totals(self.waiting)
        count = len(self.waiting)
        return count, self._send_waiting(server)

    def drop_unknown(self) -> Optional[List[Any]]:
        """Takes the write whose reply is missing for done, and returns its request."""
        dropped, self.unknown = self.unknown, None
        if dropped is None:
            return None
        self.waiting.remove(dropped)
        return dropped.request

    def flush(self, server: Session, file: Optional[str] = None, seconds: float = 60.0) -> int:
        """Sends what waits, waits until all is on disk, and returns how many writes that are. With `file`, the
        server's file on this machine, it reads that; without it asks a hub.

        Raises TimeoutError after so many seconds. Raises Lost if the server has ended or lost some: `send_again`
        in the next session, and flush again. Raises Refused without a file if no hub answers (2) or it can't
        know (104), and for a waiting write that is refused."""
        refused = self._send_waiting(server)
        done = self._take_renewed(server)
        last = self._last()
        self._check_all_there(server, last)
        self._check_each(server)
        if file is not None:
            self._await_file(server, file, last, seconds)
        else:
            self._await_hub(server, last)
        count, self.answered = len(done) + len(self.answered), deque()
        if refused:
            raise refused[0]
        return count

    def _take_renewed(self, server: Session) -> List[Write]:
        """Takes out those of the answered writes that a generation of before had at its end: what they did is in what the document
        shows, and a hub that renews documents has on disk what it has answered."""
        front = server.front(self.document) if self.answered else {}
        if generation_of(front) == FIRST:
            return []
        of_before = [it for it in self.answered if it.id is not None and not wire.covers(front, it.id)]
        unsaved = server.unsaved(self.document, [it.id for it in of_before if it.id is not None])
        done = [it for it in of_before if it.id not in unsaved]
        self.answered = deque(it for it in self.answered if it not in done)
        return done

    def _last(self) -> Front:
        """The greatest counter of each replica among what was answered."""
        last: Front = {}
        for write in self.answered:
            assert write.id is not None
            counter, replica = write.id
            last[replica] = max(counter, last.get(replica, 0))
        return last

    def _check_all_there(self, server: Session, last: Front) -> None:
        front = server.front(self.document)
        if not wire.covers_all(front, last) or any(self._are_others(server, front, it) for it in last.items()):
            raise Lost(f"{self.document}: the server was started again and lacks writes: send them again")

    def _check_each(self, server: Session) -> None:
        """Compares all of the answered writes, once in a session that hasn't answered them: its server may have an older file, where the
        last one alone is the same."""
        if server not in self._known and self._lost(server):
            raise Lost(f"{self.document}: the server was started again and has others in place of writes: send them again")
        self._known.add(server)

    def _are_others(self, server: Session, front: Front, last: Tuple[str, int]) -> bool:
        """Whether the last write that a replica answered is another operation by now."""
        replica, counter = last
        [operations] = server.ask("ops", self.document, wire.pairs_of({**front, replica: counter - 1}), 1)
        return not any(it.id == [counter, replica] and operations and it.is_in(operations[0]) for it in self.answered)

    def _await_hub(self, server: Session, last: Front) -> None:
        try:
            for replica, counter in last.items():
                server.stored(self.document, [counter, replica])
        except Refused:
            # It says the same of what was lost meanwhile.
            self._check_all_there(server, last)
            raise

    def _await_file(self, server: Session, file: str, last: Front, seconds: float) -> None:
        until, sign = time.monotonic() + seconds, time.monotonic() + SIGN_SECONDS
        with StoredLog(file) as log:
            while not wire.covers_all(log.front(self.document), last):
                now = time.monotonic()
                if now >= until:
                    raise TimeoutError(f"{file} doesn't have all of {self.document} after {seconds:g} s")
                if now >= sign:
                    self._check_all_there(server, last)
                    sign = now + SIGN_SECONDS
                time.sleep(LOOK_SECONDS)
                log.refresh()

    def _take_lost(self, server: Session) -> List[Write]:
        """Takes out those of the answered writes that the server lacks, or has something else by their ids."""
        self._take_renewed(server)
        lost = self._lost(server)
        gone = set(lost)
        self.answered = deque(it for it in self.answered if it not in gone)
        self._known = weakref.WeakSet([server])
        return lost

    def _lost(self, server: Session) -> List[Write]:
        """Those of the answered writes that the server lacks, or has something else by their ids."""
        front = server.front(self.document)
        before = dict(front)
        for write in self.answered:
            assert write.id is not None
            counter, replica = write.id
            before[replica] = min(counter - 1, before.get(replica, 0))
        there = {(it[1][0], it[1][1]): it for it in server.operations(self.document, before)} if self.answered else {}
        lost: List[Write] = []
        for write in self.answered:
            found = there.get((write.id[0], write.id[1])) if write.id else None
            if found is None or not write.is_in(found):
                lost.append(write)
        return lost

    def _send_waiting(self, server: Session) -> List[Refused]:
        refused: List[Refused] = []
        while self.waiting:
            write = self.waiting[0]
            if write.number is not None and len(write.request) == 3:
                self._set_total(server, write)
            # Until it has its reply.
            self.unknown = write
            try:
                write.id = server.ask(*write.request)[2]
            except Refused as cause:
                write.refused = cause
                refused.append(cause)
                if write.number is not None:
                    self._totals[tuple(write.request[2])] -= write.number
            except Away:
                self.unknown = None
                raise
            self.unknown = None
            self.waiting.popleft()
            if not write.refused:
                self._note_answered(server, write)
        return refused

    def _note_answered(self, server: Session, write: Write) -> None:
        """Keeps an answered write. If another start of the server answered it, as may be behind a hub, what is
        left of the one before was in its file, and what isn't is sent again."""
        assert write.id is not None
        if not self.answered:
            self._known = weakref.WeakSet([server])
        if self.answered and (self.answered[-1].id or [0, ""])[1] != write.id[1]:
            lost = self._take_lost(server)
            self.answered.clear()
            # The older ones come behind this one now. What it assigned is to stay.
            again = [write] if lost and write.request[0] in REPEATABLE else []
            self._without_totals([*lost, *again])
            self.waiting.extendleft(reversed(lost + again))
        self.answered.append(write)
