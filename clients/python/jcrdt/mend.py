"""Two servers had one NAME, or one had an older file under it: what one file has, made again at the other server.

usage: mend FILE --name NEW --to ADDRESS [--doc DOC].. [--leave REPLICA].. [--progress]

FILE is the stored log of the side that goes: end its server first, and serve FILE no more. ADDRESS is HOST:PORT of the server that
stays, with the same documents: all of FILE's where none is named.

An operation of FILE that the server has, too, stays as it is. One that it lacks is delivered, if all that it depends on is the same
there. Any other is made again, with what its maker knew, by a replica NEW-mend-1 (and NEW-mend-2 .. where several made them). So give
a NEW that was never used. Each of these is listed. The same command again makes nothing twice: repeat it if it was interrupted.

At last serve a new, empty file in FILE's place, under --name NEW, and let it exchange with the server that stays.

A replica in a program that had what FILE alone has can't exchange with the server that stays: its `sync` says so. What it had sent to the
side that goes would be made again twice, here and by its own `remake` or `remakeRefused`. So name each such replica by --leave: what
isn't the same at the server is left to it. Where its program is gone, or begins with a new store, leave it out here.

Status 0: all of FILE is there. 1: something can't be made, and is listed; or an error. 2: a wrong command line.
"""

import argparse
import re
from bisect import bisect_right
from typing import Any, Dict, List, NamedTuple, Sequence, Set, Tuple

from . import wire
from .history import id_text, readable
from .progress import Report, add_argument, progress_of, silent
from .protocol import NAME_USED_TWICE
from .remaking import renamed
from .server_process import is_open
from .session import Session, connected
from .stored_log import rows_of
from .terminal import checked_address, say
from .wire import Front, Id, Operation, Refused, covers

Key = Tuple[int, str]
# The names of servers have up to 24 characters.
NAME = re.compile(r"[a-z0-9-]{1,24}\Z")
# How many operations are delivered before their replies are read.
BATCH = 256


class Made(NamedTuple):
    """An operation of the file, and what was made of it."""

    old: Operation
    new: Operation


class Mending:
    """What is to be delivered to a server, in this order. `same` of the file's operations are there, `as_it_is` are delivered
    unchanged, `made` are made again, `lost` can't be, and `left` are left to the program that made them."""

    def __init__(self, name: str, ours: Sequence[Operation], theirs: Sequence[Operation], refused: Front, leave: Sequence[str] = ()) -> None:
        """`ours` are the file's operations, `theirs` the server's. Of the replicas of `refused` it refused those from this counter on.
        Those of `leave` make again themselves what the server lacks."""
        self._there: Dict[Key, Operation] = {key_of(it[1]): it for it in theirs}
        # Of a replica: the last of its operations that both have, or could have, and that isn't the same.
        self._differing = differing(ours, theirs)
        # Of an operation of the file: the next one of its replica.
        self._behind = next_of(ours)
        self._name, self._theirs, self._refused = name, wire.front_of(theirs), refused
        # Of a replica: the last of its operations that are the same here and there.
        self._good: Front = {}
        self._contested: Set[str] = set()
        self._brought: Set[Key] = set()
        # Of a replica whose operations are made again: the name under which they are, and their counters, old and new.
        self._makers: Dict[str, str] = {}
        self._counters: Dict[str, Tuple[List[int], List[int]]] = {}
        self._ids: Dict[Key, Id] = {}
        # What the operations of the new log depend on.
        self._deps: Dict[Key, List[List[Any]]] = {key_of(it[1]): it[2] for it in theirs}
        self.same = self.as_it_is = self.left = 0
        self._leave = frozenset(leave)
        self.made: List[Made] = []
        self.lost: List[Operation] = []
        self.operations: List[Operation] = []

    def take(self, operation: Operation) -> None:
        """Takes an operation of the file. They come in the order of its log."""
        counter, replica = operation[1]
        found = self._there.get((counter, replica))
        if counter >= self._refused.get(replica, counter + 1):
            self._contested.add(replica)
        is_same = found == operation and (replica not in self._contested or counter > self._differing.get(replica, 0))
        if is_same and self._is_of_another(operation):
            is_same = False
            self._contested.add(replica)
        if is_same and not any(key in self._ids for key in elements_of(operation)):
            self.same += 1
            if replica in self._contested:
                # It went there by an exchange, behind operations of the other start.
                self._brought.add((counter, replica))
            else:
                self._good[replica] = counter
        elif replica in self._leave:
            self.left += 1
            self._contested.add(replica)
        elif replica not in self._contested and found is None and self._fits(operation):
            self.as_it_is += 1
            self._deps[counter, replica] = operation[2]
            self._good[replica] = counter
            self.operations.append(operation)
        else:
            if found == operation and replica not in self._contested:
                # It went there by an exchange, and is about an element of the other start.
                self._good[replica] = counter
            else:
                self._contested.add(replica)
            self._make(operation)

    def _is_of_another(self, operation: Operation) -> bool:
        """Whether it inserts an element that the other start inserted alike: something else is put into it at once, as another title
        into a new card."""
        counter, replica = operation[1]
        behind = self._behind.get((counter, replica))
        if operation[4][0] != "insert" or behind is None or operation[1] not in [key for _, key in behind[3][0]]:
            return False
        return self._there.get(key_of(behind[1]), behind) != behind

    def _fits(self, operation: Operation) -> bool:
        """Whether an operation that the server lacks can go there unchanged: what it depends on is the same, and the server has none of
        its replica behind it."""
        counter, replica = operation[1]
        return self._theirs.get(replica, 0) < counter and all(last <= self._good.get(name, 0) for name, last in operation[2])

    def _make(self, operation: Operation) -> None:
        counter, replica = operation[1]
        elements = [key for key in elements_of(operation) if key not in self._ids]
        brought = [key for key in elements if key in self._brought]
        if not all(covers(self._good, key) for key in elements if key not in self._brought):
            self.lost.append(operation)
            return
        maker = self._makers.setdefault(replica, f"{self._name}-mend-{len(self._makers) + 1}")
        known = self._known(operation[2])
        for last, name in brought:
            known[name] = max(last, known.get(name, 0))
        known = self._closed(known)
        new = renamed(maker, known, operation[3], operation[4], lambda key: self._ids.get(key_of(key), key))
        old_counters, new_counters = self._counters.setdefault(replica, ([], []))
        old_counters.append(counter)
        new_counters.append(new[1][0])
        self._ids[counter, replica] = new[1]
        self._deps[key_of(new[1])] = new[2]
        self.made.append(Made(operation, new))
        if self._there.get(key_of(new[1])) not in (None, new):
            raise ValueError(f"{maker} has made other operations there: take a name that never was used")
        self.operations.append(new)

    def _known(self, front: Sequence[Sequence[object]]) -> Front:
        """What the maker of an operation knew, at the server."""
        known: Front = {}
        for replica, last in wire.checked_front(front).items():
            known[replica] = min(last, self._good.get(replica, 0))
            old, new = self._counters.get(replica, ([], []))
            at = bisect_right(old, last)
            if at:
                known[self._makers[replica]] = new[at - 1]
        return self._closed(known)

    def _closed(self, known: Front) -> Front:
        """The front with all that its operations depend on: also on those of the other start, where an exchange has mixed them."""
        found = dict(known)
        for replica, last in known.items():
            for name, needed in self._deps.get((last, replica), []):
                found[name] = max(needed, found.get(name, 0))
        return found


def key_of(operation_id: Id) -> Key:
    return operation_id[0], operation_id[1]


def differing(ours: Sequence[Operation], theirs: Sequence[Operation]) -> Front:
    """The last counter of each replica at which two logs differ, as far as both go. What is behind it and in both went from one to the
    other."""
    here, there = ({key_of(it[1]): it for it in log} for log in (ours, theirs))
    front = wire.front_of(theirs)
    most = {replica: min(last, front.get(replica, 0)) for replica, last in wire.front_of(ours).items()}
    found: Front = {}
    for counter, replica in {*here, *there}:
        if counter <= most.get(replica, 0) and here.get((counter, replica)) != there.get((counter, replica)):
            found[replica] = max(counter, found.get(replica, 0))
    return found


def next_of(operations: Sequence[Operation]) -> Dict[Key, Operation]:
    last: Dict[str, Key] = {}
    found: Dict[Key, Operation] = {}
    for it in operations:
        counter, replica = it[1]
        if replica in last:
            found[last[replica]] = it
        last[replica] = (counter, replica)
    return found


def elements_of(operation: Operation) -> List[Key]:
    """The elements of lists that an operation is about."""
    path, last = operation[3]
    return [key_of(key) for key in [*(it for _, it in path), last] if isinstance(key, list)]


def mend(server: Session, document: str, name: str, operations: Sequence[Operation], report: Report = silent,
         leave: Sequence[str] = ()) -> Mending:
    """Makes again at a server what it lacks of these operations, or has differently, but for those of some replicas. `report` is called
    with how many were delivered."""
    refused: Front = {}
    while True:
        theirs = list(server.operations(document))
        work = Mending(name, operations, theirs, refused, leave)
        for it in operations:
            work.take(it)
        found = deliver(server, document, work.operations, report)
        if not found:
            return work
        # The server's own name, or one that it has meanwhile: these are made again, too.
        refused = {**refused, **found}


def deliver(server: Session, document: str, operations: Sequence[Operation], report: Report) -> Front:
    """Delivers operations. Returns of which replicas the server refused some since it uses the name, and from where on; what waits for
    these is dropped there. Raises Refused for another refusal."""
    found: Front = {}
    for at in range(0, len(operations), BATCH):
        part, held = operations[at:at + BATCH], []
        for operation, reply in zip(part, server.ask_all([["deliver", document, it] for it in part])):
            counter, replica = operation[1]
            if isinstance(reply, Refused) and reply.number in NAME_USED_TWICE:
                found[replica] = min(counter, found.get(replica, counter))
            elif isinstance(reply, Exception):
                raise reply
            elif reply and len(reply) != 3:
                held.append(operation[1])
        server.ask_all([["forget", document, it] for it in held])
        if found or held:
            if not found:
                raise ValueError(f"{document}: the server lacks what {id_text(held[0])} depends on: it has lost something meanwhile")
            return found
        report("operations delivered", at + len(part), len(operations))
    return found


def mend_document(server: Session, document: str, name: str, operations: Sequence[Operation], report: Report,
                  leave: Sequence[str] = ()) -> bool:
    """Mends a document, and says what came of it. Returns whether all of the file is there."""
    try:
        server.open(document)
    except Refused as cause:
        raise ValueError(f"{document}: {cause}: start the server with this document, or name others by --doc") from None
    used = {it[1][1] for it in operations} | {it for it in server.front(document) if not it.startswith(f"{name}-mend-")}
    if any(it.startswith(f"{name}-") for it in used):
        raise ValueError(f"{document}: {name} was used before: take a name that never was")
    work = mend(server, document, name, operations, report, leave)
    for old, new in work.made:
        say(f"{id_text(old[1]):<16} again as {id_text(new[1])}: {readable(new)}")
    for operation in work.lost:
        say(f"{id_text(operation[1]):<16} can't be made: {readable(operation)}")
    left = f", {work.left} are left to their replicas" if leave else ""
    say(f"{document}: of {len(operations)} operations {work.same} are the same there, {work.as_it_is} were delivered, {len(work.made)} are "
        f"there under a new name, {len(work.lost)} can't be made{left}")
    return not work.lost


def main(words: Sequence[str]) -> int:
    parser = argparse.ArgumentParser(prog="mend", description=__doc__, formatter_class=argparse.RawDescriptionHelpFormatter)
    parser.add_argument("file", metavar="FILE")
    parser.add_argument("--name", metavar="NEW", required=True)
    parser.add_argument("--to", metavar="ADDRESS", required=True, type=checked_address)
    parser.add_argument("--doc", metavar="DOC", action="append")
    parser.add_argument("--leave", metavar="REPLICA", action="append", default=[])
    add_argument(parser)
    asked = parser.parse_args(words)
    if not NAME.match(asked.name):
        parser.error(f"{asked.name} is no NAME: 1 to 24 of a-z, 0-9, -")
    if is_open(asked.file):
        raise ValueError(f"a server has {asked.file} open: end it first")
    rows = rows_of(asked.file)
    unknown = set(asked.doc or ()) - set(rows)
    if unknown:
        raise ValueError(f"{asked.file} has no operations of {unknown.pop()}")
    is_whole = True
    with connected(asked.to) as server:
        for document in asked.doc or sorted(rows):
            report = progress_of("mend", asked.progress)
            is_whole = mend_document(server, document, asked.name, rows[document], report, asked.leave) and is_whole
        server.quit()
    say(f"serve a new, empty file in place of {asked.file} under --name {asked.name}, and exchange with {asked.to}")
    return 0 if is_whole else 1
