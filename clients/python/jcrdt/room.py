"""How many operations a value takes, and whether a document has room for them.

No request says how long a log is. A front bounds it: an operation's counter is one more than the greatest that its maker
knew, and a replica gives each counter once (docs/FORMATS.md). So a log has at least as many operations as its greatest
counter, and at most as many as the sum of its front's counters. Where that doesn't decide, the operations of each replica
are counted.
"""

from typing import Any, List

from . import wire
from .protocol import NUMBERS
from .replies import front_in, good
from .steps import Request, Steps
from .wire import (Conflict, Counter, Front, OPERATION_LIMIT, Operation, PAGE, REPLICA_LIMIT, Refused, apart, pairs_of,
                   parts_of)

# So many replicas' operations are counted at once.
CHAINS = 16


def count_of(value: Any) -> int:
    """How many operations `put` makes for a value."""
    values, counter = apart(value)
    count = max(1, len(values)) + len(list(parts_of(counter)))
    for inner in values:
        if isinstance(inner, dict):
            count += sum(map(count_of, inner.values()))
        elif isinstance(inner, list):
            count += sum(map(count_of_element, inner))
    return count


def count_of_element(value: Any) -> int:
    """How many operations it takes to insert a value into a list. What isn't one value is put into an element of null."""
    is_apart = isinstance(value, (Counter, Conflict)) and len(apart(value)[0]) != 1
    return count_of(value) + is_apart


class _Chain:
    """The operations of one replica: so many of them are counted, up to a counter."""

    def __init__(self, replica: str, last: int) -> None:
        self.replica, self.last = replica, last
        self.counted = self.at = 0

    @property
    def left(self) -> int:
        """How many more there may be."""
        return self.last - self.at

    def request(self, document: str, front: Front, limit: int) -> Request:
        return ["ops", document, pairs_of({**front, self.replica: self.at}), limit]

    def take(self, page: List[Operation]) -> None:
        """Counts those of a page. It has others too, which were logged since."""
        own = [it[1][0] for it in page if it[1][1] == self.replica and self.at < it[1][0] <= self.last]
        self.counted += len(own)
        self.at = own[-1] if own else self.last


def makers_of(value: Any) -> int:
    """How many replicas make the conflicts of a value: as many as its greatest one has values."""
    values, _ = apart(value)
    inner = [it for part in values for it in (part.values() if isinstance(part, dict) else part if isinstance(part, list) else ())]
    return max([len(values) if len(values) > 1 else 0, *map(makers_of, inner)])


def check(document: str, needed: int, makers: int = 0) -> Steps[None]:
    """Raises Refused if a document has no room for so many more operations (18, log-full) or replicas (19, too-many-replicas)."""
    front = front_in(good((yield [["front", document]]))[0])
    if makers and len(front) + makers > REPLICA_LIMIT:
        raise Refused(NUMBERS["too-many-replicas"])
    chains = [_Chain(replica, last) for replica, last in front.items()]
    least, asked, limit = max(front.values(), default=0), chains, 1
    while True:
        least = max(least, sum(it.counted for it in chains))
        if least + needed > OPERATION_LIMIT:
            raise Refused(NUMBERS["log-full"])
        if sum(it.counted + it.left for it in chains) + needed <= OPERATION_LIMIT:
            return
        pages = good((yield [it.request(document, front, limit) for it in asked]))
        for chain, [page] in zip(asked, pages):
            chain.take([wire.checked_operation(it) for it in page])
        asked, limit = sorted(chains, key=lambda it: -it.left)[:CHAINS], PAGE
        asked = [it for it in asked if it.left]
