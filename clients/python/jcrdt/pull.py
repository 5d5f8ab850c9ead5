"""Adds to a log what a server has beyond it, many pages at once: over a network with a round trip of 40 ms it takes a
few of them for 10,000 operations.
"""

import itertools
from typing import Dict, List, Tuple

from .link import Link
from .operation_log import OPERATION_BYTES, Early, Listener, Turn
from .replies import rest_of
from .wire import Front, Misbehaved, Operation, PAGE, Refused, checked_operation, covers, encoded, front_of

# How many pages of operations are asked for at once, before and after their size is known, and how many
# bytes these may have together.
FIRST_PAGES, PAGES, WINDOW_BYTES = 8, 128, 16 << 20


def operations_of(reply: bytes, front: Front, request_word: str = "ops") -> List[Operation]:
    """The operations of a page that was asked for behind a front. Raises Misbehaved for what is none."""
    rest = rest_of(reply, request_word)
    if len(rest) != 1 or not isinstance(rest[0], list) or len(rest[0]) > PAGE:
        raise Misbehaved("a page that is none")
    for operation in rest[0]:
        try:
            checked_operation(operation)
            long = len(reply) > OPERATION_BYTES and len(encoded(operation)) > OPERATION_BYTES
        except (ValueError, Refused) as error:
            raise Misbehaved(f"an operation that is none: {error}") from None
        if long:
            raise Misbehaved("an operation that is longer than a line")
        if covers(front, operation[1]):
            raise Misbehaved("an operation that wasn't asked for")
    page: List[Operation] = rest[0]
    return page


class Chain:
    """The operations of one replica, while they are pulled. Each front names the one before it."""

    def __init__(self, replica: str, last: int) -> None:
        self.replica, self.last = replica, last
        self.behind: Dict[int, Operation] = {}
        # How many counters a page reaches over: at least one for each operation, and more where other
        # replicas count, too. Until a page has shown it, few are asked for.
        self.step, self.pages = PAGE, FIRST_PAGES

    def starts(self, most: int, count: int) -> List[int]:
        """The counters behind which to ask for pages."""
        return list(itertools.islice(range(self.last, most, self.step), min(count, self.pages)))

    def take(self, start: int, page: List[Operation]) -> List[Operation]:
        """Notes a page that was asked for behind a counter. Returns what goes on from the last."""
        own = [it for it in page if it[1][1] == self.replica]
        for operation in own:
            self.behind[dict(operation[2]).get(self.replica, 0)] = operation
        if len(own) == PAGE:
            self.step, self.pages = max(PAGE, own[-1][1][0] - start), PAGES
        ready = []
        while self.last in self.behind:
            ready.append(self.behind.pop(self.last))
            self.last = ready[-1][1][0]
        return ready


class _Window:
    """How many pages of a pull are asked for at once, by the size of those before."""

    def __init__(self) -> None:
        self.pages, self._bytes, self._count = FIRST_PAGES, 0, 0

    def add(self, length: int) -> None:
        self._bytes += length
        self._count += 1

    def end(self) -> None:
        average = max(1, self._bytes // max(1, self._count))
        self.pages = max(1, min(PAGES, WINDOW_BYTES // average))
        self._bytes = self._count = 0


def _id_of(operation: Operation) -> Tuple[int, str]:
    return operation[1][0], operation[1][1]


async def _pull_page(link: Link, place: Listener) -> int:
    """Takes the first page of what a server has beyond the log. Returns how many operations it had."""
    before = dict(place.has)
    front, line = place.request()
    [reply] = await link.ask_lines([line])
    page = operations_of(reply, front)
    await place.check(page)
    taken = Early(place.log, place.source).take(page)
    place.handed_out(taken, front)
    contested = place.contests(front, (it for it in page if place.log.missing(it)))
    if page and not taken and not contested:
        raise Misbehaved("operations without those that they depend on")
    reached = {**front, **front_of(page)}
    if len(page) < PAGE and not contested and any(number > reached.get(name, 0) for name, number in before.items()):
        raise Misbehaved("a front of operations that it doesn't hand out")
    return len(page)


async def _pull_window(link: Link, place: Listener, chains: List[Chain], window: _Window, turn: Turn) -> List[Operation]:
    """Asks for the next pages of all chains at once. Returns the operations that came."""
    each = max(1, window.pages // len(chains))
    asked = [(chain, start) for chain in chains[:window.pages] for start in chain.starts(place.has[chain.replica], each)]
    fronts = [{**place.has, chain.replica: start} for chain, start in asked]
    found: List[Operation] = []
    coming = iter(zip(asked, fronts))

    def take(reply: bytes) -> None:
        (chain, start), front = next(coming)
        window.add(len(reply))
        found.extend(chain.take(start, operations_of(reply, front)))
        turn.move()

    await link.ask_lines([place.request(front)[1] for front in fronts], take)
    window.end()
    return found


async def _pull_chains(link: Link, place: Listener, turn: Turn) -> None:
    """Takes all that a server has, some pages at once."""
    place.has.update(await link.front(place.log.name))
    front = {replica: place.known(replica) for replica in place.has}
    chains, window = [Chain(*it) for it in front.items()], _Window()
    early, found = Early(place.log, place.source), True
    while found:
        chains = [it for it in chains if it.last < place.has[it.replica]]
        if not chains:
            break
        came = await _pull_window(link, place, chains, window, turn)
        await place.check(came)
        # Whatever an operation depends on has a lesser counter.
        place.handed_out(early.take(sorted(came, key=_id_of)), front)
        found = bool(came)
    if not chains and not early.missing():
        return
    if await _has_more(link, place, early.missing()):
        # What is missing was logged since the front was read. The next page has it, or something else that is new: so it ends.
        return
    # What is left follows other operations than those of the log, or nothing.
    astray = {it.replica for it in chains if it.behind} | {replica for _, replica in early.missing()}
    if not any([place.log.contest(it) for it in astray]):
        raise Misbehaved("operations without those that they depend on")


async def _has_more(link: Link, place: Listener, missing: List[Tuple[int, str]]) -> bool:
    """Reads the front again. Returns whether it covers more of what is missing than the one before did."""
    before = dict(place.has)
    place.has.update(await link.front(place.log.name))
    return any(covers(place.has, it) and not covers(before, it) for it in missing)


async def pull(link: Link, place: Listener) -> None:
    """Adds to the log of a place all that its server has beyond it. Raises Lost, Refused or Misbehaved."""
    while await _pull_page(link, place) == PAGE:
        async with Turn(place.log) as turn:
            await _pull_chains(link, place, turn)
