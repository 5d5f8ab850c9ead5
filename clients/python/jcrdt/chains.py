"""Two logs are compared before they are mixed: one id may mean two operations, as where a server has an older file under its old name.

    found = first_difference(of_session(one, "d"), of_session(other, "d"), one.front("d"), other.front("d"), Compared())

Of each replica that both have, both are asked for digests of its operations, up to the counter that both have. It is asked in pieces,
since a server hashes them while others wait. A hub knows by a front of which generation a request is: so each piece names the replica
that began it.
"""

from typing import Any, Awaitable, Callable, Dict, Generator, Iterable, Iterator, List, NamedTuple, Optional, Sequence, Tuple, TYPE_CHECKING

from .generations import beginning_of
from .protocol import NUMBERS
from .replies import Reply, chains_in, good
from .wire import Chain, Front, Misbehaved, Operation, Refused, pairs_of

if TYPE_CHECKING:
    from . import aio
    from .replica import Replica
    from .session import Session

# Over how many counters a request reaches, and how many requests are asked before their replies are read.
WIDTH, AT_ONCE = 512, 64
UNKNOWN = NUMBERS["bad-request"]


class Piece(NamedTuple):
    """What one request asks for: operations behind `after`, up to `last`."""

    after: Front
    last: Front


class Difference(NamedTuple):
    """The first operation of a replica that isn't the same on both sides, or is on one of them alone: its counter."""

    replica: str
    counter: int


class LogsDiffer(Exception):
    """Two sides have different operations of one id: two starts of a server had one name, or one of the two has an older file. Nothing
    was exchanged. `replica` is the name, `counter` that of the first such id."""

    def __init__(self, replica: str, counter: int) -> None:
        super().__init__(replica, counter)
        self.replica, self.counter = replica, counter

    def __str__(self) -> str:
        return f"from {self.counter} on they have different operations of {self.replica}"


Ask = Callable[[List[Piece]], List[List[Chain]]]
AskSoon = Callable[[List[Piece]], Awaitable[List[List[Chain]]]]
# What a side has behind a front, in log order.
Behind = Callable[[Front], Iterable[Operation]]
Comparing = Generator[List[Piece], Tuple[List[List[Chain]], List[List[Chain]]], Optional[Difference]]


class Compared:
    """Up to which counter of each replica two sides had the same. It is of a connection: a server that comes back may have another
    file. `is_known` is whether both can be asked."""

    def __init__(self) -> None:
        self.same: Front = {}
        self.is_known = True
        self._fronts: Tuple[Front, Front] = {}, {}

    def look(self, here: Front, there: Front) -> None:
        """Is to be called with the fronts. Where a side has lost something all is compared anew: it may have got something else."""
        for front, before in zip((here, there), self._fronts):
            if any(counter > front.get(replica, 0) for replica, counter in [*before.items(), *self.same.items()]):
                self.forget()
        self._fronts = dict(here), dict(there)

    def forget(self) -> None:
        """Is to be called where a side has lost something: all is compared anew."""
        self.same.clear()

    def note(self, replica: str, counter: int) -> None:
        self.same[replica] = max(counter, self.same.get(replica, 0))

    def lacks(self, operation: Operation, front: Front) -> bool:
        """Whether an operation of a side depends on something that the other one, which has this front, has too, and that wasn't
        compared: it came there since."""
        return self.is_known and any(min(last, front.get(name, 0)) > self.same.get(name, 0) for name, last in operation[2])

    def due(self, here: Front, there: Front) -> Dict[str, Tuple[int, int]]:
        """Of each replica that both have, and that has moved: behind which counter to compare it, and up to which. The last one that
        was the same is looked at again."""
        both = {replica: min(counter, there[replica]) for replica, counter in sorted(here.items()) if replica in there}
        return {replica: (max(0, self.same.get(replica, 0) - 1), last) for replica, last in both.items()
                if last > self.same.get(replica, 0)}


def pieces_of(due: Dict[str, Tuple[int, int]]) -> Iterator[Piece]:
    """Requests for all of it, each of which reaches over WIDTH counters at most."""
    piece, room = Piece({}, {}), WIDTH
    for replica, (at, end) in due.items():
        while at < end:
            step = min(room, end - at)
            piece.after[replica], piece.last[replica] = at, at + step
            at, room = at + step, room - step
            if not room:
                yield piece
                piece, room = Piece({}, {}), WIDTH
    if piece.last:
        yield piece


def naming(piece: Piece, beginning: Front) -> Piece:
    """A piece that names the beginning of a generation, too."""
    return Piece({**beginning, **piece.after}, {**beginning, **piece.last})


def comparing(here: Front, there: Front, compared: Compared) -> Comparing:
    """What both sides are asked for, again and again until a replica differs or all is compared."""
    beginning = beginning_of(here)
    left = [naming(piece, beginning) for piece in pieces_of(compared.due(here, there))]
    while left:
        some, left = left[:AT_ONCE], left[AT_ONCE:]
        ours, theirs = yield some
        for piece, one, other in zip(some, ours, theirs):
            found = differing(piece, one, other)
            if found is not None:
                return (yield from narrowed(found, piece, beginning))
            for replica, counter in piece.last.items():
                if counter > piece.after[replica]:
                    compared.note(replica, counter)
    return None


def differing(piece: Piece, one: Sequence[Chain], other: Sequence[Chain]) -> Optional[str]:
    """The first replica of a piece whose digests differ. Raises Misbehaved for what wasn't asked for."""
    asked = sorted(piece.last.items())
    for chains in (one, other):
        if [(replica, counter) for replica, counter, _ in chains] != asked:
            raise Misbehaved("chains that weren't asked for")
    return next((here[0] for here, there in zip(one, other) if here != there), None)


def narrowed(replica: str, piece: Piece, beginning: Front) -> Comparing:
    """The first operation that differs in a piece."""
    after, last = piece.after[replica], piece.last[replica]
    while last - after > 1:
        half = naming(Piece({replica: after}, {replica: (after + last) // 2}), beginning)
        [one], [other] = yield [half]
        if differing(half, one, other) is None:
            after = half.last[replica]
        else:
            last = half.last[replica]
    return Difference(replica, last)


def first_difference(one: Ask, other: Ask, here: Front, there: Front, compared: Compared) -> Optional[Difference]:
    """The first operation of a replica that differs between two sides with these fronts. None where nothing differs of what moved
    since they were compared last, or where one of them can't be asked, as an older server."""
    if not compared.is_known:
        return None
    steps = comparing(here, there, compared)
    try:
        pieces = next(steps)
        while True:
            pieces = steps.send((one(pieces), other(pieces)))
    except StopIteration as end:
        found: Optional[Difference] = end.value
        return found
    except Refused as refusal:
        _note_unknown(refusal, compared)
        return None


def has_all(front: Front, before: Front) -> bool:
    """Whether a side has all that it had before."""
    return all(counter <= front.get(replica, 0) for replica, counter in before.items())


def are_two(one: Behind, other: Behind, here: Front, there: Front, found: Difference) -> bool:
    """Whether two sides, which have these fronts now, have different operations where their digests differed. A server that was killed
    in between had less then, and has the same by now where a client has sent it again."""
    if is_beginning(found):
        return True
    before = {found.replica: found.counter - 1}
    first, second = _first_of(found.replica, one({**here, **before})), _first_of(found.replica, other({**there, **before}))
    return first is not None and second is not None and not is_same(first, second)


def is_beginning(found: Difference) -> bool:
    """Whether it begins a generation. A front without it is none of that, so it can't be asked for."""
    return found.counter == 1 and len(beginning_of({found.replica: 1})) > 0


def _first_of(replica: str, operations: Iterable[Operation]) -> Optional[Operation]:
    return next((it for it in operations if it[1][1] == replica), None)


def is_same(one: Operation, other: Operation) -> bool:
    """Whether two operations are the same. To Python 1 and True are equal."""
    return one == other and type(one[4][-1]) is type(other[4][-1])


async def first_difference_soon(one: AskSoon, other: AskSoon, here: Front, there: Front, compared: Compared) -> Optional[Difference]:
    """As `first_difference`, of sides for asyncio."""
    if not compared.is_known:
        return None
    steps = comparing(here, there, compared)
    try:
        pieces = next(steps)
        while True:
            pieces = steps.send((await one(pieces), await other(pieces)))
    except StopIteration as end:
        found: Optional[Difference] = end.value
        return found
    except Refused as refusal:
        _note_unknown(refusal, compared)
        return None


async def can_ask(side: AskSoon) -> bool:
    """Whether a side answers `chains`. An older server doesn't."""
    try:
        await side([Piece({}, {})])
        return True
    except Refused as refusal:
        if refusal.number != UNKNOWN:
            raise
        return False


def _note_unknown(refusal: Refused, compared: Compared) -> None:
    if refusal.number != UNKNOWN:
        raise refusal
    compared.is_known = False


def of_session(session: "Session", document: str) -> Ask:
    """A document of a server, where the session has opened it."""
    return lambda pieces: _chains_in(session.ask_all(requests_of(document, pieces)))


def of_aio_session(session: "aio.Session", document: str) -> AskSoon:
    async def ask(pieces: List[Piece]) -> List[List[Chain]]:
        return _chains_in(await session.ask_all(requests_of(document, pieces)))

    return ask


def of_replica(replica: "Replica") -> Ask:
    return lambda pieces: [replica.chains(*piece) for piece in pieces]


def requests_of(document: str, pieces: List[Piece]) -> List[List[Any]]:
    return [["chains", document, pairs_of(piece.after), pairs_of(piece.last)] for piece in pieces]


def _chains_in(replies: Sequence[Reply]) -> List[List[Chain]]:
    return [chains_in(reply) for reply in good(replies)]
