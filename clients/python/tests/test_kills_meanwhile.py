"""A server that is killed while a replica is compared with it, behind a hub: what is lost and sent again isn't a difference.

The server is a replica in this process, so a kill comes before a chosen request. Over libjcrdt.so; skipped where it isn't here."""

import asyncio
import itertools
import os
from typing import Any, Callable, Dict, List, Optional, Sequence, cast

import pytest

from jcrdt import wire
from jcrdt import replica as replica_module
from jcrdt.chains import LogsDiffer
from jcrdt.exchange import exchange
from jcrdt.link import Link
from jcrdt.operation_log import Log, Source
from jcrdt.relay import Place, settle
from jcrdt.replica import Replica
from jcrdt.session import Session
from jcrdt.stream import Stream
from jcrdt.syncing import Differs
from jcrdt.troubles import Troubles
from jcrdt.wire import Away, Front, Lost, Operation

pytestmark = pytest.mark.skipif(not any(map(os.path.isfile, replica_module.library_paths())), reason="libjcrdt.so isn't here")

# More requests than an exchange of these few operations has.
REQUESTS = range(1, 12)


class Hub(Session):
    """A session of a hub, which goes on when the server behind it is killed. The server has one document, d."""

    def __init__(self, operations: Sequence[Operation] = ()) -> None:
        super().__init__(cast(Stream, None))
        self.count = 0
        # What happens before a request, by its number from 1.
        self.events: Dict[int, Callable[[], None]] = {}
        # The words of the requests.
        self.words: List[str] = []
        self.begin_with(operations)

    def begin_with(self, operations: Sequence[Operation]) -> None:
        """Kills the server, and starts it over a file that has these."""
        self.server = Replica("srv", [wire.encoded(it).decode() for it in operations])

    def send(self, operations: Sequence[Operation]) -> None:
        """What another client sends."""
        for it in operations:
            self.server.deliver(it)

    def answers(self, lines: List[bytes]) -> List[bytes]:
        return [self._answer(line) for line in lines]

    def _answer(self, line: bytes) -> bytes:
        self.count += 1
        self.events.pop(self.count, lambda: None)()
        word, document, *rest = wire.decoded(line)
        self.words.append(word)
        assert document == "d"
        return b'["opened",0]' if word == "open" else self.server.answer(wire.encoded([word, *rest]))[0]

    def anew(self) -> "Hub":
        """Another session of it."""
        it = Hub()
        it.server = self.server
        return it


class Older(Hub):
    """One of before, which isn't asked for digests."""

    def _answer(self, line: bytes) -> bytes:
        return b'["no",2,"bad-request"]' if line.startswith(b'["chains"') else super()._answer(line)


class Linked:
    """The same as a relay's session."""

    def __init__(self, hub: Hub) -> None:
        self.hub = hub

    async def ask(self, *request: Any) -> List[Any]:
        return self.hub.ask(*request)

    async def ask_all(self, requests: Sequence[Sequence[Any]]) -> List[Any]:
        return self.hub.ask_all(requests)

    async def ask_lines(self, lines: List[bytes], take: Optional[Callable[[bytes], Any]] = None) -> List[bytes]:
        replies = self.hub.answers(lines)
        for it in replies if take else ():
            cast(Callable[[bytes], Any], take)(it)
        return [] if take else replies

    async def front(self, document: str) -> Front:
        return self.hub.front(document)


def change(counter: int, name: str, value: Any) -> Operation:
    """The next operation of a replica that knows of nobody else's."""
    return ["op", [counter, name], [[name, counter - 1]] if counter > 1 else [], [[["m", 0]], f"of {name}"], ["assign", value]]


def changes(name: str, *values: Any) -> List[Operation]:
    return [change(counter, name, value) for counter, value in enumerate(values, 1)]


# What the server has before: of ada, whose replica it is, and of bob.
ADA, BOB = changes("ada", 1, 2, 3, 4), changes("bob", 1, 2, 3, 4)


def ada(hub: Hub) -> Replica:
    """Ada's replica, which has sent what it has, and then made something more."""
    me = Replica("ada")
    for it in ADA:
        assert me.assign([0, "of ada"], it[4][1]) == it[1]
    before = Hub(BOB[:1])
    assert me.sync(before, "d") == (1, 4)
    before.send(BOB)
    # Another one over the same place: nothing is known of it.
    assert me.sync(before.anew(), "d") == (3, 0)
    me.assign([0, "more"], True)
    hub.begin_with([*ADA, *BOB])
    return me


def outcome(me: Replica, hub: Hub) -> Optional[Exception]:
    try:
        me.sync(hub, "d")
        return None
    except (LogsDiffer, Away, Lost) as error:
        return error


def agree(me: Replica, hub: Hub) -> None:
    """Both exchange, and show the same."""
    hub.events.clear()
    me.sync(hub, "d")
    assert (me.front(), me.plain([0])) == (hub.server.front(), hub.server.plain([0]))


# What the server's file has at a kill.
KEPT = [[*ADA, *BOB[:2]], [*ADA[:2], *BOB], [*ADA[:1], *BOB[:1]], []]


@pytest.mark.parametrize("kept", KEPT)
@pytest.mark.parametrize("at", REQUESTS)
def test_what_a_kill_takes_is_no_difference(kept: List[Operation], at: int) -> None:
    """The server is killed before any request, and another client sends what it lost at any later one, or not at all."""
    for again in range(at, REQUESTS[-1] + 2):
        hub = Hub()
        with ada(hub) as me:
            hub.events[at] = lambda: hub.begin_with([*ADA, *BOB] if again == at else kept)
            hub.events.setdefault(again, lambda: hub.send([*ADA, *BOB]))
            found = outcome(me, hub)
            assert not isinstance(found, LogsDiffer), (at, again, found)
            assert found is None or str(found).endswith(": sync again")
            agree(me, hub)


@pytest.mark.parametrize("replica, counter", itertools.product(["ada", "bob"], [1, 2, 3, 4]))
@pytest.mark.parametrize("at", REQUESTS)
def test_what_others_send_in_its_place_is_a_difference(replica: str, counter: int, at: int) -> None:
    """The server is killed before any request, and has others' operations at any later one. Where it is compared behind that, nothing
    is exchanged."""
    values = [True if it == counter else it for it in (1, 2, 3, 4)]
    logs = {"ada": ADA, "bob": BOB}
    for later in range(at, REQUESTS[-1] + 2):
        hub = Hub()
        with ada(hub) as me:
            hub.events[at] = lambda: hub.begin_with([it for name, log in logs.items() for it in log if name != replica or it[1][0] < counter])
            hub.events[later] = lambda: hub.begin_with([it for log in {**logs, replica: changes(replica, *values)}.values() for it in log])
            before, first = me.front(), outcome(me, hub)
            for event in list(hub.events.values()):
                event()
            other = hub.anew()
            for found in (first, outcome(me, other)) if isinstance(first, Differs) else (outcome(me, other),):
                assert isinstance(found, Differs), (at, later, found)
                assert (found.replica, found.counter, found.is_own) == (replica, counter, replica == "ada"), (at, later)
            # The second request is for the front, the fourth for digests. What came between them isn't in that front.
            if later <= 4 and (later <= 2 or at > 2):
                assert "deliver" not in hub.words
                assert me.front() == before and hub.server.front() == {"ada": 4, "bob": 4}


@pytest.mark.parametrize("is_other_one", [False, True])
def test_servers_that_are_killed_while_they_meet(is_other_one: bool) -> None:
    for at in range(1, 8):
        for again in range(at, 9):
            hubs = [Hub([*ADA, *BOB]), Hub([*ADA, *BOB])]
            hub = hubs[is_other_one]
            hubs[not is_other_one].send(changes("carl", 1))
            hub.events[at] = lambda: hub.begin_with([*ADA, *BOB] if again == at else [*ADA[:2], *BOB[:1]])
            hub.events.setdefault(again, lambda: hub.send([*ADA, *BOB]))
            try:
                exchange(hubs[0], hubs[1], "d")
            except Away as error:
                assert str(error) == "d: a server has lost what it had a moment ago: exchange again"
            hub.events.clear()
            exchange(hubs[0], hubs[1], "d")
            assert hubs[0].server.front() == hubs[1].server.front() == {"ada": 4, "bob": 4, "carl": 1}
            hub.begin_with([*changes("ada", 1, 2, True, 4), *BOB])
            with pytest.raises(LogsDiffer) as differs:
                exchange(hubs[0], hubs[1], "d")
            assert (differs.value.replica, differs.value.counter) == ("ada", 3)


async def related(hubs: Sequence[Hub], log: Log, said: List[str]) -> None:
    """A relay connects to some hubs, and settles."""
    places = [Place("", cast(Link, Linked(it)), log, it.front("d"), Source(), Troubles(said.append)) for it in hubs]
    try:
        await settle(places)
    finally:
        for place in places:
            place.close()


@pytest.mark.parametrize("at", range(2, 12))
def test_a_relay_goes_on_where_a_server_is_killed_meanwhile(at: int) -> None:
    """It connects anew, and contests nothing. Before, it had all from another hub."""
    for again in range(at, 13):
        hub, log = Hub([*ADA, *BOB]), Log("d")
        other = Hub([*ADA, *BOB, *changes("carl", 1)])
        said: List[str] = []
        asyncio.run(related([other], log, said))
        hub.events[at] = lambda: hub.begin_with([*ADA, *BOB] if again == at else [*ADA[:2], *BOB[:1]])
        hub.events.setdefault(again, lambda: hub.send([*ADA, *BOB]))
        try:
            asyncio.run(related([other, hub], log, said))
        except Lost as error:
            assert str(error) == "d: the server has lost what it had a moment ago"
        hub.events.clear()
        asyncio.run(related([other, hub], log, said))
        assert (log.contested, said) == (set(), [])
        assert hub.server.front() == other.server.front() == {"ada": 4, "bob": 4, "carl": 1}
        hub.begin_with([*changes("ada", 1, 2, True, 4), *BOB])
        with pytest.raises(LogsDiffer) as differs:
            asyncio.run(related([other, hub], log, said))
        assert (differs.value.replica, differs.value.counter) == ("ada", 3)


def test_a_number_is_no_truth_also_at_an_older_server() -> None:
    """To Python 1 and True are equal. The server has another's operation of an own id."""
    for value, other in ((1, True), (True, 1), (0, False), (False, 0)):
        hub = Older(changes("ada", other))
        with Replica("ada") as me:
            me.assign([0, "of ada"], value)
            error = outcome(me, hub)
            assert isinstance(error, Differs) and (error.replica, error.counter) == ("ada", 1)
