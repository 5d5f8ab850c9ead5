"""What a relay says of its members, by clocks that are handed in; and who is accused of what."""

import asyncio
import json
from typing import Any, Awaitable, Callable, Dict, List, Optional, Tuple, TypeVar

import pytest

from jcrdt import relay as relays
from jcrdt.operation_log import Log, Source, texts_of
from jcrdt.pull import pull
from jcrdt.troubles import HOUR, MOST, Troubles
from jcrdt.wire import Misbehaved, Operation, Refused, covers, decoded, encoded, pairs_of

T = TypeVar("T")


def run(work: Awaitable[T]) -> T:
    async def limited() -> T:
        return await asyncio.wait_for(work, 600)

    return asyncio.run(limited())


class Clock:
    """A time that passes when somebody sleeps."""

    def __init__(self) -> None:
        self.now = 1000.0

    def __call__(self) -> float:
        return self.now

    async def sleep(self, seconds: float) -> None:
        self.now += seconds
        await asyncio.sleep(0)


# Texts.

def test_operations_of_many_are_written_as_each_by_itself() -> None:
    texts = ["", ',["op",', '"],["op",[1,"a"]', "\\", '\\",["op",', "\u00e9\u2028\U0001f600", "\n\0"]
    plain: List[Operation] = [["op", [1, "a"], [], [[["m", 0]], text], ["assign", text]] for text in texts]
    # A replica may have the name that each operation begins with.
    named: List[Operation] = [["op", [5, "q"], [["a", 3], ["op", 4]], [[["m", 0]], "k"], ["delete"]],
                              ["op", [6, "op"], [["op", 4], ["q", 5]], [[["l", 0]], [5, "q"]], ["insert", -1]]]
    batches: List[List[Operation]] = [[], plain[:1], plain, named, plain + named, named[:1], [*named, *plain, *named]]
    for batch in batches:
        expected = [json.dumps(it, ensure_ascii=False, separators=(",", ":")).encode() for it in batch]
        assert texts_of(batch) == expected


# Troubles.

def test_each_trouble_begins_and_ends_with_a_line() -> None:
    clock, lines = Clock(), []  # type: Tuple[Clock, List[str]]
    troubles = Troubles(lines.append, clock)
    troubles.end("disk", "well")
    assert lines == []
    for _ in range(2):
        for _ in range(100):
            troubles.begin("disk", "full", "it is full")
            clock.now += 1
        troubles.end("disk", "well")
        troubles.end("disk", "well")
    assert lines == ["it is full", "well"] * 2


def test_what_lasts_is_told_each_hour() -> None:
    clock, lines = Clock(), []  # type: Tuple[Clock, List[str]]
    troubles = Troubles(lines.append, clock)
    for _ in range(6 * 60 + 1):
        troubles.begin("disk", "full", "it is full")
        clock.now += 10
    assert lines == ["it is full", "it is full (for 1 h)"]
    troubles.begin("disk", "gone", "it is gone")
    troubles.begin("other", "full", "the other is full")
    assert lines[2:] == ["it is gone", "the other is full"]


def test_what_happens_all_the_time_fills_no_journal_and_is_not_muted_for_good() -> None:
    clock, lines = Clock(), []  # type: Tuple[Clock, List[str]]
    troubles = Troubles(lines.append, clock)
    for number in range(2000):
        troubles.begin("disk", str(number), f"full {number}")
        troubles.end("disk", f"well {number}")
    assert len(lines) == MOST and "often" in lines[-1]
    clock.now += HOUR
    troubles.end("disk", "unused")
    assert lines[MOST:] == ["well 1999 (3990 more times meanwhile)"], "who is well at last is told so"
    troubles.begin("disk", "again", "full again")
    assert lines[-1] == "full again"


# Members.

class Scripted(relays.Member):
    """A member whose sessions go as they are told: an error at once, or so many seconds of rounds before one."""

    def __init__(self, relay: relays.Relay, sessions: List[Tuple[float, Exception]]) -> None:
        super().__init__(relay, "m")
        self.sessions = sessions

    async def session(self) -> None:
        if not self.sessions:
            raise asyncio.CancelledError
        seconds, error = self.sessions.pop(0)
        clock = self.relay.clock
        until = clock() + seconds
        while clock() < until:
            self.is_connected()
            await self.relay.sleep(1)
        raise error


def told(*sessions: Tuple[float, Exception]) -> List[str]:
    """What the relay tells of a member with these sessions."""
    lines: List[str] = []

    async def work() -> None:
        clock = Clock()
        relay = relays.Relay([], ["d"], 0.2, lines.append, lines.append, clock, clock.sleep)
        try:
            await Scripted(relay, list(sessions)).run()
        except asyncio.CancelledError:
            return

    run(work())
    return lines


FULL, GONE, LIE = relays.Unable("OOM command not allowed"), OSError("refused"), Misbehaved("nonsense")
LEFT_OUT = "m: left out: OOM command not allowed; trying again now and then"
AWAY = "m: not connected: refused; trying again"


def test_a_second_outage_is_told() -> None:
    assert told((5, FULL), (5, FULL), (100, FULL), (100, GONE)) == [
        "m: connected", LEFT_OUT, "m: connected", LEFT_OUT, "m: connected", AWAY]


def test_an_outage_soon_after_one_who_was_left_out_is_told() -> None:
    assert told((5, FULL), (20, GONE), (0, GONE), (0, GONE), (100, GONE)) == [
        "m: connected", LEFT_OUT, AWAY, "m: connected", AWAY]


def test_one_that_is_away_from_the_beginning() -> None:
    assert told((0, GONE), (0, GONE), (10, GONE)) == [AWAY, "m: connected", AWAY]


def test_one_that_is_away_for_hours() -> None:
    """It is tried each 5 seconds at least."""
    assert told(*[(0, GONE)] * 1500) == [AWAY, f"{AWAY} (for 1 h)", f"{AWAY} (for 2 h)"]


def test_one_that_misbehaves_all_the_time_is_named_once_an_hour() -> None:
    assert told(*[(0, LIE)] * 100) == [
        "m: left out: it sends nonsense; trying again now and then" + hours for hours in ("", " (for 1 h)")]


# Refusals of one side.

class Link:
    """A server's session, of a document that takes so many operations and holds some that wait for others."""

    def __init__(self, room: int, held: int) -> None:
        self.room, self.held_limit = room, held
        self.log: List[Operation] = []
        self.waiting: Dict[Tuple[int, str], Operation] = {}

    async def ask_lines(self, lines: List[bytes], take: Optional[Callable[[bytes], Any]] = None) -> List[bytes]:
        replies = [encoded(self.answer(*decoded(it))) for it in lines]
        for reply in replies if take else []:
            assert take
            take(reply)
        return replies

    async def front(self, _: str) -> Dict[str, int]:
        return {it[1][1]: it[1][0] for it in self.log}

    async def ask_all(self, requests: List[List[Any]]) -> List[Exception]:
        """It is of before, and isn't asked for chains."""
        return [Refused(2, "bad-request") for _ in requests]

    def answer(self, word: str, _: str, what: Any, limit: int = 0) -> List[Any]:
        if word == "forget":
            return ["forgotten"] if self.waiting.pop((what[0], what[1]), None) else ["no", 24, "not-held"]
        if word == "ops":
            return ["ops", [it for it in self.log if not covers(dict(what), it[1])][:limit]]
        front = {it[1][1]: it[1][0] for it in self.log}
        if covers(front, what[1]):
            return ["known"]
        if any(not covers(front, (counter, name)) for name, counter in what[2]):
            if len(self.waiting) >= self.held_limit:
                return ["no", 17, "held-full"]
            self.waiting[what[1][0], what[1][1]] = what
            return ["held", what[2]]
        if len(self.log) >= self.room:
            return ["no", 18, "log-full"]
        self.log.append(what)
        return ["applied", 1, 0, what[1]]


def operation(counter: int, replica: str, *front: List[Any]) -> Operation:
    return ["op", [counter, replica], sorted(front), [[["m", 0]], "k"], ["assign", counter]]


def chain(replica: str, count: int, first: int = 1) -> List[Operation]:
    return [operation(it, replica, *([[replica, it - 1]] if it > 1 else [])) for it in range(first, first + count)]


def test_a_full_side_has_one_line() -> None:
    """800 operations for a server that takes 100 and holds 256, again after each of three connections."""
    lines: List[str] = []

    async def work() -> None:
        log, link, clock = Log("d"), Link(100, 256), Clock()
        for it in chain("a", 400) + chain("b", 400):
            log.add(it)
        troubles = Troubles(lines.append, clock)
        for _ in range(3):
            place = relays.Place("m", link, log, await link.front("d"), Source(), troubles)  # type: ignore[arg-type]
            for _ in range(3):
                await place.push()
                place.tell_if_agreed()
            assert not place.agrees() and not link.waiting
        assert len(lines) == 1 and lines[0].startswith("m: d: refused 101 of a: 18 log-full: the document is full: renew it")
        clock.now += HOUR
        place = relays.Place("m", link, log, await link.front("d"), Source(), troubles)  # type: ignore[arg-type]
        await place.push()
        assert len(lines) == 2 and "18 log-full" in lines[1]
        link.room = 5000
        place = relays.Place("m", link, log, await link.front("d"), Source(), troubles)  # type: ignore[arg-type]
        await place.push()
        place.tell_if_agreed()
        assert place.agrees() and lines[2:] == ["m: d: it has all, and refuses nothing"]

    run(work())


def test_what_is_held_for_others_is_told_once() -> None:
    """A server whose place for held operations is full of others': one line, however many are put off."""
    lines: List[str] = []

    async def work() -> None:
        log, link = Log("d"), Link(1000, 0)
        for it in chain("a", 50):
            log.add(it)
        place = relays.Place("m", link, log, {"a": 1}, Source(), Troubles(lines.append, Clock()))  # type: ignore[arg-type]
        for _ in range(5):
            await place.push()
            place.has = {"a": 1}
            place._at = 0  # as `look_again` begins anew
        assert len(lines) == 1 and "17 held-full" in lines[0]

    run(work())


# Accusations.

class Racing(Link):
    """A server that logs an operation of a peer and one of its own behind each reply to `front`: `honest` ones are in its next
    front, others never."""

    def __init__(self, is_honest: bool) -> None:
        super().__init__(10_000, 0)
        self.is_honest, self.count, self.asked = is_honest, 0, 0
        self.log = [operation(1, "b"), *(operation(it, "a", ["a", it - 1] if it > 2 else ["b", 1]) for it in range(2, 200))]

    async def front(self, _: str) -> Dict[str, int]:
        self.asked += 1
        front = {it[1][1]: it[1][0] for it in self.log}
        if self.count < 3 or not self.is_honest:
            self.count += 1
            last, peer = self.log[-1][1][0], next(it[1][0] for it in reversed(self.log) if it[1][1] == "b")
            if self.is_honest:
                self.log.append(operation(last + 1, "b", ["a", last], ["b", peer]))
            self.log.append(operation(last + 2, "a", ["a", last], ["b", last + 1]))
        return front


def test_who_logs_something_of_a_peer_meanwhile_is_not_accused() -> None:
    """More than a page behind: what came between the front and the pages depends on what the front didn't have."""
    async def work() -> None:
        log, link = Log("d"), Racing(True)
        place = relays.Place("m", link, log, {}, Source(), Troubles(print))  # type: ignore[arg-type]
        await pull(link, place)  # type: ignore[arg-type]
        await pull(link, place)  # type: ignore[arg-type]
        assert log.contested == set() and log.front == {it[1][1]: it[1][0] for it in link.log}
        assert len(log.operations) == len(link.log)

    run(work())


def test_who_hands_out_operations_without_others_is_accused() -> None:
    """Its front never covers what is missing: it is contested at once, and left out the next time."""
    async def work() -> None:
        log, link = Log("d"), Racing(False)
        place = relays.Place("m", link, log, {}, Source(), Troubles(print))  # type: ignore[arg-type]
        with pytest.raises(Misbehaved):
            for _ in range(3):
                await pull(link, place)  # type: ignore[arg-type]
        assert link.asked < 10

    run(work())


def test_nobody_is_believed_for_ever() -> None:
    """A server whose front grows by what is missing each time, and that never hands it out."""
    class Growing(Racing):
        async def front(self, document: str) -> Dict[str, int]:
            front = await super().front(document)
            return {**front, "b": front["a"] + 1} if self.asked % 2 == 0 else front

    async def work() -> None:
        log, link = Log("d"), Growing(False)
        place = relays.Place("m", link, log, {}, Source(), Troubles(print))  # type: ignore[arg-type]
        with pytest.raises(Misbehaved):
            for _ in range(50):
                await pull(link, place)  # type: ignore[arg-type]

    run(work())


def test_the_front_of_the_fake_server_is_one() -> None:
    assert pairs_of(run(Racing(True).front("d"))) == [["a", 199], ["b", 1]]
