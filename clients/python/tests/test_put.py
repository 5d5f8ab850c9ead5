"""Nested writes of a session: none begins without room for all of it, and what differs alone is sent."""

import asyncio
import bisect
import random
from typing import Any, Callable, Iterator, List

import pytest
from conftest import Server
from test_session import BOB, VALUE, kinds

import jcrdt
from jcrdt import Counter, Refused, Session, aio, difference, room
from jcrdt.protocol import LIMITS

Serve = Callable[..., Server]
LOG = LIMITS["log"]


@pytest.fixture
def session() -> Iterator[Session]:
    with jcrdt.started(["d"], "a") as server:
        server.open("d")
        yield server


def fill(session: Session, count: int) -> None:
    """Makes the log as long as that, by assignments to one key."""
    at = sum(session.front("d").values())
    session.ask_all([["assign", "d", [0, "churn"], number] for number in range(at, count)])


def ids_of(session: Session) -> List[Any]:
    return [it[0] for it in session.items("d", [0, "list"])]


def made(session: Session, value: Any) -> List[Any]:
    """The mutations that a put of what differs makes."""
    front = session.front("d")
    session.put("d", [0], value, only="changed")
    assert kinds(session.plain("d", [0])) == kinds(value)
    return [it[4] for it in session.operations("d", front)]


# Room.

def test_a_put_without_room_changes_nothing(session: Session) -> None:
    """The last operation that has room goes in; one more is refused before the old value is cleared."""
    old = {"config": {f"c{number}": number for number in range(20)}, "list": [{"a": 1}]}
    session.put("d", [0], old)
    # 1 for {}, 1 for `config`, 10 for its keys.
    new = {"config": {f"c{number}": number + 1 for number in range(10)}}
    fill(session, LOG - 11)
    front = session.front("d")
    with pytest.raises(Refused, match="18 log-full"):
        session.put("d", [0], new)
    assert session.front("d") == front and session.plain("d", [0, "config"]) == old["config"]
    with pytest.raises(Refused, match="18 log-full"):
        session.extend("d", [0, "list"], list(range(12)))
    assert session.front("d") == front
    session.put("d", [0, "config"], new["config"])
    assert sum(session.front("d").values()) == LOG and session.plain("d", [0]) == {**new, **session.plain("d", [0])}
    with pytest.raises(Refused, match="18 log-full"):
        session.put("d", [0], 1)


def test_each_part_is_counted(session: Session) -> None:
    values: List[Any] = [VALUE, {}, [], 1, Counter(2**70), [Counter(1), {"a": [[]]}], {"a": {"b": {}}}]
    for value in values:
        front = session.front("d")
        session.put("d", [0], value)
        assert len(list(session.operations("d", front))) == room.count_of(value), value


def test_room_beside_other_replicas(monkeypatch: pytest.MonkeyPatch) -> None:
    """The counters of a front say less than the log's length at least and more at most: then it is counted."""
    limit_of_log = 10_000
    monkeypatch.setattr(room, "OPERATION_LIMIT", limit_of_log)
    logs = {"a": list(range(1, 5_001)), "b": list(range(5_001, limit_of_log - 99)), "c": list(range(1, 41))}
    length = sum(map(len, logs.values()))
    asked: List[int] = []

    def answer(request: Any) -> List[Any]:
        if request[0] == "front":
            return [[[name, log[-1]] for name, log in sorted(logs.items())]]
        word, _, pairs, limit = request
        assert word == "ops" and limit <= 64
        front = dict(pairs)
        asked.append(1)
        lacking = [(it, name) for name, log in logs.items() for it in log[bisect.bisect(log, front.get(name, 0)):][:limit]]
        return [[["op", [counter, name], [[name, counter - 1]] if counter > 1 else [], [[], 0], ["delete"]]
                 for counter, name in lacking[:limit]]]

    def checked(needed: int) -> int:
        """How many requests it takes to know that so many have room."""
        asked.clear()
        steps = room.check("d", needed)
        try:
            requests = next(steps)
            while True:
                requests = steps.send([answer(it) for it in requests])
        except StopIteration:
            return len(asked)

    for needed in (1, limit_of_log - length):
        assert checked(needed) == 3, "the first operation of each replica"
    with pytest.raises(Refused, match="18 log-full"):
        checked(limit_of_log - length + 1)
    # Every second counter is another replica's: nothing but counting says how many there are.
    logs["a"], logs["b"], logs["c"] = list(range(1, 6_001, 2)), list(range(2, 6_001, 2)), list(range(5_901, 6_001))
    assert checked(limit_of_log - 6_100) < 110
    with pytest.raises(Refused, match="18 log-full"):
        checked(limit_of_log - 6_100 + 1)


def test_room_is_asked_for_by_tasks_too(serve: Serve, monkeypatch: pytest.MonkeyPatch) -> None:
    server = serve("d")
    monkeypatch.setattr(room, "OPERATION_LIMIT", 100)

    async def test() -> None:
        async with aio.connected(server.address) as session:
            await session.open("d")
            await session.put("d", [0], {"a": 1, "b": 2})
            await session.ask_all([["assign", "d", [0, "churn"], it] for it in range(96)])
            with pytest.raises(Refused, match="18 log-full"):
                await session.put("d", [0], {"c": 1})
            assert await session.keys("d", [0]) == ["a", "b", "churn"]
            await session.put("d", [0], {"a": 1, "b": 3, "churn": 95}, only="changed")
            assert await session.values("d", [0, "b"]) == [3]

    asyncio.run(asyncio.wait_for(test(), 600))


# What differs.

def test_what_differs_alone_is_sent(session: Session) -> None:
    session.put("d", [0], {"a": 1, "b": {"c": [1, 2, {"x": 1, "y": 2}], "gone": 1}, "n": Counter(5)})
    assert made(session, {"a": 1, "b": {"c": [1, 2, {"x": 1, "y": 2}], "gone": 1}, "n": Counter(5)}) == []
    assert made(session, {"a": 1, "b": {"c": [1, 2, {"x": 1, "y": 3}], "gone": 1}, "n": Counter(5)}) == [["assign", 3]]
    assert made(session, {"a": 1, "b": {"c": [1, 2, {"x": 1, "y": 3}]}, "n": Counter(8)}) == [["delete"], ["add", 3]]
    assert made(session, {"a": True, "b": {"c": [1, 2, {"x": 1, "y": 3}]}, "n": Counter(8)}) == [["assign", True]]
    assert made(session, {"a": True, "b": {"c": [0, 1, 2, {"x": 1, "y": 3}]}, "n": Counter(8)}) == [["insert", 0]]
    assert made(session, {"a": True, "b": {"c": [0, 2, {"x": 1, "y": 3}, [4, {"z": 1}]]}, "n": Counter(8)}) == [
        ["insert", []], ["insert", {}], ["assign", 1], ["insert", 4], ["delete"]]
    assert made(session, {"a": True, "b": {}, "n": Counter(8)}) == [["assign", {}]]
    assert made(session, {"a": True, "b": {}, "n": Counter(8), "m": {"counter": 8}}) == [["assign", {}], ["assign", 8]]


def test_elements_stay_who_they_are(session: Session) -> None:
    """A record that changed is mended where it is: what others have bound and write there stays."""
    rows = [{"id": number, "name": f"n{number}", "tags": ["x"]} for number in range(100)]
    session.put("d", [0, "list"], rows)
    before = ids_of(session)
    rows[7]["name"], rows[50]["tags"] = "new", ["x", "y"]
    del rows[20]
    front = session.front("d")
    session.put("d", [0, "list"], rows, only="changed")
    assert session.plain("d", [0, "list"]) == rows
    assert ids_of(session) == before[:20] + before[21:]
    assert len(list(session.operations("d", front))) == 3


def test_an_import_each_night_costs_what_changed(session: Session, monkeypatch: pytest.MonkeyPatch) -> None:
    """More than half a document of values of which one changes: each night costs one operation, where a second whole one has no
    room."""
    monkeypatch.setattr(room, "OPERATION_LIMIT", 1000)
    table = {f"part {part}": {f"key {number}": number for number in range(100)} for part in range(6)}
    session.put("d", [0], table)
    with pytest.raises(Refused, match="18 log-full"):
        session.put("d", [0], table)
    for night in range(3):
        table["part 5"][f"key {night}"] = -1
        session.put("d", [0], table, only="changed")
    assert session.plain("d", [0]) == table
    assert sum(session.front("d").values()) == 6 * 101 + 1 + 3


def test_a_value_that_takes_fewer_operations_anew(session: Session) -> None:
    """What others made meanwhile stays only where a mending is no more than a new value."""
    session.put("d", [0], {"list": list(range(50))})
    assert len(made(session, {"list": ["a"]})) == 2


def test_a_conflict_is_settled(session: Session) -> None:
    session.put("d", [0], {"title": "Trip", "x": 1})
    session.deliver("d", BOB)
    assert made(session, {"title": "Trip", "x": 1}) == [["assign", "Trip"]]


def random_value(source: random.Random, depth: int = 0) -> Any:
    kind = source.randrange(6 if depth < 3 else 4)
    if kind == 4:
        return {source.choice("abcd"): random_value(source, depth + 1) for _ in range(source.randrange(4))}
    if kind == 5:
        return [random_value(source, depth + 1) for _ in range(source.randrange(5))]
    return Counter(source.randrange(-3, 4)) if kind == 3 else source.choice([0, 1, True, None, "x", "y", {}, []])


@pytest.mark.parametrize("seed", range(4))
def test_random_values(session: Session, seed: int) -> None:
    """Each value is shown afterwards, and costs no more than what was planned and what it costs anew."""
    source = random.Random(seed)
    for _ in range(60):
        value, shown, front = random_value(source), session.plain("d", [0]), session.front("d")
        session.put("d", [0], value, only="changed")
        count = len(list(session.operations("d", front)))
        assert kinds(session.plain("d", [0])) == kinds(value)
        plan = difference.planned(shown, value)
        assert count == (plan.count if plan else 0) <= room.count_of(value), (shown, value)


def test_others_change_the_list_meanwhile(serve: Serve) -> None:
    """Each record is mended where it is, though another session inserts at the head all the time."""
    from test_session import writing
    server = serve("d")
    rows = [{"id": number, "n": [0]} for number in range(40)]
    with jcrdt.connected(server.address) as session:
        session.open("d")
        session.put("d", [0, "list"], rows)
        with writing(server.address, "d", [0, "list"], 0.001):
            for turn in range(1, 6):
                shown = session.plain("d", [0, "list"])
                for row in (it for it in shown if isinstance(it, dict)):
                    row["n"] = [turn]
                session.put("d", [0, "list"], shown, only="changed")
        found = session.plain("d", [0, "list"])
        assert [it for it in found if isinstance(it, dict)] == [{"id": number, "n": [5]} for number in range(40)]
        others = [int(it.split()[1]) for it in found if isinstance(it, str)]
        assert others == sorted(set(others), reverse=True)
