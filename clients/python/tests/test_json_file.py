"""A document's value as JSON with tags: what people wrote isn't taken for a tag, and all comes back, conflicts and counters too."""

import asyncio
import json
from pathlib import Path
from typing import Any, Callable, Iterator, List, Tuple

import pytest
from conftest import Server, tool
from test_renew import alike, fill
from test_session import kinds

import jcrdt
from jcrdt import Conflict, Counter, Refused, Session, aio
from jcrdt.tagged import tagged, untagged

Serve = Callable[..., Server]
# What people may write that looks like a counter, a conflict or a tag.
LOOKS_LIKE = {"votes": {"counter": 5}, "title": {"conflict": ["a", "b"]}, "$counter": 5, "$": {"$conflict": ["a", "b"]}, "$$": 1,
              "list": [{"$counter": 1}, {"$$counter": 1}, {"counter": 5}]}


@pytest.fixture
def session() -> Iterator[Session]:
    with jcrdt.started(["old", "new"], "alice") as server:
        server.open("old")
        server.open("new")
        yield server


def test_what_people_wrote_is_no_tag(session: Session) -> None:
    value = {"theirs": LOOKS_LIKE, "real": {"votes": Counter(2**70), "title": Conflict(["a", {"$x": [Counter(-1)]}, Counter(0)])}}
    data = json.loads(json.dumps(tagged(value)))
    assert kinds(untagged(data)) == kinds(value)
    assert data["real"]["votes"] == {"$counter": 2**70} and data["theirs"]["votes"] == {"counter": 5}
    assert data["theirs"]["$$counter"] == 5 and data["theirs"]["list"][:2] == [{"$$counter": 1}, {"$$$counter": 1}]
    session.put("old", [0], LOOKS_LIKE)
    session.load_json("new", [0], session.export("old"))
    assert kinds(session.plain("new", [0])) == kinds(LOOKS_LIKE) == kinds(session.plain("old", [0]))
    assert session.sum("new", [0, "votes"]) == 0


def made(session: Session, data: Any) -> Tuple[int, int]:
    """How many operations and how many replicas it takes to load a value. What is told is what is logged."""
    before = session.front("new")
    count = session.load_json("new", [0], data)
    assert len(list(session.operations("new", before))) == count
    return count, len(session.front("new")) - len(before)


def test_counters_and_conflicts_come_back(session: Session) -> None:
    """All that a document can show. A second time nothing is sent; and what changed alone."""
    fill(session)
    data = json.loads(json.dumps(session.export("old")))
    count, replicas = made(session, data)
    # alice, and as many as the greatest conflict has values.
    assert replicas == 1 + 3 and count < 120
    assert alike(session.plain("new", [0])) == alike(session.plain("old", [0]))
    assert session.sum("new", [0, "huge"]) == 2 * (2**63 - 1) and session.sum("new", [0, "title"]) == 6
    assert made(session, data) == (0, 0)
    session.add("old", [0, "votes"], 7)
    session.assign("old", [0, "deep", "a", 1, 2], "two")
    assert made(session, session.export("old")) == (2, 0)
    assert alike(session.plain("new", [0])) == alike(session.plain("old", [0]))
    session.assign("old", [0, "title"], "Settled")
    assert made(session, session.export("old")) == (1, 0)
    assert session.plain("new", [0, "title"]) == "Settled"


def test_a_conflict_keeps_its_order(session: Session) -> None:
    """Programs that need one value take the last."""
    conflicts: List[List[Any]] = [["a", "b", "c"], ["c", "b", "a"], ["b", {"x": {"$conflict": [2, 1]}}]]
    for values in conflicts:
        session.load_json("new", [0], {"title": {"$conflict": values}, "list": [{"$conflict": values}]})
        assert made(session, {"title": {"$conflict": values}, "list": [{"$conflict": values}]}) == (0, 0)
        scalars = [it for it in values if isinstance(it, str)]
        assert session.values("new", [0, "title"]) == scalars and session.values("new", [0, "list", 1]) == scalars
    assert session.values("new", [0, "list", 1, "x"]) == [2, 1]


def test_a_value_below_a_map(session: Session) -> None:
    session.put("new", [0], {"a": {"b": 1}, "c": 2})
    assert session.load_json("new", [0, "a"], {"b": {"$conflict": [1, 2]}, "n": {"$counter": 4}}) == 3
    assert session.plain("new", [0]) == {"a": {"b": Conflict([1, 2]), "n": Counter(4)}, "c": 2}
    cursors: List[List[Any]] = [[0, 1], ["name"], []]
    for cursor in cursors:
        with pytest.raises(ValueError, match="0 and texts"):
            session.load_json("new", cursor, 1)


@pytest.mark.parametrize("wrong", [{"$counter": "5"}, {"$counter": True}, {"$conflict": []}, {"$conflict": 1}, {"$x": 1},
                                   {"$conflict": [[1], [2]]}, {"$conflict": [{"a": 1}, {}]}, {"$counter": 1, "b": 2},
                                   {"$conflict": [{"$counter": 1}, {"$counter": 2}]}, {"$conflict": [{"$conflict": [1, 2]}]}, 1.5])
def test_what_is_no_such_value_changes_nothing(session: Session, wrong: Any) -> None:
    session.put("new", [0], {"a": 1})
    front = session.front("new")
    for data in (wrong, {"a": wrong}, {"a": [1, wrong]}):
        with pytest.raises(ValueError):
            session.load_json("new", [0], data)
    assert session.front("new") == front


def test_without_room_for_replicas_nothing_is_changed(session: Session) -> None:
    """253 replicas are there, and alice: two more have room, three don't."""
    for number in range(253):
        session.deliver("new", ["op", [1, f"r{number}"], [], [[["m", 0]], "k"], ["assign", 1]])
    session.assign("new", [0, "a"], 1)
    front = session.front("new")
    with pytest.raises(Refused, match="19 too-many-replicas"):
        session.load_json("new", [0], {"a": {"$conflict": [1, 2, 3]}})
    assert session.front("new") == front and session.values("new", [0, "a"]) == [1]
    session.load_json("new", [0], {"a": {"$conflict": [1, 2]}})
    assert session.values("new", [0, "a"]) == [1, 2]


def test_tasks_load_too(serve: Serve) -> None:
    server = serve("d")

    async def test() -> None:
        async with aio.connected(server.address) as session:
            await session.open("d")
            data = {"a": {"$counter": 5}, "b": {"$conflict": ["x", "y"]}}
            # The map; nothing, and 5 to it; x and y.
            assert await session.load_json("d", [0], data) == 1 + 2 + 2
            assert await session.export("d") == data and await session.load_json("d", [0], data) == 0

    asyncio.run(asyncio.wait_for(test(), 600))


def test_the_tools(serve: Serve, tmp_path: Path) -> None:
    server, file = serve("old", "new", name="alice"), str(tmp_path / "value.json")
    with jcrdt.connected(server.address) as session:
        session.open("old")
        session.open("new")
        session.put("old", [0], {"theirs": LOOKS_LIKE, "n": Counter(3), "title": "Café\n"})
        assert tool("export", server.address, "old", file) == ""
        assert tool("load-json", server.address, "new", file).startswith("loaded: ")
        assert kinds(session.plain("new", [0])) == kinds(session.plain("old", [0]))
        assert tool("load-json", server.address, "new", "-", text=Path(file).read_text()) == "loaded: nothing differed\n"
        assert json.loads(tool("export", server.address, "new", "-")) == json.loads(Path(file).read_text())
        assert "/n: " in tool("load-json", server.address, "new", "-", text='{"n":{"$counter":"3"}}', status=1)
        assert "load-json: " in tool("load-json", server.address, "new", "-", text="{", status=1)
        assert session.sum("new", [0, "n"]) == 3
