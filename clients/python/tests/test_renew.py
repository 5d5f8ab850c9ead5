"""A document that fills up is counted, and put into a new one: with its conflicts, once, and to the end."""

import json
import re
import threading
from pathlib import Path
from typing import Any, Callable, Dict, List, Tuple

import pytest
from conftest import Server, takes_long, tool, wait_until

import jcrdt
from jcrdt import Refused, Session, renew, settled
from jcrdt.wire import Operation

Serve = Callable[..., Server]
MAP, LIST = ["m", 0], ["l", "list"]


def of(replica: str) -> Callable[..., Operation]:
    """Makes operations of a replica that knows of its own, and of those that it is told of."""
    front: Dict[str, int] = {}

    def make(cursor: List[Any], *mutation: Any, known: Any = ()) -> Operation:
        front.update(known)
        before = [list(it) for it in sorted(front.items())]
        front[replica] = 1 + max(front.values(), default=0)
        return ["op", [front[replica], replica], before, cursor, list(mutation)]
    return make


def fill(alice: Session) -> None:
    """A document with all that a document can show."""
    alice.put("old", [0], {"title": "Plan", "empty": {}, "none": [], "null": None, "deep": {"a": [[1, 2], {"b": []}]},
                           "list": ["one", "two", {"x": 1}, None], "word": "here"})
    alice.add("old", [0, "votes"], 3)
    alice.add("old", [0, "list", 1], 4)
    alice.add("old", [0, "huge"], 2**63 - 1)
    alice.add("old", [0, "huge"], 2**63 - 1)
    # A counter alone in a list, an element and a key that hold nothing.
    alice.let("old", "last", [0, "list", 4])
    alice.delete("old", ["last"])
    alice.add("old", ["last"], 5)
    alice.append("old", [0, "list"], {})
    alice.assign("old", [0, "list", 5, "x"], 1)
    alice.delete("old", [0, "list", 5])
    alice.assign("old", [0, "hollow", "x"], 1)
    alice.delete("old", [0, "hollow", "x"])
    two, three = alice.items("old", [0, "list"])[1][0], alice.items("old", [0, "list"])[2][0]
    front = [["alice-1", alice.front("old")["alice-1"]]]
    known = [["alice-1", max(two[0], three[0])]]
    bob, carol = of("bob-1"), of("carol-1")
    alice.assign("old", [0, "list", 2], "TWO")
    alice.put("old", [0, "list", 3, "x"], [7, 8])
    alice.put("old", [0, "word", "below"], {"more": 1})
    for operation in (bob([[MAP], "title"], "assign", "Trip"), carol([[MAP], "title"], "assign", {}), carol([[MAP], "title"], "add", 6),
                      bob([[MAP], "none"], "assign", "some"), bob([[MAP], "empty"], "assign", []),
                      bob([[MAP, LIST], two], "assign", "deux", known=front), carol([[MAP, LIST], two], "assign", {}, known=known),
                      bob([[MAP, LIST, ["m", three]], "x"], "assign", "ex")):
        assert alice.deliver("old", operation) == 1
    # Conflicts below a conflict: a key, a list and an element in the map that conflicts with a text.
    alice.assign("old", [0, "word", "below", "list"], [])
    alice.insert("old", [0, "word", "below", "list", 0], "inner")
    inner = alice.items("old", [0, "word", "below", "list"])[0][0]
    front = [list(it) for it in sorted(alice.front("old").items())]
    alice.assign("old", [0, "word", "below", "list", 1], "of alice")
    alice.assign("old", [0, "word", "below", "more"], 2)
    dave, path = of("dave-1"), [MAP, ["m", "word"], ["m", "below"]]
    for operation in (dave([[*path, ["l", "list"]], inner], "assign", {}, known=front), dave([path, "more"], "assign", 3),
                      dave([[MAP], "word"], "assign", "there")):
        alice.deliver("old", operation)


def alike(value: Any) -> Any:
    """The value with the items of its conflicts in the order of their texts: their ids are others."""
    if isinstance(value, dict):
        inner = {key: alike(it) for key, it in value.items()}
        return {"conflict": sorted(map(repr, inner["conflict"]))} if type(value).__name__ == "Conflict" else inner
    return [alike(it) for it in value] if isinstance(value, list) else value


def put(server: Server, new: str, *words: str, status: int = 0) -> str:
    return tool("renew", "put", server.address, "--doc", "old", "--into", server.address, "--new-doc", new, *words, status=status)


def front_printed(told: str) -> str:
    found = re.search(r"--front '(.*?)'", told)
    assert found is not None, told
    return found[1]


@pytest.fixture
def server(serve: Serve) -> Server:
    """A server with a document that has everything."""
    found = serve("old", "kept", "last", "first", "half", name="alice")
    with jcrdt.connected(found.address) as alice:
        alice.open("old")
        fill(alice)
    return found


def test_all_is_put(server: Server, tmp_path: Path) -> None:
    told = put(server, "kept", "--map", str(tmp_path / "map"))
    with jcrdt.connected(server.address) as alice:
        for document in ("old", "kept", "last", "first"):
            alice.open(document)
        before = alice.plain("old", [0])
        assert json.dumps(before).count("conflict") > 6 and "it shows what old shows" in told
        assert alike(alice.plain("kept", [0])) == alike(before)
        for rule, choose in (("last", lambda values: values[-1]), ("first", lambda values: values[0])):
            put(server, rule, "--conflicts", rule)
            assert alice.plain(rule, [0]) == settled(before, choose)
        # Each element is found again by the map of ids.
        lines = [json.loads(line) for line in (tmp_path / "map").read_text().splitlines()]
        for cursor in ([0, "list"], [0, "deep", "a"], [0, "deep", "a", 1], [0, "word", "below", "list"]):
            pairs = [[old[0], new[0]] for old, new in zip(alice.items("old", cursor), alice.items("kept", cursor))]
            assert pairs and all(pair in lines for pair in pairs)


def test_late_changes_come_to_an_end(server: Server, tmp_path: Path) -> None:
    """`since` prints the front to go on from: the second time it lists nothing. It names the new elements."""
    path = str(tmp_path / "map")
    front = front_printed(put(server, "kept", "--map", path))
    with jcrdt.connected(server.address) as alice:
        alice.open("old")
        alice.open("kept")
        old, new = alice.items("old", [0, "list"])[2][0], alice.items("kept", [0, "list"])[2][0]
        alice.assign("old", [0, "list", 3, "x"], 1)
        words = ("renew", "since", server.address, "--doc", "old", "--front", front)
        assert f"assign /list/{old[0]}@{old[1]}/x = 1" in tool(*words)
        assert f"assign /list/{new[0]}@{new[1]}/x = 1" in tool(*words, "--map", path)
        alice.assign("old", [0, "title"], "late\x1b[2J")
    told = tool("renew", "since", server.address, "--doc", "old", "--front", front)
    assert 'assign /title = "late\\u001b[2J"' in told and "2 operations since then" in told
    again = tool("renew", "since", server.address, "--doc", "old", "--front", front_printed(told))
    assert again == "0 operations since then\n"


def test_late_changes_are_written_as_operations(server: Server, tmp_path: Path) -> None:
    """As the log has them, one a line, in an order in which they can be delivered: a document that was saved at the front takes
    them. The file is replaced as a whole."""
    front, lines, saved = front_printed(put(server, "kept")), tmp_path / "lines", str(tmp_path / "saved")
    tool("save", server.address, "old", saved)
    words = ("renew", "since", server.address, "--doc", "old", "--lines", str(lines), "--front")
    with jcrdt.connected(server.address) as alice:
        alice.open("old")
        known = alice.front("old")
        alice.append("old", [0, "list"], {"text": "late\x1b[2J"})
        alice.add("old", [0, "votes"], 2)
        alice.delete("old", [0, "list", 1])
        late = [jcrdt.wire.encoded(it).decode() for it in alice.operations("old", known)]
        told = tool(*words, front)
        assert lines.read_text().splitlines() == late and len(late) == 4 and "4 operations since then" in told
        with jcrdt.started(["old"], "reader") as reader:
            reader.open("old")
            for line in [*Path(saved).read_text().splitlines(), *lines.read_text().splitlines()]:
                assert reader.deliver("old", json.loads(line)) == 1
            assert reader.show("old", [0]) == alice.show("old", [0])
    assert tool(*words, front_printed(told)) == "0 operations since then\n" and lines.read_text() == ""


def lines_of(server: Server, front: str, tmp_path: Path) -> Tuple[str, str]:
    """What was done since, as a file of operations, and the front to go on from."""
    path = str(tmp_path / "late")
    return path, tool("renew", "since", server.address, "--doc", "old", "--front", front, "--lines", path)


def test_late_changes_are_made_again(serve: Serve, tmp_path: Path) -> None:
    """Once, by a file of them: edits of elements that were inserted meanwhile too, insertions behind deleted elements, and counters.
    An element that another deleted in the new document stays away: an edit of it is left out, and told."""
    server, path = serve("old", "kept", name="alice"), str(tmp_path / "map")
    again = ("renew", "again", server.address, "--doc", "old", "--into", server.address, "--new-doc", "kept", "--map", path, "--lines")
    with jcrdt.connected(server.address) as alice:
        alice.open("old")
        alice.open("kept")
        alice.put("old", [0], {"list": ["zero", "a", {"text": "b"}, "c"], "title": "x"})
        alice.delete("old", [0, "list", 1])
        front = front_printed(put(server, "kept", "--map", path))
        alice.delete("kept", [0, "list", 3])
        alice.assign("old", [0, "list", 2, "text"], "b2")
        alice.append("old", [0, "list"], {"text": "d"})
        alice.assign("old", [0, "list", 4, "text"], "d2")
        alice.let("old", "a", [0, "list", 1])
        alice.delete("old", ["a"])
        alice.insert("old", ["a"], "behind a")
        alice.add("old", [0, "n"], 5)
        alice.assign("old", [0, "list", 3], "c2")
        alice.delete("old", [0, "title"])
        [counter, replica], _ = alice.items("old", [0, "list"])[2]
        late, told = lines_of(server, front, tmp_path)
        for _ in range(2):
            *left_out, said = tool(*again, late).splitlines()
            assert [it.split(": ")[0].split(maxsplit=1)[1] for it in left_out] == [f'assign /list/{counter}@{replica} = "c2"']
            assert said == "kept: 8 of 9 operations were made again, 1 can't be"
            assert alice.plain("kept", [0]) == {"list": ["behind a", {"text": "b2"}, {"text": "d2"}], "n": jcrdt.Counter(5)}
        # The next round, with an edit of an element that came by the first one.
        alice.assign("old", [0, "list", 4, "text"], "d3")
        alice.add("old", [0, "n"], 1)
        late, told = lines_of(server, front_printed(told), tmp_path)
        assert "2 of 2" in tool(*again, late)
        assert alice.plain("kept", [0, "list", 3]) == {"text": "d3"} and alice.sum("kept", [0, "n"]) == 6


def test_what_cannot_be_made_again_is_told(server: Server, tmp_path: Path) -> None:
    """An edit in an element that the map hasn't. And one of two servers that lacks the edits makes none."""
    path = tmp_path / "map"
    front = front_printed(put(server, "kept", "--map", str(path)))
    path.write_text("")
    with jcrdt.connected(server.address) as alice:
        alice.open("old")
        alice.open("kept")
        element = alice.items("old", [0, "list"])[2][0]
        alice.assign("old", [0, "list", 3, "x"], "lost")
        alice.delete("old", [0, "list", 3])
        alice.assign("old", [0, "title"], "late")
        late, _ = lines_of(server, front, tmp_path)
        words = ("--doc", "old", "--into", server.address, "--new-doc", "kept", "--map", str(path), "--lines", late)
        said = tool("renew", "again", server.address, *words)
        assert f'assign /list/{element[0]}@{element[1]}/x = "lost": its element isn\'t in kept' in said
        assert said.endswith("kept: 1 of 3 operations were made again, 1 can't be\n")
        assert alice.values("kept", [0, "title"]) == ["late"]
        before = alice.front("kept")
        assert "these servers lack" in tool("renew", "again", server.address, "--doc", "last", *words[2:], status=1)
        assert alice.front("kept") == before


def test_one_that_is_made_again_is_continued(server: Server, tmp_path: Path, monkeypatch: pytest.MonkeyPatch) -> None:
    """It was cut off behind 20 of 40 additions, and others write to the new document meanwhile."""
    path = str(tmp_path / "map")
    front = front_printed(put(server, "kept", "--map", path))
    with jcrdt.connected(server.address) as alice:
        alice.open("old")
        alice.open("kept")
        alice.ask_all([["add", "old", [0, "late"], 1]] * 40)
        late, _ = lines_of(server, front, tmp_path)
        words = ["again", server.address, "--doc", "old", "--into", server.address, "--new-doc", "kept", "--map", path, "--lines", late]

        def cut(session: Session, document: str, operations: List[Operation], *_: Any) -> None:
            for operation in operations[:20]:
                session.deliver(document, operation)
            raise KeyboardInterrupt

        with monkeypatch.context() as patch, pytest.raises(KeyboardInterrupt):
            patch.setattr(renew, "deliver", cut)
            renew.main(words)
        assert alice.sum("kept", [0, "late"]) == 20
        alice.assign("kept", [0, "title"], "written meanwhile")
        for _ in range(2):
            assert "40 of 40" in tool("renew", *words)
            assert alice.sum("kept", [0, "late"]) == 40 and alice.values("kept", [0, "title"]) == ["written meanwhile"]


def test_one_that_was_interrupted_is_continued(server: Server, monkeypatch: pytest.MonkeyPatch) -> None:
    """The same command continues it, also if the old document was edited meanwhile; another renewal is refused."""
    delivered: List[int] = []

    def cut(session: Session, document: str, operations: List[Operation], *_: Any) -> None:
        delivered.append(len(operations))
        for operation in operations[:20]:
            session.deliver(document, operation)
        if len(operations) > 20:
            raise KeyboardInterrupt

    words = ["put", server.address, "--doc", "old", "--into", server.address, "--new-doc", "kept"]
    with monkeypatch.context() as patch, pytest.raises(KeyboardInterrupt):
        patch.setattr(renew, "deliver", cut)
        renew.main(words)
    assert delivered[1] > 20
    with jcrdt.connected(server.address) as alice:
        alice.open("old")
        front = alice.ask("front", "old")[0]
        before = alice.plain("old", [0])
        alice.assign("old", [0, "title"], "edited meanwhile")
    assert "another renewal" in put(server, "kept", status=1)
    told = put(server, "kept", "--front", json.dumps(front))
    assert "it shows what old shows" in told
    assert put(server, "kept", "--front", json.dumps(front)).endswith(told.split("\n", 1)[1])
    with jcrdt.connected(server.address) as alice:
        alice.open("kept")
        assert alike(alice.plain("kept", [0])) == alike(before)
        alice.assign("kept", [0, "title"], "new")
    assert "alice-1 has written to it" in put(server, "kept", "--front", json.dumps(front), status=1)


def test_two_renewers_at_once(server: Server) -> None:
    """Of what is edited meanwhile: one goes on, the others say who. Nothing is there twice."""
    told: List[str] = []

    def work() -> None:
        with jcrdt.connected(server.address) as other:
            other.open("old")
            other.assign("old", [0, "seen"], len(told))
        try:
            told.append(put(server, "kept"))
        except AssertionError as error:
            told.append(str(error))

    threads = [threading.Thread(target=work) for _ in range(4)]
    for thread in threads:
        thread.start()
    for thread in threads:
        thread.join(60)
    good = [it for it in told if "it shows what old shows" in it]
    assert good and all("another renewal" in it for it in told if it not in good), told
    with jcrdt.connected(server.address) as alice:
        for document in ("kept", "old"):
            alice.open(document)
        shown, old = alice.plain("kept", [0]), alice.plain("old", [0])
    assert alike({**shown, "seen": 0}) == alike({**old, "seen": 0})


def test_another_renewal_that_begins_first_is_not_joined(server: Server, monkeypatch: pytest.MonkeyPatch) -> None:
    """Its first operation comes between the look at the empty document and our first one."""
    union = renew.Union([server.address], "old")
    _, mine = renew.renewal_of(union, "old", "keep")
    _, other = renew.renewal_of(union, "old", "last")
    asked = renew.parsed(["put", server.address, "--doc", "old", "--into", server.address, "--new-doc", "kept"])
    with renew.opened(server.address, "kept") as target:
        look = target.front

        def front(document: str) -> Dict[str, int]:
            found = look(document)
            target.deliver(document, other.operations[0])
            return found

        monkeypatch.setattr(target, "front", front)
        with pytest.raises(ValueError, match=f"another renewal, {other.name}, fills it"):
            renew.check_target(target, asked, mine)


def test_counts(server: Server) -> None:
    told = tool("renew", "count", server.address, server.address, "--doc", "old")
    assert told.count("4 replicas of 256") == 2 and "a new document: " in told
    assert "4 no-such-document" in tool("renew", "count", server.address, "--doc", "nothing", status=1)
    with jcrdt.connected(server.address) as session:
        session.open("half")
        for number in range(130):
            session.deliver("half", ["op", [1, f"r{number}"], [], [[["m", 0]], f"k{number}"], ["assign", 1]])
    told = tool("renew", "count", server.address, "--doc", "half", status=3)
    assert "130 replicas of 256 (half or more)" in told and "it is time" in told


def test_values_of_too_many_replicas(server: Server) -> None:
    """Values in conflict that took as many replicas as a document has: put refuses, and says what to do."""
    with jcrdt.connected(server.address) as session:
        session.open("half")
        for number in range(200):
            session.deliver("half", ["op", [1, f"r{number}"], [], [[["m", 0]], "k"], ["assign", number]])
    told = tool("renew", "count", server.address, "--doc", "half", status=4)
    assert "--conflicts last" in told
    words = ("renew", "put", server.address, "--doc", "half", "--into", server.address, "--new-doc", "kept")
    assert "--conflicts last" in tool(*words, status=4)
    assert "1 replicas" in tool(*words, "--conflicts", "last")
    with jcrdt.connected(server.address) as session:
        session.open("kept")
        assert session.plain("kept", [0]) == {"k": session_last(200)}
        session.assign("kept", [0, "k"], "settled")


def test_the_replicas_are_used_up_by_a_restart(serve: Serve) -> None:
    """At 256 replicas the server's own name still takes changes, and after a restart nobody does: count has warned
    since half of them, and a new document goes on with what this one shows."""
    server = serve("old", "new")
    with jcrdt.connected(server.address) as session:
        session.open("old")
        session.assign("old", [0, "title"], "Plan")
        for number in range(255):
            session.deliver("old", ["op", [1, f"r{number}"], [], [[["m", 0]], f"k{number}"], ["assign", number]])
        last = session.assign("old", [0, "title"], "Plan B")
        assert last[1] == "srv-1"
        with pytest.raises(Refused, match="19 too-many-replicas"):
            session.deliver("old", ["op", [1, "one-more"], [], [[["m", 0]], "k"], ["assign", 1]])
        wait_until(lambda: jcrdt.covers(jcrdt.front_on_disk(server.file, "old"), last))
    server.restart()
    with jcrdt.connected(server.address) as session:
        session.open("old")
        with pytest.raises(Refused, match="19 too-many-replicas"):
            session.assign("old", [0, "title"], "Plan C")
        assert session.values("old", [0, "title"]) == ["Plan B"]
        before = session.plain("old", [0])
    told = tool("renew", "count", server.address, "--doc", "old", status=3)
    assert "256 replicas of 256 (FULL)" in told and "it is time to put it into a new document: renew put" in told
    assert "1 replicas" in put(server, "new")
    with jcrdt.connected(server.address) as session:
        session.open("new")
        wait_until(lambda: jcrdt.front_on_disk(server.file, "new") == session.front("new"))
    server.restart()
    with jcrdt.connected(server.address) as session:
        session.open("new")
        assert session.plain("new", [0]) == before
        session.assign("new", [0, "title"], "Plan C")


def session_last(count: int) -> int:
    """The value of the replica whose name is the last in the order of bytes."""
    return max(range(count), key=lambda number: f"r{number}")


@takes_long
def test_content_of_half_a_document(serve: Serve) -> None:
    """`count` says what `put` will say, and `put --force` does it."""
    server = serve("old", "new")
    with jcrdt.connected(server.address) as session:
        session.open("old")
        session.extend("old", [0, "text"], ["x"] * 50_010)
    told = tool("renew", "count", server.address, "--doc", "old", status=4)
    assert "keep texts as lines" in told and "it is time" not in told
    assert "keep texts as lines" in put(server, "new", status=4)
    assert "50013 operations of 1 replicas" in put(server, "new", "--force")


@takes_long
def test_a_union_above_the_limit(serve: Serve) -> None:
    """Two servers below the limit, whose union no server takes: all of both is put."""
    servers = [serve("old", "new", name=name) for name in ("alice", "bob")]
    for server in servers:
        with jcrdt.connected(server.address) as session:
            session.open("old")
            session.ask_all([["assign", "old", [0, f"{server.name} {number % 100}"], number] for number in range(60_000)])
    addresses = [server.address for server in servers]
    told = tool("renew", "count", *addresses, "--doc", "old", status=3)
    assert "all together: 120000 operations of 100000 (FULL)" in told and "a new document: 202 operations" in told
    told = tool("renew", "put", *addresses, "--doc", "old", "--into", addresses[0], "--new-doc", "new")
    with jcrdt.connected(addresses[0]) as session:
        session.open("new")
        shown = session.plain("new", [0])
    assert shown == {f"{name} {number}": 59_900 + number for name in ("alice", "bob") for number in range(100)}
    for server in servers:
        assert server.address in told
