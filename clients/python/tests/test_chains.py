"""Logs are compared before they are mixed: two servers, a replica and a server, over files that were copied or put back."""

import bisect
import hashlib
import os
from pathlib import Path
from typing import Any, Callable, Dict, List, Optional, Sequence

import pytest

from conftest import DURABLE, Server, copied, edit, put_back, tool

import jcrdt
from jcrdt import chains, wire
from jcrdt import replica as replica_module
from jcrdt.chains import Compared, LogsDiffer, Piece, first_difference, of_session, pieces_of
from jcrdt.exchange import exchange
from jcrdt.replica import Replica
from jcrdt.session import Session
from jcrdt.store import Store, fresh_name
from jcrdt.syncing import Differs
from jcrdt.wire import Chain, Front, Refused

Serve = Callable[..., Server]
needs_library = pytest.mark.skipif(not any(map(os.path.isfile, replica_module.library_paths())), reason="libjcrdt.so isn't here")


class Absolute(Sequence[int]):
    """Numbers without their signs, of which each is made when it is asked for."""

    def __init__(self, signed: List[int]) -> None:
        self.signed = signed

    def __getitem__(self, at: Any) -> Any:
        return abs(self.signed[at])

    def __len__(self) -> int:
        return len(self.signed)


class Side:
    """Operations, as a server that is asked for chains has them. `widths` are those of the requests."""

    def __init__(self, **counters: List[int]) -> None:
        """By replica the counters of its operations; a negative one is another operation of that counter."""
        self.counters, self.widths = counters, []  # type: Dict[str, List[int]], List[int]

    @property
    def front(self) -> Front:
        return {name: abs(found[-1]) for name, found in self.counters.items()}

    def __call__(self, pieces: List[Piece]) -> List[List[Chain]]:
        self.widths += [sum(last - piece.after[name] for name, last in piece.last.items()) for piece in pieces]
        return [[(name, last, self.digest(name, piece.after[name], last)) for name, last in sorted(piece.last.items())]
                for piece in pieces]

    def digest(self, name: str, after: int, last: int) -> str:
        counters = self.counters[name]
        first, end = (bisect.bisect_right(Absolute(counters), it) for it in (after, last))
        lines = "".join(f"{it}\n" for it in counters[first:end])
        return hashlib.sha256(lines.encode()).hexdigest()


def found(one: Side, other: Side, compared: Optional[Compared] = None) -> Any:
    return first_difference(one, other, one.front, other.front, compared or Compared())


@pytest.mark.parametrize("at", [1, 2, 511, 512, 513, 1024, 39_999, 40_000])
def test_the_first_operation_that_differs(at: int) -> None:
    many = list(range(1, 40_001))
    other = [-it if it == at else it for it in many]
    assert found(Side(a=[1], b=many), Side(a=[1, 2], b=[*other, 40_001])) == ("b", at)
    without = [it for it in many if it != at]
    assert found(Side(b=many), Side(b=[*without, 40_001])) == ("b", at)


def test_only_what_both_have_is_compared() -> None:
    assert found(Side(a=[1, 2, 3]), Side(a=[1, 2], b=[5])) is None
    assert found(Side(a=[1, 2, 3], b=[1]), Side(a=[1, -2], b=[-1])) == ("a", 2)
    assert found(Side(), Side(a=[1])) is None


def test_only_what_has_moved_is_compared_again() -> None:
    one, other, compared = Side(a=[1, 2], b=list(range(1, 2_000))), Side(a=[1, 2], b=list(range(1, 2_000))), Compared()
    assert found(one, other, compared) is None
    assert sum(one.widths) == sum(other.widths) == 2_001 and max(one.widths) == 512 and len(one.widths) == 4
    one.widths.clear()
    assert found(one, other, compared) is None and one.widths == []
    for side in (one, other):
        side.counters["b"] += [2_000, 2_001]
    # The last one of before is looked at again.
    assert found(one, other, compared) is None and one.widths == [3]
    other.counters["b"][-3] = -1_999
    for side in (one, other):
        side.counters["b"].append(2_002)
    compared.note("b", 1_999)
    assert found(one, other, Compared()) == ("b", 1_999)


def test_who_has_lost_something_is_compared_anew() -> None:
    compared = Compared()
    compared.look({"a": 3}, {"a": 3})
    compared.note("a", 3)
    compared.look({"a": 3}, {"a": 4})
    assert compared.same == {"a": 3}
    compared.look({"a": 3}, {"a": 2})
    assert compared.same == {}
    # What was given to a server since it was asked for its front.
    compared.note("mine", 1)
    compared.look({"a": 3, "mine": 1}, {"a": 2})
    assert compared.same == {}


def test_pieces_reach_over_so_much() -> None:
    due = {"a": (0, 700), "b": (5, 6), "c": (100, 1_300)}
    seen: Dict[str, int] = {name: after for name, (after, _) in due.items()}
    for piece in pieces_of(due):
        assert sum(last - piece.after[name] for name, last in piece.last.items()) <= 512
        for name, last in piece.last.items():
            assert piece.after[name] == seen[name]
            seen[name] = last
    assert seen == {"a": 700, "b": 6, "c": 1_300}


def test_an_older_server_is_left_to_other_checks() -> None:
    def older(_: List[Piece]) -> List[List[Chain]]:
        raise Refused(2, "bad-request")

    compared = Compared()
    assert first_difference(older, Side(a=[1]), {"a": 1}, {"a": 1}, compared) is None
    assert not compared.is_known

    def full(_: List[Piece]) -> List[List[Chain]]:
        raise Refused(22, "no-memory")

    with pytest.raises(Refused, match="22"):
        first_difference(full, Side(a=[1]), {"a": 1}, {"a": 1}, Compared())


def test_chains_that_were_not_asked_for() -> None:
    def other(pieces: List[Piece]) -> List[List[Chain]]:
        return [[("a", 2, "")] for _ in pieces]

    with pytest.raises(wire.Misbehaved, match="chains that weren't asked for"):
        first_difference(Side(a=[1]), other, {"a": 1}, {"a": 1}, Compared())


# Servers.

def session(server: Server) -> Session:
    it = jcrdt.connected(server.address)
    it.open("d")
    return it


def state(server: Server) -> Any:
    with session(server) as it:
        return it.front("d"), it.plain("d", [0]), it.held("d")


def test_servers_over_a_file_and_its_copy(twins: List[Server]) -> None:
    """The fronts are equal, and so is the last operation. Nothing is handed over, also where others have news."""
    one, other = twins
    for server, name in ((one, "ada"), (other, "bob")):
        with session(server) as it:
            it.deliver("d", ["op", [1, name], [], [[["m", 0]], name], ["assign", name]])
    before = state(one), state(other)
    with session(one) as it, session(other) as there:
        assert {name: counter for name, counter in it.front("d").items() if name.startswith("srv")} == {"srv-1": 1, "srv-2": 4}
        with pytest.raises(LogsDiffer, match="^from 3 on they have different operations of srv-2$") as differs:
            exchange(it, there, "d")
        assert (differs.value.replica, differs.value.counter) == ("srv-2", 3)
    assert tool("exchange", one.address, other.address, "d", status=1) == (
        "handed over 0: from 3 on they have different operations of srv-2\n"
        "two starts of a server had one name: keep one side (GUIDE, \"When two starts had one name\")\n")
    assert (state(one), state(other)) == before


def test_servers_of_which_one_has_more_of_the_same(serve: Serve, tmp_path: Path) -> None:
    """A copy under another name: what both have is the same, and each gets what it lacks."""
    one = serve("d", name="srv", admission=DURABLE)
    edit(one, title="Plan")
    copied(one, tmp_path / "there")
    os.rename(tmp_path / "there" / "srv.db", tmp_path / "there" / "new.db")
    if (tmp_path / "there" / "srv.db-wal").exists():
        os.rename(tmp_path / "there" / "srv.db-wal", tmp_path / "there" / "new.db-wal")
    one.start()
    other = Server(tmp_path / "there", ["d"], "new", admission=DURABLE)
    try:
        edit(one, day="Friday")
        edit(other, town="Bergen")
        with session(one) as it, session(other) as there:
            assert exchange(it, there, "d") == (2, [])
        assert state(one) == state(other)
    finally:
        other.kill()


def test_a_document_of_many_pieces(serve: Serve) -> None:
    """Two servers exchange 3,000 operations with texts that JSON escapes, and are the same."""
    one, other = serve("d", name="alice"), serve("d", name="bob")
    texts = ["plain", "\"\\/\b\f\n\r\t\u0000\u001f\u007f", "ä😀\u2028"]
    with session(one) as it, session(other) as there:
        it.ask_all([["assign", "d", [0, f"k{number % 50}"], texts[number % 3]] for number in range(3_000)])
        assert exchange(it, there, "d")[0] == 3_000
        compared = Compared()
        assert first_difference(of_session(it, "d"), of_session(there, "d"), it.front("d"), there.front("d"), compared) is None
        assert compared.same == {"alice-1": 3_000}


# A replica and a server.

def seen_before(serve: Serve, tmp_path: Path) -> Server:
    """A server of which a replica in the store "ada" has all, and whose older file is put back then: its second start makes other
    operations of which the last is the same."""
    server = serve("d", name="srv", admission=DURABLE)
    edit(server, title="Plan")
    copied(server, tmp_path / "backup")
    server.start()
    edit(server, day="Friday", town="Oslo", count=3)
    with Store(str(tmp_path / "ada"), "d", "ada") as store, Replica.stored(store) as me, session(server) as it:
        me.insert([0, "list", 0], "stored at the server")
        assert me.sync(it, "d") == (4, 1)
    put_back(server, tmp_path / "backup")
    edit(server, day="Friday", town="Bergen", count=3)
    return server


@needs_library
def test_a_replica_notices_a_server_that_was_put_back(serve: Serve, tmp_path: Path) -> None:
    server = seen_before(serve, tmp_path)
    before = state(server)
    with Store(str(tmp_path / "ada"), "d") as store, Replica.stored(store) as me:
        me.insert([0, "list", 0], "made offline")
        front = me.front()
        for _ in range(2):
            with session(server) as it:
                for _ in range(2):
                    with pytest.raises(Differs, match="^from 3 on the server has other operations of srv-2 than are here") as differs:
                        me.sync(it, "d")
                    assert not differs.value.is_own
        assert (me.front(), state(server)) == (front, before)


@needs_library
def test_what_comes_to_a_server_behind_its_front_is_compared(serve: Serve, tmp_path: Path) -> None:
    server = seen_before(serve, tmp_path)
    put_back(server, tmp_path / "backup")
    with Store(str(tmp_path / "ada"), "d") as store, Replica.stored(store) as me, session(server) as it:
        me.insert([0, "list", 0], "made offline")
        front, operations, is_late = me.front(), it.operations, [True]

        def late(document: str, known: Optional[Front] = None) -> Any:
            if known == front and is_late.pop():
                edit(server, day="Friday", town="Bergen", count=3, late=1)
            return operations(document, known)

        setattr(it, "operations", late)
        with pytest.raises(Differs, match="from 3 on the server has other operations of srv-2"):
            me.sync(it, "d")
        assert me.front() == front
        assert state(server)[1] == {"title": "Plan", "day": "Friday", "town": "Bergen", "count": 3, "late": 1}


@needs_library
def test_a_replica_goes_on_under_a_new_name(serve: Serve, tmp_path: Path) -> None:
    """What it made is at the server, once. What the server's older file lacked of others is listed."""
    server = seen_before(serve, tmp_path)
    with Store(str(tmp_path / "ada"), "d") as store, Replica.stored(store) as me, session(server) as it:
        me.insert([0, "list", 0], "made offline")
        with pytest.raises(Differs):
            me.sync(it, "d")
        report = me.remake(fresh_name("ada"), it, "d")
        assert [operation[1] for operation in report.lost] == [[3, "srv-2"]]
        me.sync(it, "d")
        due = {"title": "Plan", "day": "Friday", "town": "Bergen", "count": 3, "list": ["made offline", "stored at the server"]}
        assert me.plain([0]) == it.plain("d", [0]) == due
        assert me.front() == it.front("d")


@needs_library
def test_what_depends_on_others_is_not_mixed(serve: Serve, tmp_path: Path) -> None:
    """Where the server's chain is longer here, and of others there is what depends on it: `remake` leaves all of that out."""
    server = serve("d", name="srv", admission=DURABLE)
    edit(server, title="Plan")
    copied(server, tmp_path / "backup")
    server.start()
    edit(server, town="Oslo", day="Friday", count=3)
    with Store(str(tmp_path / "ada"), "d", "ada") as store, Replica.stored(store) as me, session(server) as it:
        me.sync(it, "d")
        me.deliver(["op", [5, "carl"], [["srv-1", 1], ["srv-2", 4]], [[["m", 0]], "of carl"], ["assign", 1]])
        put_back(server, tmp_path / "backup")
        edit(server, town="Bergen")
        edit(server, title="New")
        with session(server) as again:
            with pytest.raises(Differs, match="from 2 on .* srv-2"):
                me.sync(again, "d")
            report = me.remake(fresh_name("ada"), again, "d")
            assert [tuple(operation[1]) for operation in report.lost] == [(2, "srv-2"), (3, "srv-2"), (4, "srv-2"), (5, "carl")]
            assert me.sync(again, "d") == (0, 0)
            assert me.plain([0]) == again.plain("d", [0]) == {"title": "New", "town": "Bergen"}


@needs_library
def test_a_session_that_is_used_again_is_asked_for_what_has_moved(serve: Serve, monkeypatch: pytest.MonkeyPatch) -> None:
    asked: List[Piece] = []
    before = chains.requests_of

    def requests_of(document: str, pieces: List[Piece]) -> List[List[Any]]:
        asked.extend(pieces)
        return before(document, pieces)

    monkeypatch.setattr(chains, "requests_of", requests_of)
    server = serve("d", name="srv")
    with session(server) as it, Replica("ada") as me:
        it.ask_all([["assign", "d", [0, "k"], number] for number in range(2_000)])
        assert me.sync(it, "d") == (2_000, 0)
        it.assign("d", [0, "k"], "more")
        assert me.sync(it, "d") == (1, 0) and me.sync(it, "d") == (0, 0)
        # What came from there is the same.
        assert asked == []
        with session(server) as other:
            assert me.sync(other, "d") == (0, 0)
            assert [piece.last for piece in asked] == [{"srv-1": it} for it in (512, 1_024, 1_536, 2_001)]
            asked.clear()
            assert me.sync(other, "d") == (0, 0) and asked == []
