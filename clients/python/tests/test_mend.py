"""Two servers had one name: `mend` makes what one file has again at the other server, and both agree under new names."""

import os
import shutil
from pathlib import Path
from typing import Any, Callable, Dict, List

import pytest

from conftest import PROGRAM, Server, tool, wait_until

import jcrdt
from jcrdt import mend
from jcrdt import replica as replica_module
from jcrdt.replica import Replica
from jcrdt.session import Session
from jcrdt.store import Store, fresh_name
from jcrdt.syncing import Differs
from jcrdt.wire import Operation

Serve = Callable[..., Server]


def session(server: Server) -> Session:
    it = jcrdt.connected(server.address)
    it.open("d")
    return it


def edit(server: Server, *requests: Any) -> None:
    with session(server) as it:
        for word, *rest in requests:
            it.ask(word, "d", *rest)
        counts = it.front("d")
    wait_until(lambda: jcrdt.front_on_disk(server.file, "d") == counts)


def shown(server: Server) -> Any:
    with session(server) as it:
        return it.plain("d", [0])


def copy(source: str, target: str) -> None:
    for end in ("", "-wal"):
        for path in (f"{target}{end}",):
            if os.path.exists(path):
                os.remove(path)
        if os.path.exists(f"{source}{end}"):
            shutil.copy(f"{source}{end}", f"{target}{end}")


def folder(path: Path, name: str) -> Path:
    (path / name).mkdir()
    return path / name


def started(room: Path, name: str, servers: List[Server]) -> Server:
    servers.append(Server(room, ["d"], name))
    return servers[-1]


@pytest.fixture(name="servers")
def _servers() -> Any:
    found: List[Server] = []
    yield found
    for server in found:
        server.kill()


def agree(one: Server, other: Server) -> Any:
    """What both show, after they have exchanged everything."""
    assert tool("exchange", one.address, other.address, "d").endswith("the fronts agree\n")
    assert shown(one) == shown(other)
    return shown(one)


BASE = (["assign", [0, "x"], "common"], ["assign", [0, "list"], []], ["insert", [0, "list", 0], "a"])


def test_a_copied_file_under_one_name(tmp_path: Path, servers: List[Server]) -> None:
    """Both starts have the same epoch, so also the server that stays uses that name."""
    stays = started(folder(tmp_path, "a"), "oslo", servers)
    edit(stays, *BASE)
    stays.kill()
    copy(stays.file, str(folder(tmp_path, "b") / "oslo.db"))
    goes = started(tmp_path / "b", "oslo", servers)
    stays.start()
    edit(stays, ["assign", [0, "x"], "of a"], ["add", [0, "n"], 5], ["insert", [0, "list", 1], {}], ["insert", [0, "list", 0], "0"])
    edit(goes, ["assign", [0, "x"], "of b"], ["add", [0, "n"], 7], ["insert", [0, "list", 1], {}], ["assign", [0, "list", 2, "in"], "b's"],
         ["insert", [0, "list", 2], "last"])
    told = tool("exchange", stays.address, goes.address, "d", status=1)
    assert "two starts of a server had one name" in told
    goes.kill()
    told = tool("mend", goes.file, "--name", "bonn", "--to", stays.address)
    assert told.splitlines()[0] == '4@oslo-2         again as 4@bonn-mend-1: assign /x = "of b"'
    assert "d: of 8 operations 3 are the same there, 0 were delivered, 5 are there under a new name, 0 can't be made\n" in told
    assert f"serve a new, empty file in place of {goes.file} under --name bonn, and exchange with {stays.address}\n" in told
    fresh = started(folder(tmp_path, "c"), "bonn", servers)
    due: Dict[str, Any] = {"x": jcrdt.Conflict(["of b", "of a"]), "n": jcrdt.Counter(12), "list": ["0", "a", {"in": "b's"}, "last", {}]}
    found = agree(stays, fresh)
    assert sorted(found["x"]["conflict"]) == ["of a", "of b"]
    assert {**found, "x": due["x"], "list": sorted(map(str, found["list"]))} == {**due, "list": sorted(map(str, due["list"]))}
    # Again it makes nothing more, and both go on.
    assert "5 are there under a new name" in tool("mend", goes.file, "--name", "bonn", "--to", stays.address)
    assert shown(stays) == found
    edit(fresh, ["assign", [0, "x"], "settled"])
    edit(stays, ["add", [0, "n"], 1])
    assert agree(fresh, stays)["x"] == "settled"


def test_an_edit_of_what_the_other_server_deleted_brings_it_back(tmp_path: Path, servers: List[Server]) -> None:
    """As each edit that is made at the same time as a deletion."""
    stays = started(folder(tmp_path, "a"), "oslo", servers)
    edit(stays, *BASE, ["insert", [0, "list", 1], {}], ["assign", [0, "list", 2, "title"], "b"])
    stays.kill()
    copy(stays.file, str(folder(tmp_path, "b") / "oslo.db"))
    goes = started(tmp_path / "b", "oslo", servers)
    stays.start()
    edit(stays, ["delete", [0, "list", 2]], ["delete", [0, "list", 1]])
    edit(goes, ["assign", [0, "list", 2, "done"], True], ["insert", [0, "list", 1], "behind a"])
    goes.kill()
    assert "0 can't be made" in tool("mend", goes.file, "--name", "bonn", "--to", stays.address)
    assert shown(stays)["list"] == ["behind a", {"done": True}]


def test_cards_that_two_starts_began_alike_are_two(tmp_path: Path, servers: List[Server]) -> None:
    """Both insert {} by the same id, and put another title into it."""
    stays, goes = started(folder(tmp_path, "a"), "oslo", servers), started(folder(tmp_path, "b"), "oslo", servers)
    for server, title in ((stays, "a's"), (goes, "b's")):
        edit(server, ["assign", [0, "list"], []], ["insert", [0, "list", 0], {}], ["assign", [0, "list", 1, "title"], title])
    goes.kill()
    told = tool("mend", goes.file, "--name", "bonn", "--to", stays.address)
    assert "d: of 3 operations 1 are the same there, 0 were delivered, 2 are there under a new name, 0 can't be made" in told
    assert sorted(it["title"] for it in shown(stays)["list"]) == ["a's", "b's"]


def test_what_depends_on_mixed_operations_is_made_again(tmp_path: Path, servers: List[Server]) -> None:
    """Eve, who is the same at both, knows of an operation that an exchange brought behind those of the other start."""
    stays, first = started(folder(tmp_path, "p"), "peer", servers), started(folder(tmp_path, "a"), "oslo", servers)
    goes = started(folder(tmp_path, "b"), "oslo", servers)
    edit(first, ["assign", [0, "k"], "a"])
    agree(first, stays)
    edit(goes, ["assign", [0, "k"], "b"], ["assign", [0, "m"], "b"])
    eve = ["op", [3, "eve"], [["oslo-1", 2]], [[["m", 0]], "e"], ["assign", "eve"]]
    edit(goes, ["deliver", eve], ["assign", [0, "e"], "behind eve"], ["assign", [0, "k"], "b 2"])
    with session(stays) as one, session(goes) as other:
        for operation in list(other.operations("d", {"oslo-1": 1}))[:2]:
            one.deliver("d", operation)
        assert one.front("d") == {"oslo-1": 2, "eve": 3}
    goes.kill()
    told = tool("mend", goes.file, "--name", "bonn", "--to", stays.address)
    assert "d: of 5 operations 2 are the same there, 0 were delivered, 3 are there under a new name, 0 can't be made" in told
    found = shown(stays)
    assert (found["m"], found["e"]) == ("b", "behind eve") and "b 2" in str(found["k"])


def test_an_older_file_under_its_old_name(tmp_path: Path, servers: List[Server]) -> None:
    """A backup was restored and served under the old NAME, while a peer has what followed the backup."""
    oslo, peer = started(folder(tmp_path, "a"), "oslo", servers), started(folder(tmp_path, "p"), "peer", servers)
    edit(oslo, *BASE)
    oslo.kill()
    copy(oslo.file, str(tmp_path / "backup.db"))
    oslo.start()
    edit(oslo, ["insert", [0, "list", 1], "lost 1"], ["insert", [0, "list", 2], "lost 2"], ["add", [0, "n"], 1])
    agree(oslo, peer)
    oslo.kill()
    copy(str(tmp_path / "backup.db"), oslo.file)
    oslo.start()
    edit(oslo, ["insert", [0, "list", 1], "new 1"], ["assign", [0, "list", 2], "new 1 b"], ["add", [0, "n"], 10], ["insert", [0, "list", 0], "0"])
    assert "oslo-2" in jcrdt.front_on_disk(oslo.file, "d")
    told = tool("exchange", oslo.address, peer.address, "d", status=1)
    assert "handed over 0: from 4 on they have different operations of oslo-2\n" in told
    oslo.kill()
    told = tool("mend", oslo.file, "--name", "oslo-b", "--to", peer.address)
    assert "3 are the same there, 0 were delivered, 4 are there under a new name, 0 can't be made" in told
    fresh = started(folder(tmp_path, "c"), "oslo-b", servers)
    found = agree(peer, fresh)
    assert sorted(found["list"]) == ["0", "a", "lost 1", "lost 2", "new 1 b"] and found["n"] == jcrdt.Counter(11)


def test_a_new_empty_file_under_the_old_name(tmp_path: Path, servers: List[Server]) -> None:
    oslo, peer = started(folder(tmp_path, "a"), "oslo", servers), started(folder(tmp_path, "p"), "peer", servers)
    edit(oslo, *BASE)
    agree(oslo, peer)
    oslo.kill()
    for end in ("", "-wal", "-shm"):
        if os.path.exists(oslo.file + end):
            os.remove(oslo.file + end)
    oslo.start()
    edit(oslo, ["assign", [0, "y"], 1], ["assign", [0, "list"], []], ["insert", [0, "list", 0], "b"], ["add", [0, "n"], 3])
    oslo.kill()
    told = tool("mend", oslo.file, "--name", "oslo-b", "--to", peer.address)
    assert "0 are the same there, 0 were delivered, 4 are there under a new name, 0 can't be made" in told
    fresh = started(folder(tmp_path, "c"), "oslo-b", servers)
    found = agree(peer, fresh)
    assert "4 are there under a new name" in tool("mend", oslo.file, "--name", "oslo-b", "--to", peer.address)
    assert {**found, "list": sorted(found["list"])} == {"x": "common", "y": 1, "list": ["a", "b"], "n": jcrdt.Counter(3)}


def test_what_others_made_is_delivered_or_made_again(tmp_path: Path, servers: List[Server]) -> None:
    """What depends on nothing that differs goes as it is, and what does under a name for each replica: a conflict stays one."""
    stays, goes = started(folder(tmp_path, "a"), "oslo", servers), started(folder(tmp_path, "b"), "oslo", servers)
    edit(stays, ["assign", [0, "k"], "a"])
    edit(goes, ["assign", [0, "k"], "b"])
    operations: List[Operation] = [
        ["op", [1, "carl"], [], [[["m", 0]], "c"], ["assign", "carl"]],
        ["op", [2, "eve"], [["oslo-1", 1]], [[["m", 0]], "e"], ["assign", "eve"]],
        ["op", [2, "fay"], [["oslo-1", 1]], [[["m", 0]], "e"], ["assign", "fay"]],
        ["op", [3, "carl"], [["carl", 1], ["eve", 2], ["oslo-1", 1]], [[["m", 0]], "c"], ["assign", "carl 2"]]]
    edit(goes, *(["deliver", it] for it in operations))
    goes.kill()
    told = tool("mend", goes.file, "--name", "bonn", "--to", stays.address)
    assert "0 are the same there, 1 were delivered, 4 are there under a new name, 0 can't be made" in told
    with session(stays) as it:
        assert sorted(it.front("d")) == ["bonn-mend-1", "bonn-mend-2", "bonn-mend-3", "bonn-mend-4", "carl", "oslo-1"]
        assert it.held("d") == []
    found = shown(stays)
    assert {key: sorted(it["conflict"]) if isinstance(it, dict) else it for key, it in found.items()} == {
        "k": ["a", "b"], "e": ["eve", "fay"], "c": "carl 2"}


def test_what_an_exchange_has_mixed_is_there_once(tmp_path: Path, servers: List[Server]) -> None:
    """The longer side's last operations went to the other one, some of them into an element of the other start."""
    stays, first = started(folder(tmp_path, "p"), "peer", servers), started(folder(tmp_path, "a"), "oslo", servers)
    goes = started(folder(tmp_path, "b"), "oslo", servers)
    edit(first, ["assign", [0, "list"], []], ["insert", [0, "list", 0], {}], ["assign", [0, "list", 1, "of"], "a"])
    agree(first, stays)
    edit(goes, ["assign", [0, "list"], []], ["insert", [0, "list", 0], []], ["assign", [0, "list", 1], {}], ["assign", [0, "list", 1, "of"], "b"],
         ["assign", [0, "k"], "b"], ["insert", [0, "list", 1], {}], ["assign", [0, "list", 2, "of"], "b 2"])
    with session(stays) as one, session(goes) as other:
        for operation in list(other.operations("d", {"oslo-1": 3}))[:3]:
            one.deliver("d", operation)
        assert one.plain("d", [0, "list"]) == [{"of": "b"}, {}]  # the first is a's
    goes.kill()
    told = tool("mend", goes.file, "--name", "bonn", "--to", stays.address)
    # The list and `k` are there. The elements, and what is in them, are made again.
    assert "d: of 7 operations 2 are the same there, 0 were delivered, 5 are there under a new name, 0 can't be made" in told
    found = shown(stays)
    assert found["k"] == "b" and found["list"].count({"of": "b"}) == 2 and found["list"].count({"of": "b 2"}) == 1


@pytest.mark.skipif(not any(map(os.path.isfile, replica_module.library_paths())), reason="libjcrdt.so isn't here")
@pytest.mark.parametrize("is_new", [False, True])
def test_a_replica_that_had_exchanged_with_the_side_that_goes(twins: List[Server], tmp_path: Path, is_new: bool) -> None:
    """It notices, and goes on under a new name, or with a new store. What it had sent to the side that goes is there once."""
    stays, goes = twins
    path = str(tmp_path / "ada")
    with Store(path, "d", "ada") as store, Replica.stored(store) as me:
        with session(goes) as it:
            me.sync(it, "d")
            me.insert([0, "list", 0], "sent")
            me.add([0, "votes"], 1)
            me.sync(it, "d")
        name = me.name
    goes.kill()
    told = tool("mend", goes.file, "--name", "bonn", "--to", stays.address, *([] if is_new else ["--leave", name]))
    assert told.splitlines()[-2] == ("d: of 6 operations 3 are the same there, 0 were delivered, 3 are there under a new name, 0 can't be made" if is_new
                                     else "d: of 6 operations 3 are the same there, 0 were delivered, 1 are there under a new name, 0 can't be made, "
                                     "2 are left to their replicas")
    with Store(f"{path}-new" if is_new else path, "d", "ada") as store, Replica.stored(store) as me, session(stays) as it:
        if not is_new:
            with pytest.raises(Differs, match="from 3 on the server has other operations of srv-2"):
                me.sync(it, "d")
            me.remake(fresh_name("ada"), it, "d")
        me.sync(it, "d")
        found = it.plain("d", [0])
        assert me.plain([0]) == found
        assert (found["list"], found["votes"], sorted(found["town"]["conflict"])) == (["sent"], jcrdt.Counter(1), ["Bergen", "Oslo"])


def test_an_interrupted_mend_goes_on(tmp_path: Path, servers: List[Server], monkeypatch: pytest.MonkeyPatch) -> None:
    stays, goes = started(folder(tmp_path, "a"), "oslo", servers), started(folder(tmp_path, "b"), "oslo", servers)
    edit(stays, ["assign", [0, "list"], []])
    edit(goes, ["assign", [0, "k"], 0], ["assign", [0, "list"], []], *(["insert", [0, "list", 0], number] for number in range(20)))
    goes.kill()
    [operations] = jcrdt.stored_log.rows_of(goes.file).values()
    monkeypatch.setattr(mend, "BATCH", 4)
    for stop in (3, 9, 23):
        count = 0

        def report(_what: str, done: int, _total: Any = None, stop: int = stop) -> None:
            nonlocal count
            count = done
            if done >= stop:
                raise KeyboardInterrupt

        with session(stays) as it:
            try:
                work = mend.mend(it, "d", "bonn", operations, report)
                assert (stop, len(work.made)) == (23, 22)
            except KeyboardInterrupt:
                assert count in (4, 12)
    assert shown(stays)["list"] == list(reversed(range(20))) and shown(stays)["k"] == 0


def test_wrong_words_and_names(serve: Serve, tmp_path: Path) -> None:
    server = serve("d", name="oslo")
    edit(server, ["assign", [0, "k"], 1])
    assert "a server has" in tool("mend", server.file, "--name", "bonn", "--to", server.address, status=1)
    server.kill()
    other = serve("e", name="other")
    assert "is no NAME" in tool("mend", server.file, "--name", "Bonn", "--to", other.address, status=2)
    assert "d: 4 no-such-document: start the server with this" in tool("mend", server.file, "--name", "bonn", "--to", other.address, status=1)
    assert "has no operations of f" in tool("mend", server.file, "--name", "bonn", "--to", other.address, "--doc", "f", status=1)
    third = serve("d", name="third")
    assert "oslo was used before" in tool("mend", server.file, "--name", "oslo", "--to", third.address, status=1)
    assert "0 are the same there, 1 were delivered" in tool("mend", server.file, "--name", "bonn", "--to", third.address)
    edit(third, ["assign", [0, "k"], 2])
    assert "third was used before" in tool("mend", server.file, "--name", "third", "--to", third.address, status=1)
    assert os.path.exists(PROGRAM)
