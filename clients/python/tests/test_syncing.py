"""A replica and a server: what each lacks, names that were used twice, and refusals. Over libjcrdt.so; skipped where it isn't here."""

import os
import shutil
from pathlib import Path
from typing import Any, Callable, List

import pytest

from conftest import Server, wait_until

import jcrdt
from jcrdt import replica as replica_module
from jcrdt.copies import is_saying
from jcrdt.replica import Replica
from jcrdt.session import Session
from jcrdt.store import Store
from jcrdt.syncing import Differs
from jcrdt.wire import Refused

Serve = Callable[..., Server]

pytestmark = pytest.mark.skipif(not any(map(os.path.isfile, replica_module.library_paths())), reason="libjcrdt.so isn't here")


def session(server: Server) -> Session:
    return jcrdt.connected(server.address)


def shown(server: Server) -> Any:
    with session(server) as it:
        it.open("d")
        return it.plain("d", [0])


def add(me: Replica, *texts: str) -> None:
    for text in texts:
        me.insert([0, "list", 0], text)


def synced(server: Server, path: Path, *texts: str) -> Any:
    """What a program does that opens a store, adds, syncs and ends. Returns what came and went, or the error."""
    with Store(str(path), "d", "ada") as store, Replica.stored(store) as me, session(server) as client:
        add(me, *texts)
        try:
            return me.sync(client, "d")
        except Differs as error:
            return error


def test_a_replica_and_a_server_exchange(serve: Serve, tmp_path: Path) -> None:
    server = serve("d", name="srv")
    assert synced(server, tmp_path / "ada", "one", "two") == (0, 2)
    with session(server) as other:
        other.open("d")
        other.insert("d", [0, "list", 0], "three")
    assert synced(server, tmp_path / "ada", *map(str, range(600))) == (1, 600)
    assert synced(server, tmp_path / "ada") == (0, 0)
    assert synced(server, tmp_path / "bob") == (603, 0)
    with Store(str(tmp_path / "ada"), "d") as store, Replica.stored(store) as me:
        assert len(me.plain([0, "list"])) == 603


@pytest.mark.parametrize("first, second", [(["new"], ["mine"]), (["new"], ["mine", "more"]), (["new"], []),
                                           (["new", "same"], ["mine", "same"]), (["new"] * 3, ["mine"]), (["new"] * 300, ["mine"] * 300)])
def test_an_older_store_over_the_newer_one_is_noticed(serve: Serve, tmp_path: Path, first: List[str], second: List[str]) -> None:
    """Before anything is exchanged: so nothing is mixed, and what was made here stays here."""
    server, ada, newer = serve("d"), tmp_path / "ada", tmp_path / "newer"
    assert synced(server, ada, "base") == (0, 1)
    older = ada.read_bytes()
    assert synced(server, ada, *first) == (0, len(first))
    shutil.copy(ada, newer)
    ada.write_bytes(older)
    before = shown(server)
    for turn in range(2):
        error = synced(server, ada, *([] if turn else second))
        assert isinstance(error, Differs) and error.is_own, error
        with Store(str(ada), "d") as store, Replica.stored(store) as me:
            assert error.replica == me.name and me.plain([0, "list"]) == [*reversed(second), "base"]
            assert error.counter == 2
    assert shown(server) == before
    # A copy of the newer one isn't hindered. It says first that it is one.
    assert synced(server, newer, "on") == (0, 2)


def test_a_copy_is_no_other_one(serve: Serve, tmp_path: Path) -> None:
    """It has a name of its own, and both go on."""
    server, ada, copy = serve("d"), tmp_path / "ada", tmp_path / "copy"
    synced(server, ada, "base")
    shutil.copy(ada, copy)
    assert [synced(server, copy, "same"), synced(server, ada, "same"), synced(server, copy)] == [(0, 2), (2, 1), (1, 0)]
    assert shown(server) == {"list": ["same", "same", "base"]}


def test_what_differs_of_a_name_before_is_ones_own(serve: Serve, tmp_path: Path) -> None:
    """An older file was written over the original, and uses its name again. So copies go on under new names: what they have in common
    is there once."""
    server, ada, copies = serve("d"), tmp_path / "ada", [tmp_path / "one", tmp_path / "two"]
    synced(server, ada, "base")
    older = ada.read_bytes()
    with Store(str(ada), "d") as store, Replica.stored(store) as me:
        add(me, "unsent")
    for it in copies:
        shutil.copy(ada, it)
    ada.write_bytes(older)
    assert synced(server, ada, "another") == (0, 1)
    for path in copies:
        with Store(str(path), "d", "bob") as store, Replica.stored(store) as me, session(server) as client:
            [former] = me.formers
            assert me.name.startswith("bob-") and former.startswith("ada-")
            add(me, f"of {path.name}")
            with pytest.raises(Differs, match=f"^from 2 on the server has other operations of {former} than this replica") as differs:
                me.sync(client, "d")
            assert differs.value.is_own and differs.value.replica == former
            assert me.remake(f"new-{path.name}", client, "d").lost == []
            # It is no copy any more: what it said of the name before isn't made again.
            assert (me.name, me.formers, any(map(is_saying, me.operations()))) == (f"new-{path.name}", [], False)
            me.sync(client, "d")
    assert isinstance(synced(server, ada), tuple)
    assert sorted(shown(server)["list"]) == ["another", "base", "of one", "of two", "unsent"]


@pytest.mark.usefixtures("cloned")
def test_two_copies_that_add_the_same_while_they_run(serve: Serve, tmp_path: Path) -> None:
    """What was made here and never sent isn't that of the server, however alike."""
    server, ada, copy = serve("d"), tmp_path / "ada", tmp_path / "copy"
    synced(server, ada, "base")
    shutil.copy(ada, copy)
    with Store(str(copy), "d") as store, Replica.stored(store) as me, session(server) as client:
        assert me.sync(client, "d") == (0, 0)
        add(me, "bread")
        assert synced(server, ada, "bread") == (0, 1)
        for _ in range(2):
            with pytest.raises(Differs, match=f"^from 2 on the server has other operations of {me.name} than this replica"):
                me.sync(client, "d")


def test_a_server_that_lost_operations_gets_them_again(serve: Serve, tmp_path: Path) -> None:
    server = serve("d")
    synced(server, tmp_path / "ada", "one")
    wait_until(lambda: len(jcrdt.front_on_disk(server.file, "d")) == 1)
    server.kill()
    backup = tmp_path / "backup.db"
    for name in ("", "-wal"):
        if os.path.exists(server.file + name):
            shutil.copy(server.file + name, str(backup) + name)
    server.start()
    with Store(str(tmp_path / "ada"), "d") as store, Replica.stored(store) as me:
        with session(server) as client:
            add(me, "two", "three")
            assert me.sync(client, "d") == (0, 2)
        server.kill()
        for name in ("", "-wal", "-shm"):
            if os.path.exists(server.file + name):
                os.remove(server.file + name)
            if os.path.exists(str(backup) + name):
                shutil.copy(str(backup) + name, server.file + name)
        server.start()
        with session(server) as client:
            assert me.sync(client, "d") == (0, 2)
    assert shown(server) == {"list": ["three", "two", "one"]}


def test_a_foreign_refusal_does_not_stop_the_own_operations(serve: Serve, tmp_path: Path) -> None:
    """The replica has an operation of the server itself that this one never made, and refuses. Both lack nothing else then, but for
    what depends on it."""
    server = serve("d", name="srv")
    with session(server) as client, Store(str(tmp_path / "ada"), "d", "ada") as store, Replica.stored(store) as me:
        client.open("d")
        client.deliver("d", ["op", [1, "bob"], [], [[["m", 0]], "k"], ["assign", 1]])
        add(me, "mine")
        me.deliver(["op", [1, "srv-1"], [], [[["m", 0]], "s"], ["assign", 1]])
        me.deliver(["op", [1, "carl"], [], [[["m", 0]], "c"], ["assign", 1]])
        add(me, "mine, too")
        for _ in range(2):
            with pytest.raises(Differs, match="of srv-1 than are here: two have this name") as differs:
                me.sync(client, "d")
            assert not differs.value.is_own
        # The second own one knows of srv-1's, which the server lacks: it stays here until that is mended.
        assert client.front("d") == {"bob": 1, "carl": 1, me.name: 1}
        assert me.front() == {"bob": 1, "carl": 1, "srv-1": 1, me.name: 2}
        assert client.held("d") == []


def test_a_replica_that_another_has_named_is_noticed_before_anything_is_sent(serve: Serve, tmp_path: Path) -> None:
    """Of bob the server has another first operation than the replica, and the same second one."""
    server = serve("d", name="srv")
    with session(server) as client, Store(str(tmp_path / "ada"), "d", "ada") as store, Replica.stored(store) as me:
        client.open("d")
        client.deliver("d", ["op", [1, "bob"], [], [[["m", 0]], "k"], ["assign", 1]])
        client.deliver("d", ["op", [2, "bob"], [["bob", 1]], [[["m", 0]], "k"], ["assign", 2]])
        me.deliver(["op", [1, "bob"], [], [[["m", 0]], "k"], ["assign", "other"]])
        me.deliver(["op", [2, "bob"], [["bob", 1]], [[["m", 0]], "k"], ["assign", 2]])
        me.deliver(["op", [3, "bob"], [["bob", 2]], [[["m", 0]], "k"], ["assign", 3]])
        add(me, "mine")
        with pytest.raises(Differs, match="^from 1 on the server has other operations of bob"):
            me.sync(client, "d")
        assert client.front("d") == {"bob": 2} and me.front() == {"bob": 3, me.name: 4}


def test_a_full_document_refuses_and_what_was_made_stays(serve: Serve, tmp_path: Path) -> None:
    server = serve("d")
    with session(server) as client, Store(str(tmp_path / "ada"), "d", "ada") as store, Replica.stored(store) as me:
        client.open("d")
        for number in range(256):
            client.deliver("d", ["op", [1, f"r-{number}"], [], [[["m", 0]], "k"], ["assign", number]])
        add(me, "mine")
        with pytest.raises(Refused, match="19 too-many-replicas"):
            me.sync(client, "d")
        assert len(me.plain([0, "k"])["conflict"]) == 255 and me.plain([0, "list"]) == ["mine"]
