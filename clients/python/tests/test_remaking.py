"""Going on under a new name: edits of copied stores are made again, each once. Over libjcrdt.so; skipped where it isn't here."""

import os
import random
import shutil
import subprocess
import sys
from pathlib import Path
from typing import Any, Callable, Iterable, List, Tuple

import pytest

from conftest import IS_SHORT, SECONDS, TOP, Server, of_either_name, tool

import jcrdt
from jcrdt import replica as replica_module
from jcrdt.remaking import name_of
from jcrdt.replica import Replica
from jcrdt.session import Session
from jcrdt.store import Store, fresh_name
from jcrdt.syncing import Differs
from jcrdt.wire import encoded

Serve = Callable[..., Server]

pytestmark = pytest.mark.skipif(not any(map(os.path.isfile, replica_module.library_paths())), reason="libjcrdt.so isn't here")


def session(server: Server) -> Session:
    it = jcrdt.connected(server.address)
    it.open("d")
    return it


def exchanged(me: Replica, client: Session) -> None:
    """As a program does: where another has the name, it goes on under a new one."""
    for _ in range(20):
        try:
            me.sync(client, "d")
            return
        except Differs as error:
            assert error.is_own
            assert me.remake(fresh_name("again"), client, "d").lost == []
    raise AssertionError("it goes on and on")


def add(me: Replica, *texts: str) -> None:
    for text in texts:
        me.insert([0, "list", 0], text)
        me.add([0, "votes"], 1)


def state(me: Any, *where: Any) -> Tuple[List[str], int]:
    shown = me.plain(*where)
    return sorted(shown["list"]), shown["votes"]["counter"]


def test_a_name_is_made_of_a_text_as_in_javascript() -> None:
    assert name_of("again", "") == "again-7wdrqp15p7cni0s7r1b1v8rz"
    assert name_of("again", '[[5,"ada"],["op",[1,""],[],[[["m",0]],"t"],["assign","ä😀"]]]') == "again-h9gpptxix60tv3e5nbr7cbyx"


def test_an_older_store_that_was_put_back_goes_on(serve: Serve, tmp_path: Path) -> None:
    """The case of a backup: the edits of both are there, also on both sides of another exchange."""
    path, backup = str(tmp_path / "ada"), str(tmp_path / "backup")
    with session(serve("d")) as client:
        with Store(path, "d", "ada") as store, Replica.stored(store) as me:
            add(me, "milk")
            me.sync(client, "d")
            shutil.copy(path, backup)
            add(me, "from the newer store")
            me.sync(client, "d")
        shutil.copy(backup, path)
        with Store(path, "d") as store, Replica.stored(store) as me:
            add(me, "after the restore")
        with Store(path, "d") as store, Replica.stored(store) as me:
            old = me.name
            add(me, "and now")
            exchanged(me, client)
            add(me, "and one more")
            exchanged(me, client)
            assert me.name not in (old, "ada") and store.name == me.name
            texts = sorted(["milk", "from the newer store", "after the restore", "and now", "and one more"])
            assert state(me) == state(client, "d", [0]) == (texts, 5)
        with Store(path, "d") as store, Replica.stored(store) as me:
            assert (me.unread, state(me)) == ([], (texts, 5))
            assert me.sync(client, "d") == (0, 0)
        assert os.path.exists(f"{path}.old")


def test_notes_from_a_backup_and_a_copy(serve: Serve, tmp_path: Path) -> None:
    """The example: each note that anybody added is at the server and in each file, once."""
    server = serve("notes")

    def notes(file: str, *words: str) -> List[str]:
        words = (sys.executable, str(TOP / "examples/notes.py"), str(tmp_path / file), *words)
        done = subprocess.run(words, stdout=subprocess.PIPE, stderr=subprocess.STDOUT, text=True, check=True, timeout=SECONDS)
        return done.stdout.splitlines()

    def sync(file: str) -> List[str]:
        return notes(file, "sync", server.address)

    notes("ada", "add", "milk")
    sync("ada")
    shutil.copy(tmp_path / "ada", tmp_path / "backup")
    notes("ada", "add", "from the newer store")
    sync("ada")
    shutil.copy(tmp_path / "ada", tmp_path / "copy")
    shutil.copy(tmp_path / "backup", tmp_path / "ada")
    notes("ada", "add", "after the restore")
    notes("copy", "add", "by the copy")
    # The copy says first which notes it has.
    assert sync("copy")[0] == "0 operations came, 2 went"
    assert sync("ada")[0] == "another file has this one's name: 1 operations were made again under a new one"
    notes("ada", "add", "one more")
    for file in ("ada", "copy", "third"):
        sync(file)
    due = ["after the restore", "by the copy", "from the newer store", "milk", "one more"]
    for file in ("ada", "copy", "third"):
        assert sorted(line.partition(". ")[2] for line in notes(file)) == due


@of_either_name
@pytest.mark.parametrize("more, others", [(0, 0), (1, 3), (5, 0)])
def test_copies_that_hold_the_same_unsent_edits_make_them_again_once(serve: Serve, tmp_path: Path, more: int, others: int) -> None:
    base, third, copy = (str(tmp_path / it) for it in ("base", "third", "copy"))
    texts = ["base", "same 1", "same 2", "third"]
    with session(serve("d")) as client:
        with Store(base, "d", "ada") as store, Replica.stored(store) as me:
            add(me, "base")
            me.sync(client, "d")
            shutil.copy(base, third)
            add(me, "same 1", "same 2")
            me.save()
        shutil.copy(base, copy)
        with Store(third, "d") as store, Replica.stored(store) as me:
            add(me, "third")
            me.sync(client, "d")
        for path, count in ((base, more), (copy, others)):
            with Store(path, "d") as store, Replica.stored(store) as me:
                for number in range(count):
                    add(me, f"{path} {number}")
                    texts.append(f"{path} {number}")
                exchanged(me, client)
        for path in (base, copy, third):
            with Store(path, "d") as store, Replica.stored(store) as me:
                exchanged(me, client)
                assert state(me) == state(client, "d", [0]) == (sorted(texts), len(texts))


@of_either_name
@pytest.mark.parametrize("seed", range(3 if IS_SHORT else 12))
def test_random_copies_of_a_store_lose_nothing_and_double_nothing(serve: Serve, tmp_path: Path, seed: int) -> None:
    dice = random.Random(seed)
    paths, texts = [str(tmp_path / "store-0")], ["base"]
    with session(serve("d")) as client:
        with Store(paths[0], "d", "ada") as store, Replica.stored(store) as me:
            add(me, "base")
            me.sync(client, "d")
        for turn in range(25):
            path = dice.choice(paths)
            if dice.random() < 0.2 and len(paths) < 5:
                paths.append(str(tmp_path / f"store-{len(paths)}"))
                shutil.copy(path, paths[-1])
            with Store(path, "d") as store, Replica.stored(store) as me:
                for number in range(dice.randrange(4)):
                    texts.append(f"{seed} {turn} {number}")
                    add(me, texts[-1])
                me.save()
                if dice.random() < 0.3:
                    exchanged(me, client)
        for path in 2 * paths:
            with Store(path, "d") as store, Replica.stored(store) as me:
                exchanged(me, client)
        assert state(client, "d", [0]) == (sorted(texts), len(texts))
        for path in paths:
            with Store(path, "d") as store, Replica.stored(store) as me:
                assert (state(me), me.unread) == ((sorted(texts), len(texts)), [])


@of_either_name
def test_cards_that_two_copies_began_alike_are_two(serve: Serve, tmp_path: Path) -> None:
    path, copy = str(tmp_path / "ada"), str(tmp_path / "copy")
    with session(serve("d")) as client:
        with Store(path, "d", "ada") as store, Replica.stored(store) as me:
            me.put([0, "list"], [])
            me.sync(client, "d")
        shutil.copy(path, copy)
        for file, title in ((path, "a's"), (copy, "b's")):
            with Store(file, "d") as store, Replica.stored(store) as me:
                me.insert([0, "list", 0], {})
                me.assign([0, "list", 1, "title"], title)
        for file in (path, copy, path):
            with Store(file, "d") as store, Replica.stored(store) as me:
                exchanged(me, client)
                found = me.plain([0, "list"])
        assert sorted(it["title"] for it in found) == ["a's", "b's"]


@pytest.mark.parametrize("is_older", [False, True])
def test_an_edit_of_what_others_deleted_survives_under_a_new_name_too(serve: Serve, tmp_path: Path, is_older: bool) -> None:
    """As each edit that is made at the same time as a deletion: what becomes of it doesn't hang on who has the name."""
    path, other = str(tmp_path / "ada"), str(tmp_path / "other")
    with session(serve("d")) as client:
        with Store(path, "d", "ada") as store, Replica.stored(store) as me:
            me.put([0, "list"], [{"title": "milk", "votes": jcrdt.Counter(1)}, "bread", "tea"])
            me.sync(client, "d")
        if is_older:
            older = (tmp_path / "ada").read_bytes()
            with Store(path, "d") as store, Replica.stored(store) as me:
                me.assign([0, "by"], "the first")
                me.sync(client, "d")
            (tmp_path / "ada").write_bytes(older)
            other = path
        with Store(other, "d", "bob") as store, Replica.stored(store) as me:
            if not is_older:
                me.sync(client, "d")
            for _ in range(3):
                client.delete("d", [0, "list", 1])
            me.add([0, "list", 1, "votes"], 1)
            me.insert([0, "list", 2], "behind bread")
            me.assign([0, "list", 4], "green tea")
            name = me.name
            exchanged(me, client)
            assert (me.name != name) == is_older
            shown = me.plain([0, "list"])
            assert shown == client.plain("d", [0, "list"]) == [{"votes": jcrdt.Counter(1)}, "behind bread", "green tea"]


@of_either_name
def test_edits_of_elements_keep_what_they_knew(serve: Serve, tmp_path: Path) -> None:
    """A conflict stays one, and what was put into an element that is made again is in that one."""
    path, copy = str(tmp_path / "ada"), str(tmp_path / "copy")
    with session(serve("d")) as client:
        with Store(path, "d", "ada") as store, Replica.stored(store) as me:
            me.put([0], {"title": "Plan", "list": []})
            me.sync(client, "d")
        shutil.copy(path, copy)
        with Store(path, "d") as store, Replica.stored(store) as me:
            me.assign([0, "title"], "of the first")
            me.sync(client, "d")
        with Store(copy, "d") as store, Replica.stored(store) as me:
            me.assign([0, "title"], "of the copy")
            me.put([0, "list"], [{"text": "a", "parts": [1, 2]}, "b"])
            me.delete([0, "list", 2])
            me.assign([0, "list", 1, "text"], "A")
            exchanged(me, client)
            assert me.plain() == client.plain("d", [0]) == {
                "title": jcrdt.Conflict(["of the first", "of the copy"]), "list": [{"text": "A", "parts": [1, 2]}]}


def test_what_a_new_document_lacks_is_made_there(serve: Serve, tmp_path: Path) -> None:
    """By the map of `renew put`."""
    server, path = serve("d", "e"), str(tmp_path / "ada")
    with session(server) as client, Store(path, "d", "ada") as store, Replica.stored(store) as me, Replica("new-1") as other:
        me.put([0], {"list": ["one", "two", "three"], "title": "Plan"})
        with pytest.raises(ValueError, match="sync with the old document's server first"):
            me.remake_in(other, [])
        me.sync(client, "d")
        tool("renew", "put", server.address, "--doc", "d", "--into", server.address, "--new-doc", "e", "--map", str(tmp_path / "map"))
        me.delete([0, "list", 1])
        me.insert([0, "list", 1], "behind two")
        me.put([0, "list", 2], {"in": [1]})
        me.assign([0, "title"], "Plan B")
        other.sync(client, "e")
        elements = (tmp_path / "map").read_text().splitlines()
        assert me.remake_in(other, elements) == (len(me.operations()) - 6, [])
        other.sync(client, "e")
        assert client.plain("e", [0]) == me.plain() == {"list": ["two", {"in": [1]}, "three"], "title": "Plan B"}
        made: Iterable[str] = [encoded(it).decode() for it in me.operations()[-1:]]
        count, lost = me.remake_in(other, [], [*made, '["op",[9,"x"],[["y",8]],[[["m",0],["l","list"]],[1,"gone"]],["assign",1]]', ""])
        assert (count, [it[1] for it in lost]) == (1, [[9, "x"]])
