"""A hub that runs its servers, from Python: its documents, their generations, and who has something of one before. Needs node."""

import asyncio
import itertools
import json
import os
import random
import shutil
import signal
import subprocess
from pathlib import Path
from typing import Any, Callable, Iterator, List, Tuple

import pytest

from conftest import IS_SHORT, PROGRAM, SECONDS, TOP, of_either_name, tool
from test_mixed_copies import Either
from test_running_copies import OfJavaScript, Program, state

import jcrdt
from jcrdt import Away, Desk, Lost, Refused, Renewed, Writes, aio, generation_of
from jcrdt import later, nested
from jcrdt import replica as replica_module
from jcrdt.exchange import exchange
from jcrdt.generations import move_from
from jcrdt.replica import Replica
from jcrdt.session import Session
from jcrdt.store import Store, fresh_name
from jcrdt.syncing import Differs

pytestmark = pytest.mark.skipif(shutil.which("node") is None, reason="node isn't here")

needs_library = pytest.mark.skipif(not any(map(os.path.isfile, replica_module.library_paths())), reason="libjcrdt.so isn't here")


class Hub:
    """`hub.mjs --data`, whose lines have one address over restarts."""

    def __init__(self, folder: Path) -> None:
        self.folder, self.address = folder, "127.0.0.1:0"
        self.desk = Desk(str(folder))
        self.start()

    def start(self) -> None:
        words = ["node", str(TOP / "clients/hub/hub.mjs"), "--data", str(self.folder), "--program", PROGRAM, "--lines", self.address]
        self.child = subprocess.Popen(words, stdout=subprocess.PIPE, stderr=subprocess.DEVNULL)
        assert self.child.stdout is not None
        self.address = json.loads(self.child.stdout.readline())[1]

    def end(self, how: int = signal.SIGTERM) -> None:
        self.child.send_signal(how)
        self.child.communicate(timeout=SECONDS)


@pytest.fixture
def own(tmp_path: Path) -> Iterator[Hub]:
    """A hub that no other test has."""
    it = Hub(tmp_path / "data")
    yield it
    it.end()


@pytest.fixture(scope="module")
def running(tmp_path_factory: pytest.TempPathFactory) -> Iterator[Hub]:
    it = Hub(tmp_path_factory.mktemp("hub") / "data")
    yield it
    it.end()


@pytest.fixture
def hub(running: Hub) -> Iterator[Hub]:
    """A hub without documents: those of a test are in the bin behind it."""
    yield running
    for document in running.desk.list():
        running.desk.delete(document.name)


def opened(hub: Hub, document: str = "d") -> Session:
    it = jcrdt.connected(hub.address)
    it.open(document)
    return it


def test_documents_are_made_and_listed(own: Hub) -> None:
    with jcrdt.connected(own.address) as client:
        assert client.list() == []
        for name in ("trip", "-x", "a" * 32):
            client.create(name)
        with pytest.raises(Refused, match="105 there-already"):
            client.create("trip")
        for name in ("", "A", "a/b", "..", "a" * 33):
            with pytest.raises(Refused, match="2 bad-request"):
                client.create(name)
        assert client.list() == ["-x", "a" * 32, "trip"]
        with pytest.raises(Refused, match="5 not-open"):
            client.history("trip")
        client.open("trip")
        client.assign("trip", [0, "k"], 1)
        [now] = client.history("trip")
        assert now == jcrdt.Generation("1", 1, 1)


def test_more_than_a_thousand_documents_are_listed(own: Hub) -> None:
    names = sorted(f"n-{number}" for number in range(1001))
    with jcrdt.connected(own.address) as client:
        client.ask_all([["create", name] for name in names])
        assert client.list() == names


def test_a_server_has_no_such_requests(serve: Callable[..., Any]) -> None:
    with jcrdt.connected(serve("d").address) as client:
        client.open("d")
        asked: List[Callable[[], Any]] = [client.list, lambda: client.create("e"), lambda: client.history("d"),
                                          lambda: client.elements_since("d", "1")]
        for ask in asked:
            with pytest.raises(Refused, match="2 bad-request"):
                ask()


def test_what_who_runs_a_hub_does_with_documents(own: Hub, tmp_path: Path) -> None:
    desk = own.desk
    with opened(own, "trip") as client:
        client.put("trip", [0], {"title": "Oslo", "big": 2**60})
        desk.create("plans")
        lines = list(desk.export("trip"))
        plans, trip = desk.list()
        assert (plans, trip[:5]) == (jcrdt.DocumentState("plans", False, 0), ("trip", True, 1, len(lines), 1))
        assert trip.lag is not None and trip.lag < SECONDS
        desk.rename("trip", "journey")
        with pytest.raises(Lost):
            client.plain("trip", [0])
    refused: List[Tuple[Callable[[], Any], str]] = [
        (lambda: desk.create("plans"), "there is a document plans"), (lambda: desk.rename("journey", "plans"), "there is a document plans"),
        (lambda: desk.delete("none"), "there is no document none"), (lambda: desk.restore("none.1"), "the bin has no"),
        (lambda: desk.create("../x"), "1 to 32 of a-z"), (lambda: list(desk.export("none")), "there is no document none")]
    for ask, said in refused:
        with pytest.raises(ValueError, match=said):
            ask()
    assert list(desk.export("journey")) == lines and any(str(2**60) in it for it in lines)
    entry = desk.delete("journey")
    assert entry.startswith("journey.") and desk.deleted() == [entry]
    desk.restore(entry, "again")
    assert desk.deleted() == [] and [it.name for it in desk.list()] == ["again", "plans"]
    (tmp_path / "lines").write_text("".join(f"{it}\n" for it in desk.export("again")))
    with opened(own, "copy") as client:
        tool("load", own.address, "copy", str(tmp_path / "lines"))
        assert client.plain("copy", [0]) == {"title": "Oslo", "big": 2**60}


def test_a_folder_that_no_hub_has(own: Hub, tmp_path: Path) -> None:
    with pytest.raises(Away, match="no hub has"):
        Desk(str(tmp_path / "none")).list()
    own.end(signal.SIGKILL)
    with pytest.raises(Away, match="no hub has"):
        own.desk.create("d")
    own.start()
    assert own.desk.list() == []


def test_a_session_goes_on_in_the_next_generation(hub: Hub) -> None:
    with opened(hub) as client:
        client.put("d", [0], {"list": ["one", {"n": 1}], "votes": jcrdt.Counter(3)})
        assert generation_of(client.front("d")) == "1"
        shown = client.plain("d", [0])
        watching = client.watch("d")
        next(watching)
        generation = hub.desk.renew("d")
        assert generation_of(next(watching)) == generation
        assert ["renewed", "d", generation] in client.pushes
        assert client.plain("d", [0]) == shown
        client.append("d", [0, "list"], {"n": 2})
        assert client.plain("d", [0, "list"]) == ["one", {"n": 1}, {"n": 2}]
        assert [it.name for it in client.history("d")] == ["1", generation]
        client.open("d/1")
        assert client.plain("d/1", [0]) == shown
        with pytest.raises(Refused, match="103 not-allowed"):
            client.assign("d/1", [0, "k"], 1)


def test_what_is_of_a_generation_before_says_where_it_goes_on(hub: Hub) -> None:
    """Its operations, a front of it, and its elements: nothing is written by them."""
    with opened(hub) as client:
        client.put("d", [0, "list"], ["one", "two", "three"])
        front, operations = client.front("d"), list(client.operations("d"))
        ids = [it for it, _ in client.items("d", [0, "list"])]
        client.delete("d", [0, "list", 3])
        hub.desk.renew("d")
        generation = hub.desk.renew("d")
        before = list(client.operations("d"))
        said = f"106 renewed: d goes on in the generation {generation}, and this is of one before: begin anew"
        asked: List[Callable[[], Any]] = [
            lambda: list(client.operations("d", front)), lambda: client.deliver("d", operations[0]),
            lambda: client.deliver("d", ["op", [9, "bob"], [["bob", 8]], [[["m", 0]], "k"], ["assign", 1]])]
        for ask in asked:
            with pytest.raises(Renewed, match=said) as renewed:
                ask()
            assert (renewed.value.document, renewed.value.generation, renewed.value.number) == ("d", generation, 106)
        replies = client.ask_all([["front", "d"], ["deliver", "d", operations[0]], ["deliver", "d", operations[1]]])
        assert [getattr(it, "generation", None) for it in replies] == [None, generation, generation]
        with pytest.raises(Renewed, match=said):
            client.bind("d", "it", [0, "list"], ids[0])
        now = {it[0]: value for it, value in ((tuple(map(str, it)), value) for it, value in client.items("d", [0, "list"]))}
        assert len(now) == 2
        moved = client.elements_since("d", "1")
        assert [old for old, _ in moved] == ids[:2]
        assert client.bind("d", "it", [0, "list"], moved[1][1]) and client.values("d", ["it"]) == ["two"]
        assert not client.bind("d", "it", [0, "list"], [99, "nobody"])
        with pytest.raises(ValueError, match="d has no generation 7 at this hub"):
            client.elements_since("d", "7")
        assert list(client.operations("d")) == before
        assert client.unsaved("d", [*ids, [99, "nobody"]]) == [[99, "nobody"]]


def test_a_put_while_a_document_is_renewed_says_so(hub: Hub, monkeypatch: pytest.MonkeyPatch) -> None:
    """What it had written is carried over. It doesn't take its element for one that another has deleted."""
    with opened(hub) as client:
        client.put("d", [0, "list"], ["base"])
        bind = nested.bind

        def renewed_before(*words: Any) -> Any:
            hub.desk.renew("d")
            return bind(*words)

        monkeypatch.setattr(nested, "bind", renewed_before)
        monkeypatch.setattr(nested, "_has", lambda *_: False)
        with pytest.raises(Renewed):
            client.put("d", [0, "other"], [{"n": 1}])
        assert client.plain("d", [0]) == {"list": ["base"], "other": [{}]}
        monkeypatch.undo()
        client.put("d", [0, "other"], [{"n": 1}], only="changed")
        assert client.plain("d", [0, "other"]) == [{"n": 1}]


@pytest.mark.parametrize("is_flushed", [True, False])
def test_writes_that_were_answered_before_are_not_sent_again(hub: Hub, is_flushed: bool) -> None:
    with opened(hub) as client:
        writes = Writes("d")
        client.put("d", [0, "list"], [])
        for text in ("one", "two"):
            writes.send(client, "insert", [0, "list", 0], text)
            writes.send(client, "add", [0, "votes"], 1)
        writes.add(client, [0, "stock"], 5, key="till")
        hub.desk.renew("d")
        if is_flushed:
            assert writes.flush(client) == 5
        writes.send(client, "insert", [0, "list", 0], "three")
        writes.add(client, [0, "stock"], 2, key="till")
        hub.desk.renew("d")
        assert writes.send_again(client) == (0, [])
        writes.send(client, "add", [0, "votes"], 1)
        assert writes.flush(client) >= 1
        assert client.plain("d", [0]) == {"list": ["three", "two", "one"], "votes": jcrdt.Counter(3), "stock": {"till": 7}}


def test_writes_over_renewals_and_kills_of_the_hub(own: Hub) -> None:
    writes, made = Writes("d"), 0
    for turn in range(4):
        with opened(own) as client:
            writes.send_again(client)
            for _ in range(5):
                made += 1
                writes.send(client, "add", [0, "n"], 1)
            own.desk.renew("d")
        own.end(signal.SIGKILL if turn % 2 else signal.SIGTERM)
        own.start()
    with opened(own) as client:
        assert writes.send_again(client) == (0, [])
        assert writes.flush(client) <= 5
        assert client.sum("d", [0, "n"]) == made


def test_who_follows_begins_anew(hub: Hub) -> None:
    with opened(hub) as client:
        client.assign("d", [0, "k"], 1)
        following = jcrdt.followed(hub.address, "d")
        assert next(following)[4] == ["assign", 1]
        generation = hub.desk.renew("d")
        with pytest.raises(Renewed) as renewed:
            next(following)
        assert renewed.value.generation == generation
        again = jcrdt.followed(hub.address, "d")
        found = next(again)
        assert found[1][1] == f"gen{generation}-1"
        client.assign("d", [0, "k"], 2)
        while found[4] != ["assign", 2]:
            found = next(again)


@needs_library
@pytest.mark.parametrize("renewals", [1, 3])
def test_a_replica_goes_on_in_a_later_generation(hub: Hub, tmp_path: Path, renewals: int) -> None:
    """What it made meanwhile goes along, also what it began itself; it isn't made of what was deleted."""
    with opened(hub) as client, Store(str(tmp_path / "ada"), "d", "ada") as store, Replica.stored(store) as me:
        client.put("d", [0], {"list": ["one", "two", "three"], "votes": jcrdt.Counter(1)})
        me.put([0, "mine"], True)
        me.sync(client, "d")
        client.delete("d", [0, "list", 1])
        for _ in range(renewals):
            generation = hub.desk.renew("d")
            client.append("d", [0, "list"], generation)
        me.assign([0, "list", 2], "TWO")
        me.insert([0, "list", 1], "behind one")
        me.assign([0, "list", 1], "ONE")
        me.put([0, "cards"], [{"title": "a", "tags": ["x", "y"]}])
        me.delete([0, "list", 1])
        me.add([0, "votes"], 2)
        for _ in range(2):
            with pytest.raises(Renewed, match=f"d goes on in the generation {generation}"):
                me.sync(client, "d")
        name = fresh_name("ada")
        count, lost = me.renew(name, client, "d")
        assert (me.name, count) == (name, 9) and [it[4] for it in lost] == [["assign", "ONE"]]
        me.sync(client, "d")
        shown = client.plain("d", [0])
        assert shown["list"][:3] == ["behind one", "TWO", "three"] and len(shown["list"]) == 3 + renewals
        assert (shown["cards"], shown["votes"], shown["mine"]) == ([{"title": "a", "tags": ["x", "y"]}], jcrdt.Counter(3), True)
        assert me.plain() == shown and generation_of(me.front()) == generation
        assert me.renew(fresh_name("ada"), client, "d") == (0, []) and me.name == name
        me.assign([0, "mine"], False)
        me.sync(client, "d")
    with Store(str(tmp_path / "ada"), "d") as store, Replica.stored(store) as me, opened(hub) as client:
        assert (me.name, me.unread, me.sync(client, "d")) == (name, [], (0, 0))
        assert me.plain() == client.plain("d", [0])


@needs_library
def test_a_replica_of_a_long_document_of_a_later_generation_is_compared_in_pieces(hub: Hub) -> None:
    with opened(hub) as client, Replica("ada-1") as me:
        client.put("d", [0], {"list": list(range(1_200))})
        hub.desk.renew("d")
        me.sync(client, "d")
        me.put([0, "mine"], list(range(700)))
        me.sync(client, "d")
        with opened(hub) as again:
            me.assign([0, "mine", 1], "again")
            assert me.sync(again, "d") == (0, 1)
            assert again.values("d", [0, "mine", 1]) == ["again"]
            assert exchange(client, again, "d") == (0, [])


@needs_library
def test_a_replica_that_was_never_synced_goes_on_in_a_later_generation(hub: Hub) -> None:
    with opened(hub) as client, Replica("ada-1") as me:
        client.put("d", [0], {"list": ["one"]})
        hub.desk.renew("d")
        me.put([0, "mine"], ["a", "b"])
        with pytest.raises(Renewed):
            me.sync(client, "d")
        assert me.renew("ada-2", client, "d") == (3, [])
        me.sync(client, "d")
        assert client.plain("d", [0]) == me.plain() == {"list": ["one"], "mine": ["a", "b"]}


@needs_library
def test_what_others_stored_meanwhile_is_not_cleared(hub: Hub) -> None:
    """In one generation it would stay beside it."""
    with opened(hub) as client, Replica("ada-1") as me:
        client.put("d", [0], {"title": "Plan", "card": {"text": "old"}, "same": 1})
        me.sync(client, "d")
        client.assign("d", [0, "title"], "by others")
        hub.desk.renew("d")
        client.assign("d", [0, "card", "text"], "by others, later")
        hub.desk.renew("d")
        me.assign([0, "title"], "mine")
        me.delete([0, "card"])
        me.assign([0, "same"], 2)
        count, lost = me.renew("ada-2", client, "d")
        assert (count, [it[4] for it in lost]) == (1, [["assign", "mine"], ["delete"]])
        me.sync(client, "d")
        assert client.plain("d", [0]) == {"title": "by others", "card": {"text": "by others, later"}, "same": 2}


@needs_library
@of_either_name
@pytest.mark.parametrize("is_running", [True, False])
def test_copies_of_one_store_bring_an_edit_over_once(hub: Hub, tmp_path: Path, is_running: bool) -> None:
    """Of a store that was open when it was copied, or closed. What each has edited since is its own, however alike."""
    path, copy = str(tmp_path / "ada"), str(tmp_path / "copy")
    with opened(hub) as client:
        client.put("d", [0], {"list": ["one"], "votes": jcrdt.Counter(0)})
        with Store(path, "d", "ada") as store, Replica.stored(store) as me:
            me.sync(client, "d")
            me.insert([0, "list", 1], "both")
            me.add([0, "votes"], 1)
            me.save()
            shutil.copy(path, copy)
            if is_running:
                me.insert([0, "list", 1], "of the first")
        if not is_running:
            shutil.copy(path, copy)
        hub.desk.renew("d")
        for turn in range(2):
            for file in (path, copy):
                with Store(file, "d") as store, Replica.stored(store) as me:
                    if turn == 0:
                        me.add([0, "votes"], 1)
                    try:
                        me.sync(client, "d")
                    except Renewed:
                        assert me.renew(fresh_name("ada"), client, "d").lost == []
                        me.sync(client, "d")
        due = ["of the first"] * is_running + ["both"]
        assert client.plain("d", [0]) == {"list": ["one", *due], "votes": jcrdt.Counter(3)}


@needs_library
@pytest.mark.parametrize("original, first", itertools.product(["python", "javascript"], [0, 1]))
def test_copies_in_both_languages_bring_an_edit_over_once(hub: Hub, tmp_path: Path, original: str, first: int) -> None:
    """What the original made and what each has edited since, over a renewal; and a second copy, in the later generation."""
    paths = [tmp_path / "0", tmp_path / "1"]
    with opened(hub) as client:
        client.put("d", [0], {"list": ["base"], "votes": jcrdt.Counter(1)})
        program = Program(paths[0])
        program.sync(client)
        if original == "python":
            program.write("before")
            shutil.copy(*paths)
            other = OfJavaScript(paths[1], client)
        else:
            program.close()
            other = OfJavaScript(paths[0], client)
            other.ask("write before")
            shutil.copy(*paths)
            program = Program(paths[1])
        program.write("alike")
        other.ask("write alike")
        hub.desk.renew("d")
        for number in (first, 1 - first, first):
            if number:
                other.ask("online")
            else:
                synced(program, client)
        due = ["alike", "alike", "base", "before"], 4
        assert state(program.me) == other.ask("online") == state(client, "d", [0]) == due
        program.close()
        other.close()


def synced(it: Program, client: Session) -> None:
    """Syncs, also where the hub has renewed the document."""
    try:
        it.sync(client)
    except Renewed:
        assert it.me.renew(fresh_name("me"), client, "d").lost == []
        it.sync(client)


def put_back(client: jcrdt.Session, tmp_path: Path) -> str:
    """A store as it was once, of whose replica the server has a later edit: an older file that was written over the newer one."""
    path = str(tmp_path / "ada")
    with Store(path, "d", "ada") as store, Replica.stored(store) as me:
        me.put([0, "list"], ["base"])
        me.sync(client, "d")
    older = Path(path).read_bytes()
    with Store(path, "d") as store, Replica.stored(store) as me:
        me.insert([0, "list", 1], "newer")
        me.sync(client, "d")
    Path(path).write_bytes(older)
    return path


@needs_library
def test_the_id_of_another_in_the_generation_before_is_no_own_edit_of_mine(hub: Hub, tmp_path: Path) -> None:
    """A store that was put back: another one has used its ids there."""
    with opened(hub) as client:
        backup = put_back(client, tmp_path)
        hub.desk.renew("d")
        with Store(backup, "d") as store, Replica.stored(store) as me:
            me.insert([0, "list", 1], "of the backup")
            with pytest.raises(Renewed):
                me.sync(client, "d")
            assert me.renew(fresh_name("ada"), client, "d") == (1, [])
            me.sync(client, "d")
        assert sorted(client.plain("d", [0, "list"])) == ["base", "newer", "of the backup"]


@needs_library
def test_a_copy_in_a_later_generation_says_so(hub: Hub, tmp_path: Path) -> None:
    """What it says knows of the generation's beginning: without that the hub takes it for an operation of another one."""
    with opened(hub) as client:
        client.put("d", [0], {"list": ["base"], "votes": jcrdt.Counter(1)})
        hub.desk.renew("d")
        me = Program(tmp_path / "store")
        me.sync(client)
        me.write("first")
        me.sync(client)
        me.close()
        me.open()
        me.write("before")
        name, copy = me.me.name, me.copied(tmp_path / "copy")
        copy.write("copy")
        copy.close()
        copy.open()
        for it in (copy, me, copy):
            it.sync(client)
        assert (me.me.name, me.clock.pauses, copy.me.formers) == (name, [], [name])
        for found in (state(me.me), state(copy.me), state(client, "d", [0])):
            assert found == (["base", "before", "copy", "first"], 4)
        for it in (me, copy):
            it.close()


@needs_library
@pytest.mark.parametrize("languages", itertools.product(["python", "javascript"], repeat=2), ids="-".join)
def test_copies_in_both_languages_in_a_later_generation(hub: Hub, tmp_path: Path, languages: Tuple[str, str]) -> None:
    with opened(hub) as client:
        client.put("d", [0], {"list": ["base"], "votes": jcrdt.Counter(1)})
        hub.desk.renew("d")
        original = Either(tmp_path / "0", client, languages[0])
        original.sync()
        original.write("first")
        original.sync()
        original.end("closed")
        original.open(languages[0])
        original.write("before")
        name = original.name
        shutil.copy(tmp_path / "0", tmp_path / "1")
        copy = Either(tmp_path / "1", client, languages[1])
        copy.write("copy")
        for it in (copy, original, copy):
            it.sync()
        assert original.name == name != copy.name
        assert original.state == copy.state == state(client, "d", [0]) == (["base", "before", "copy", "first"], 4)
        original.end("closed")
        copy.end("closed")


@needs_library
@of_either_name
def test_what_a_copy_has_made_again_before_is_there(hub: Hub, tmp_path: Path) -> None:
    """A third copy has used their ids. What follows goes into the element that the copy has made."""
    paths = [tmp_path / name for name in ("first", "second", "third")]
    with opened(hub) as client:
        me = Program(paths[0])
        me.me.put([0, "list"], [])
        me.vote(1)
        me.sync(client)
        third = me.copied(paths[2])
        third.write("of the third")
        me.me.insert([0, "list", 0], {})
        me.me.save()
        second = me.copied(paths[1])
        third.sync(client)
        second.me.assign([0, "list", 1, "by"], "second")
        second.sync(client)
        hub.desk.renew("d")
        me.me.assign([0, "list", 1, "title"], "first")
        with pytest.raises(Renewed):
            me.sync(client)
        assert me.me.renew(fresh_name("me"), client, "d").lost == []
        me.sync(client)
        card = {"by": "second", "title": "first"}
        assert [it for it in client.plain("d", [0, "list"]) if it != "of the third"] == [card]
        for it in (me, second, third):
            it.close()


@needs_library
def test_a_new_name_in_a_document_that_is_renewed_meanwhile(hub: Hub, tmp_path: Path) -> None:
    """Operations of two generations aren't mixed."""
    with opened(hub) as client:
        backup = put_back(client, tmp_path)
        with Store(backup, "d") as store, Replica.stored(store) as me:
            me.insert([0, "list", 1], "of the backup")
            with pytest.raises(Differs):
                me.sync(client, "d")
            generation, name = hub.desk.renew("d"), me.name
            with pytest.raises(Renewed, match=generation):
                me.remake(fresh_name("ada"), client, "d")
            assert me.name == name
            assert me.renew(fresh_name("ada"), client, "d") == (1, [])
            me.sync(client, "d")
        assert sorted(client.plain("d", [0, "list"])) == ["base", "newer", "of the backup"]


@needs_library
def test_a_document_that_is_renewed_whenever_it_is_read_is_read_on(hub: Hub, monkeypatch: pytest.MonkeyPatch) -> None:
    """Each step between generations is read once, and what others stored in one, too."""
    asked: List[str] = []
    read, renewals = Session.operations, iter(range(3))

    def operations(it: Session, document: str, *front: Any) -> Iterator[Any]:
        asked.append(document)
        if document == "d" and next(renewals, None) is not None:
            hub.desk.renew("d")
        yield from read(it, document, *front)

    def moved(document: str, generation: str) -> Any:
        asked.append(f"map {generation}")
        return move_from(document, generation)

    with opened(hub) as client, Replica("ada-1") as me:
        client.put("d", [0], {"list": ["one"], "k": 1})
        me.sync(client, "d")
        me.assign([0, "k"], 2)
        client.append("d", [0, "list"], "two")
        generations = ["1", hub.desk.renew("d")]
        monkeypatch.setattr(Session, "operations", operations)
        monkeypatch.setattr(later, "move_from", moved)
        assert me.renew(fresh_name("ada"), client, "d") == (1, [])
        monkeypatch.undo()
        me.sync(client, "d")
        assert me.plain() == client.plain("d", [0]) == {"list": ["one", "two"], "k": 2}
    assert asked.count("d") == 4
    first, *past = (it for it in asked if it != "d")
    assert first == "d/1", "what of it is its own"
    assert {"d/1", "map 1", f"map {generations[1]}"} <= set(past) and len(past) == len(set(past)) == 8


class Rounds:
    """Programs with stores of one document that a hub renews: edits, syncs, renewals, copies and kills in any order."""

    def __init__(self, seed: int, hub: Hub, client: Session, folder: Path) -> None:
        self.dice, self.hub, self.client, self.folder = random.Random(seed), hub, client, folder
        client.put("d", [0], {"list": [], "votes": jcrdt.Counter(0)})
        self.programs = [Program(folder / "0"), Program(folder / "1")]
        self.texts: List[str] = []
        for it in self.programs:
            self.sync(it)

    def sync(self, it: Program) -> None:
        for _ in range(20):
            try:
                it.sync(self.client)
                return
            except Renewed:
                assert it.me.renew(fresh_name("me"), self.client, "d").lost == []
        raise AssertionError("it goes on and on")

    def turn(self, number: int) -> None:
        it, chance = self.dice.choice(self.programs), self.dice.random()
        if chance < 0.4:
            self.texts.append(str(number))
            it.write(self.texts[-1])
        elif chance < 0.6:
            self.sync(it)
        elif chance < 0.7:
            self.hub.desk.renew("d")
        elif chance < 0.8 and len(self.programs) < 5:
            self.programs.append(it.copied(self.folder / str(len(self.programs))))
        elif chance < 0.9:
            self.texts.append(str(number))
            self.client.insert("d", [0, "list", 0], self.texts[-1])
            self.client.add("d", [0, "votes"], 1)
        else:
            {True: it.close, False: it.kill}[self.dice.random() < 0.5]()
            it.open()


@needs_library
@of_either_name
@pytest.mark.parametrize("seed", range(int(os.environ.get("ROUNDS", "1" if IS_SHORT else "4"))))
def test_random_rounds_over_generations(hub: Hub, tmp_path: Path, seed: int) -> None:
    """Nothing is lost, nothing doubled."""
    with opened(hub) as client:
        rounds = Rounds(seed, hub, client, tmp_path)
        for number in range(50):
            rounds.turn(number)
        for it in 2 * rounds.programs:
            rounds.sync(it)
        due = sorted(rounds.texts), len(rounds.texts)
        assert state(client, "d", [0]) == due
        for it in rounds.programs:
            assert state(it.me) == due
            it.close()


@needs_library
def test_a_replica_of_another_hub_finds_no_way(hub: Hub) -> None:
    with opened(hub) as client, Replica("ada-1") as me:
        me.deliver(["op", [1, "gen2-aaaaaaaaaa-1"], [], [[["m", 0]], "k"], ["assign", 1]])
        client.assign("d", [0, "k"], 1)
        with pytest.raises(ValueError, match="d has no generation 2-aaaaaaaaaa at this hub"):
            me.renew("ada-2", client, "d")
        assert me.name == "ada-1"
        with pytest.raises(ValueError, match="is no name of a replica"):
            me.renew("Ada", client, "d")


@needs_library
def test_by_hand_what_a_later_generation_lacks_is_made_in_a_new_replica(hub: Hub) -> None:
    with opened(hub) as client, Replica("ada-1") as me, Replica("ada-2") as new:
        client.put("d", [0], {"list": ["one", "two", "three"]})
        me.sync(client, "d")
        client.delete("d", [0, "list", 1])
        for _ in range(2):
            hub.desk.renew("d")
        me.assign([0, "list", 2], "TWO")
        me.assign([0, "list", 1], "ONE")
        new.sync(client, "d")
        count, lost = me.remake_in(new, client.elements_since("d", generation_of(me.front())))
        assert (count, [it[4] for it in lost]) == (1, [["assign", "ONE"]])
        new.sync(client, "d")
        assert client.plain("d", [0]) == {"list": ["TWO", "three"]}


def test_the_same_with_asyncio(hub: Hub) -> None:
    async def run() -> None:
        async with aio.connected(hub.address) as client:
            await client.create("d")
            assert await client.list() == ["d"]
            await client.open("d")
            await client.put("d", [0, "list"], ["one", {"n": 1}])
            front = await client.front("d")
            ids = [it for it, _ in await client.items("d", [0, "list"])]
            generation = await asyncio.get_running_loop().run_in_executor(None, hub.desk.renew, "d")
            assert [it.name for it in await client.history("d")] == ["1", generation]
            with pytest.raises(Renewed, match=f"d goes on in the generation {generation}"):
                async for _ in client.operations("d", front):
                    pass
            moved = await client.elements_since("d", "1")
            assert [old for old, _ in moved] == ids
            assert await client.bind("d", "it", [0, "list"], moved[1][1])
            assert await client.plain("d", ["it"]) == {"n": 1}
            assert await client.unsaved("d", [*ids, [99, "nobody"]]) == [[99, "nobody"]]
            with pytest.raises(Renewed):
                await client.bind("d", "it", [0, "list"], ids[0])

    asyncio.run(run())
