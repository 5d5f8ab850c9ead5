"""Copies of a store that are made while its program goes on with it, as by a backup: all sync, and each edit is there once.

Over libjcrdt.so; skipped where it isn't here."""

import contextlib
import itertools
import json
import os
import random
import shutil
import subprocess
import threading
from pathlib import Path
from typing import Any, Callable, Iterator, List, Optional, Sequence, Tuple

import pytest

from conftest import SECONDS, TOP, Server, of_either_name

import jcrdt
from jcrdt import replica as replica_module
from jcrdt.copies import Clock, Own, is_saying
from jcrdt.replica import Replica
from jcrdt.session import Session
from jcrdt.store import Store, fresh_name
from jcrdt.syncing import Differs

Serve = Callable[..., Server]

pytestmark = pytest.mark.skipif(not any(map(os.path.isfile, replica_module.library_paths())), reason="libjcrdt.so isn't here")


class Quick(Clock):
    """A clock that goes on by its pauses alone. At each of them another program does something."""

    def __init__(self, meanwhile: Callable[[], None]) -> None:
        self.time, self.meanwhile = 0.0, meanwhile
        self.pauses: List[float] = []

    def now(self) -> float:
        return self.time

    def pause(self, seconds: float) -> None:
        self.time += seconds
        self.pauses.append(seconds)
        self.meanwhile()


class Program:
    """A program that has a store open. Its document has a list of texts, and votes."""

    def __init__(self, path: Path) -> None:
        self.path = path
        # What another program does while this one waits.
        self.meanwhile: Callable[[], None] = lambda: None
        self.open()

    def open(self) -> None:
        self.store = Store(str(self.path), "d", "me")
        self.me = Replica.stored(self.store)
        self.clock = self.me.clock = Quick(lambda: self.meanwhile())

    def close(self) -> None:
        with self.store, self.me:
            pass

    def kill(self) -> None:
        """What a kill leaves: the file as it is, unlocked."""
        os.close(self.store._file)
        self.store._file = -1
        self.me.close()

    def copied(self, path: Path) -> "Program":
        shutil.copy(self.path, path)
        return Program(path)

    def write(self, *texts: str) -> None:
        for text in texts:
            self.me.insert([0, "list", 0], text)
            self.me.add([0, "votes"], 1)
        self.me.save()

    def begin_card(self) -> None:
        if "cards" not in self.me.ask("keys", [0])[0]:
            self.me.put([0, "cards"], [])
        self.me.insert([0, "cards", 0], {})
        self.me.save()

    def title_card(self, title: str) -> None:
        self.me.assign([0, "cards", 1, "title"], title)
        self.me.save()

    def vote(self, count: int) -> None:
        for _ in range(count):
            self.me.add([0, "votes"], 1)
        self.me.save()

    def sync(self, client: Session) -> None:
        for _ in range(20):
            try:
                self.me.sync(client, "d")
                return
            except Differs as error:
                assert error.is_own
                assert self.me.remake(fresh_name("again"), client, "d").lost == []
        raise AssertionError("it goes on and on")


@contextlib.contextmanager
def cut_after(count: int, client: Session) -> Iterator[None]:
    """Lets a session break once it has delivered so many operations."""
    left, ask_all = [count], client.ask_all

    def cut(requests: Any) -> List[Any]:
        asked = list(requests)
        if asked and asked[0][0] == "deliver":
            if left[0] < len(asked):
                ask_all(asked[:left[0]])
                raise jcrdt.Lost("cut")
            left[0] -= len(asked)
        return ask_all(asked)

    with pytest.MonkeyPatch.context() as patch, contextlib.suppress(jcrdt.Lost):
        patch.setattr(client, "ask_all", cut)
        yield


def state(of: Any, *where: Any) -> Tuple[List[str], int]:
    shown = of.plain(*where)
    return sorted(shown["list"]), shown["votes"]["counter"]


@pytest.fixture
def client(serve: Serve) -> Iterator[Session]:
    with jcrdt.connected(serve("d").address) as session:
        session.open("d")
        yield session


def begun(path: Path, client: Optional[Session] = None) -> Program:
    """A program whose first edits a server has."""
    it = Program(path)
    it.me.put([0, "list"], [])
    it.write("base")
    if client is not None:
        it.sync(client)
    return it


def check(programs: List[Program], client: Session, texts: List[str], votes: int) -> None:
    """Each edit is everywhere exactly once, also where the store is opened anew."""
    for it in 2 * programs:
        it.sync(client)
    due = sorted(texts), votes
    assert state(client, "d", [0]) == due
    for it in programs:
        assert state(it.me) == due
        it.close()
        it.open()
        assert (state(it.me), it.me.unread) == (due, [])
        it.close()


WAYS = list(itertools.product(["original", "copy"], [True, False], ["first", "anew", "killed"], [True, False]))


@of_either_name
@pytest.mark.parametrize("who, is_edited, how, is_known", WAYS)
def test_a_store_copied_while_it_is_edited(client: Session, tmp_path: Path, who: str, is_edited: bool, how: str, is_known: bool) -> None:
    """Whoever syncs first, each edit is there once. Where the program was opened anew, the server has nothing of it since."""
    me = begun(tmp_path / "store", client if is_known else None)
    if how != "first":
        {"anew": me.close, "killed": me.kill}[how]()
        me.open()
    me.write("before 1", "before 2")
    copy = me.copied(tmp_path / "copy")
    me.write("original 1")
    texts = ["base", "before 1", "before 2", "original 1"]
    if is_edited:
        copy.write("copy 1", "copy 2")
        texts += ["copy 1", "copy 2"]
    for it in (me, copy) if who == "original" else (copy, me):
        it.sync(client)
    check([me, copy], client, texts, len(texts))


@of_either_name
@pytest.mark.parametrize("made, first", itertools.product(["open", "closed", "one each"], [0, 1, 2]))
def test_votes_alike_in_the_original_and_in_copies_all_count(client: Session, tmp_path: Path, made: str, first: int) -> None:
    me = begun(tmp_path / "store", client)
    me.vote(2)
    if made != "open":
        me.close()
        for name in ("one", "two"):
            shutil.copy(me.path, tmp_path / name)
        me.open()
    me.vote(1)
    if made != "closed":
        shutil.copy(me.path, tmp_path / "two")
    if made == "open":
        shutil.copy(me.path, tmp_path / "one")
    programs = [me, Program(tmp_path / "one"), Program(tmp_path / "two")]
    for it in programs:
        it.vote(3)
    programs[first].sync(client)
    votes = 1 + 2 + 1 + 3 * 3
    check(programs, client, ["base"], votes)


@of_either_name
@pytest.mark.parametrize("run", [lambda me: me.insert_all([0, "list", 1], ["x", "y"]), lambda me: me.delete_all([0, "list", 1], 2)])
def test_a_copy_says_so_before_a_run(tmp_path: Path, run: Callable[[Replica], Any]) -> None:
    me = Program(tmp_path / "me")
    me.me.put([0, "list"], ["a", "b"])
    me.me.save()
    copy = me.copied(tmp_path / "copy")
    run(copy.me)
    copy.me.assign([0, "k"], 1)
    assert [is_saying(it) for it in copy.me.operations(me.me.front())] == [True, False, False, False]
    copy.close()
    me.close()


@of_either_name
@pytest.mark.parametrize("who, is_reopened", itertools.product(["original", "copy"], [False, True]))
def test_a_card_that_was_begun_when_the_copy_was_made_is_one(client: Session, tmp_path: Path, who: str, is_reopened: bool) -> None:
    """Its title came behind. It isn't that of two that began a card each."""
    me = begun(tmp_path / "store", client)
    me.me.insert([0, "list", 0], {})
    me.me.save()
    copy = me.copied(tmp_path / "copy")
    me.me.assign([0, "list", 1, "title"], "original's")
    me.me.save()
    copy.me.assign([0, "list", 1, "text"], "copy's")
    copy.me.save()
    if is_reopened:
        for it in (me, copy):
            it.close()
            it.open()
    for it in 2 * [me, copy] if who == "original" else 2 * [copy, me]:
        it.sync(client)
    due = [{"title": "original's", "text": "copy's"}, "base"]
    assert client.plain("d", [0, "list"]) == me.me.plain([0, "list"]) == copy.me.plain([0, "list"]) == due
    me.close()
    copy.close()


@of_either_name
@pytest.mark.parametrize("how", ["closed", "killed"])
def test_cards_that_were_begun_alike_behind_a_closed_store_are_two(client: Session, tmp_path: Path, how: str) -> None:
    me = begun(tmp_path / "store", client)
    me.close()
    shutil.copy(me.path, tmp_path / "copy")
    programs = [Program(it) for it in (me.path, tmp_path / "copy")]
    for number, it in enumerate(programs):
        it.me.insert([0, "list", 0], {})
        it.me.assign([0, "list", 1, "title"], f"card {number}")
        it.me.save()
        {"closed": it.close, "killed": it.kill}[how]()
        it.open()
        it.vote(1)
    for it in 2 * programs:
        it.sync(client)
    shown = client.plain("d", [0])
    assert (sorted(it["title"] for it in shown["list"] if it != "base"), shown["votes"]) == (["card 0", "card 1"], jcrdt.Counter(3))
    for it in programs:
        assert it.me.plain() == shown
        it.close()


@of_either_name
@pytest.mark.parametrize("is_synced", [True, False])
def test_a_copy_of_what_the_server_has_votes_alike(client: Session, tmp_path: Path, is_synced: bool) -> None:
    """It has nothing to send at first, and says where it begins all the same."""
    me = begun(tmp_path / "store", client)
    copy = me.copied(tmp_path / "copy")
    if is_synced:
        copy.sync(client)
    me.vote(1)
    copy.vote(1)
    copy.sync(client)
    check([me, copy], client, ["base"], 3)


@of_either_name
@pytest.mark.parametrize("count", range(9))
def test_a_copy_that_is_killed_while_it_sends(client: Session, tmp_path: Path, count: int) -> None:
    """The program takes what came of it for its own: it has sent edits of this opening before."""
    me = begun(tmp_path / "store", client)
    me.write("before 1", "before 2")
    copy = me.copied(tmp_path / "copy")
    copy.write("copy")
    me.write("original")
    with cut_after(count, client):
        copy.me.sync(client, "d")
    copy.kill()
    me.sync(client)
    assert me.clock.pauses == []
    copy.open()
    check([me, copy], client, ["base", "before 1", "before 2", "copy", "original"], 5)


@pytest.mark.parametrize("count, is_reopened", itertools.product(range(7), [False, True]))
def test_a_copy_says_so_before_it_sends_anything(client: Session, tmp_path: Path, count: int, is_reopened: bool) -> None:
    """Its file has that behind what it is about. The program has sent nothing since it was opened: it needn't wait, and keeps its name."""
    me = begun(tmp_path / "store", client)
    me.close()
    me.open()
    me.write("before 1", "before 2")
    copy = me.copied(tmp_path / "copy")
    copy.write("copy")
    if is_reopened:
        copy.close()
        copy.open()
    with cut_after(count, client):
        copy.me.sync(client, "d")
    copy.kill()
    me.write("original")
    name = me.me.name
    me.sync(client)
    assert (me.clock.pauses, me.me.name) == ([], name)
    copy.open()
    check([me, copy], client, ["base", "before 1", "before 2", "copy", "original"], 5)


@pytest.mark.parametrize("is_edited", [False, True])
def test_what_a_copy_says(client: Session, tmp_path: Path, is_edited: bool) -> None:
    """Once, of each name before, also where it sends what others made alone. One that has nothing to send takes no name in the document."""
    me = begun(tmp_path / "store", client)
    me.close()
    me.open()
    me.write("before")
    words = [word for _, word in me.store.sessions]
    copy = me.copied(tmp_path / "copy")
    copy.vote(int(is_edited))
    third = copy.copied(tmp_path / "third")
    third.sync(client)
    first = [it for it in client.operations("d") if it[1][1] == third.me.name]
    due = [f"jcrdt copy of {me.me.name} 5 {third.store.session} {words[-1]}"]
    if is_edited:
        due.append(f"jcrdt copy of {copy.me.name} 6 {third.store.session} {copy.store.session}")
    assert [it[3:] for it in first] == [[[[["m", 0]], key], ["delete"]] for key in due]
    assert [it[2] for it in first] == [[], [[third.me.name, 1]]][:len(due)] and len(third.me.made()) == len(due)
    me.sync(client)
    assert me.clock.pauses == []
    fourth = me.copied(tmp_path / "fourth")
    fourth.sync(client)
    assert fourth.me.formers == [me.me.name] and fourth.me.name not in client.front("d")
    check([me, copy, third, fourth], client, ["base", "before"], 2 + is_edited)


@pytest.mark.usefixtures("cloned")
def test_a_program_waits_while_a_copy_sends(client: Session, tmp_path: Path) -> None:
    """It was opened anew, and has sent nothing since: what comes may be that of a copy, or votes alike of another."""
    me = begun(tmp_path / "store", client)
    me.close()
    me.open()
    me.vote(4)
    copy = me.copied(tmp_path / "copy")
    copy.me.say()
    sent = iter(copy.me.operations(client.front("d")))

    def one_more() -> None:
        client.deliver("d", next(sent))

    one_more()
    me.meanwhile = lambda: one_more() if len(me.clock.pauses) < 4 else copy.sync(client)
    me.vote(1)
    me.sync(client)
    assert len(me.clock.pauses) == 4
    me.meanwhile = lambda: None
    check([me, copy], client, ["base"], 6)


@pytest.mark.usefixtures("cloned")
def test_votes_alike_of_another_store_are_waited_for_five_seconds_once(client: Session, tmp_path: Path) -> None:
    me = begun(tmp_path / "store", client)
    me.close()
    shutil.copy(me.path, tmp_path / "copy")
    me.open()
    me.vote(3)
    copy = Program(tmp_path / "copy")
    copy.vote(2)
    copy.sync(client)
    for _ in range(2):
        with pytest.raises(Differs):
            me.me.sync(client, "d")
        assert 5 <= me.clock.time < 5.2
    check([me, copy], client, ["base"], 6)


class Rounds:
    """Edits, votes, copies, copies of copies, kills and syncs in any order. A program that was killed while it sent is started again
    while another one waits for what it has begun to send."""

    def __init__(self, seed: int, client: Session, folder: Path) -> None:
        self.seed, self.client, self.folder = seed, client, folder
        self.dice = random.Random(seed)
        self.programs = [begun(folder / "0", client if self.dice.random() < 0.5 else None)]
        self.texts, self.votes = ["base"], 1
        self.cut: List[Program] = []
        self.titles: List[str] = []

    def come_back(self) -> None:
        while self.cut:
            self.cut.pop().sync(self.client)

    def turn(self, number: int) -> None:
        it, chance = self.dice.choice(self.programs), self.dice.random()
        it.meanwhile = self.come_back
        if chance < 0.35:
            self.texts.append(f"{self.seed} {number}")
            it.write(self.texts[-1])
            self.votes += 1
        elif chance < 0.4:
            self.titles.append(f"{self.seed} {number}")
            it.begin_card()
            if self.dice.random() < 0.3 and len(self.programs) < 6:
                self.programs.append(it.copied(self.folder / str(len(self.programs))))
            it.title_card(self.titles[-1])
        elif chance < 0.5:
            count = 1 + self.dice.randrange(3)
            it.vote(count)
            self.votes += count
        elif chance < 0.63:
            if len(self.programs) < 6:
                self.programs.append(it.copied(self.folder / str(len(self.programs))))
        elif chance < 0.8:
            it.sync(self.client)
        elif chance < 0.9:
            {True: it.close, False: it.kill}[chance < 0.85]()
            it.open()
        else:
            self.kill_while_it_sends(it)

    def kill_while_it_sends(self, it: Program) -> None:
        with cut_after(self.dice.randrange(6), self.client), contextlib.suppress(Differs):
            it.me.sync(self.client, "d")
        it.kill()
        it.open()
        self.cut.append(it)


@of_either_name
@pytest.mark.parametrize("seed", range(int(os.environ.get("ROUNDS", "24"))))
def test_random_copies_of_running_stores(client: Session, tmp_path: Path, seed: int) -> None:
    """Nothing is lost, nothing doubled."""
    rounds = Rounds(seed, client, tmp_path)
    for number in range(50):
        rounds.turn(number)
    rounds.dice.shuffle(rounds.programs)
    check(rounds.programs, client, rounds.texts, rounds.votes)
    cards = client.plain("d", [0]).get("cards", [])
    assert sorted(it["title"] for it in cards if "title" in it) == sorted(rounds.titles)


@of_either_name
@pytest.mark.parametrize("seed", range(12))
def test_an_original_and_a_copy_that_sync_at_the_same_time(serve: Serve, tmp_path: Path, seed: int) -> None:
    """Each in a thread of its own, over a session of its own, several times."""
    dice = random.Random(seed)
    server = serve("d")
    with jcrdt.connected(server.address) as one, jcrdt.connected(server.address) as other:
        one.open("d")
        other.open("d")
        programs = [begun(tmp_path / "0", one if seed % 2 else None)]
        texts = ["base"]
        for turn in range(4):
            if turn == 1:
                programs.append(programs[0].copied(tmp_path / "1"))
            for it in programs:
                written = [f"{turn} {it.path.name} {number}" for number in range(dice.randrange(9))]
                it.write(*written)
                texts += written
            if turn < 1:
                continue
            threads = [threading.Thread(target=it.sync, args=(session,)) for it, session in zip(programs, (one, other))]
            for thread in threads:
                thread.start()
            for thread in threads:
                thread.join()
        check(programs, one, texts, len(texts))


def test_a_store_that_was_closed_or_read_says_nothing(client: Session, tmp_path: Path) -> None:
    me = begun(tmp_path / "store", client)
    me.kill()
    me.open()
    name, count = me.me.name, len(me.me.operations())
    me.sync(client)
    me.close()
    assert (tmp_path / "store").read_text().splitlines()[0].endswith("\t")
    me.open()
    assert (me.me.name, len(me.me.operations())) == (name, count)
    me.vote(1)
    assert len(me.me.operations()) == count + 2
    me.close()
    assert (tmp_path / "store").read_text().splitlines()[0].endswith(" ")
    me.open()
    me.vote(1)
    assert (me.me.name, len(me.me.operations())) == (name, count + 3)
    me.sync(client)
    me.close()


def test_what_says_so_is_stored_before_the_mark_goes(client: Session, tmp_path: Path) -> None:
    me = begun(tmp_path / "store", client)
    me.kill()
    me.open()
    me.me.add([0, "votes"], 1)
    me.me.close()
    me.store.close()
    assert (tmp_path / "store").read_text().splitlines()[0].endswith("\t")


def test_which_copies_say_so() -> None:
    """One under a name of its own says so before it knows of others. One of another opening has others, however alike."""
    own = Own(5, True, False, [(0, "at-1"), (3, "at-2")])

    def copied(what: str, maker: str = "copy", known: Sequence[Any] = (), word: str = "delete") -> int:
        return own.copied(["op", [2, maker], list(known), [[["m", 0]], f"jcrdt copy of {what}"], [word]], "ada")

    assert copied("ada 3 at-9 at-1") == copied("ada 3 at-9") == copied("ada 3") == 3
    assert copied("ada 4 at-9 at-2") == copied("ada 4 at-9 at-2", known=[["copy", 1]]) == 4
    assert copied("ada 3 at-9 at-1", "ada", [["ada", 1], ["bob", 1]]) == 3
    gen = "gen2-aaaaaaaaaa-1"
    assert copied("ada 3 at-9 at-1", known=[["copy", 2], [gen, 1]]) == 3 and copied("ada 3 at-9 at-1", known=[[gen, 2]]) == 0
    assert copied("ada 3 at-9 at-1", known=[["bob", 1]]) == copied("ada 3 at-9 at-1", known=[["bob", 1], ["copy", 1]]) == 0
    assert copied("ada 3 at-9 at-2") == copied("ada 4 at-9 at-1") == copied("adam 3") == copied("bob 3") == copied("ada x") == 0
    assert copied("ada 3", word="assign") == 0


JAVASCRIPT = """
import { createInterface } from "node:readline";
import { fileStore } from "TOP/clients/js/file_store.mjs";
import { Provider } from "TOP/clients/js/provider.mjs";
const [path, at] = process.argv.slice(1);
const it = await Provider.open({ document: "d", at, store: fileStore(path), isOnline: false });
for await (const line of createInterface({ input: process.stdin })) {
  const [word, ...texts] = line.split(" ");
  if (word === "write") for (const text of texts) {
    it.replica.insert([0, "list", 0], text);
    it.replica.add([0, "votes"], 1);
  } else if (word === "vote") {
    it.replica.add([0, "votes"], 1);
  } else if (word === "online") {
    it.goOnline();
    await it.synced(120);
    it.goOffline();
  }
  console.log(JSON.stringify([it.replica.plain([0, "list"]), Number(it.replica.sum([0, "votes"]))]));
}
await it.close();
"""


class OfJavaScript:
    """A program in JavaScript that has a store open."""

    def __init__(self, path: Path, client: Session) -> None:
        words = ["node", "--input-type=module", "-e", JAVASCRIPT.replace("TOP", str(TOP)), str(path), str(client.address)]
        self.child = subprocess.Popen(words, stdin=subprocess.PIPE, stdout=subprocess.PIPE, text=True, bufsize=1)

    def ask(self, line: str) -> Tuple[List[str], int]:
        assert self.child.stdin is not None and self.child.stdout is not None
        self.child.stdin.write(f"{line}\n")
        texts, votes = json.loads(self.child.stdout.readline())
        return sorted(texts or []), votes

    def close(self) -> None:
        self.child.communicate(timeout=SECONDS)
        assert self.child.returncode == 0

    def kill(self) -> None:
        self.child.kill()
        self.child.communicate(timeout=SECONDS)


@pytest.mark.skipif(shutil.which("node") is None, reason="node isn't here")
@pytest.mark.parametrize("original, first", itertools.product(["python", "reopened", "javascript"], [0, 1]))
def test_copies_in_both_languages(client: Session, tmp_path: Path, original: str, first: int) -> None:
    """One goes on with a copy of what the other one has open: both mean the same by their own operations."""
    store, copy = tmp_path / "store", tmp_path / "copy"
    me = begun(store, client)
    if original != "javascript":
        if original == "reopened":
            me.close()
            me.open()
        me.write("before")
        shutil.copy(store, copy)
        other = OfJavaScript(copy, client)
    else:
        me.close()
        other = OfJavaScript(store, client)
        other.ask("write before")
        shutil.copy(store, copy)
        me = Program(copy)
    me.write("python")
    other.ask("write javascript")
    for number in (first, 1 - first, first, 1 - first):
        if number:
            other.ask("online")
        else:
            me.sync(client)
    due = ["base", "before", "javascript", "python"], 4
    assert state(me.me) == other.ask("look") == state(client, "d", [0]) == due
    other.close()
    me.close()


@pytest.mark.skipif(shutil.which("node") is None, reason="node isn't here")
@pytest.mark.parametrize("first", [0, 1])
def test_a_closed_store_that_was_copied_goes_on_in_javascript(client: Session, tmp_path: Path, first: int) -> None:
    """Under a name of its own: so what both edit alike, and close again before they are online, is there twice."""
    store, copy = tmp_path / "store", tmp_path / "copy"
    me = begun(store, client)
    me.close()
    shutil.copy(store, copy)
    me.open()
    me.write("same")
    me.close()
    me.open()
    other = OfJavaScript(copy, client)
    other.ask("write same")
    other.close()
    other = OfJavaScript(copy, client)
    for number in (first, 1 - first, first, 1 - first):
        if number:
            other.ask("online")
        else:
            me.sync(client)
    assert state(me.me) == other.ask("look") == state(client, "d", [0]) == (["base", "same", "same"], 3)
    other.close()
    me.close()


@pytest.mark.skipif(shutil.which("node") is None, reason="node isn't here")
@pytest.mark.parametrize("how", ["closed", "killed", "moved"])
def test_the_same_file_keeps_its_name_in_javascript(client: Session, tmp_path: Path, how: str) -> None:
    store = tmp_path / "store"
    me = begun(store, client)
    name = me.me.name
    {"killed": me.kill}.get(how, me.close)()
    if how == "moved":
        store = store.rename(tmp_path / "moved")
    other = OfJavaScript(store, client)
    other.ask("write javascript")
    assert other.ask("online") == state(client, "d", [0]) == (["base", "javascript"], 2)
    other.close()
    assert store.read_text().startswith(f'["replica","{name}","d"]')
    me = Program(store)
    me.sync(client)
    assert (me.me.name, state(me.me)) == (name, (["base", "javascript"], 2))
    me.close()
