"""The replica in this process, over libjcrdt.so: JCRDT_LIBRARY, or the release's. Skipped where the library is in neither place."""

import hashlib
import os
import subprocess
import sys
from pathlib import Path
from typing import Any, Callable, Iterator, List, Tuple

import pytest

from conftest import SECONDS, takes_long
from test_session import forked

import jcrdt
from jcrdt import replica as replica_module, wire
from jcrdt.replica import Replica, RefusedLine
from jcrdt.runs import ROOM
from jcrdt.wire import Refused

FIRST = '["op",[1,"ada-1"],[],[[["m",0]],"t"],["assign","Plan"]]'
TOP = Path(__file__).resolve().parents[3]

pytestmark = pytest.mark.skipif(not any(map(os.path.isfile, replica_module.library_paths())), reason="libjcrdt.so isn't here")


@pytest.fixture(name="ada")
def _ada() -> Iterator[Replica]:
    with Replica("ada-1") as made:
        yield made


def test_changes_are_made_without_a_server(ada: Replica) -> None:
    assert ada.assign([0, "title"], "Oslo") == [1, "ada-1"]
    ada.put([0, "days"], [{"at": 1}, [], jcrdt.Counter(2**64), "x"])
    assert ada.plain() == {"title": "Oslo", "days": [{"at": 1}, [], {"counter": 2**64}, "x"]}
    assert ada.made() == ada.lines()
    assert ada.made() == []
    with Replica("ada-1", ada.lines()) as again:
        assert again.plain() == ada.plain()
        assert again.front() == ada.front()


def test_a_fork_leaves_the_replica_to_the_parent(ada: Replica) -> None:
    for use in (lambda: ada.assign([0, "k"], 1), ada.logged, ada.front):
        assert forked(use).startswith("Lost(")
    assert forked(ada.close) == "None"
    assert ada.assign([0, "k"], 2) == [1, "ada-1"]


def test_a_caret_stays_at_its_element(ada: Replica) -> None:
    ada.put([0, "l"], ["a", "b"])
    caret = ada.place([0, "l", 2])
    ada.insert([0, "l", 0], "before")
    ada.insert([caret], "after b")
    ada.assign([caret], "B")
    assert ada.plain([0, "l"]) == ["before", "a", "B", "after b"]


def test_several_elements_are_inserted_and_deleted_at_once(ada: Replica) -> None:
    ada.put([0, "l"], ["<", ">"])
    ada.made()
    ids = ada.insert_all([0, "l", 1], ["a", 2, None, {}])
    assert ids == [[4, "ada-1"], [5, "ada-1"], [6, "ada-1"], [7, "ada-1"]]
    assert ada.plain([0, "l"]) == ["<", "a", 2, None, {}, ">"]
    assert ada.made() == ada.lines()[3:]
    assert ada.delete_all([0, "l", 2], 3) == [[8, "ada-1"], [9, "ada-1"], [10, "ada-1"]]
    assert ada.plain([0, "l"]) == ["<", {}, ">"]
    lines = ada.lines()
    assert (ada.insert_all([0, "l", 1], []), ada.delete_all([0, "l", 1], 0)) == ([], [])
    text = Replica("ada-2")
    assert [len(text.insert_all([0, "l", 0], it)) for it in ("né", (number for number in range(3)), iter(()))] == [2, 3, 0]
    assert text.plain([0, "l"]) == [0, 1, 2, "n", "é"]
    refused: List[Tuple[int, Callable[[], Any]]] = [
        (9, lambda: ada.delete_all([0, "l", 2], 3)), (9, lambda: ada.insert_all([0, "l", 9], ["x"])),
        (6, lambda: ada.insert_all([0, "l", 1], ["x", 0.5])), (11, lambda: ada.insert_all([0, "l"], ["x", "y"])),
        (10, lambda: ada.delete_all([0, "l", 0], 1)),
    ]
    for number, change in refused:
        with pytest.raises(Refused) as raised:
            change()
        assert raised.value.number == number
    behind_a_caret = ada.place([0, "l", 1])
    with pytest.raises(ValueError):
        ada.delete_all(behind_a_caret, 2)
    assert ada.lines() == lines
    with Replica("ada-1", lines) as again:
        assert again.plain() == ada.plain()


class _Measured:
    """The library, of which the bytes of each run's answer are noted. It has no memory for one that is longer than the room that it keeps."""

    def __init__(self) -> None:
        self._library = replica_module.load()
        self.lengths: List[int] = []

    def __getattr__(self, name: str) -> Any:
        return getattr(self._library, name)

    def jcrdt_ask(self, handle: Any, line: bytes, *words: Any) -> int:
        length: int = self._library.jcrdt_ask(handle, line, *words)
        if not line.startswith((b'["inserts"', b'["deletes"')):
            return length
        self.lengths.append(length)
        return length if length <= ROOM else 0


def test_a_run_is_cut_where_its_answer_would_be_too_long() -> None:
    library = _Measured()
    with Replica("ada-1", library=library) as ada: # type: ignore[arg-type]
        for at in range(40):
            name = f"{at}-".ljust(32, "z")
            ada.deliver(["op", [1, name], [], [[["m", 0]], name], ["assign", 1]])
        deep = [0, *(f'{at}"' + "\1é" * 25 for at in range(12))]
        ada.assign(deep, [])
        # Held until a run makes an operation that it has seen. From then on its name is in the front.
        late = ["op", [51, "y" * 32], [*wire.pairs_of({**ada.front(), "ada-1": 50})], [[["m", 0]], "late"], ["assign", 1]]
        assert ada.deliver(late) == 0
        kinds = ["x", 2**63 - 1, None, {}, "\1" * 4096, "é\n\u2028" * 300, "x" * 4096, "😀"]
        values = [kinds[at % 8] for at in range(300)]
        ids = ada.insert_all([*deep, 0], values)
        assert 10 < len(library.lengths) < 1.3 * sum(library.lengths) / ROOM
        assert [ids, ada.plain(deep)] == [[it for it, _ in ada.ask("items", deep)[0]], values]
        assert ada.plain([0, "late"]) == 1
        assert len(ada.delete_all([*deep, 2], 298)) == 298
        assert [it for it, _ in ada.ask("items", deep)[0]] == [ids[0], ids[-1]]
        assert [wire.decoded(it.encode()) for it in ada.made()] == [it for it in ada.operations() if it[1][1] == "ada-1"]
        with Replica("ada-1", ada.lines()) as again:
            assert again.plain() == ada.plain()


def test_a_run_of_several_requests_is_refused_as_a_whole(ada: Replica) -> None:
    ada.put([0, "l"], ["x" * 4096] * 40 + ["x"] * 1000)
    lines = ada.lines()
    refused: List[Tuple[int, Callable[[], Any]]] = [
        (9, lambda: ada.delete_all([0, "l", 1], 2000)), (18, lambda: ada.delete_all([0, "l", 2], 2**63)),
        (10, lambda: ada.delete_all([0, "l", 0], 10)), (2, lambda: ada.delete_all([0, "l", 1], -1)),
        (6, lambda: ada.insert_all([0, "l", 1], ["x" * 4096] * 40 + ["x" * 4097])),
        (9, lambda: ada.insert_all([0, "l", 1041], ["x" * 4096] * 40)), (11, lambda: ada.insert_all([0, "l"], ["x" * 4096] * 40)),
    ]
    for number, change in refused:
        with pytest.raises(Refused) as raised:
            change()
        assert raised.value.number == number
    with pytest.raises(ValueError):
        ada.insert_all([0, "l", 1], ["x"] * 3000 + [float("nan")])
    assert ada.lines() == lines


@takes_long
def test_a_run_for_which_a_log_has_no_room_is_refused_as_a_whole() -> None:
    line = '["op",[{},"ada-1"],[["ada-1",{}]],[[["m",0]],"k"],["assign",1]]'.format
    with Replica("ada-1", [FIRST, *(line(at + 1, at) for at in range(1, 97_000))]) as ada:
        ada.put([0, "l"], ["x"])
        with pytest.raises(Refused, match="18 log-full"):
            ada.insert_all([0, "l", 0], ["x"] * 2999)
        with pytest.raises(Refused, match="18 log-full"):
            ada.delete_all([0, "l", 1], 2999)
        assert len(ada.insert_all([0, "l", 0], ["x"] * 2998)) == 2998


def test_the_index_of_an_element(ada: Replica) -> None:
    ada.put([0, "l"], ["a", "b", "c"])
    carets = [ada.place([0, "l", at]) for at in range(4)]
    ada.delete([0, "l", 2])
    assert [ada.index([it]) for it in carets] == [0, 1, 1, 2]
    cursors: List[List[Any]] = [[0], [0, "l"], [0, "none"]]
    for cursor in cursors:
        with pytest.raises(Refused, match="11 not-in-list"):
            ada.index(cursor)
    with pytest.raises(Refused, match="9 index-past-end"):
        ada.index([0, "l", 3])


def test_two_replicas_show_the_same(ada: Replica) -> None:
    with Replica("bob-1") as bob:
        ada.assign([0, "t"], 2**63 - 1)
        bob.assign([0, "t"], "b")
        for operation in ada.operations():
            assert bob.deliver(operation) == 1
            assert bob.deliver(operation) == 0
        for operation in bob.operations(ada.front()):
            ada.deliver(operation)
        assert ada.plain() == bob.plain() == {"t": jcrdt.Conflict([2**63 - 1, "b"])}


def test_chains_tell_whose_operations_differ(ada: Replica) -> None:
    with Replica("ada-1") as other, Replica("bob-1") as bob:
        for replica, value in ((ada, 1), (other, 2), (bob, 3)):
            replica.assign([0, "k"], value)
        for operation in bob.operations():
            ada.deliver(operation)
            other.deliver(operation)
        front = ada.front()
        assert front == other.front()
        differing = [mine for mine, others in zip(ada.chains({}, front), other.chains({}, front)) if mine != others]
        assert [(name, counter) for name, counter, _ in differing] == [("ada-1", 1)]
        text = "".join(f"{line}\n" for line in ada.lines()[:1])
        assert differing[0][2] == hashlib.sha256(text.encode()).hexdigest()
        assert ada.chains(front, front) == other.chains(front, front)


def test_what_is_stored_after_an_exchange_opens_again(ada: Replica) -> None:
    """Also where an operation waited for another, and one of one's own has seen both."""
    stored = ada.logged()
    assert stored == []
    with Replica("bob-1") as bob:
        bob.assign([0, "a"], 1)
        bob.assign([0, "b"], 2)
        first, second = bob.operations()
    ada.assign([0, "own"], 0)
    stored += ada.logged()
    assert ada.deliver(second) == 0
    assert ada.logged() == []
    assert ada.deliver(first) == 2
    ada.assign([0, "own"], 3)
    stored += ada.logged()
    assert ada.logged() == []
    with Replica("ada-1", stored) as again:
        assert again.plain() == ada.plain() == {"a": 1, "b": 2, "own": 3}
        assert again.logged() == []
        again.assign([0, "own"], 4)
        assert again.logged() == again.made()


def test_a_refused_line_is_named() -> None:
    with pytest.raises(RefusedLine, match="^15 id-conflict: the stored line 1, counted from 0, doesn't fit"):
        Replica("ada-1", [FIRST, FIRST])


def test_what_is_refused_changes_nothing(ada: Replica) -> None:
    with pytest.raises(Refused) as refused:
        ada.delete([0, "l", 4])
    assert (refused.value.number, refused.value.name) == (9, "index-past-end")
    with pytest.raises(ValueError):
        ada.put([0, "x"], 1.5)
    assert ada.operations() == []


@pytest.mark.parametrize("lines, number, place, last", [
    ([FIRST, FIRST], 15, 1, None), ([FIRST, "{"], 1, 1, None), (["[]"], 12, 0, None),
    ([FIRST, FIRST.replace("[1,", "[2,", 1).replace("[],", '[["ada-1",1]],', 1),
      '["op",[1,"b"],[],[[],0],["delete"]]', '["op",[2,"b"],[["ada-1",1]],[[],0],["delete"]]'], 14, 3, 1)])
def test_lines_that_do_not_fit(lines: Any, number: int, place: int, last: Any) -> None:
    with pytest.raises(RefusedLine) as refused:
        Replica("ada-1", lines)
    assert (refused.value.number, refused.value.place, refused.value.last_counter) == (number, place, last)


def test_names_and_closed_replicas(ada: Replica) -> None:
    for name in ("", "Ada", "a" * 33):
        with pytest.raises(ValueError):
            Replica(name)
    ada.close()
    ada.close()
    with pytest.raises(ValueError):
        ada.ask("front")
    with pytest.raises(OSError):
        replica_module.load("/nowhere/libjcrdt.so")


def test_long_answers_come_whole(ada: Replica) -> None:
    ada.put([0, "l"], ["x" * 4096] * 40)
    assert len(ada.plain([0, "l"])) == 40
    assert len(ada.operations()) == 41


def test_notes_work_offline(tmp_path: Path) -> None:
    def notes(*words: str) -> str:
        done = subprocess.run([sys.executable, TOP / "examples/notes.py", tmp_path / "notes", *words], stdout=subprocess.PIPE, text=True, check=True, timeout=SECONDS)
        return done.stdout
    notes("add", "buy", "milk")
    notes("add", "call Ada")
    assert notes() == "1. buy milk\n2. call Ada\n"
    notes("strike", "1")
    assert notes() == "1. call Ada\n"
