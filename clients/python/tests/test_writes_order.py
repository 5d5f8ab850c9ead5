"""Writes without a server: the order of one key's writes over a kill, what a flush counts, and additions that count once."""

from typing import Any, Dict, Iterator, List, Optional, Tuple, cast

import pytest

from jcrdt import Away, Lost, Refused, Session, Writes, covers
from jcrdt.wire import Front, Operation


class Start:
    """A server's session as Writes uses it. A new start has lost what the old one answered, but for `kept`."""

    values_there: Dict[Tuple[Any, ...], Any]

    def __init__(self, number: int, kept: Optional["Start"] = None) -> None:
        self.name, self.count = f"srv-{number}", 0
        self.made: List[List[Any]] = []
        self.values_there = dict(kept.values_there) if kept else {}
        self.fronts = kept.front("d") if kept else {}
        self.log: List[Operation] = list(kept.log) if kept else []
        # What is raised by the next requests, in their order, and whether the change was made all the same.
        self.faults: List[Tuple[Exception, bool]] = []

    def _fault(self) -> Tuple[Optional[Exception], bool]:
        return self.faults.pop(0) if self.faults else (None, True)

    def ask(self, *request: Any) -> List[Any]:
        if request[0] == "ops":
            return [list(self.operations("d", dict(request[2])))[:1]]
        error, is_made = self._fault()
        if is_made:
            self.count += 1
            self.made.append(list(request))
            word, _, (_, *keys), *value = request
            self.log.append(["op", [self.count, self.name], [], [[["m", 0], *(["m", it] for it in keys[:-1])], keys[-1]], [word, *value]])
            if request[0] == "assign":
                _, _, cursor, value = request
                self.values_there[tuple(cursor)] = value
        if error:
            raise error
        return [1, 0, [self.count, self.name]]

    def values(self, _: str, cursor: Any) -> List[Any]:
        error = self._fault()[0]
        if error:
            raise error
        return [self.values_there[tuple(cursor)]] if tuple(cursor) in self.values_there else []

    def front(self, _: str) -> Dict[str, int]:
        return {**self.fronts, **({self.name: self.count} if self.count else {})}

    def operations(self, _: str, front: Front) -> Iterator[Operation]:
        return (it for it in self.log if not covers(front, it[1]))

    @property
    def session(self) -> Session:
        return cast(Session, self)


def test_the_newer_of_two_values_of_a_key_stays() -> None:
    """The second start answers before the program has called `send_again`: what the first one lost comes behind it."""
    writes, first, second = Writes("d"), Start(1), Start(2)
    writes.send(first.session, "assign", [0, "k"], "old")
    writes.send(second.session, "assign", [0, "k"], "new")
    assert second.made[-1][-1] == "new", second.made


def test_what_is_sent_again_keeps_its_order() -> None:
    writes, first, second = Writes("d"), Start(1), Start(2)
    for value in (1, 2, 3):
        writes.send(first.session, "assign", [0, "k"], value)
    writes.send_again(second.session)
    assert [it[-1] for it in second.made] == [1, 2, 3]


def test_a_flush_counts_once(monkeypatch: pytest.MonkeyPatch) -> None:
    writes, start = Writes("d"), Start(1)
    monkeypatch.setattr(writes, "_await_file", lambda *_: None)
    writes.send(start.session, "assign", [0, "k"], 1)
    assert writes.flush(start.session, file="none") == 1
    assert writes.flush(start.session, file="none") == 0 and not writes.answered


STOCK = [0, "stock", "tea"]
OWN = ("assign", "d", (0, "stock", "tea", "till-7"))


def totals(start: Start) -> List[int]:
    """What was assigned to the own key."""
    assert {(word, document, tuple(cursor)) for word, document, cursor, _ in start.made} <= {OWN}
    return [it[3] for it in start.made]


def test_an_addition_assigns_the_running_total_of_an_own_key() -> None:
    writes, start = Writes("d"), Start(1)
    for number in (5, -2, 10):
        writes.add(start.session, STOCK, number, key="till-7")
    assert totals(start) == [5, 3, 13]
    # Another process of this writer goes on from what is there.
    Writes("d").add(start.session, STOCK, 1, key="till-7")
    assert totals(start)[-1] == 14


@pytest.mark.parametrize("is_made", [False, True])
def test_an_addition_without_a_reply_counts_once(is_made: bool) -> None:
    """Made or not: `add` raises Lost and keeps it, and `send_again` makes it what it is to be."""
    writes, start = Writes("d"), Start(1)
    writes.add(start.session, STOCK, 5, key="till-7")
    start.faults = [(Lost("cut"), is_made)]
    with pytest.raises(Lost):
        writes.add(start.session, STOCK, 2, key="till-7")
    assert writes.send_again(start.session) == (1, [])
    writes.add(start.session, STOCK, 10, key="till-7")
    assert totals(start)[-2:] == [7, 17]


def test_an_addition_before_anything_could_be_read_counts_once() -> None:
    """The total isn't known yet, and no server is there: it is kept as an addition."""
    writes, start = Writes("d"), Start(1)
    start.values_there[OWN[2]] = 100
    for fault in (Away("none"), Lost("cut")):
        start.faults = [(fault, False)]
        with pytest.raises(ConnectionError):
            writes.add(start.session, STOCK, 1, key="till-7")
    writes.add(start.session, STOCK, 1, key="till-7")
    assert totals(start) == [101, 102, 103]


def test_additions_over_a_kill_count_once() -> None:
    """The file lacks the last two of three. They are assigned again in their order."""
    writes, first = Writes("d"), Start(1)
    writes.add(first.session, STOCK, 5, key="till-7")
    second = Start(2, kept=first)
    second.fronts = {"srv-1": 1}
    for number in (1, 2):
        writes.add(first.session, STOCK, number, key="till-7")
    assert writes.send_again(second.session) == (2, [])
    writes.add(second.session, STOCK, 10, key="till-7")
    assert totals(second) == [6, 8, 18]


def test_a_refused_addition_counts_not_at_all() -> None:
    writes, start = Writes("d"), Start(1)
    writes.add(start.session, STOCK, 5, key="till-7")
    start.faults = [(Refused(18), False)]
    with pytest.raises(Refused):
        writes.add(start.session, STOCK, 2, key="till-7")
    writes.add(start.session, STOCK, 10, key="till-7")
    assert totals(start) == [5, 15]


def test_additions_of_which_one_is_refused_when_it_is_sent_again() -> None:
    """A new start has no memory for the first of two: the second one counts alone. One that another start answered behind lost
    ones is assigned once more, with all of them."""
    writes, first, second = Writes("d"), Start(1), Start(2)
    for number in (5, 1, 2):
        writes.add(first.session, STOCK, number, key="till-7")
    second.faults = [(Refused(22), False)]
    assert [it.number for it in writes.send_again(second.session)[1]] == [22]
    assert totals(second) == [1, 3]
    third = Start(3)
    writes.add(third.session, STOCK, 10, key="till-7")
    assert totals(third) == [13, 1, 3, 13]


def test_an_own_key_with_something_else_is_not_counted_on() -> None:
    """A text that another put there is no total: nothing is sent, and the addition isn't kept."""
    writes, start = Writes("d"), Start(1)
    start.values_there[OWN[2]] = "x"
    with pytest.raises(ValueError, match="till-7"):
        writes.add(start.session, STOCK, 2, key="till-7")
    assert not start.made and not writes.waiting
