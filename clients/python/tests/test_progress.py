"""Long work says how far it is, and short work nothing."""

from io import BytesIO
from typing import Any, Callable, Iterator, List, Optional, Tuple

import pytest
from conftest import Server, tool

import jcrdt
from jcrdt import Session, renew
from jcrdt.exchange import exchange
from jcrdt.progress import EVERY, Progress
from jcrdt.save_load import load, save

Serve = Callable[..., Server]
COUNT = 600


class Said:
    """What is reported."""

    def __init__(self) -> None:
        self.reports: List[Tuple[str, int, Optional[int]]] = []

    def __call__(self, what: str, done: int, total: Optional[int] = None) -> None:
        self.reports.append((what, done, total))

    def counts(self, what: str) -> List[int]:
        """How far it was each time, which never falls."""
        found = [done for word, done, _ in self.reports if word == what]
        assert found == sorted(found)
        return found


@pytest.fixture
def two() -> Iterator[Tuple[Session, Session]]:
    with jcrdt.started(["d"], "alice") as alice, jcrdt.started(["d"], "bob") as bob:
        for session, key in ((alice, "a"), (bob, "b")):
            session.open("d")
            session.ask_all([["assign", "d", [0, key], number] for number in range(COUNT)])
        yield alice, bob


def test_a_line_now_and_then() -> None:
    now, lines = [0.0], []  # type: Tuple[List[float], List[str]]
    progress = Progress("load", lines.append, lambda: now[0])
    for number in range(10_000):
        now[0] += EVERY / 4_000
        progress("lines delivered", number)
    assert lines == ["load: 3,999 lines delivered", "load: 7,999 lines delivered"]
    now[0] += EVERY
    progress("operations delivered", 5, 1234)
    assert lines[2:] == ["load: 5 of 1,234 operations delivered"]


def test_exchange(two: Tuple[Session, Session]) -> None:
    said = Said()
    assert exchange(*two, "d", said) == (2 * COUNT, [])
    counts = said.counts("operations handed over")
    assert counts[0] < COUNT and len(counts) > 4 and counts[-1] == 2 * COUNT


def test_save_and_load(two: Tuple[Session, Session]) -> None:
    said, file = Said(), BytesIO()
    assert save(two[0], "d", file, said) == COUNT and said.counts("operations saved")[-1] == COUNT
    file.seek(0)
    assert load(two[1], "d", file, said).logged == COUNT
    counts = said.counts("lines delivered")
    assert counts[0] < COUNT and counts[-1] == COUNT


def test_renew(serve: Serve, two: Tuple[Session, Session]) -> None:
    server, said = serve("d", "new"), Said()
    with jcrdt.connected(server.address) as session:
        session.open("d")
        session.open("new")
        session.put("d", [0], {f"k{number}": number for number in range(COUNT)})
        union = renew.Union([server.address], "d", None, said)
        assert said.counts("operations read")[-1] == COUNT + 1
        _, renewal = renew.renewal_of(union, "d", "keep")
        renew.deliver(session, "new", renewal.operations, said)
        totals = {total for what, _, total in said.reports if what == "operations delivered"}
        assert said.counts("operations delivered")[-1] == len(renewal.operations) and totals == {len(renewal.operations)}


def test_tools_take_the_word(serve: Serve) -> None:
    server = serve("d", "new", name="alice")
    words: List[Any] = [("exchange", "--progress", server.address, server.address, "d"), ("save", "--progress", server.address, "d", "-"),
                        ("renew", "count", "--progress", server.address, "--doc", "d")]
    for it in words:
        tool(*it)
