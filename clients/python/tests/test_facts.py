"""What operations show, beside what the program shows of the same ones."""

import contextlib
import random
from typing import Any, List

import pytest

import jcrdt
from jcrdt import Refused, Session, facts


def some_cursor(source: random.Random, session: Session) -> List[Any]:
    """A place that is there, or a key that may be new."""
    cursor: List[Any] = [0]
    for _ in range(source.randrange(4)):
        count = 0
        with contextlib.suppress(Refused):
            count = len(session.items("d", cursor))
        if count and source.random() < 0.5:
            cursor.append(source.randrange(1, count + 1))
        else:
            cursor.append(source.choice("abc"))
    return cursor


def change(source: random.Random, session: Session) -> None:
    """One change at random, if it isn't refused."""
    cursor, what = some_cursor(source, session), source.random()
    if what < 0.4:
        session.assign("d", cursor, source.choice([1, "x", None, {}, [], True, 2**60]))
    elif what < 0.75:
        place = source.randrange(len(session.items("d", cursor)) + 1)
        session.insert("d", [*cursor, place], source.choice([1, "y", {}, [], False]))
    elif what < 0.87:
        session.delete("d", cursor)
    else:
        session.add("d", cursor, source.choice([-3, 5, 2**63 - 1]))


@pytest.mark.parametrize("seed", range(20))
def test_facts_are_what_the_program_shows(seed: int) -> None:
    source = random.Random(seed)
    with contextlib.ExitStack() as stack:
        replicas = [stack.enter_context(jcrdt.started(["d"], f"r{number}")) for number in range(3)]
        for replica in replicas:
            replica.open("d")
        for _ in range(120):
            one, other = source.sample(replicas, 2)
            with contextlib.suppress(Refused):
                change(source, one)
            if source.random() < 0.1:
                for operation in one.operations("d", other.front("d")):
                    other.deliver("d", operation)
        for replica in replicas[1:]:
            for operation in replica.operations("d", replicas[0].front("d")):
                replicas[0].deliver("d", operation)
        operations, shown = list(replicas[0].operations("d")), replicas[0].show("d", [0])
        for _ in range(3):
            assert facts.shown(operations) == shown
            source.shuffle(operations)
        document = facts.document_of(operations)
        for key in replicas[0].keys("d", [0]):
            present = [list(it) for it, place in document.map[key].elements() if place.is_present]
            assert present == [it for it, _ in replicas[0].items("d", [0, key])]
