"""JSON, errors, values and the shape of an operation. The rows are those of docs/FORMATS.md."""

import copy
import json
import random
from typing import Any, List, Optional

import pytest

from jcrdt import wire
from jcrdt.wire import Away, Conflict, Counter, Lost, Refused

PATH_31 = [["m", 0]] + [["m", "k"]] * 30
SHAPES: List[Any] = [
    (["op", [1, "P"], [], [[["m", 0]], "k"], ["delete"]], 12),
    (["op", [1, "p"], [], [[], "k"], ["delete"]], 12),
    (["op", [1, "p"], [], [[], 0], ["assign", {}]], None),
    (["op", [1, "p"], [], [[["m", 0]], 1], ["delete"]], 12),
    (["op", [1, "p"], [], [[["l", 0]], 1], ["delete"]], 12),
    (["op", [1, "p"], [], [[["l", 0]], 1], ["insert", None]], None),
    (["op", [1, "p"], [], [[["m", 0]], "k"], ["insert", 1]], 12),
    (["op", [3, "p"], [["q", 1], ["o", 2]], [[["m", 0]], "k"], ["delete"]], 13),
    (["op", [2, "p"], [], [[["m", 0]], "k"], ["delete"]], 13),
    (["op", [1, "p"], [], [[["m", 0]], "k"], ["assign", 1.5]], 12),
    (["op", [1, "p"], [], [[["m", 0], ["m", 0]], "k"], ["delete"]], 12),
    (["op", [1, "p"], [], [PATH_31, "k"], ["delete"]], 20),
    (["op", [1, "P"], [], [PATH_31, "k"], 5], 20),
    (["op", [1, "p"], [], [PATH_31[:30], "k"], ["delete"]], None),
    (["op", [1, "p"], [], [[["m", 0]], "k" * 129], ["delete"]], 12),
    (["op", [1, "p"], [], [[["m", 0]], "é" * 64], ["delete"]], None),
    (["op", [1, "p"], [], [[["m", 0]], "é" * 65], ["delete"]], 12),
    (["op", [1, "p"], [], [[["m", 0]], "k"], ["assign", "x" * 4096]], None),
    (["op", [1, "p"], [], [[["m", 0]], "k"], ["assign", "x" * 4097]], 12),
    (["op", [1, "p"], [], [[["m", 0]], "k"], ["assign", 2**63 - 1]], None),
    (["op", [1, "p"], [], [[["m", 0]], "k"], ["assign", 2**63]], 12),
    (["op", [1, "p"], [], [[["m", 0]], "k"], ["assign", {"a": 1}]], 12),
    (["op", [1, "p"], [], [[["m", 0]], "k"], ["assign", True]], None),
    (["op", [1, "p"], [], [[["m", 0]], "k"], ["add", True]], 12),
    (["op", [1, "p"], [], [[["m", 0]], "k"], ["add", -2**63]], None),
    (["op", [1, "p"], [], [[["m", 0]], "k"], ["add", -2**63 - 1]], 12),
    (["op", [True, "p"], [], [[["m", 0]], "k"], ["delete"]], 12),
    (["op", [1.0, "p"], [], [[["m", 0]], "k"], ["delete"]], 12),
    (["op", [1, "p"], [["q", 1]], [[["m", 0]], "k"], ["delete"]], 13),
    (["op", [100_000, "p"], [["q", 99_999]], [[["m", 0]], "k"], ["delete"]], None),
    (["op", [100_001, "p"], [["q", 100_000]], [[["m", 0]], "k"], ["delete"]], 12),
    (["op", [2, "p"], [5], [[["m", 0]], "k"], ["delete"]], 12),
    (["op", [2, "p"], [["q"]], [[["m", 0]], "k"], ["delete"]], 12),
    (["op", [2, "p"], [["q", 1], ["q", 1]], [[["m", 0]], "k"], ["delete"]], 13),
    (["op", [2, "p"], {}, [[["m", 0]], "k"], ["delete"]], 12),
    (["op", [2, "p\n"], [["q", 1]], [[["m", 0]], "k"], ["delete"]], 12),
    (["op", [1, "p" * 33], [], [[["m", 0]], "k"], ["delete"]], 12),
    (["op", [2, "p"], [["q", 1]], [[["m", 0], ["l", "list"], ["m", [1, "q"]]], "k"], ["delete"]], None),
    (["op", [2, "p"], [["q", 1]], [[["m", 0], ["l", "list"]], [1, "q"]], ["insert", []]], None),
    (["op", [2, "p"], [["q", 1]], [[["m", 0], ["l", "list"]], "k"], ["insert", []]], 12),
    (["op", [2, "p"], [["q", 1]], [[["m", 0], ["l", "list"], ["m", 1]], "k"], ["delete"]], 12),
    (["op", [1, "p"], [], [[["m", 0]], "k"], ["delete", 1]], 12),
    (["op", [1, "p"], [], [[["m", 0]], "k"], []], 12),
    (["op", [1, "p"], [], [[["x", 0]], "k"], ["delete"]], 12),
    (["op", [1, "p"], [], [[[["m"], 0]], "k"], ["delete"]], 12),
    (["op", [1, "p"], []], 12),
    ([1], 12), (5, 12), (None, 12), ({"a": 1}, 12), ("op", 12), ([], 12),
]


def cause_of(operation: Any) -> Optional[int]:
    try:
        assert wire.checked_operation(operation) is operation
        return None
    except Refused as cause:
        return cause.number


@pytest.mark.parametrize("operation, cause", SHAPES)
def test_shape_of_an_operation(operation: Any, cause: Optional[int]) -> None:
    assert cause_of(operation) == cause


def mutated(random_source: random.Random, value: Any) -> Any:
    """The value with one part of it replaced, taken away or doubled."""
    value = copy.deepcopy(value)
    holder = value
    while isinstance(holder, list) and holder:
        at = random_source.randrange(len(holder))
        if not isinstance(holder[at], list) or not holder[at] or random_source.random() < 0.3:
            kind = random_source.randrange(4)
            other = random_source.choice([0, 1, 2, -1, 1.0, 2**63, 2**64, "", "k", "p", "P", "m", "l", None, True, [], {},
                                          [1, "q"], ["q", 1], ["m", 0], ["l", 0], "\u0000", "é" * 65, {"a": 1}])
            if kind == 0:
                del holder[at]
            elif kind == 1:
                holder.insert(at, holder[at])
            else:
                holder[at] = other
            return value
        holder = holder[at]
    return value


def test_shape_as_the_program_sees_it() -> None:
    """Thousands of broken operations get the same cause from the program. Only what has a right shape may be
    applied, held or refused by the log."""
    import subprocess
    from conftest import PROGRAM, SECONDS
    source = random.Random(5)
    rights = [operation for operation, cause in SHAPES if cause is None and len(str(operation)) < 300]
    operations = [mutated(source, source.choice(rights)) for _ in range(4000)]
    lines = [["open", "d"]] + [["deliver", "d", it] for it in operations]
    text = b"\n".join(map(wire.encoded, lines)) + b"\n"
    told = subprocess.run([PROGRAM, "run", "--name", "reader", "d"], input=text, stdout=subprocess.PIPE, timeout=SECONDS).stdout
    replies = [json.loads(line) for line in told.splitlines()][1:]
    assert len(replies) == len(operations)
    for operation, reply in zip(operations, replies):
        cause = cause_of(operation)
        if reply[0] == "no" and reply[1] in (12, 20) or cause is not None:
            assert reply[:2] == ["no", cause], operation
    # 13 is also the answer where the log doesn't fit, so it alone is looked at one way.
    assert sum(reply[:2] == ["no", 12] for reply in replies) > 1000


@pytest.mark.parametrize("line", [b"nonsense", b"NaN", b"[1", b"\xff", b"[" * 200_000, b"5", b"{}", b"null", b"[]", b"[5]",
                                  b'["no"]', b'["no",1]', b'["no","1","x"]', b'["no",true,"x"]', b'["no",1,"x","y"]', b'["a",NaN]'])
def test_a_line_that_is_no_reply(line: bytes) -> None:
    with pytest.raises(ValueError):
        wire.decoded_reply(line)


def test_integers_are_exact() -> None:
    for number in (2**53 + 1, 2**64, -2**63, 10**30):
        assert wire.decoded(wire.encoded(["sum", number])) == ["sum", number]
    for value in (float("nan"), float("inf"), "\ud800"):
        with pytest.raises(ValueError):
            wire.encoded([value])
    deep: List[Any] = []
    for _ in range(100_000):
        deep = [deep]
    with pytest.raises(ValueError):
        wire.encoded(deep)


def test_errors_are_told_apart() -> None:
    for number, word, kind in ((100, "values", Lost), (100, "add", Lost), (101, "add", Away), (102, "show", Refused),
                               (102, "add", Lost), (103, "add", Refused), (18, "add", Refused)):
        assert type(wire.refusal(["no", number, "name"], word)) is kind
    for word in ("assign", "insert", "delete", "add", "deliver", "forget"):
        assert type(wire.refusal(["no", 102, "reply-too-long"], word)) is Lost, word
    for word in ("let", "open", "ops", "front", "held", "say", "no such word"):
        assert type(wire.refusal(["no", 102, "reply-too-long"], word)) is Refused, word
    assert (Refused(24).name, Refused(26).name, Refused(104).name, Refused(99).name) == ("not-held", "copy-refused", "not-kept", "unknown")
    assert issubclass(Lost, ConnectionError) and issubclass(Away, ConnectionError)
    assert not issubclass(Refused, ConnectionError)
    forked = wire.refusal(["no", 14, "forked", 7])
    assert isinstance(forked, Refused) and forked.last_counter == 7 and str(forked) == "14 forked"


def test_fronts() -> None:
    assert wire.checked_front([["a", 1], ["b", 2]]) == {"a": 1, "b": 2}
    for wrong in (None, [5], [["a"]], [["a", "1"]], [["a", True]], {"a": 1}, [["b", 1], ["a", 1]], [["a", 1], ["a", 2]]):
        with pytest.raises(Refused):
            wire.checked_front(wrong)
    assert wire.covers({"a": 3}, [3, "a"]) and not wire.covers({"a": 3}, [4, "a"]) and not wire.covers({}, [1, "a"])
    assert wire.pairs_of({"b": 1, "a": 2, "c": 0}) == [["a", 2], ["b", 1]]


def test_values() -> None:
    import datetime
    import enum
    Number = enum.IntEnum("Number", "one")
    right = {"a": [1, "x", None, True, {}, [], Counter(2**70)], "b": Conflict([1, Counter(2)])}
    assert wire.checked_value(right) is right
    half: Any = 1.5
    for wrong in (1.0, 2**63, (1,), {1}, datetime.date(2020, 1, 1), Number(1), "x" * 4097, {1: 2}, {"k" * 129: 1}, b"x",
                  Conflict([1, 2]), Counter(half), "\ud800"):
        for inside in (wrong, {"a": wrong}, [wrong], Conflict([{"a": wrong}, Counter(1)])):
            with pytest.raises(ValueError):
                wire.checked_value(inside)
    deep: Any = 1
    for _ in range(30):
        deep = [deep]
    wire.checked_value(deep)
    with pytest.raises(ValueError):
        wire.checked_value([deep])


def test_addresses_and_terminals() -> None:
    assert wire.host_and_port("[::1]:7001") == ("::1", 7001) and wire.host_and_port("a.b:1") == ("a.b", 1)
    for wrong in ("7001", ":7001", "a:", "a:b", "a:70000", "a:²"):
        with pytest.raises(ValueError):
            wire.host_and_port(wrong)
    assert wire.shown_safely("é a\x1b[2J\n\x9b\u202e") == "é a\\x1b[2J\\n\\x9b\\u202e"
