"""The worked rows, which all clients share (clients/vectors), through a session: each line has its reply, and each
operation has the shape that its reply says."""

import json
import subprocess
from typing import Any, Dict, List, Optional

import pytest
from conftest import PROGRAM, SECONDS, TOP

from jcrdt import Refused, Session, wire
from jcrdt.limits import Limits
from jcrdt.stream import Stream

VECTORS = TOP / "clients" / "vectors"


def vectors() -> List[Dict[str, Any]]:
    """The rows: the program's arguments and its status, the lines of requests and of replies."""
    return [json.loads(path.read_text(encoding="utf-8")) for path in sorted(VECTORS.glob("*.json"))]


def lines_of(texts: List[str]) -> List[bytes]:
    return [it.encode() for it in texts]


@pytest.mark.parametrize("row", vectors(), ids=lambda row: str(row["name"]))
@pytest.mark.parametrize("at_once", [False, True])
def test_a_row(row: Dict[str, Any], at_once: bool) -> None:
    replies = lines_of(row["replies"])
    # What comes behind the end of a session has no reply.
    requests = lines_of(row["requests"])[:len(replies)]
    with subprocess.Popen([PROGRAM, *row["arguments"]], bufsize=0, stdin=subprocess.PIPE, stdout=subprocess.PIPE) as running:
        assert running.stdin is not None and running.stdout is not None
        stream = Stream(running.stdout.fileno(), running.stdin.fileno(), running.stdin.close, Limits(silence=30))
        with Session(stream) as session:
            found = session.answers(requests) if at_once else [session.answer(line) for line in requests]
        assert running.wait(SECONDS) == row["status"]
    assert found == replies


@pytest.mark.parametrize("row", vectors(), ids=lambda row: str(row["name"]))
def test_shapes_in_a_row(row: Dict[str, Any]) -> None:
    """What is delivered and refused by its shape is refused here, and all else isn't."""
    for line, reply in zip(row["requests"], row["replies"]):
        try:
            request = wire.decoded(line.encode())
        except ValueError:
            continue
        if isinstance(request, list) and len(request) == 3 and request[0] == "deliver":
            answer = json.loads(reply)
            if answer[0] != "no" or answer[1] not in (2, 5, 12, 13, 20):
                assert shape_of(request[2]) is None
            elif answer[1] in (12, 20):
                assert shape_of(request[2]) == answer[1]


def shape_of(operation: Any) -> Optional[int]:
    """The number of the refusal of an operation's shape, None for a right one."""
    try:
        wire.checked_operation(operation)
        return None
    except Refused as refused:
        return refused.number


def test_there_are_rows() -> None:
    assert len(vectors()) > 50
