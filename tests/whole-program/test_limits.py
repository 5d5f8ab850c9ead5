"""What just fits in each limit of docs/FORMATS.md that no row has, and what doesn't; 256 sessions of one server at once."""

import json
from typing import List

import pytest

from support import Connection, Server
from tried import SECONDS, Tried, replies_of, same


def below(steps: int) -> List[object]:
    """The cursor of a place so many steps below the document."""
    return [0] + ["k"] * steps


# A request that just fits in a limit, one that doesn't, and the refusal of that.
LIMITS = {
    "a key": (["assign", "d", [0, "k" * 128], 1], ["assign", "d", [0, "k" * 129], 1], [7, "bad-cursor"]),
    "a key of two bytes a letter": (["assign", "d", [0, "é" * 64], 1], ["assign", "d", [0, "é" * 65], 1], [7, "bad-cursor"]),
    "a variable's name": (["let", "d", "v" * 128, [0]], ["let", "d", "v" * 129, [0]], [2, "bad-request"]),
    "a string": (["assign", "d", [0, "k"], "s" * 4_096], ["assign", "d", [0, "k"], "s" * 4_097], [6, "bad-value"]),
    "a string of two bytes a letter": (["assign", "d", [0, "k"], "é" * 2_048], ["assign", "d", [0, "k"], "é" * 2_049], [6, "bad-value"]),
    "a number": (["assign", "d", [0, "k"], 2**63 - 1], ["assign", "d", [0, "k"], 2**63], [6, "bad-value"]),
    "a number below zero": (["add", "d", [0, "k"], -(2**63)], ["add", "d", [0, "k"], -(2**63) - 1], [6, "bad-value"]),
    "a place": (["assign", "d", below(30), 1], ["assign", "d", below(31), 1], [20, "too-deep"]),
    "a counter of a front": (["chains", "d", [], [["a", 100_000]]], ["chains", "d", [], [["a", 100_001]]], [2, "bad-request"]),
    "a page of operations": (["ops", "d", [], 64], ["ops", "d", [], 65], [2, "bad-request"]),
}


@pytest.mark.parametrize("name", LIMITS)
def test_limit_of(tried: Tried, name: str) -> None:
    fits, refused, cause = LIMITS[name]
    text = "".join(json.dumps(it, ensure_ascii=False) + "\n" for it in (["open", "d"], fits, refused))
    status, out = tried.run(["run", "d"], text.encode())
    _, reply, last = replies_of(out)
    same((status, reply[0] != "no", last), (0, True, ["no", *cause]))


def test_operations_of_a_document(tried: Tried) -> None:
    line = b'["assign","d",[0,"k"],1]\n'
    status, out = tried.run(["run", "d"], b'["open","d"]\n' + line * 100_001 + b'["values","d",[0,"k"]]\n')
    same((status, out.split(b"\n")[-4:]), (0, [b'["applied",1,0,[100000,"srv-1"]]', b'["no",18,"log-full"]', b'["values",[1]]', b""]))


def test_lines_of_a_session(tried: Tried) -> None:
    same(tried.run(["run", "d"], b"0\n" * 1_000_001), (0, b'["no",2,"bad-request"]\n' * 1_000_000))


def test_documents_of_a_server_and_names(tried: Tried) -> None:
    names = [f"{'d' * 30}{n}" for n in range(10, 26)]
    text = "".join(f'["open","{it}"]\n' for it in names) + f'["assign","{names[-1]}",[0,"k"],1]\n'
    same(tried.run(["run", "--name", "n" * 24, *names], text.encode()), (0, b'["opened",1]\n' * 16 + f'["applied",1,0,[1,"{"n" * 24}-1"]]\n'.encode()))


def test_sessions_of_a_server(tried: Tried, path: str) -> None:
    with Server(tried.program, path, "d", sessions=256) as server:
        all_of_them = [Connection(server.address) for _ in range(256)]
        for connection in all_of_them:
            connection.write(b'["open","d"]\n["assign","d",[0,"k"],1]\n["quit"]\n')
        replies = [connection.reader.read().split(b"\n") for connection in all_of_them]
        for connection in all_of_them:
            connection.close()
        seats = sorted(json.loads(it[0])[1] for it in replies)
        counters = sorted(json.loads(it[1])[3][0] for it in replies)
        rest, _ = server.process.communicate(timeout=SECONDS)
        same((seats, counters, server.process.returncode, rest), ([*range(1, 257)], [*range(1, 257)], 0, b'["total","d",256,256,256]\n'))
