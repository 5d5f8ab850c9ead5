"""A stored log as a list, as a document of before, as fronts of what is on disk while a server writes, and for a
monitor."""

import contextlib
import json
import os
import shutil
import subprocess
import sys
import threading
from pathlib import Path
from typing import Callable, List

import pytest
from conftest import PACKAGE, SECONDS, Server, tool, wait_until

import jcrdt
from jcrdt import StoredLog, file_status, front_on_disk, log
from jcrdt.wire import Front

Serve = Callable[..., Server]
LISTED = """\
     1  1@alice-1        assign / = {}
     2  2@alice-1        assign /title = "Plan"
     3  3@alice-1        assign /steps = []
     4  4@alice-1        insert /steps first: "build"
     5  5@alice-1        insert /steps first: "ask"
     6  1@bob-1          assign /title = "Trip"
     7  6@alice-1        assign /title = "Trip plan"    (knows bob-1 to 1)
     8  7@alice-1        add    /votes + 2
     9  8@alice-1        delete /steps/5@alice-1
"""


@pytest.fixture
def file(tmp_path: Path) -> str:
    """The file of a server that has ended."""
    path = str(tmp_path / "log.db")
    with jcrdt.serving(["d", "e"], 1, "alice", path) as address:
        with jcrdt.connected(address) as alice:
            alice.open("d")
            alice.put("d", [0], {"title": "Plan", "steps": ["ask", "build"]})
            alice.deliver("d", ["op", [1, "bob-1"], [], [[["m", 0]], "title"], ["assign", "Trip"]])
            alice.assign("d", [0, "title"], "Trip plan")
            alice.add("d", [0, "votes"], 2)
            alice.delete("d", [0, "steps", 1])
    return path


def test_a_list_and_the_document_as_it_was(file: str) -> None:
    assert tool("log", file) == LISTED
    for at, shown in (("0", None), ("4", {"title": "Plan", "steps": ["build"]}),
                      ("6", {"title": {"conflict": ["Trip", "Plan"]}, "steps": ["ask", "build"]}),
                      ('[["alice-1",4]]', {"title": "Plan", "steps": ["build"]}),
                      ("9", {"title": "Trip plan", "steps": ["build"], "votes": {"counter": 2}})):
        assert json.loads(tool("log", file, "--at", at)) == shown
    assert "nobody has had this front" in tool("log", file, "--at", '[["alice-1",6]]', status=1)
    for wrong in ("-1", "x", "1.5", "true", '[["b-1",1],["a-1",1]]'):
        assert "neither a number of operations nor a front" in tool("log", file, f"--at={wrong}", status=2)
    assert "no operations of e" in tool("log", file, "--doc", "e", status=1)
    assert "isn't there" in tool("log", "nothing.db", status=1)
    assert tool("log", file, "--front") == '["front","d",[["alice-1",8],["bob-1",1]]]\n'


def test_who_reads_the_head_alone(file: str) -> None:
    """`log FILE | head -1` ends well, with nothing on standard error."""
    words = f"{sys.executable} -m jcrdt log {file} | head -1; exit ${{PIPESTATUS[0]}}"
    for _ in range(5):
        run = subprocess.run(["bash", "-c", words], env={**os.environ, "PYTHONPATH": str(PACKAGE), "PYTHONUNBUFFERED": "1"},
                             stdout=subprocess.PIPE, stderr=subprocess.PIPE, timeout=SECONDS)
        assert run.stdout.decode().count("\n") == 1 and run.stderr == b"" and run.returncode == 0


def test_control_characters_are_escaped(tmp_path: Path) -> None:
    path, evil = str(tmp_path / "log.db"), "\x1b[2J\r\n\x9b\u202etxt"
    with jcrdt.serving(["d"], 1, "alice", path) as address:
        with jcrdt.connected(address) as alice:
            alice.open("d")
            alice.assign("d", [0, evil], evil)
    told = tool("log", path)
    assert told.count("\n") == 1 and told[:-1].isprintable()


def test_a_link_to_the_file(serve: Serve, tmp_path: Path) -> None:
    """The -wal lies beside the file that a link leads to."""
    server = serve("d")
    (tmp_path / "link.db").symlink_to(server.file)
    with jcrdt.connected(server.address) as session:
        session.open("d")
        session.assign("d", [0, "k"], 1)
        wait_until(lambda: front_on_disk(str(tmp_path / "link.db"), "d") == {"srv-1": 1})
        assert "served" in tool("log", "--status", str(tmp_path / "link.db"))
    server.kill()
    assert tool("log", str(tmp_path / "link.db")) == "     1  1@srv-1          assign /k = 1\n"


# How many changes a document gets before its writer waits for the reader, how many fronts are looked for, and how many
# such parts a document has room for.
PART, FRONTS, PARTS = 1000, 20, 90


class Writer:
    """Changes a document meanwhile. It is at most two parts ahead of what was seen in the file, so that however slow the
    reader is, there are many fronts to see, and that whenever it looks, more is being written."""

    def __init__(self, address: str, document: str, seen: Callable[[], int]) -> None:
        self.address, self.document, self.seen = address, document, seen
        self.stop = threading.Event()
        self.thread = threading.Thread(target=self._work)

    def _work(self) -> None:
        with contextlib.suppress(ConnectionError), jcrdt.connected(self.address) as session:
            session.open(self.document)
            for part in range(PARTS):
                wait_until(lambda at=part: self.stop.is_set() or self.seen() >= (at - 1) * PART)  # type: ignore[misc]
                for number in range(0, PART, 50):
                    if self.stop.is_set():
                        return
                    session.ask_all([["assign", self.document, [0, f"k{number + it}"], "x" * 200] for it in range(50)])

    def __enter__(self) -> "Writer":
        self.thread.start()
        return self

    def __exit__(self, *_: object) -> None:
        self.stop.set()
        self.thread.join()


def test_what_is_on_disk_while_a_server_writes(serve: Serve, tmp_path: Path) -> None:
    """Each front that is told is in the file at that time: a copy of it, as a kill leaves it, has it."""
    server = serve("d", "e")
    fronts: List[Front] = [{"srv-1": 0}]

    def seen() -> int:
        return fronts[-1]["srv-1"]

    with Writer(server.address, "d", seen), Writer(server.address, "e", seen):
        wait_until(lambda: os.path.exists(server.file) and bool(front_on_disk(server.file, "d")))
        with StoredLog(server.file) as stored:
            def has_seen_many() -> bool:
                stored.refresh()
                fronts.append(dict(stored.front("d")))
                return len({it["srv-1"] for it in fronts}) > FRONTS

            wait_until(has_seen_many)
        server.kill()
    server.start()
    with jcrdt.connected(server.address) as session:
        session.open("d")
        front = session.front("d")
    counters = [it["srv-1"] for it in fronts]
    assert counters == sorted(counters) and counters[-1] <= front["srv-1"]


def test_fronts_are_followed(serve: Serve) -> None:
    server = serve("d", "e")
    words = [sys.executable, "-m", "jcrdt", "log", server.file, "--front", "--follow"]
    with subprocess.Popen(words, stdout=subprocess.PIPE, env={**os.environ, "PYTHONPATH": str(PACKAGE)}) as follower:
        try:
            assert follower.stdout is not None
            with jcrdt.connected(server.address) as session:
                for document in ("d", "e"):
                    session.open(document)
                for number in range(1, 6):
                    for document in ("d", "e"):
                        session.assign(document, [0, "k"], number)
                        due = ["front", document, [["srv-1", number]]]
                        assert json.loads(follower.stdout.readline()) == due
                follower.stdout.close()
                # Nobody reads it any more.
                assert follower.wait(SECONDS) == 0
        finally:
            follower.kill()


def test_a_file_that_comes_later_and_is_replaced(serve: Serve, tmp_path: Path) -> None:
    path, lines = str(tmp_path / "later.db"), []
    followed = log.follow(path, 0.01)
    assert next(followed) == []
    for name in ("one", "two"):
        other = str(tmp_path / f"{name}.db")
        with jcrdt.serving(["d"], 1, name, other) as address, jcrdt.connected(address) as session:
            session.open("d")
            session.assign("d", [0, "k"], 1)
        os.replace(other, path)
        shutil.rmtree(f"{path}-wal", ignore_errors=True)
        for found in followed:
            lines += found
            if found:
                break
    assert lines == ['["front","d",[["one-1",1]]]', '["front","d",[["two-1",1]]]']


def as_nobody(call: Callable[[], object]) -> str:
    """What a call raises in a process that isn't root's."""
    read, write = os.pipe()
    child = os.fork()
    if not child:
        try:
            if os.geteuid() == 0:
                os.setgroups([])
                os.setgid(65534)
                os.setuid(65534)
            call()
        except BaseException as error:  # pylint: disable=broad-except
            os.write(write, repr(error).encode())
        os._exit(0)
    os.close(write)
    with open(read, encoding="utf-8") as told:
        found = told.read()
    os.waitpid(child, 0)
    return found


def test_a_file_that_may_not_be_read(file: str, tmp_path: Path) -> None:
    """It isn't taken for one that comes later: neither in a closed folder nor by itself."""
    (tmp_path / "closed").mkdir(mode=0)
    assert as_nobody(lambda: next(log.follow(str(tmp_path / "closed" / "log.db")))).startswith("PermissionError")
    os.chmod(file, 0)
    for folder in (tmp_path, *tmp_path.parents):
        if folder.owner() == tmp_path.owner() and str(folder) != "/tmp":
            os.chmod(folder, folder.stat().st_mode | 0o055)
    assert as_nobody(lambda: next(log.follow(file))).startswith("PermissionError")


def test_status(serve: Serve, file: str, tmp_path: Path) -> None:
    told = tool("log", "--status", file)
    assert told.startswith("OK: not served, epoch 1, 9 rows, written ") and "d: 9 operations of 100000, 2 replicas of 256\n" in told
    os.utime(file, (1, 1))
    os.utime(file + "-wal", (1, 1))
    assert "WARNING" in tool("log", "--status", file, "--max-age", "60", status=1)
    server = serve("d")
    with jcrdt.connected(server.address) as session:
        session.open("d")
        for count, word, status in ((231, "WARNING", 1), (256, "CRITICAL", 2)):
            for number in range(count):
                session.deliver("d", ["op", [1, f"r{number}"], [], [[["m", 0]], "k"], ["assign", number]])
            wait_until(lambda: len(front_on_disk(server.file, "d")) == count)
            told = tool("log", "--status", server.file, status=status)
            assert told.startswith(f"{word}: served") and f"{count} replicas of 256" in told
    (tmp_path / "noise").write_bytes(b"no stored log" * 1000)
    for path in (str(tmp_path / "noise"), str(tmp_path), "nothing.db", "\x1b[2J"):
        told = tool("log", "--status", path, status=2)
        assert told.startswith("CRITICAL: ") and told[:-1].isprintable()
    assert [file_status.level(it, 100_000) for it in (89_999, 90_000, 99_999, 100_000)] == [0, 1, 1, 2]
