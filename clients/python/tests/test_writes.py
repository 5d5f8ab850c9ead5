"""Writes of which none is lost, however often the server is killed, and what is on disk."""

import contextlib
import random
import shutil
import subprocess
import threading
import time
from pathlib import Path
from typing import Any, Callable, Iterator, List, Set

import pytest
from conftest import SECONDS, TOP, Server, wait_until
from test_session import answering, freeze

import jcrdt
from jcrdt import Away, Lost, Refused, Writes, followed, followed_file, front_on_disk
from jcrdt import writes as writing
from jcrdt.follow import Disk

Serve = Callable[..., Server]


@pytest.mark.parametrize("seed", range(3))
def test_no_write_is_lost(serve: Serve, seed: int) -> None:
    """Kills behind bursts, in the middle of a request, or before one."""
    server, source, writes, number = serve("d"), random.Random(seed), Writes("d"), 0
    for _ in range(8):
        with contextlib.suppress(ConnectionError), jcrdt.connected(server.address) as session:
            session.open("d")
            assert not writes.send_again(session)[1]
            until = number + source.randrange(20, 200)
            killer = threading.Timer(source.uniform(0, 0.05), server.kill)
            killer.start()
            while True:
                number += 1
                writes.send(session, "assign", [0, f"k{number}"], number)
                if number == until:
                    killer.join()
        killer.join()
        server.start()
    with jcrdt.connected(server.address) as session:
        session.open("d")
        assert not writes.send_again(session)[1]
        assert set(session.keys("d", [0])) == {f"k{it}" for it in range(1, number + 1)}


def restored(server: Server, backup: Path) -> None:
    """Starts the server over an older file, under its old name."""
    server.kill()
    for end in ("", "-wal", "-shm"):
        Path(server.file + end).unlink(missing_ok=True)
        if Path(f"{backup}{end}").exists():
            shutil.copy(f"{backup}{end}", server.file + end)
    server.start()


def test_ids_that_were_given_out_again_are_no_writes_of_before(serve: Serve, tmp_path: Path) -> None:
    """The file of before a restart is put back: so the next start has the name of the one that answered."""
    server, writes = serve("d"), Writes("d")
    server.kill()
    for end in ("", "-wal"):
        if Path(server.file + end).exists():
            shutil.copy(server.file + end, f"{tmp_path / 'backup'}{end}")
    server.start()
    session = jcrdt.connected(server.address)
    session.open("d")
    ids = [writes.send(session, "assign", [0, f"k{number}"], number) for number in range(8)]
    wait_until(lambda: len(front_on_disk(server.file, "d")) == 1)
    restored(server, tmp_path / "backup")
    with jcrdt.connected(server.address) as other:
        other.open("d")
        assert [other.assign("d", [0, "other", f"k{number}"], number) for number in range(3)] == ids[:3]
        other.assign("d", [0, "k3"], 3)
        assert [other.assign("d", [0, f"new{number}"], True) for number in range(5)][:4] == ids[4:]
        with pytest.raises(Lost, match="the server was started again and lacks writes"):
            writes.flush(other, file=server.file)
        # The one of the same id that does the same is there.
        assert writes.send_again(other) == (7, [])
        assert writes.flush(other, file=server.file) == 8
        shown = other.plain("d", [0])
        assert all(shown[f"k{number}"] == number for number in range(8)) and len(shown) == 14
    session.close()


def test_a_flush_looks_at_each_write_in_another_session(serve: Serve, tmp_path: Path) -> None:
    """A server over an older file has the last write, and another one in place of one before it."""
    server, writes = serve("d"), Writes("d")
    server.kill()
    for end in ("", "-wal"):
        if Path(server.file + end).exists():
            shutil.copy(server.file + end, f"{tmp_path / 'backup'}{end}")
    server.start()
    with jcrdt.connected(server.address) as session:
        session.open("d")
        ids = [writes.send(session, "assign", [0, key], number) for number, key in enumerate("abc")]
    restored(server, tmp_path / "backup")
    with jcrdt.connected(server.address) as other:
        other.open("d")
        assert [other.assign("d", [0, key], number) for number, key in enumerate("axc")] == ids
        for _ in range(2):
            with pytest.raises(Lost, match="the server was started again and has others in place of writes"):
                writes.flush(other, file=server.file)
        assert writes.send_again(other) == (1, [])
        assert writes.flush(other, file=server.file) == 3
        assert other.plain("d", [0]) == {"a": 0, "x": 1, "b": 1, "c": 2}


def test_flush_means_on_disk(serve: Serve) -> None:
    """What was flushed is there after a kill, from the file alone."""
    server = serve("d")
    for round_number in range(1, 6):
        writes = Writes("d")
        with jcrdt.connected(server.address) as session:
            session.open("d")
            for number in range(300):
                writes.send(session, "assign", [0, f"k{round_number}-{number}"], number)
            assert writes.flush(session, file=server.file) == 300
            server.kill()
            with pytest.raises(ConnectionError):
                writes.send(session, "assign", [0, "k"], 1)
        server.start()
        with jcrdt.connected(server.address) as session:
            session.open("d")
            assert len([it for it in session.keys("d", [0]) if it != "k"]) == 300 * round_number
            with pytest.raises(Refused, match="bad-request"):
                writes.send_again(session)
                writes.flush(session)


def test_what_is_unknown_is_kept() -> None:
    """A hub's 100 says that a change may have been made; 101 that it wasn't; 103 and others that nothing was."""
    replies = [b'["version",2]\n', b'["no",100,"server-lost"]\n', b'["no",101,"server-away"]\n', b'["applied",1,0,[1,"a-1"]]\n',
               b'["no",103,"not-allowed"]\n', b'["no",102,"reply-too-long"]\n', b'["applied",1,0,[2,"a-1"]]\n']
    with answering(*replies) as address, jcrdt.connected(address) as session:
        writes = Writes("d")
        with pytest.raises(Lost):
            writes.send(session, "add", [0, "n"], 1)
        assert writes.unknown is not None and writes.unknown.request == ["add", "d", [0, "n"], 1]
        with pytest.raises(Away):
            writes._send_waiting(session)
        assert writes.unknown is None and len(writes.waiting) == 1
        assert writes._send_waiting(session) == [] and len(writes.answered) == 1
        with pytest.raises(Refused, match="not-allowed"):
            writes.send(session, "assign", [0, "n"], 1)
        assert not writes.waiting
        with pytest.raises(Lost):
            writes.send(session, "add", [0, "n"], 2)
        assert writes.drop_unknown() == ["add", "d", [0, "n"], 2] and not writes.waiting
        assert writes.send(session, "add", [0, "n"], 3) == [2, "a-1"]


class Time:
    """A time that passes by its pauses alone. Something happens in each of them."""

    def __init__(self) -> None:
        self.now = 0.0
        self.meanwhile: Callable[[], None] = lambda: None

    def monotonic(self) -> float:
        return self.now

    def sleep(self, seconds: float) -> None:
        self.now += seconds
        self.meanwhile()


def test_a_flush_that_ends(serve: Serve, monkeypatch: pytest.MonkeyPatch) -> None:
    """The server writes to another file than the one that is named; it is killed while it is waited for."""
    server, writes = serve("d"), Writes("d")
    other = serve("d", name="other")
    with jcrdt.connected(server.address) as session:
        session.open("d")
        writes.send(session, "assign", [0, "k"], 1)
        clock = Time()
        monkeypatch.setattr(writing, "time", clock)
        with pytest.raises(TimeoutError):
            writes.flush(session, file=other.file, seconds=0.5)
        assert 0.5 <= clock.now < 0.6
        clock.meanwhile = server.kill
        with pytest.raises(Lost):
            writes.flush(session, file=other.file, seconds=SECONDS)
    assert len(writes.answered) == 1


@contextlib.contextmanager
def hub(server: Server, *words: str) -> Iterator[str]:
    """A hub before a server, and its address."""
    import json
    if shutil.which("node") is None:
        pytest.skip("node isn't installed")
    command = ["node", str(TOP / "clients" / "hub" / "hub.mjs"), server.address, "--lines", "127.0.0.1:0", "--sessions", "2", *words]
    with subprocess.Popen(command, stdout=subprocess.PIPE, stderr=subprocess.DEVNULL) as running:
        try:
            assert running.stdout is not None
            yield str(json.loads(running.stdout.readline())[1])
        finally:
            running.terminate()


def eventually(ask: Callable[[], Any]) -> Any:
    """What it gives once the hub has its server again."""
    until = time.monotonic() + SECONDS
    while True:
        try:
            return ask()
        except Away:
            assert time.monotonic() < until
            time.sleep(0.1)


def test_a_session_at_the_hub_over_a_restart(serve: Serve) -> None:
    """Each question has its own answer, also where the hub says that documents were opened again."""
    server = serve("d")
    with hub(server) as address, jcrdt.connected(address) as session:
        session.open("d")
        for key in "abc":
            session.assign("d", [0, key], key * 3)
        session.let("d", "it", [0, "a"])
        session.ask("watch", "d")
        front_there = {"srv-1": 3}
        wait_until(lambda: front_on_disk(server.file, "d") == front_there)
        server.restart()
        for key in "abcabc":
            assert eventually(lambda: session.values("d", [0, key])) == [key * 3]
        assert session.assign("d", [0, "z"], "Z")[1] == "srv-2"
        assert session.keys("d", [0]) == ["a", "b", "c", "z"]
        words: Set[str] = set()
        while not {"reopened", "changed"} <= words:
            push = session.next_push(SECONDS)
            assert push is not None, words
            words.add(push[0])


def test_a_change_whose_reply_is_missing_at_the_hub(serve: Serve) -> None:
    """The server is frozen while a change is under way: `Lost`, since it is made later."""
    server = serve("d")
    with hub(server) as address, jcrdt.connected(address) as session:
        session.open("d")
        session.add("d", [0, "n"], 1)
        freeze(server)
        with pytest.raises(ConnectionError) as raised:
            session.add("d", [0, "n"], 10)
        server.process.send_signal(18)
        assert raised.type is Lost


def test_writes_over_the_hub(serve: Serve) -> None:
    """The server is killed behind the hub; the session goes on. None is lost, and `flush` means on disk."""
    server, writes, number = serve("d"), Writes("d"), 0
    with hub(server, "--file", server.file) as address:
        with jcrdt.connected(address) as session:
            session.open("d")
            for _ in range(4):
                for _ in range(100):
                    number += 1
                    send_through(writes, session, number)
                server.restart()
            flushed(writes, session)
            server.restart()
    with jcrdt.connected(server.address) as session:
        session.open("d")
        assert set(session.keys("d", [0])) == {f"k{it}" for it in range(1, number + 1)}
        assert all(session.values("d", [0, f"k{it}"]) == [it] for it in range(1, number + 1))


def flushed(writes: Writes, session: jcrdt.Session) -> None:
    """Sends again what a kill has lost, until all is on disk."""
    until = time.monotonic() + SECONDS
    while True:
        try:
            writes.send_again(session)
            writes.flush(session)
            return
        except ConnectionError:
            assert time.monotonic() < until
            time.sleep(0.05)


def send_through(writes: Writes, session: jcrdt.Session, number: int) -> None:
    with contextlib.suppress(ConnectionError):
        writes.send(session, "assign", [0, f"k{number}"], number)
        return
    until = time.monotonic() + SECONDS
    while writes.waiting:
        assert time.monotonic() < until
        with contextlib.suppress(ConnectionError):
            writes.send_again(session)
        time.sleep(0.05)


def write_over_restarts(server: Server, writes: Writes, count: int) -> int:
    """Sends so many changes three times, and kills and starts the server behind each; what is unknown is sent again. Returns how
    many there were."""
    number = 0
    for _ in range(3):
        with contextlib.suppress(ConnectionError), jcrdt.connected(server.address) as session:
            session.open("d")
            writes.send_again(session)
            for _ in range(count):
                number += 1
                writes.send(session, "assign", [0, f"k{number}"], number)
        server.restart()
    return number


def test_a_follower_sees_each_change_once(serve: Serve) -> None:
    """From the file: nothing that a kill takes back, and nothing twice, while writes are sent again after kills."""
    server, writes, seen = serve("d"), Writes("d"), []
    ended = threading.Event()

    def follow() -> None:
        for operation in followed_file(server.file, "d"):
            seen.append(operation[4][1])
            if operation[4][1] == "end":
                break
        ended.set()

    thread = threading.Thread(target=follow, daemon=True)
    thread.start()
    number = write_over_restarts(server, writes, 300)
    with jcrdt.connected(server.address) as session:
        session.open("d")
        writes.send_again(session)
        writes.send(session, "assign", [0, "k"], "end")
        writes.flush(session, file=server.file)
        assert ended.wait(SECONDS)
    assert sorted(seen[:-1]) == list(range(1, number + 1))


def test_a_follower_of_a_server(serve: Serve) -> None:
    server = serve("d")
    seen: List[Any] = []

    def follow() -> None:
        for operation in followed(server.address, "d", {"srv-1": 1}, every=0.02):
            seen.append(operation[4][1])

    thread = threading.Thread(target=follow, daemon=True)
    with jcrdt.connected(server.address) as session:
        session.open("d")
        writes = Writes("d")
        for number in range(10):
            writes.send(session, "assign", [0, "k"], number)
        thread.start()
        writes.flush(session, file=server.file)
    wait_until(lambda: len(seen) >= 9)
    server.restart()
    with jcrdt.connected(server.address) as session:
        session.open("d")
        session.assign("d", [0, "k"], "after")
        wait_until(lambda: len(seen) >= 10)
    assert seen == [*range(1, 10), "after"]


def test_a_follower_at_the_hub(serve: Serve) -> None:
    """A hub that knows the file: nothing that a kill takes back, and nothing twice."""
    server, writes, seen = serve("d"), Writes("d"), []

    def follow(address: str) -> None:
        for operation in followed(address, "d"):
            seen.append(operation[4][1])

    with hub(server, "--file", server.file) as address:
        threading.Thread(target=follow, args=(address,), daemon=True).start()
        number = write_over_restarts(server, writes, 200)
        with jcrdt.connected(server.address) as session:
            session.open("d")
            writes.send_again(session)
        wait_until(lambda: len(seen) >= number)
        assert sorted(seen) == list(range(1, number + 1))


def test_a_follower_behind_whom_the_server_was_started_again() -> None:
    """A hub goes on with another start of the server between two pages: what the one before took with it isn't yielded, though the
    last operation that was read is in the file."""
    operations: List[Any] = [["op", [192, "srv-1"], [], [0, "k"], ["assign", 192]], ["op", [1, "srv-2"], [], [0, "k"], ["assign", 154]]]
    replies = [b'["version",2]\n', b'["no",104,"not-kept"]\n', b'["front",[["srv-1",153],["srv-2",39]]]\n']
    with answering(*replies) as address, jcrdt.connected(address) as session, pytest.raises(Lost):
        Disk("d").stored(session, operations)


def test_a_hub_without_its_server(serve: Serve) -> None:
    """A session begins at the hub; what is asked for wasn't done, until the server is there again."""
    server = serve("d")
    with hub(server) as address:
        with jcrdt.connected(address) as session:
            session.open("d")
        server.kill()
        with jcrdt.connected(address) as session:
            until = time.monotonic() + SECONDS
            with pytest.raises(Away):
                while time.monotonic() < until:
                    session.open("d")
            server.start()
            eventually(lambda: session.open("d"))
            assert session.keys("d", [0]) == []
