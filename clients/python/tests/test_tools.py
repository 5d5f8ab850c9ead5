"""The tools as a user calls them."""

import contextlib
import importlib
import json
import os
import pty
import select
import socket
import sqlite3
import subprocess
import sys
import threading
import time
from pathlib import Path
from typing import Callable, Iterator, List

import pytest
from conftest import PACKAGE, PROGRAM, SECONDS, Older, Server, takes_long, tool, wait_until
from test_session import answering

import jcrdt
from jcrdt.__main__ import MODULES
from jcrdt.server_process import is_open
from jcrdt.stop import Backlog, Stop
from test_writes import hub

Serve = Callable[..., Server]


def words_of(*words: str) -> List[str]:
    return [sys.executable, "-m", "jcrdt", *words]


ENVIRONMENT = {**os.environ, "PYTHONPATH": str(PACKAGE)}


def test_help_and_wrong_words() -> None:
    assert "python3 -m jcrdt TOOL" in tool("--help")
    assert "python3 -m jcrdt TOOL" in tool("nonsense", status=2)
    for name in ("talk", "exchange", "save", "load", "log", "renew", "mend", "stop"):
        module = importlib.import_module(f"jcrdt.{MODULES.get(name, name)}")
        for status, words in enumerate((["--help"], ["--nonsense"])):
            with pytest.raises(SystemExit) as ended:
                module.main([name, *words] if name in MODULES else words)
            assert ended.value.code == 2 * status
    for act in ("count", "put", "since"):
        assert "Makes what the document shows anew" in tool("renew", act, "--help")
    for words in (["talk", "7001"], ["exchange", "a:1", "b", "d"], ["save", "a", "d", "f"], ["load", "a", "d", "f"],
                  ["renew", "count", "a:1", "b", "--doc", "d"]):
        assert "isn't HOST:PORT" in tool(*words, status=2)


# Save and load.

def test_a_document_is_saved_and_loaded(serve: Serve, tmp_path: Path) -> None:
    first, second, path = serve("d", name="first"), serve("d", name="second"), str(tmp_path / "lines")
    with jcrdt.connected(first.address) as session:
        session.open("d")
        session.put("d", [0], {"list": ["one", "two", "three"]})
    assert tool("save", first.address, "d", path) == "saved 5 operations\n"
    assert tool("load", second.address, "d", path).startswith("loaded 5 operations, 0 refused, 0 waiting")
    assert "5 were known" in tool("load", second.address, "d", path)
    with jcrdt.connected(second.address) as session:
        session.open("d")
        session.append("d", [0, "list"], "four")
        assert session.plain("d", [0]) == {"list": ["one", "two", "three", "four"]}
    assert tool("save", second.address, "d", "-").count("\n") == 6
    # Under its old name a server refuses its own operations.
    first.kill()
    for ending in ("", "-wal"):
        os.remove(first.file + ending)
    first.start()
    told = tool("load", first.address, "d", path, status=1)
    assert "5 refused" in told and "line 1: 16 own-name" in told and "under a new name" in told


def test_what_waits_is_told(serve: Serve, tmp_path: Path) -> None:
    """A file without its first line: nothing is loaded, and that isn't well."""
    one, other, path = serve("d", name="one"), serve("d", name="other"), tmp_path / "lines"
    with jcrdt.connected(one.address) as session:
        session.open("d")
        for number in range(50):
            session.assign("d", [0, f"k{number}"], number)
    tool("save", one.address, "d", str(path))
    lines = path.read_text().splitlines(True)
    path.write_text("".join(lines[1:]) + "\n")
    told = tool("load", other.address, "d", str(path), status=1)
    assert "loaded 0 operations, 0 refused, 49 waiting" in told and "2 of one-1 waits for 1 of one-1" in told
    path.write_text("".join(lines[:9]) + lines[9][:-20])
    told = tool("load", other.address, "d", str(path), status=1)
    assert "loaded 50 operations, 1 refused" in told and "line 10: " in told


def test_a_save_that_fails_leaves_the_file(serve: Serve, tmp_path: Path) -> None:
    server, path = serve("d"), tmp_path / "lines"
    path.write_text("what was saved before")
    assert "no-such-document" in tool("save", server.address, "nothing", str(path), status=1)
    with answering(b'["version",2]\n', b'["opened",1]\n', b'["ops",[["op",[1,"a-1"],[],[[],0],["assign",{}]]],5]\n') as address:
        tool("save", address, "d", str(path))
    page = json.dumps(["ops", [["op", [number, "a-1"], [["a-1", number - 1]] if number > 1 else [], [[], 0], ["assign", number]]
                               for number in range(1, 65)]]).encode() + b"\n"
    path.write_text("what was saved before")
    with answering(b'["version",2]\n', b'["opened",1]\n', page, b"nonsense\n") as address:
        assert "save: " in tool("save", address, "d", str(path), status=1)
    assert path.read_text() == "what was saved before" and [it.name for it in tmp_path.iterdir() if "lines" in it.name] == ["lines"]


# Exchange.

def test_servers_meet(serve: Serve) -> None:
    one, other = serve("d", name="alice"), serve("d", name="bob")
    for server, title in ((one, "mine"), (other, "yours")):
        with jcrdt.connected(server.address) as session:
            session.open("d")
            session.assign("d", [0, "title"], title)
    assert tool("exchange", one.address, other.address, "d") == "handed over 2, refused 0; the fronts agree\n"
    assert tool("exchange", one.address, other.address, "d") == "handed over 0, refused 0; the fronts agree\n"


def test_servers_of_one_name(serve: Serve, tmp_path: Path) -> None:
    """What they made apart has the same ids: nothing is handed over. Of servers of before the fronts agree, and the documents don't."""
    one = serve("d", name="srv")
    (tmp_path / "there").mkdir()
    other = Server(tmp_path / "there", ["d"], name="srv")
    advice = "two starts of a server had one name: keep one side (GUIDE, \"When two starts had one name\")\n"
    try:
        for server, title in ((one, "mine"), (other, "yours")):
            with jcrdt.connected(server.address) as session:
                session.open("d")
                session.assign("d", [0, "title"], title)
        told = tool("exchange", one.address, other.address, "d", status=1)
        assert told == f"handed over 0: from 1 on they have different operations of srv-1\n{advice}"
        before = Older(one)
        told = tool("exchange", before.address, other.address, "d", status=1)
        assert told == f"handed over 0, refused 0; the fronts agree, and the documents differ\n{advice}"
        with jcrdt.connected(one.address) as session:
            session.open("d")
            session.assign("d", [0, "day"], "Friday")
        told = tool("exchange", one.address, other.address, "d", status=1)
        assert told == f"handed over 0: from 1 on they have different operations of srv-1\n{advice}"
        told = tool("exchange", before.address, other.address, "d", status=1)
        assert "refused: 2 of srv-1: 16 own-name\nhanded over 0, refused 1; the fronts differ\n" in told
    finally:
        other.kill()


def test_a_forged_operation(serve: Serve) -> None:
    """Bob has an operation of alice's name that she never made: all that depends on it is left out, and isn't held."""
    one, other = serve("d", name="alice"), serve("d", name="bob")
    with jcrdt.connected(other.address) as bob:
        bob.open("d")
        bob.deliver("d", ["op", [1, "alice-1"], [], [[["m", 0]], "k"], ["assign", "forged"]])
        for number in range(5):
            bob.assign("d", [0, "k"], number)
    told = tool("exchange", one.address, other.address, "d", status=1)
    assert "refused: 1 of alice-1: 16 own-name" in told and "the fronts differ" in told
    with jcrdt.connected(one.address) as alice:
        alice.open("d")
        assert alice.held("d") == [] and alice.plain("d", [0]) is None


# Stop.

@contextlib.contextmanager
def stopping(*words: str) -> Iterator["subprocess.Popen[str]"]:
    with subprocess.Popen(words_of("stop", *words), stdout=subprocess.PIPE, stderr=subprocess.STDOUT, text=True,
                          env=ENVIRONMENT) as running:
        try:
            yield running
        finally:
            running.kill()


@pytest.mark.parametrize("with_file", [False, True])
def test_a_server_is_stopped_while_a_session_runs(serve: Serve, with_file: bool) -> None:
    server = serve("d", sessions=4)
    with jcrdt.connected(server.address) as session:
        session.open("d")
        session.assign("d", [0, "a"], 1)
        with stopping(server.address, *(["--file", server.file] if with_file else [])) as stop:
            assert stop.stdout is not None
            assert stop.stdout.readline().startswith("no session is left: waiting for the clients of those that run")
            session.assign("d", [0, "b"], 1)
            session.quit()
            told = stop.communicate(timeout=SECONDS)[0]
            assert (stop.returncode, told.splitlines()[-1]) == (0, "the server has ended: 3 of its sessions were used up here")
    assert server.end() == '["total","d",2,2,2]\n'
    assert "no server listens there" in tool("stop", server.address, status=1)
    assert "isn't HOST:PORT" in tool("stop", "7001", status=2)


def test_a_server_is_stopped_before_it_listens(serve: Serve) -> None:
    """One that reads a long file refuses connections meanwhile."""
    server = serve("d", sessions=1)
    with jcrdt.connected(server.address) as session:
        session.open("d")
        session.ask_all([["assign", "d", [0, f"k{number}"], number] for number in range(20_000)])
    server.end()
    words = [PROGRAM, "serve", "--addr", server.address, "--sessions", "3", "--file", server.file, "d"]
    with subprocess.Popen(words, stdout=subprocess.PIPE, stderr=subprocess.DEVNULL, text=True) as process:
        until = time.monotonic() + SECONDS
        while not is_open(server.file):
            assert time.monotonic() < until
            time.sleep(0.001)
        stop = Stop(server.address, Backlog(server.file))
        try:
            stop.run()
            assert (stop.began, stop.used) == (True, 3)
            assert process.communicate(timeout=SECONDS)[0].splitlines()[-1] == '["total","d",0,20000,20000]'
        finally:
            process.kill()


@contextlib.contextmanager
def wrapped(server: Server) -> Iterator["subprocess.Popen[str]"]:
    """A wrapper of this name, which ends its server by SIGTERM."""
    script = Path(server.file).parent / "jcrdt-serve"
    script.write_text('#!/bin/bash\n"$@" &\ntrap "kill -KILL $!" TERM\nwait\nwait\n')
    script.chmod(0o755)
    words = [str(script), PROGRAM, "serve", "--addr", server.address, "--sessions", "9", "--file", server.file, "d"]
    with subprocess.Popen(words, stdout=subprocess.PIPE, text=True) as process:
        assert process.stdout is not None
        process.stdout.readline()
        try:
            yield process
        finally:
            process.terminate()


def test_only_the_server_of_a_file_is_stopped(serve: Serve) -> None:
    """Whatever address is named: that of another server, or none."""
    server, other = serve("d", name="one", sessions=2), serve("d", name="other", sessions=2)
    told = tool("stop", "--file", server.file, other.address)
    assert told.splitlines()[-1] == "the server has ended: 2 of its sessions were used up here"
    assert server.end() == '["total","d",0,0,0]\n'
    with jcrdt.connected(other.address) as session:
        assert session.version() == 2
    assert "no server has it open" in tool("stop", "--file", server.file, other.address, status=1)
    assert tool("stop", "--file", other.file).endswith("the server has ended: 1 of its sessions were used up here\n")


def test_the_wrapper_of_a_server_gets_the_signal(serve: Serve) -> None:
    """No session of it is used up."""
    server = serve("d")
    server.kill()
    with wrapped(server) as process, jcrdt.connected(server.address):
        assert tool("stop", "--file", server.file) == "the server has ended\n"
        process.wait(SECONDS)


def test_what_serves_no_file(serve: Serve, tmp_path: Path) -> None:
    assert "No such file" in tool("stop", "--file", str(tmp_path / "nothing"), status=1)
    assert "name the file or the address" in tool("stop", status=2)
    database = sqlite3.connect(tmp_path / "other.db", isolation_level=None)
    database.execute("CREATE TABLE one (two)")
    database.execute("BEGIN EXCLUSIVE")
    assert "has it open, and is no server" in tool("stop", "--file", str(tmp_path / "other.db"), status=1)
    database.close()


@takes_long
def test_what_is_left_to_write_is_told(serve: Serve) -> None:
    """Clients leave behind many changes. What isn't in the file yet is told, and at the end all is."""
    server = serve("d", sessions=6)
    with jcrdt.connected(server.address) as session:
        session.open("d")
        session.assign("d", [0, "k"], 1)
        wait_until(lambda: bool(jcrdt.front_on_disk(server.file, "d")))
    lines = b'["open","d"]\n' + b'["assign","d",[0,"k"],"x"]\n' * 60_000 + b'["quit"]\n'
    host, port = server.address.split(":")
    with socket.create_connection((host, int(port))) as connection:
        threading.Thread(target=connection.sendall, args=(lines,), daemon=True).start()
        with connection.makefile("rb") as replies:
            assert sum(1 for _ in replies) == 60_002
    with stopping(server.address, "--file", server.file) as stop:
        told = stop.communicate(timeout=SECONDS)[0]
    assert stop.returncode == 0, told
    assert server.end() == '["total","d",60001,60001,60001]\n'
    assert jcrdt.front_on_disk(server.file, "d") == {"srv-1": 60_001}


def test_what_is_no_server(serve: Serve) -> None:
    for reply in (b"HTTP/1.1 400 Bad Request\r\n\r\n", b"", b"-ERR unknown command\r\n", b'["version",2]\n["watching","a"]\n'):
        with answering(reply) as address:
            told = tool("stop", address, status=1)
            assert "no server of jcrdt" in told or "it is a hub" in told, told
    server = serve("d")
    with hub(server) as address:
        assert "it is a hub" in tool("stop", address, status=1)
        with jcrdt.connected(address) as session:
            session.open("d")


# Talk.

class Terminal:
    """A program at a pseudo-terminal."""

    def __init__(self, words: List[str], home: str) -> None:
        self.master, slave = pty.openpty()
        self.program = subprocess.Popen(words, stdin=slave, stdout=slave, stderr=slave,
                                        env={**ENVIRONMENT, "HOME": home, "TERM": "dumb"})
        os.close(slave)
        self.told = ""

    def type(self, text: str) -> None:
        os.write(self.master, text.encode())

    def wait_for(self, text: str) -> None:
        """Reads until the text has come, and forgets what came before its end."""
        until = time.monotonic() + SECONDS
        while text not in self.told:
            assert time.monotonic() < until, self.told
            if select.select([self.master], [], [], 0.2)[0]:
                with contextlib.suppress(OSError):
                    self.told += os.read(self.master, 4096).decode()
        self.told = self.told.split(text, 1)[1]

    def end(self) -> int:
        self.program.wait(SECONDS)
        os.close(self.master)
        return self.program.returncode


def test_a_terminal(serve: Serve, tmp_path: Path) -> None:
    pytest.importorskip("readline")
    server = serve("plan")
    told = tool("talk", server.address, text='["open","plan"]\nnonsense\n["quit"]\n["front","plan"]\n')
    assert told == '["opened",1]\n["no",1,"not-json"]\n["bye"]\n'
    for session in (2, 3):
        terminal = Terminal(words_of("talk", server.address), str(tmp_path))
        terminal.wait_for("> ")
        if session == 2:
            terminal.type('["op\t')
            terminal.wait_for('["op')
            terminal.type('en","plan"]\n')
            terminal.wait_for('["opened",2]')
            terminal.type('["fr\t\t')
            terminal.wait_for('["front","plan"]')
            terminal.type("\n")
            terminal.wait_for('["front",[]]')
        else:
            # Four lines back is what was typed first in the session before.
            terminal.type("\x10\x10\x10\n")
            terminal.wait_for('["opened",3]')
        terminal.type('["quit"]\n')
        terminal.wait_for('["bye"]')
        assert terminal.end() == 0


def test_a_terminal_shows_pushes(serve: Serve, tmp_path: Path) -> None:
    """Behind the hub: each request has its reply, and what comes without a request is shown as such."""
    server = serve("d")
    with hub(server) as address:
        lines = '["open","d"]\n["watch","d"]\n["assign","d",[0,"k"],1]\n["keys","d",[0]]\n["values","d",[0,"k"]]\n'
        told = tool("talk", address, text=lines).splitlines()
        replies = [line for line in told if not line.startswith("push: ")]
        assert [json.loads(line)[0] for line in replies] == ["opened", "watching", "applied", "keys", "values"]
        terminal = Terminal(words_of("talk", address), str(tmp_path))
        terminal.wait_for("> ")
        terminal.type('["open","d"]\n["watch","d"]\n')
        terminal.wait_for("watching")
        with jcrdt.connected(server.address) as session:
            session.open("d")
            session.assign("d", [0, "k"], 2)
        terminal.wait_for('push: ["changed","d",[["srv-1",2]]]')
        terminal.type('["quit"]\n')
        terminal.wait_for('["bye"]')
        assert terminal.end() == 0


def test_how_many_operations_are_left(serve: Serve, tmp_path: Path, capsys: pytest.CaptureFixture[str]) -> None:
    """A file that is behind: the copy of an earlier time stands for it, and is then replaced by the later one."""
    server, behind = serve("d"), tmp_path / "behind.db"
    with jcrdt.connected(server.address) as session:
        session.open("d")
        writes = jcrdt.Writes("d")
        for count in (1, 20, 300):
            for number in range(count):
                writes.send(session, "assign", [0, "k"], number)
            writes.flush(session, file=server.file)
            for ending in ("", "-wal"):
                (tmp_path / f"{count}.db{ending}").write_bytes(Path(server.file + ending).read_bytes())
    for ending in ("", "-wal"):
        os.replace(tmp_path / f"1.db{ending}", f"{behind}{ending}")
    backlog = Backlog(str(behind))
    with jcrdt.connected(server.address) as session:
        backlog.note(session)
    for count, left in ((20, 320), (300, 300)):
        backlog.said = 0.0
        backlog.look()
        assert capsys.readouterr().out == f"the file is being written: {left} operations left\n"
        for ending in ("-wal", ""):
            os.replace(tmp_path / f"{count}.db{ending}", f"{behind}{ending}")
    backlog.said = 0.0
    backlog.look()
    backlog.close()
    assert capsys.readouterr().out == ""


def test_a_disk_that_is_full(serve: Serve) -> None:
    """Standard output and a file without room: the status is 1, and the message says why."""
    server = serve("d")
    with jcrdt.connected(server.address) as session:
        session.open("d")
        session.ask_all([["assign", "d", [0, "k"], "x" * 1000]] * 100)
    assert "No space left" in tool("save", server.address, "d", "/dev/full", status=1)
    words = f"{sys.executable} -m jcrdt save {server.address} d - >/dev/full"
    run = subprocess.run(["bash", "-c", words], env=ENVIRONMENT, stderr=subprocess.PIPE, timeout=SECONDS)
    assert run.returncode == 1 and b"No space left" in run.stderr and b"Traceback" not in run.stderr
