"""What the tests of this folder share: rows, the program that is tried, and how it is run over pipes and over TCP."""

from __future__ import annotations

import contextlib
import json
import os
import re
import resource
import signal
import socket
import subprocess
import tempfile
from concurrent.futures import Future
from typing import Callable, Counter, Dict, Iterable, Iterator, List, Mapping, Optional, Sequence, Set, Tuple

import pytest

from support import Differs, Reply, Server, built, needs, preloaded

HERE = os.path.dirname(os.path.abspath(__file__))
SECONDS = 600
LONG = 4_000

# Command-line words.
Words = Sequence[str]
# What a program's environment is, or nothing where it is that of the tests.
Environment = Optional[Mapping[str, str]]
# What runs counted, by what it is.
Counts = Counter[str]
# Cases by their names.
Cases = Iterator[Tuple[str, Callable[[], object]]]

# A line that a server notes: its level, the time, and what it says.
NOTE = re.compile(r"(?m)^\[(INFO|WARN)  jcrdt\] [0-9]{4}-[0-9]{2}-[0-9]{2}T[0-9]{2}:[0-9]{2}:[0-9]{2}Z (.*)\n")

# What is written of a file that can't be opened.
NO_FOLDER = "there is no such folder"
NO_PATH = "its path is empty, or :memory:, or begins with file:"


class Case:
    """A run that is tried: its name, and the call that raises Differs where something is wrong. It may be made ahead by a pool."""

    def __init__(self, name: str, call: Callable[[], object]) -> None:
        self.name, self.call = name, call
        self.ahead: Optional[Future[object]] = None

    def __call__(self) -> object:
        return self.ahead.result() if self.ahead else self.call()


class Row:
    """A worked row: what goes in, what must come out, and the words and the status of the program."""

    def __init__(self, name: str) -> None:
        self.name = name
        folder = f"{HERE}/rows/{name}"
        self.input, self.output, words, status = (bytes_of(f"{folder}/{it}") for it in ("stdin", "stdout", "args", "status"))
        self.words, self.status = words.decode().split("\n")[:-1], int(status)

    def cut(self, length: int) -> bytes:
        """What is due where the input ends after so many bytes: a line that isn't whole is no JSON, unless blanks alone lack."""
        begun = self.input[:length].split(b"\n")
        whole, last = len(begun) - 1, begun[-1]
        replies = self.output.splitlines(True)
        due = replies[:whole]
        if last and len(due) == whole and whole < len(replies):
            full = self.input.split(b"\n")[whole]
            # A line is too long from its 65,537th byte on, and not before.
            fits = len(last) <= 65_536
            same = last.strip(b" \r") == full.strip(b" \r")
            if not fits:
                due.append(replies[whole])
            elif len(full) > 65_536 and same:
                due.append(b'["opened",1]\n')
            else:
                due.append(replies[whole] if same else b'["no",1,"not-json"]\n')
        return b"".join(due)


def rows() -> List[Row]:
    return [Row(name) for name in sorted(os.listdir(f"{HERE}/rows"))]


def bytes_of(path: str) -> bytes:
    with open(path, "rb") as file:
        return file.read()


def compact(lines: Iterable[object]) -> List[bytes]:
    return [line if isinstance(line, bytes) else json.dumps(line, separators=(",", ":")).encode() for line in lines]


class Tried:
    """A program, and what can be made to fail under it."""

    def __init__(self, program: str, room: str) -> None:
        self.program = program
        self.room = room
        self.can_fail = not needs.missing("cc", "header:stdlib.h")
        for source in ("refuse-allocations", "whole-program/fail-devices") if self.can_fail else ():
            built(room, f"{os.path.basename(source)}.so", f"tests/{source}.c", "-shared", "-fPIC")

    def needs_cc(self) -> None:
        if not self.can_fail:
            raise pytest.UsageError("a C compiler is needed, and there is none")

    def environment(self, library: str, settings: Mapping[str, object]) -> Dict[str, str]:
        return preloaded(f"{self.room}/{library}.so", settings)

    def run(self, words: Words, data: bytes, environment: Environment = None) -> Tuple[int, bytes]:
        """Its status and what it wrote."""
        run = subprocess.run([self.program, *words], input=data, stdout=subprocess.PIPE, stderr=subprocess.DEVNULL, env=environment, timeout=SECONDS)
        return run.returncode, run.stdout

    def serve(self, words: Words, data: bytes, environment: Environment = None, piece: Optional[int] = None) -> Tuple[int, bytes, bytes]:
        """One session over TCP: the status, what the session wrote, and what the program wrote behind the line of its address. The
        words are those of `run`."""
        named, documents = (words[1:3], words[3:]) if words[1:2] == ["--name"] else ((), words[1:])
        with new_folder(self.room) as folder, Server(self.program, f"{folder}/copy.db", *documents, sessions=1, options=named, environment=environment,
                                                     errors=subprocess.DEVNULL) as server:
            if not server.first:
                return server.process.wait(SECONDS), b"", b""
            replies = b""
            # Out of memory, it may end before a session begins.
            with contextlib.suppress(ConnectionRefusedError, ConnectionResetError):
                replies = talk(*server.address, data, piece)
            rest, _ = server.process.communicate(timeout=SECONDS)
            return server.process.returncode, replies, rest

    def due(self, words: Words, lines: Sequence[bytes]) -> List[Reply]:
        """What it answers to these lines with ample memory."""
        status, out = self.run(words, b"".join(line + b"\n" for line in lines))
        if status != 0:
            raise Differs(f"status {status} with ample memory")
        return replies_of(out)


def new_folder(room: str) -> tempfile.TemporaryDirectory[str]:
    return tempfile.TemporaryDirectory(prefix="copy-", dir=room)


def new_file(stack: contextlib.ExitStack, room: str) -> str:
    """The name of a file that isn't there, in a folder that goes with the stack."""
    return f"{stack.enter_context(new_folder(room))}/copy.db"


def talk(host: str, port: int, data: bytes, piece: Optional[int] = None) -> bytes:
    """Writes the bytes, ends the writing, and returns all that comes back. A connection that is reset has its bytes until then."""
    got = b""
    with socket.create_connection((host, port), timeout=SECONDS) as connection:
        connection.setsockopt(socket.IPPROTO_TCP, socket.TCP_NODELAY, 1)
        with contextlib.suppress(ConnectionError):
            for at in range(0, len(data), piece or len(data) or 1):
                connection.sendall(data[at : at + (piece or len(data))])
        with contextlib.suppress(OSError):
            connection.shutdown(socket.SHUT_WR)
        with contextlib.suppress(ConnectionError):
            while True:
                more = connection.recv(65_536)
                if not more:
                    break
                got += more
    return got


def replies_of(out: bytes) -> List[Reply]:
    if out and not out.endswith(b"\n"):
        raise Differs("the last reply is not whole")
    return [json.loads(line) for line in out.split(b"\n")[:-1]]


def documents_of(words: Words) -> List[str]:
    return [it for at, it in enumerate(words[1:], 1) if it != "--name" and words[at - 1] != "--name"]


def totals_of(words: Words, lines: Sequence[bytes], replies: Iterable[Reply]) -> List[Reply]:
    """The lines that `serve` writes at the end of its one session."""
    documents = documents_of(words)
    logged = dict.fromkeys(documents, 0)
    for line, reply in zip(lines, replies):
        if reply[0] == "applied":
            logged[json.loads(line)[1]] += reply[1]
    return [["total", it, logged[it], logged[it], logged[it]] for it in documents]


def ran(tried: Tried, words: Words, data: bytes, due: Tuple[int, bytes], environment: Environment = None) -> None:
    """One session over pipes: its status and what it writes are the due ones."""
    same(tried.run(words, data, environment), due)


def same(got: object, due: object) -> None:
    if got != due:
        where = ""
        if isinstance(got, Sequence) and isinstance(due, Sequence):
            at = next((at for at, (g, d) in enumerate(zip(got, due)) if g != d), min(len(got), len(due)))
            where = f", from item {at} on"
        raise Differs(f"got {got!r:.300}, due {due!r:.300}{where}")


def without_copied(lines: Sequence[bytes], out: bytes) -> bytes:
    """Replies, in which of no operation the stored log has a copy: so it is under `run`. Under `serve` it may have one by then, once the
    operation is logged or was delivered."""
    replies = out.splitlines(keepends=True)
    known: Set[str] = set()
    for at, (line, reply) in enumerate(zip(lines, replies)):
        if reply == b'["copied",true]\n' and json.dumps(json.loads(line)[2]) in known:
            replies[at] = b'["copied",false]\n'
        elif reply.startswith(b'["applied"'):
            known.add(json.dumps(json.loads(reply)[3]))
        if line.startswith(b'["deliver"') and reply.startswith((b'["applied"', b'["held"')):
            known.add(json.dumps(json.loads(line)[2][1]))
    return b"".join(replies)


def served(tried: Tried, row: Row, data: bytes, due: bytes, piece: Optional[int] = None, environment: Environment = None) -> None:
    status, out, rest = tried.serve(row.words, data, environment, piece)
    out = without_copied(data.split(b"\n"), out)
    # Where a session ends before its input, bytes that come after the server has closed reset the connection, and the end of the
    # last reply may be lost on its way.
    ends_early = due.endswith((b'"line-too-long"]\n', b'["bye"]\n')) and due.startswith(out)
    same((status, due if ends_early else out), (0, due))
    same(replies_of(rest), totals_of(row.words, data.split(b"\n"), replies_of(due)))


def places(data: bytes) -> Sequence[int]:
    """After how many bytes a row is cut: after each, or in a long one at its begin, at its end and now and then."""
    length = len(data)
    return range(length + 1) if length <= LONG else sorted({*range(0, 60), *range(60, length, length // 400), *range(length - 60, length + 1)})


def limited(length: int) -> None:
    """Before the program starts: a file that it writes may have so many bytes, and a write past them fails."""
    signal.signal(signal.SIGXFSZ, signal.SIG_IGN)
    resource.setrlimit(resource.RLIMIT_FSIZE, (length, length))
