"""What the tests of the whole program share: a server and a run that are started, a client of lines, the file as SQLite reads it,
options, and a table of cases.

A case is a function of the program's path and a folder of its own. It raises `Differs` where the program did what it may not do."""

from __future__ import annotations

import argparse
import contextlib
import json
import os
import shutil
import socket
import sqlite3
import subprocess
import sys
import tempfile
import threading
import time
from typing import IO, Any, Callable, Dict, Iterator, List, Mapping, Optional, Sequence, Tuple, Union

TOP = os.path.dirname(os.path.dirname(os.path.abspath(__file__)))
sys.path.append(f"{TOP}/tools")
import needs as needs  # noqa: E402

SECONDS = 600
NO_MEMORY = ["no", 22, "no-memory"]
# Standard error of a server whose notes are kept for `said`.
KEPT = -100

Case = Callable[[str, str], Optional[str]]
# A request and a reply, as JSON.
Request = List[object]
Reply = List[Any]


class Differs(Exception):
    """A run that did what it may not do."""


class Lacks(Exception):
    """Something can't be tried here. Its text is the reason."""


def require(*tools: str) -> None:
    """Raises Lacks unless these tools are here."""
    missing = needs.missing(*tools)
    if missing:
        raise Lacks(needs.reason_of(missing))


def wanted(what: str, got: object, due: object) -> None:
    """Raises Differs unless the value is the due one."""
    if got != due:
        raise Differs(f"{what}: got {shortened(got)}, due {shortened(due)}")


def at_most(what: str, got: float, most: float) -> None:
    """Raises Differs if the figure is beyond its bound."""
    if got > most:
        raise Differs(f"{what}: {got:g}, at most {most:g} is wanted")


def shortened(value: object) -> str:
    text = json.dumps(value, default=repr) if not isinstance(value, str) else value
    return text if len(text) < 200 else f"{text[:200]}.. ({len(text)} characters)"


def wait_until(what: str, test: Callable[[], object], most: float = SECONDS) -> float:
    """Waits until the test holds, for so many seconds at most, and returns how many that took."""
    began = time.monotonic()
    while not test():
        if time.monotonic() - began > most:
            raise Differs(f"{what}: not within {most:g} s")
        time.sleep(0.005)
    return time.monotonic() - began


# Lines.


def line_of(request: object) -> bytes:
    return json.dumps(request, separators=(",", ":"), ensure_ascii=False).encode() + b"\n"


def operation(counter: int, replica: str, front: List[Any], path: List[Any], key: object, mutation: List[Any]) -> List[Any]:
    return ["op", [counter, replica], front, [path, key], mutation]


class Lines:
    """A client of lines over two streams: one request at a time, or many at once, which are written while replies are read."""

    def __init__(self, write: Callable[[bytes], object], read: Callable[[], bytes]) -> None:
        self.write, self.read = write, read

    def ask(self, *request: object) -> Any:
        self.write(line_of(request))
        return self.reply()

    def reply(self) -> Any:
        line = self.read()
        if not line.endswith(b"\n"):
            raise Differs(f"the session has ended: {line[:80]!r}")
        return json.loads(line)

    def ask_all(self, requests: Sequence[object]) -> List[Any]:
        """Sends these requests at once, and returns their replies."""
        return [json.loads(it) for it in self.ask_lines([line_of(it) for it in requests])]

    def ask_lines(self, lines: Sequence[bytes]) -> List[bytes]:
        def send() -> None:
            with contextlib.suppress(OSError):
                for at in range(0, len(lines), 1000):
                    self.write(b"".join(lines[at : at + 1000]))
        writer = threading.Thread(target=send, daemon=True)
        writer.start()
        replies = [self.read() for _ in lines]
        writer.join(SECONDS)
        if replies and not replies[-1].endswith(b"\n"):
            raise Differs("the session has ended")
        return replies


class Connection(Lines):
    """A session over TCP."""

    def __init__(self, address: Tuple[str, int], opens: Sequence[str] = ()) -> None:
        self.socket = socket.create_connection(address, timeout=SECONDS)
        self.socket.setsockopt(socket.IPPROTO_TCP, socket.TCP_NODELAY, 1)
        self.reader = self.socket.makefile("rb")
        super().__init__(self.socket.sendall, self.reader.readline)
        for document in opens:
            wanted("open", self.ask("open", document)[0], "opened")

    def quit(self) -> None:
        """Ends the session by `quit`, where that is still possible."""
        with contextlib.suppress(OSError, Differs):
            self.ask("quit")
        self.close()

    def close(self) -> None:
        self.reader.close()
        self.socket.close()

    def __enter__(self) -> Connection:
        return self

    def __exit__(self, *_: object) -> None:
        self.close()


# The program.


def leave(process: subprocess.Popen[bytes], watch: threading.Timer, *files: Any) -> None:
    """Ends a process, if it still runs, and what belongs to it."""
    watch.cancel()
    if process.poll() is None:
        process.kill()
    process.wait()
    for it in files:
        it.close()


def status_of(pid: Union[int, str], word: str) -> int:
    """A figure of /proc/PID/status, in bytes if it is in kB. A thread is PID/task/THREAD."""
    with open(f"/proc/{pid}/status", encoding="ascii") as lines:
        found = next(it.split() for it in lines if it.startswith(f"{word}:"))
    return int(found[1]) * (1024 if found[2:] == ["kB"] else 1)


def seconds_of(pid: int) -> float:
    """Seconds of a processor that a process has taken."""
    with open(f"/proc/{pid}/stat", encoding="ascii") as it:
        user, system = it.read().rpartition(")")[2].split()[11:13]
    return (int(user) + int(system)) / os.sysconf("SC_CLK_TCK")


class Run(Lines):
    """`run` over two pipes."""

    def __init__(self, program: str, *words: str, prefix: Sequence[str] = (), environment: Optional[Mapping[str, str]] = None) -> None:
        self.process = subprocess.Popen([*prefix, program, "run", *words], stdin=subprocess.PIPE, stdout=subprocess.PIPE,
                                        stderr=subprocess.DEVNULL, env=environment, bufsize=0)
        self.watch = threading.Timer(SECONDS, self.process.kill)
        self.watch.start()
        assert self.process.stdin and self.process.stdout
        self.input, self.raw = self.process.stdin, self.process.stdout
        self.output = os.fdopen(os.dup(self.raw.fileno()), "rb")
        super().__init__(self.send, self.output.readline)

    def send(self, data: bytes) -> None:
        while data:
            data = data[self.input.write(data):]

    def end(self) -> int:
        self.input.close()
        self.output.read()
        status = self.process.wait(SECONDS)
        self.watch.cancel()
        return status

    def __enter__(self) -> Run:
        return self

    def __exit__(self, *_: object) -> None:
        leave(self.process, self.watch, self.output, self.raw)


class Server:
    """`serve` over a file: where it listens, what it noted, and how it ended. Its notes are kept unless `errors` says where they go.
    `first` is its first line, or nothing where it ended without one. With `killed_after` it is killed so many seconds after its start.
    With `clients` it stays, for so many at once, until its input ends, if it `drains` then."""

    def __init__(self, program: str, path: str, *documents: str, sessions: int = 256, name: Optional[str] = None, address: str = "127.0.0.1:0",
                 options: Sequence[str] = (), prefix: Sequence[str] = (), environment: Optional[Mapping[str, str]] = None,
                 limits: Optional[Callable[[], object]] = None, folder: Optional[str] = None, errors: Optional[int] = KEPT,
                 killed_after: Optional[float] = None, clients: int = 0, drains: bool = True) -> None:
        self.path, self.documents, self.sessions, self.used, self.clients = path, documents, sessions, 0, clients
        self.notes: IO[bytes] = tempfile.TemporaryFile()
        count = ["--clients", str(clients), *(["--until-input-ends"] if drains else [])] if clients else ["--sessions", str(sessions)]
        words = [*prefix, program, "serve", "--addr", address, *count, "--file", path, *(["--name", name] if name else []), *options, *documents]
        self.process = subprocess.Popen(words, cwd=folder, bufsize=0, stdin=subprocess.PIPE if clients else subprocess.DEVNULL, stdout=subprocess.PIPE,
                                        env=environment, preexec_fn=limits, stderr=self.notes if errors == KEPT else errors)
        assert self.process.stdout
        self.output = self.process.stdout
        self.watch = threading.Timer(SECONDS if killed_after is None else killed_after, self.process.kill)
        self.watch.start()
        first = self.output.readline()
        if killed_after is None:
            self.watch.cancel()
        self.first: Optional[List[Any]] = json.loads(first) if first else None
        self.address = ("", 0)
        if self.first and self.first[0] == "listening":
            host, _, port = self.first[1].rpartition(":")
            self.address = host.strip("[]"), int(port)

    @property
    def pid(self) -> int:
        return self.process.pid

    @property
    def at(self) -> str:
        """Where it listens, as HOST:PORT."""
        if not self.first or self.first[0] != "listening":
            raise Differs(f"{self.path}: it doesn't listen: {self.first}, status {self.process.wait(SECONDS)}: {self.said()}")
        return str(self.first[1])

    def session(self, *opens: str) -> Connection:
        """A session in which these documents are open, or all."""
        self.used += 1
        return Connection(self.address, opens or self.documents)

    def client(self) -> Connection:
        """A session in which no document is open."""
        self.used += 1
        return Connection(self.address)

    def totals(self) -> Tuple[int, List[Any]]:
        """Waits for its end, and returns the status and the totals."""
        out, _ = self.process.communicate(timeout=SECONDS)
        return self.process.returncode, [json.loads(it) for it in out.splitlines()]

    def end(self) -> Tuple[int, List[Any]]:
        """Ends its input where it stays, or uses up the sessions that are left, and returns the status and the totals."""
        if self.clients:
            self.drain()
            return self.totals()
        for _ in range(self.sessions - self.used):
            with contextlib.suppress(OSError):
                socket.create_connection(self.address, timeout=SECONDS).close()
        return self.totals()

    def drain(self) -> None:
        """Ends its input."""
        if self.process.stdin:
            self.process.stdin.close()
            self.process.stdin = None

    def kill(self) -> None:
        self.process.kill()
        self.process.wait()

    def said(self) -> str:
        """What it has written to standard error by now."""
        found, at = b"", 0
        while True:
            part = os.pread(self.notes.fileno(), 1 << 16, at)
            if not part:
                return found.decode(errors="replace")
            found, at = found + part, at + len(part)

    def __enter__(self) -> Server:
        return self

    def __exit__(self, *_: object) -> None:
        self.drain()
        leave(self.process, self.watch, self.output, self.notes)


def built(room: str, name: str, source: str, *words: str) -> str:
    """A C source of this repository, built. Raises Lacks where there is no compiler."""
    require("cc", "header:stdlib.h")
    subprocess.run([os.environ.get("CC", "cc"), "-O1", *words, "-o", f"{room}/{name}", f"{TOP}/{source}", "-ldl"], check=True)
    return f"{room}/{name}"


def preloaded(library: str, settings: Mapping[str, object]) -> Dict[str, str]:
    """The environment of a program whose calls of the C library this one answers, by these settings."""
    return {**os.environ, "LD_PRELOAD": library, **{key: str(it) for key, it in settings.items()}}


# The file.


@contextlib.contextmanager
def database_of(path: str) -> Iterator[sqlite3.Connection]:
    """The file and its log in SQLite, by a copy."""
    with tempfile.TemporaryDirectory(prefix="copied-") as room:
        for ending in ("", "-wal"):
            if os.path.exists(path + ending):
                shutil.copy(path + ending, f"{room}/copy.db{ending}")
        with contextlib.closing(sqlite3.connect(f"{room}/copy.db")) as database:
            yield database


def rows_of(path: str) -> Dict[str, int]:
    """How many rows the file has of each document."""
    with database_of(path) as database:
        return dict(database.execute("SELECT doc, count(*) FROM entry GROUP BY doc"))


def ids_of(path: str) -> List[Tuple[str, int, str]]:
    """The document and the id of each row; none where there is no table yet."""
    with database_of(path) as database:
        if not database.execute("SELECT 1 FROM sqlite_schema WHERE name = 'entry'").fetchone():
            return []
        rows = [(doc, json.loads(text)[1]) for doc, text in database.execute("SELECT doc, text FROM entry")]
        return [(doc, counter, replica) for doc, (counter, replica) in rows]


def checked(program: str, path: str) -> List[Any]:
    """What `check` prints of a file, which must be a good one."""
    ran = subprocess.run([program, "check", "--file", path], stdin=subprocess.DEVNULL, stdout=subprocess.PIPE, stderr=subprocess.PIPE,
                         timeout=SECONDS, check=False)
    if ran.returncode:
        raise Differs(f"check has status {ran.returncode}: {(ran.stdout + ran.stderr).decode(errors='replace').strip()[:300]}")
    return [json.loads(it) for it in ran.stdout.splitlines()]


# Options and cases.


def absolute(path: str) -> str:
    return os.path.abspath(path)


def options(text: Optional[str]) -> argparse.ArgumentParser:
    """A parser of the program's words, which the text behind `usage: ` shows. A misspelt option is refused."""
    usage = (text or "").partition("usage: ")[2].split("\n\n")[0]
    parser = argparse.ArgumentParser(usage=usage, allow_abbrev=False)
    parser.add_argument("program", type=absolute)
    return parser


def asked(text: Optional[str], cases: Mapping[str, Case], parser: Optional[argparse.ArgumentParser] = None) -> argparse.Namespace:
    """The words of a program of cases: the program that is tried, and names of cases."""
    parser = parser or options(text)
    parser.add_argument("case", nargs="*", help="names of cases")
    words = parser.parse_args()
    unknown = [it for it in words.case if it not in cases]
    if unknown:
        parser.error(f"there is no case {unknown[0]}: {', '.join(cases)}")
    return words


def run_cases(cases: Mapping[str, Case], program: str, names: Sequence[str] = ()) -> int:
    """Runs the cases of a table, name by name, and prints how each went. Returns the status: one that raises Lacks is skipped."""
    failed, skipped = [], []
    chosen = {name: case for name, case in cases.items() if not names or name in names}
    for name, case in chosen.items():
        began = time.monotonic()
        with tempfile.TemporaryDirectory(prefix="case-") as room:
            try:
                said = case(program, room)
            except Lacks as fault:
                skipped.append(name)
                print(needs.line_of(name, str(fault)), flush=True)
                continue
            except (Differs, AssertionError, OSError, subprocess.SubprocessError, ValueError, sqlite3.Error) as fault:
                failed.append(name)
                said = f"FAILED: {fault}"
        print(f"{name} ({time.monotonic() - began:.1f} s): {said or 'as it must be'}", flush=True)
    count = len(chosen) - len(skipped)
    print(f"{count - len(failed)} of {count} as they must be{': not ' + ', '.join(failed) if failed else ''}"
          f"{f'; {len(skipped)} skipped' if skipped else ''}")
    return 1 if failed else needs.SKIPPED if skipped and not count else 0


def ended(tries: Callable[[], int]) -> int:
    """The status of a command that is one case: it is skipped where it raises Lacks."""
    try:
        return tries()
    except Lacks as fault:
        print(needs.line_of("all of it", str(fault)), flush=True)
        return needs.SKIPPED
