"""What tests/page-programs and tests/example-stores share: a fresh clone; a server and a hub that are killed and start again, and a
disk that is full for a moment; programs that answer commands; and the count of what was confirmed."""

import contextlib
import json
import os
import random
import socket
import subprocess
import sys
import tempfile
import threading
import time
from types import TracebackType
from typing import Any, Callable, Counter, Dict, Iterator, List, Optional, Sequence, Set, Type

from support import TOP, Differs, Lacks, require, wait_until

sys.path.insert(0, f"{TOP}/clients/python")
import jcrdt  # noqa: E402

# For what a busy machine takes its time for.
PATIENCE = 240.0
# A small disk of so many bytes, of which a start takes some 200,000.
SMALL_DISK = 1_500_000
# Before a program that has ended is started again.
PAUSE = 0.2
# What the programs need of a tree that is no repository.
PARTS = ("clients", "docs", "examples", "include", "release", "protocol.json", "package.json", "README.md")


def cloned(room: str) -> str:
    """A fresh clone of the last commit; the files as they are where there is no repository."""
    clone = f"{room}/clone"
    if os.path.exists(f"{TOP}/.git"):
        require("git")
        subprocess.run(["git", "clone", "-q", "--shared", TOP, clone], check=True)
        return clone
    os.mkdir(clone)
    subprocess.run(["cp", "-a", *(f"{TOP}/{it}" for it in PARTS), clone], check=True)
    return clone


def free_port() -> int:
    with socket.create_server(("127.0.0.1", 0)) as it:
        return int(it.getsockname()[1])


class Kept:
    """A program that is started again each time it ends, as by its unit, until `stop`. What it writes goes to a file."""

    def __init__(self, words: Sequence[str], notes: str) -> None:
        self.words, self.notes, self.starts, self.is_stopped = words, notes, 0, False
        self.statuses: List[int] = []
        self.process: Optional["subprocess.Popen[bytes]"] = None
        self.thread = threading.Thread(target=self.keep, daemon=True)
        self.thread.start()

    def keep(self) -> None:
        while not self.is_stopped:
            with open(self.notes, "ab") as notes:
                self.process = subprocess.Popen(self.words, stdin=subprocess.DEVNULL, stdout=notes, stderr=notes)
            self.starts += 1
            if self.is_stopped:
                self.process.kill()
            self.statuses.append(self.process.wait())
            time.sleep(PAUSE)

    def kill(self) -> None:
        """Ends it by SIGKILL, if it runs."""
        if self.process:
            self.process.kill()

    def stop(self) -> None:
        self.is_stopped = True
        self.kill()
        self.thread.join()


class Stage:
    """A server with a hub before it, at addresses that stay."""

    def __init__(self, clone: str, program: str, folder: str, file: str, document: str, more: Sequence[str] = ()) -> None:
        self.at, self.lines, self.web = (f"127.0.0.1:{free_port()}" for _ in range(3))
        self.file, self.document = file, document
        server = [program, "serve", "--addr", self.at, "--sessions", "256", "--file", file, "--name", "srv", *more, document]
        hub = ["node", f"{clone}/clients/hub/hub.mjs", self.at, "--lines", self.lines, "--web", self.web]
        self.server, self.hub = Kept(server, f"{folder}/server"), Kept(hub, f"{folder}/hub")

    def __enter__(self) -> "Stage":
        return self

    def __exit__(self, kind: Optional[Type[BaseException]], error: Optional[BaseException], trace: Optional[TracebackType]) -> None:
        self.hub.stop()
        self.server.stop()


def read_at_last(stage: Stage, read: Callable[[jcrdt.Session], Any]) -> Any:
    """What a session reads, as soon as there is one."""
    found: List[Any] = []

    def has_read() -> bool:
        with contextlib.suppress(ConnectionError), jcrdt.connected(stage.at) as session:
            session.open(stage.document)
            found.append(read(session))
        return bool(found)

    wait_until("the server is read", has_read)
    return found[-1]


class SmallDisk:
    """A disk of a few megabytes, if one can be mounted, and what fills it."""

    def __init__(self, folder: Optional[str]) -> None:
        self.folder = folder

    def fill(self) -> None:
        """Leaves no room at all."""
        with contextlib.suppress(OSError), open(f"{self.folder}/ballast", "ab", buffering=0) as file:
            while True:
                file.write(bytes(1 << 12))

    def free(self) -> None:
        with contextlib.suppress(FileNotFoundError):
            os.remove(f"{self.folder}/ballast")


@contextlib.contextmanager
def small_disk() -> Iterator[SmallDisk]:
    """A small disk, mounted for this test."""
    with tempfile.TemporaryDirectory(prefix="small-disk-") as folder:
        if subprocess.run(["mount", "-t", "tmpfs", "-o", f"size={SMALL_DISK}", "tmpfs", folder], stderr=subprocess.DEVNULL, check=False).returncode:
            raise Lacks("no mount here")
        try:
            yield SmallDisk(folder)
        finally:
            subprocess.run(["umount", "-l", folder], check=True)


class Driver:
    """A program that answers each command, a line of JSON, by a line."""

    def __init__(self, *words: str) -> None:
        self.process = subprocess.Popen(["node", *words], stdin=subprocess.PIPE, stdout=subprocess.PIPE, stderr=subprocess.DEVNULL)
        self.lock = threading.Lock()

    def reply(self) -> Any:
        """The next reply; nothing once the program has ended."""
        assert self.process.stdout
        line = self.process.stdout.readline()
        return json.loads(line) if line.endswith(b"\n") else None

    def ask(self, *command: object) -> Any:
        with self.lock:
            assert self.process.stdin
            with contextlib.suppress(BrokenPipeError, ValueError):  # it has ended, or was closed
                self.process.stdin.write(json.dumps(command).encode() + b"\n")
                self.process.stdin.flush()
            return self.reply()

    def end(self) -> None:
        assert self.process.stdin
        with contextlib.suppress(BrokenPipeError):
            self.process.stdin.close()
        self.process.wait(PATIENCE)


class Count:
    """What was tried, and what was confirmed, by names that are used once."""

    def __init__(self) -> None:
        self.tried: Set[str] = set()
        self.confirmed: Set[str] = set()
        self.breaks: Counter[str] = Counter()
        # What else went wrong.
        self.faults: List[str] = []

    def grows(self, most: int = 3) -> None:
        """Waits until so many more are confirmed."""
        due = len(self.confirmed) + most
        wait_until(f"{most} more are confirmed", lambda: self.faults or len(self.confirmed) >= due)
        if self.faults:
            raise Differs(self.faults[0])

    def check(self, there: Sequence[str]) -> str:
        """Raises Differs unless what was confirmed is there once, and nothing else but what was tried."""
        lost, doubled = self.confirmed - set(there), {it for it in there if list(there).count(it) > 1}
        if lost or doubled or set(there) - self.tried:
            raise Differs(f"lost {sorted(lost)[:9]}, doubled {sorted(doubled)[:9]}, never tried {sorted(set(there) - self.tried)[:9]}; {self.said(there)}")
        return self.said(there)

    def said(self, there: Sequence[str]) -> str:
        breaks = ", ".join(f"{count} {word}" for word, count in sorted(self.breaks.items()))
        return f"{len(self.tried)} tried, {len(self.confirmed)} confirmed, {len(there)} there; broken by {breaks}"


def broken(count: Count, ways: Dict[str, Callable[[], None]], times: int, moves: random.Random) -> None:
    """Breaks something so many times, each way at least once, and each time waits until more is confirmed."""
    chosen = [*ways, *(moves.choice([*ways]) for _ in range(times - len(ways)))]
    moves.shuffle(chosen)
    for word in chosen:
        time.sleep(moves.uniform(0, 0.5))
        ways[word]()
        count.breaks[word] += 1
        count.grows()
