"""What the tests share: the program, and a server that is ended with the test."""

import contextlib
import json
import os
import shutil
import socket
import subprocess
import sys
import threading
import time
from pathlib import Path
from typing import IO, Any, Callable, Iterator, List, Optional, Sequence

import pytest

PACKAGE = Path(__file__).resolve().parent.parent
TOP = PACKAGE.parent.parent
PROGRAM = os.environ.get("JCRDT") or str(TOP / "release" / "jcrdt")
os.environ["JCRDT"] = PROGRAM
os.environ["PYTHONDONTWRITEBYTECODE"] = "1"
sys.dont_write_bytecode = True
sys.path.insert(0, str(PACKAGE))
import jcrdt  # noqa: E402
from jcrdt import store as store_module  # noqa: E402
# Whether `tests/clients --short` runs them. It leaves out tests of some ten seconds of a processor, and does fewer random runs.
IS_SHORT = bool(os.environ.get("JCRDT_SHORT"))
takes_long = pytest.mark.skipif(IS_SHORT, reason="it takes long, and ./test runs it")
# The longest that a test waits for a process or a fact. It is far more than a slow machine takes.
SECONDS = 300
# How a server takes back sessions from who is silent for a second while others wait.
IMPATIENT = ("--clients", "2", "--patience", "1")
# A server whose file has what it answered.
DURABLE = ("--sessions", "64", "--durable")


class Server:
    """`jcrdt serve` over a file, which may be killed and started again at the same port."""

    def __init__(self, folder: Path, documents: List[str], name: str = "srv", sessions: int = 64,
                 admission: Sequence[str] = ()) -> None:
        """`admission` stands in place of the number of sessions."""
        self.file, self.documents, self.name = str(folder / f"{name}.db"), documents, name
        self.admission = admission or ("--sessions", str(sessions))
        self.address = "127.0.0.1:0"
        self.program: "Optional[subprocess.Popen[bytes]]" = None
        self.start()

    def start(self) -> None:
        words = [PROGRAM, "serve", "--addr", self.address, *self.admission, "--file", self.file, "--name", self.name,
                 *self.documents]
        for _ in range(20):
            self.program = subprocess.Popen(words, bufsize=0, stdout=subprocess.PIPE, stderr=subprocess.DEVNULL)
            line = self.out.readline()
            if line:
                self.address = json.loads(line)[1]
                return
            # Another program may have its port for a moment.
            self.kill()
            wait_until(lambda: is_free(self.address))
        raise AssertionError(f"{words} doesn't start")

    @property
    def out(self) -> IO[bytes]:
        assert self.program is not None and self.program.stdout is not None
        return self.program.stdout

    @property
    def process(self) -> "subprocess.Popen[bytes]":
        assert self.program is not None
        return self.program

    def kill(self) -> None:
        if not self.out.closed:
            self.process.kill()
            self.process.communicate()

    def end(self) -> str:
        """Waits for the end of a server whose sessions are used up, and returns its totals."""
        return self.process.communicate(timeout=SECONDS)[0].decode()

    def restart(self) -> None:
        self.kill()
        self.start()


class Older:
    """A server of before, which isn't asked for chains: what is between a client and a server spoils that word."""

    def __init__(self, server: Server) -> None:
        self.server, self.listener = server, socket.create_server(("127.0.0.1", 0))
        self.address = f"127.0.0.1:{self.listener.getsockname()[1]}"
        threading.Thread(target=self._accept, daemon=True).start()

    def _accept(self) -> None:
        with contextlib.suppress(OSError):
            while True:
                connection, _ = self.listener.accept()
                threading.Thread(target=self._serve, args=(connection,), daemon=True).start()

    def _serve(self, connection: socket.socket) -> None:
        host, port = self.server.address.rsplit(":", 1)
        with contextlib.suppress(OSError), connection, socket.create_connection((host, int(port))) as behind:
            threading.Thread(target=self._copy, args=(behind, connection), daemon=True).start()
            with connection.makefile("rb") as lines:
                for line in lines:
                    behind.sendall(line.replace(b'["chains",', b'["unknown",', 1))

    @staticmethod
    def _copy(source: socket.socket, target: socket.socket) -> None:
        with contextlib.suppress(OSError):
            while True:
                data = source.recv(65_536)
                if not data:
                    target.shutdown(socket.SHUT_RDWR)
                    return
                target.sendall(data)


def is_free(address: str) -> bool:
    """Whether a server can listen there."""
    host, port = address.rsplit(":", 1)
    with socket.socket() as it:
        it.setsockopt(socket.SOL_SOCKET, socket.SO_REUSEADDR, 1)
        try:
            it.bind((host, int(port)))
            return True
        except OSError:
            return False


@pytest.fixture
def serve(tmp_path: Path) -> Iterator[Callable[..., Server]]:
    servers: List[Server] = []

    def start(*documents: str, **options: Any) -> Server:
        servers.append(Server(tmp_path, list(documents), **options))
        return servers[-1]

    yield start
    for server in servers:
        server.kill()


def edit(server: Server, **values: Any) -> None:
    with jcrdt.connected(server.address) as it:
        it.open("d")
        for key, value in values.items():
            it.assign("d", [0, key], value)


def copied(server: Server, to: Path) -> None:
    """Ends a server by a kill, and copies its file."""
    server.kill()
    to.mkdir(exist_ok=True)
    for end in ("", "-wal"):
        if os.path.exists(server.file + end):
            shutil.copy(server.file + end, to / f"srv.db{end}")


def put_back(server: Server, backup: Path) -> None:
    server.kill()
    for end in ("", "-wal", "-shm"):
        if os.path.exists(server.file + end):
            os.remove(server.file + end)
        if (backup / f"srv.db{end}").exists():
            shutil.copy(backup / f"srv.db{end}", server.file + end)
    server.start()


@pytest.fixture
def cloned(monkeypatch: pytest.MonkeyPatch) -> None:
    """Copies can't be distinguished from the original, as those of a machine that was cloned with its disk: all have one name."""
    monkeypatch.setattr(store_module, "_place_of", lambda _file: "file-of-all")


@pytest.fixture(params=["apart", "cloned"])
def names(request: pytest.FixtureRequest) -> None:
    """Copies have names of their own, or all have one."""
    if request.param == "cloned":
        request.getfixturevalue("cloned")


of_either_name = pytest.mark.usefixtures("names")


@pytest.fixture
def twins(serve: Callable[..., Server], tmp_path: Path) -> Iterator[List[Server]]:
    """Two servers over a file and its copy, under one name. Their second start made three operations each: the second one differs,
    the others are the same, byte by byte."""
    one = serve("d", name="srv", admission=DURABLE)
    edit(one, title="Plan")
    copied(one, tmp_path / "there")
    one.start()
    other = Server(tmp_path / "there", ["d"], "srv", admission=DURABLE)
    for server, town in ((one, "Oslo"), (other, "Bergen")):
        edit(server, day="Friday", town=town, count=3)
    yield [one, other]
    other.kill()


def takes_silent_ones(address: str) -> None:
    """Two clients come one after the other to a server with `--clients`, all of whose sessions are taken: each gets that of one that
    is silent, the second that of the first."""
    came = [jcrdt.connected(address, begin=SECONDS) for _ in range(2)]
    for session in came:
        session.close()


def tool(*words: str, text: str = "", status: int = 0) -> str:
    """What `python -m jcrdt` prints, its errors too. Its status is to be this one."""
    run = subprocess.run([sys.executable, "-m", "jcrdt", *words], input=text.encode(), stdout=subprocess.PIPE,
                         stderr=subprocess.STDOUT, timeout=SECONDS, env={**os.environ, "PYTHONPATH": str(PACKAGE)})
    told = run.stdout.decode()
    assert run.returncode == status, told
    return told


def wait_until(holds: Callable[[], Any]) -> None:
    """Waits for a fact."""
    until = time.monotonic() + SECONDS
    while not holds():
        assert time.monotonic() < until, "not so in time"
        time.sleep(0.02)
