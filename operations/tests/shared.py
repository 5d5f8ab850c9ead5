"""What the tests of operations share: the program, servers, and clients that write all the time."""

import os
import socket
import subprocess
import sys
import threading
import time
from typing import Any, Callable, List, NoReturn, Optional, Sequence, Tuple

HERE = os.path.dirname(os.path.abspath(__file__))
OPERATIONS = os.path.dirname(HERE)
TOP = os.path.dirname(OPERATIONS)
PACKAGE = f"{TOP}/clients/python"
sys.dont_write_bytecode = True
sys.path[:0] = [PACKAGE, f"{TOP}/tests"]
import support  # noqa: E402

_parser = support.options(f"usage: {sys.argv[0]} PROGRAM [NAME..]")
_parser.add_argument("name", nargs="*", help="names of tests; all if none is given")
_words = _parser.parse_args()
PROGRAM: str = _words.program
os.environ.update(JCRDT=PROGRAM, PYTHONDONTWRITEBYTECODE="1", PYTHONPATH=PACKAGE)
SECONDS = 600

from jcrdt import front_on_disk  # noqa: E402
from jcrdt.session import Session, connected  # noqa: E402
from jcrdt.wire import Refused, decoded  # noqa: E402


class Failed(SystemExit):
    """What must hold doesn't."""


def require(what: str, holds: Any, told: Any = "") -> None:
    if not holds:
        raise Failed(f"not so: {what}\n{told}")


def skip(why: str) -> NoReturn:
    print(why)
    sys.exit(77)


class Server(support.Server):
    """`serve` over a file, of the program that is tried."""

    def __init__(self, file: str, name: str = "alice", documents: Sequence[str] = ("d",), sessions: int = 256,
                 more: Sequence[str] = (), **how: Any) -> None:
        super().__init__(PROGRAM, file, *documents, sessions=sessions, name=name, options=more, **how)
        require("it listens", self.first, self.said())

    def __enter__(self) -> "Server":
        return self

    def write(self, count: int, key: str = "k") -> None:
        with connected(self.at) as session:
            session.open("d")
            replies = session.ask_all([["assign", "d", [0, f"{key}{number}"], number] for number in range(count)])
            require("all is applied", not any(isinstance(it, Exception) for it in replies))


class Writer:
    """Writes so many changes a second until the end of its block or of the server, to d, and where that is full to e, f
    and g. `made` are those that were answered."""

    def __init__(self, address: str, rate: int) -> None:
        self.address, self.rate, self.made, self.ended = address, rate, 0, threading.Event()
        self.thread = threading.Thread(target=self.write, daemon=True)

    def write(self) -> None:
        with connected(self.address) as session:
            documents = ["d", "e", "f", "g"]
            session.open("d")
            due = time.perf_counter()
            while not self.ended.is_set():
                try:
                    session.assign(documents[0], [0, "w"], self.made)
                except ConnectionError:
                    return
                except Refused:
                    session.open(documents[1])
                    documents.pop(0)
                    continue
                self.made += 1
                due += 1 / self.rate
                time.sleep(max(0.0, due - time.perf_counter()))

    def __enter__(self) -> "Writer":
        self.thread.start()
        return self

    def __exit__(self, *_: Any) -> None:
        self.ended.set()
        self.thread.join(SECONDS)


def run(*words: str, path: Optional[str] = None, **more: Any) -> Tuple[int, str]:
    """Runs a command. Returns its status and what it wrote, errors too. `path` goes before PATH."""
    environment = {**os.environ, "PATH": f"{path}:{os.environ['PATH']}" if path else os.environ["PATH"]}
    done = subprocess.run(words, stdin=subprocess.DEVNULL, stdout=subprocess.PIPE, stderr=subprocess.STDOUT, timeout=SECONDS,
                          env=environment, **more)
    return done.returncode, done.stdout.decode(errors="replace")


def script(name: str, *words: str, **more: Any) -> Tuple[int, str]:
    """Runs a script of this folder."""
    return run(f"{OPERATIONS}/{name}", *words, **more)


def rows(file: str) -> int:
    """How many rows a file has, by `check`. It may change the file."""
    status, told = run(PROGRAM, "check", "--file", file)
    require(f"{file} is a good log", status == 0, told)
    return sum(decoded(line.encode())[2] for line in told.split("\n") if line.startswith('["doc",'))


def free_address() -> str:
    """An address at which nobody listens now."""
    with socket.create_server(("127.0.0.1", 0)) as listener:
        return f"127.0.0.1:{listener.getsockname()[1]}"


def wait_for(what: Callable[[], Any]) -> None:
    until = time.monotonic() + SECONDS
    while not what():
        require("it holds in time", time.monotonic() < until)
        time.sleep(0.05)


def run_all(tests: List[Callable[[], None]]) -> None:
    """Runs the tests of a file, or those that the command line names, each in a folder of its own."""
    unknown = set(_words.name) - {it.__name__ for it in tests}
    if unknown:
        _parser.error(f"there is no test {', '.join(sorted(unknown))}")
    for test in (it for it in tests if not _words.name or it.__name__ in _words.name):
        os.mkdir(test.__name__)
        os.chdir(test.__name__)
        start = time.monotonic()
        test()
        os.chdir("..")
        print(f"{test.__name__}: {time.monotonic() - start:.1f} s", flush=True)


__all__ = ["Failed", "HERE", "OPERATIONS", "PACKAGE", "PROGRAM", "SECONDS", "Server", "Session", "TOP", "Writer", "front_on_disk", "free_address", "connected",
           "require", "rows", "run", "run_all", "script", "skip", "wait_for"]
