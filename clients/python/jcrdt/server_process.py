"""The process that serves a stored log, on Linux: who has the file locked, what wraps it, and where it listens."""

import contextlib
import fcntl
import os
import socket
import struct
from typing import Iterator, List, NamedTuple, Optional

# The struct of fcntl that asks for a lock, on Linux on x86-64.
FLOCK = "hhqqi4x"
# The script that lets a server drain by a signal.
WRAPPER = "jcrdt-serve"
# The state of a TCP socket that listens, in /proc/self/net/tcp.
LISTENING = "0A"


class NotServed(ValueError):
    """No server that can be found has the file open."""


class ServerProcess(NamedTuple):
    """A process that serves, and when it began, so that a later one of its number isn't taken for it."""

    number: int
    began: str

    def is_alive(self) -> bool:
        return _began(self.number) == self.began

    def stays(self) -> bool:
        """Whether it serves for ever: sessions that are used up don't end it."""
        return any(it == "--clients" or it.startswith("--clients=") for it in _words(self.number))

    def wrapper(self) -> Optional[int]:
        """The process id of jcrdt-serve, if that started the server."""
        with contextlib.suppress(OSError):
            with open(f"/proc/{self.number}/status", encoding="utf-8") as file:
                parent = next(int(line.split()[1]) for line in file if line.startswith("PPid:"))
            # bash, the script, the program and its words.
            if any(os.path.basename(it) == WRAPPER for it in _words(parent)[:2]):
                return parent
        return None

    def address(self) -> Optional[str]:
        """Where it listens, as HOST:PORT for this machine; None before and after it does. Raises NotServed if its
        network isn't this process's, as that of a container."""
        with contextlib.suppress(FileNotFoundError):
            return self._address()
        return None

    def _address(self) -> Optional[str]:
        if os.readlink(f"/proc/{self.number}/ns/net") != os.readlink("/proc/self/ns/net"):
            raise NotServed(f"process {self.number} serves it in another network, as a container's: stop it there")
        sockets = set(map(_target, _descriptors(self.number)))
        for name, family in (("tcp", socket.AF_INET), ("tcp6", socket.AF_INET6)):
            with contextlib.suppress(FileNotFoundError), open(f"/proc/self/net/{name}", encoding="ascii") as file:
                for fields in map(str.split, list(file)[1:]):
                    if fields[3] == LISTENING and f"socket:[{fields[9]}]" in sockets:
                        return _address_of(fields[1], family)
        return None


def is_open(path: str) -> bool:
    """Whether a program has the file locked, as a server that serves it or still writes it, or a `check`. False if it
    can't be looked at."""
    request = struct.pack(FLOCK, fcntl.F_WRLCK, os.SEEK_SET, 0, 0, 0)
    try:
        with open(path, "rb") as file:
            found: bytes = fcntl.fcntl(file, fcntl.F_GETLK, request)
    except OSError:
        return False
    return bool(struct.unpack(FLOCK, found)[0] != fcntl.F_UNLCK)


def server_of(path: str) -> ServerProcess:
    """The server that has the file open. Raises NotServed if there is none, or it can't be seen from here, and OSError
    if the file can't be looked at."""
    here = os.stat(path)
    others = []
    for number in map(int, filter(str.isdigit, os.listdir("/proc"))):
        if number == os.getpid() or not any(_is_file(it, here) for it in _descriptors(number)):
            continue
        words, began = _words(number), _began(number)
        if words[1:2] == ["serve"] and began is not None:
            return ServerProcess(number, began)
        others.append(f"process {number} has it open, and is no server: {' '.join(words).strip()[:100]}")
    if is_open(path):
        others.append("a process that can't be seen from here has it open, of another user or in a container: stop it there")
    raise NotServed(others[0] if others else "no server has it open")


def _is_file(descriptor: str, state: os.stat_result) -> bool:
    try:
        return os.path.samestat(os.stat(descriptor), state)
    except OSError:
        return False


def _began(number: int) -> Optional[str]:
    """When a process began; None if it isn't there, or has ended and only its parent hasn't asked for its status."""
    try:
        with open(f"/proc/{number}/stat", encoding="utf-8", errors="replace") as file:
            # The name of the program is in parentheses, and may have spaces.
            fields = file.read().rpartition(")")[2].split()
    except OSError:
        return None
    return None if fields[0] in "ZX" else fields[19]


def _words(number: int) -> List[str]:
    """The command line of a process."""
    try:
        with open(f"/proc/{number}/cmdline", encoding="utf-8", errors="replace") as file:
            return file.read().split("\0")
    except OSError:
        return []


def _descriptors(number: int) -> Iterator[str]:
    """The descriptors of a process; none if it has ended, or is another user's."""
    folder = f"/proc/{number}/fd"
    try:
        return (f"{folder}/{it}" for it in os.listdir(folder))
    except OSError:
        return iter(())


def _target(descriptor: str) -> str:
    """What a descriptor leads to; empty if it was closed meanwhile."""
    try:
        return os.readlink(descriptor)
    except FileNotFoundError:
        return ""


def _address_of(field: str, family: int) -> str:
    """HOST:PORT of an address of /proc/self/net/tcp: words of 32 bits as the machine has them."""
    host, port = field.split(":")
    words = struct.unpack(f">{len(host) // 8}I", bytes.fromhex(host))
    packed = struct.pack(f"={len(words)}I", *words)
    if not any(packed):
        packed = socket.inet_pton(family, "127.0.0.1" if family == socket.AF_INET else "::1")
    shown = socket.inet_ntop(family, packed)
    return f"{shown if family == socket.AF_INET else f'[{shown}]'}:{int(port, 16)}"
