"""What tests need of a machine: tools that Debian's packages have, and what a container may lack.

A test that can't be tried says so by a line `skipped: WHAT: REASON`. The reason is `TOOL, TOOL: not installed`, or of ROOM. A command
that could try nothing at all has the status SKIPPED, else that of what it tried. `judged` says how a step went. It believes no line
that names a tool which is here, so a test that fails can't pass for one that was skipped."""

import contextlib
import functools
import os
import re
import shutil
import socket
import subprocess
from typing import Callable, Dict, Iterator, List, NamedTuple, Sequence

from pythons import python_with

HERE = os.path.dirname(os.path.abspath(__file__))
TOP = os.path.dirname(HERE)
SKIPPED = 77

# How long apt-get waits for a mirror.
BOUNDS = ["-o", "Acquire::http::Timeout=30", "-o", "Acquire::Retries=1"]

# Where Debian's packages of Node are.
NODE_PATH = "/usr/share/nodejs"

LINE = re.compile(r"\s*skipped: (.+?): (.+)")
NOT_INSTALLED = re.compile(r"([\w@:./+-]+(?:(?:,| and) [\w@:./+-]+)*)(?: isn't| aren't|:| is| are)(?: not)? installed\b")


# Tools.


@functools.lru_cache(None)
def packages() -> Dict[str, str]:
    """The tools that tests need, and the package of each."""
    with open(f"{HERE}/packages.txt", encoding="utf-8") as file:
        rows = [it.split() for it in file if it.strip() and not it.startswith("#")]
    return {tool: package for package, tool in rows}


def has_node_package(name: str) -> bool:
    """Whether Node finds a package."""
    node = shutil.which("node")
    path = os.environ.get("NODE_PATH", NODE_PATH)
    return node is not None and subprocess.run([node, "-e", f"require.resolve({name!r})"], env={**os.environ, "NODE_PATH": path}, cwd="/",
                                               stdin=subprocess.DEVNULL, stderr=subprocess.DEVNULL, check=False).returncode == 0


def has_header(name: str) -> bool:
    """Whether the C compiler finds a header of the C library."""
    cc = shutil.which(os.environ.get("CC", "cc"))
    return cc is not None and subprocess.run([cc, "-E", "-include", name, "-xc", "/dev/null"], stdin=subprocess.DEVNULL, stdout=subprocess.DEVNULL,
                                             stderr=subprocess.DEVNULL, check=False).returncode == 0


def is_here(name: str) -> bool:
    """Whether a tool is here; a package is if all its tools are. A Python module or a package of Node may have its bare name."""
    name = next((it for it in (f"{kind}{name}" for kind in ("", "python:", "node:")) if it in packages()), name)
    tools = [tool for tool, package in packages().items() if package == name] if name not in packages() else []
    if tools:
        return all(map(is_here, tools))
    kind, _, rest = name.rpartition(":")
    if kind == "python":
        return python_with(rest) is not None
    if kind == "node":
        return has_node_package(rest)
    if kind == "header":
        return has_header(rest)
    if kind == "file":
        return os.path.exists(rest)
    return shutil.which(os.environ.get("CC", name) if name == "cc" else name) is not None


def missing(*tools: str) -> List[str]:
    """Those of these tools that aren't here."""
    return [it for it in tools if not is_here(it)]


def reason_of(tools: Sequence[str]) -> str:
    """The reason to skip what needs these tools."""
    return f"{', '.join(tools)}: not installed"


def line_of(what: str, reason: str) -> str:
    """The line that says what was skipped, and why."""
    return f"skipped: {what}: {reason}"


# What a container or a bare root may lack.


def runs(*words: str) -> bool:
    """Whether a command is here and succeeds."""
    with contextlib.suppress(OSError):
        return subprocess.run(words, stdin=subprocess.DEVNULL, stdout=subprocess.DEVNULL, stderr=subprocess.DEVNULL, check=False).returncode == 0
    return False


def has_localhost() -> bool:
    with contextlib.suppress(OSError):
        return bool(socket.getaddrinfo("localhost", 0, type=socket.SOCK_STREAM))
    return False


def has_ipv6() -> bool:
    with contextlib.suppress(OSError), socket.create_server(("::1", 0), family=socket.AF_INET6):
        return True
    return False


def is_built(name: str) -> bool:
    return any(os.path.exists(f"{TOP}/{it}/{name}") for it in ("release", "crates/replica_c/out"))


# The reasons besides tools, each with what says that it is a true one.
ROOM: Dict[str, Callable[[], bool]] = {
    "the name localhost isn't known here": lambda: not has_localhost(),
    "there is no IPv6 here": lambda: not has_ipv6(),
    "no disk can be mounted": lambda: not runs("unshare", "-rm", "mount", "-t", "tmpfs", "tmpfs", "/mnt"),
    "no mount here": lambda: not runs("unshare", "-rm", "mount", "-t", "tmpfs", "tmpfs", "/mnt"),
    "unshare --pid can't be used here": lambda: not runs("unshare", "--pid", "--fork", "--mount-proc", "true"),
    "it isn't root": lambda: os.geteuid() != 0,
    "no systemd can be started here": lambda: True,
    "no bare Debian can be made here": lambda: True,
    "libjcrdt.so isn't here": lambda: not is_built("libjcrdt.so"),
    "libjcrdt.a isn't here": lambda: not is_built("libjcrdt.a"),
}


# How a step went.


class Skip(NamedTuple):
    """What was skipped, and why."""

    what: str
    reason: str


class Judged(NamedTuple):
    """`passed`, `FAILED` or `skipped`; what was skipped; and of a step that says untrue things, these."""

    outcome: str
    skips: List[Skip]
    untrue: List[str]


def named(reason: str) -> List[str]:
    """The tools that a reason says aren't installed."""
    found = NOT_INSTALLED.match(reason)
    return re.split(r", (?:and )?| and ", found[1]) if found else []


def untrue(skip: Skip) -> Iterator[str]:
    """What is untrue of what a line says."""
    tools = named(skip.reason)
    here = [it for it in tools if is_here(it)]
    if here:
        yield f"it skipped {skip.what}, since '{skip.reason}', but {', '.join(here)} is here"
    elif not tools:
        known = next((is_true for text, is_true in ROOM.items() if skip.reason.startswith(text)), None)
        if known is None or not known():
            yield f"it skipped {skip.what}, since '{skip.reason}', which {'is no reason that tools/needs.py has' if known is None else 'is not so'}"


def judged(status: int, lines: Sequence[str]) -> Judged:
    """How a command went that ended with this status and wrote these lines."""
    skips = [Skip(found[1], found[2].strip()) for it in lines if (found := LINE.fullmatch(it))]
    wrong = [fault for it in skips for fault in untrue(it)]
    if status == SKIPPED and not skips:
        wrong.append(f"its status is {SKIPPED}, and it doesn't say what is missing")
    outcome = "FAILED" if wrong or status not in (0, SKIPPED) else "skipped" if status == SKIPPED else "passed"
    return Judged(outcome, skips, wrong)


# Installing.


def install() -> None:
    """Installs what is missing, as root on Debian; else says why it can't, and what to do."""
    wanted = sorted({packages()[it] for it in missing(*packages())})
    if not wanted:
        return
    command = ["apt-get", "install", "-y", "-q", "--no-install-recommends", *wanted]
    if os.geteuid() or not shutil.which("apt-get"):
        print(f"not installed, since this needs root and apt-get: {' '.join(command)}", flush=True)
        return
    print(f"installing {' '.join(wanted)}", flush=True)
    apt("apt-get", "update", "-q")
    # One package that a release lacks makes the whole command fail.
    if not apt(*command):
        for package in wanted:
            apt(*command[:-len(wanted)], package)
    lacking = missing(*packages())
    print(f"not to be had: {', '.join(lacking)}" if lacking else "all is installed", flush=True)


def apt(*words: str) -> bool:
    """Runs apt-get, whose lines are written where it fails. It doesn't wait long for a mirror that is silent."""
    ran = subprocess.run([*words, *BOUNDS], stdin=subprocess.DEVNULL, stdout=subprocess.PIPE, stderr=subprocess.STDOUT, text=True, errors="replace",
                         env={**os.environ, "DEBIAN_FRONTEND": "noninteractive"}, check=False)
    if ran.returncode:
        print("".join(f"    {it}\n" for it in ran.stdout.splitlines()[-10:]), end="", flush=True)
    return ran.returncode == 0
