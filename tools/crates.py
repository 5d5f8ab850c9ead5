"""The crates of this repository, and how they are proved side by side: for tools/build, tools/prove-all and tools/gate.

rt locks a crate's folder and those of all crates below it, so two crates on one base would wait for each other. Here each crate
is proved in a copy of its own: its sources, and links to the built libraries below it. What was made moves back into its out/."""

import contextlib
import fcntl
import hashlib
import os
import shutil
import signal
import subprocess
import sys
import threading
import time
from typing import Any, BinaryIO, Callable, Dict, Iterable, Iterator, List, NamedTuple, Optional, Tuple

TOP = os.path.dirname(os.path.dirname(os.path.abspath(__file__)))
PROGRAM = "jcrdt"
# The static library, and what tools/embed makes of it.
EMBEDDED = "replica_c"
EMBEDDED_FILES = {"library": "libjcrdt.a", "shared": "libjcrdt.so", "library-arm64": "aarch64/libjcrdt.a", "shared-arm64": "aarch64/libjcrdt.so",
                  "pkg-config": "jcrdt.pc", "module": "jcrdt.wasm"}
# By this name the system's loader looks for each shared one.
SONAME = "libjcrdt.so.1"
# What they are built from beside crates.
EMBEDDED_SOURCES = ("wasm/heap.c", "embedded/allocation.c", "embedded/version.c", "embedded/jcrdt.pc", "include/jcrdt.h", "tools/embed")
# The module before binaryen lowers it, which isn't released.
UNLOWERED = "jcrdt64.wasm"
PARTS = ("src", "specs", "proofs")

# Memory that a check may need, in bytes: most need 1 to 3 GB, a few up to 5.2.
NEEDS = 4_000_000_000


class Crate(NamedTuple):
    """A line of crates.txt, without comments and blanks; the libraries that it lists; those of them that are of the repository."""

    line: str
    libraries: List[str]
    deps: List[str]


def read(top: str = TOP) -> Dict[str, Crate]:
    """The crates of crates.txt by name."""
    found: Dict[str, Tuple[str, List[str]]] = {}
    with open(f"{top}/crates.txt", encoding="utf-8") as lines:
        for line in lines:
            head, colon, deps = line.partition("#")[0].partition(":")
            if colon:
                found[head.split()[0]] = " ".join([*head.split(), ":", *deps.split()]), deps.split()
    return {name: Crate(line, libraries, [it for it in libraries if it in found]) for name, (line, libraries) in found.items()}


def below(crates: Dict[str, Crate], name: str) -> List[str]:
    """The crates that a crate stands on, each after those that it stands on itself."""
    found: List[str] = []
    for dep in crates[name].deps:
        found += [it for it in [*below(crates, dep), dep] if it not in found]
    return found


def seconds_of(name: str) -> int:
    """How many seconds the last proof of a crate took here, or a guess by the size of its sources. It only decides which crate starts
    first."""
    with contextlib.suppress(OSError, IndexError, ValueError), open(f"{TOP}/crates/{name}/out/built", encoding="utf-8") as it:
        return int(it.read().split()[1])
    files = [f"{at}/{it}" for part in PARTS for at, _, its in os.walk(f"{TOP}/crates/{name}/{part}") for it in its]
    return 20 + sum(os.path.getsize(it) for it in files) // 2000


def seconds_to_end(crates: Dict[str, Crate], names: Iterable[str]) -> Dict[str, int]:
    """For each of these crates the seconds from its start to the end of the longest chain above it."""
    names = list(names)
    found: Dict[str, int] = {}
    for name in sorted(names, key=lambda it: -len(below(crates, it))):
        above = [found[it] for it in names if name in crates[it].deps]
        found[name] = seconds_of(name) + max(above, default=0)
    return found


def free_memory() -> int:
    with open("/proc/meminfo", encoding="ascii") as lines:
        return next((int(it.split()[1]) * 1024 for it in lines if it.startswith("MemAvailable:")), NEEDS)


def jobs_here() -> int:
    """How many crates may be proved at once: JCRDT_JOBS, or what processors and memory allow."""
    given = os.environ.get("JCRDT_JOBS", "")
    if given.isdigit() and int(given):
        return int(given)
    return max(1, min(len(os.sched_getaffinity(0)), free_memory() // NEEDS))


def kit() -> str:
    """The line that names the kit, or nothing where there is none."""
    if not shutil.which("rt"):
        return ""
    return subprocess.run(["rt", "version"], stdin=subprocess.DEVNULL, stdout=subprocess.PIPE, text=True, check=False).stdout.strip()


def sum_of(file: str) -> str:
    with open(file, "rb") as it:
        return hashlib.sha256(it.read()).hexdigest()


def source_sum(top: str = TOP) -> str:
    """The sum of the sources that the program is built from: HANDLES, and of each of its crates the line of crates.txt and the files
    src/**.rt, specs/**.antt and proofs/**.antt. It is that of `sha256sum` of them, behind the lines, each in order."""
    every = read(top)
    names = [*below(every, PROGRAM), PROGRAM]
    files = ["HANDLES", *(os.path.relpath(f"{at}/{it}", top) for name in names for part in PARTS for at, _, its in os.walk(f"{top}/crates/{name}/{part}")
                          for it in its if it.endswith((".rt", ".antt")))]
    told = [f"{it}\n" for it in sorted(every[name].line for name in names)] + [f"{sum_of(f'{top}/{it}')}  {it}\n" for it in sorted(files)]
    return hashlib.sha256("".join(told).encode()).hexdigest()


def embedded_sum(top: str = TOP) -> str:
    """The sum of the sources that the embedded replica is built from: those of its crates, its C, and what builds it."""
    every, found = read(top), hashlib.sha256()
    names = sorted([*below(every, EMBEDDED), EMBEDDED])
    found.update(repr([every[name].line for name in names]).encode())
    files = [f"{at}/{it}" for name in names for part in PARTS for at, _, its in os.walk(f"{top}/crates/{name}/{part}") for it in its]
    for file in [*sorted(files), *(f"{top}/{it}" for it in ("HANDLES", *EMBEDDED_SOURCES))]:
        with open(file, "rb") as it:
            found.update(repr((os.path.relpath(file, top), it.read())).encode())
    return found.hexdigest()


def opened_anew(path: str) -> BinaryIO:
    """A new file of this name, to be written: other clones may have a link to the old one, which stays as it is."""
    with contextlib.suppress(FileNotFoundError):
        os.remove(path)
    return open(path, "wb")


def note_program(summed: str) -> None:
    """Notes beside the program the sum of the sources that it was built from, for ./jcrdt."""
    noted = f"{TOP}/crates/{PROGRAM}/out/{PROGRAM}.sources"
    with opened_anew(noted) as it:
        it.write(f"{summed}\n".encode())


@contextlib.contextmanager
def one_at_a_time() -> Iterator[None]:
    """Waits until no other build works in this checkout, and keeps others out."""
    out = f"{TOP}/crates/{PROGRAM}/out"
    os.makedirs(out, exist_ok=True)
    # The folder is the lock, and no file in it: clones may share the files of their folders out/ by links.
    lock = os.open(out, os.O_RDONLY)
    try:
        try:
            fcntl.flock(lock, fcntl.LOCK_EX | fcntl.LOCK_NB)
        except BlockingIOError:
            print("jcrdt: another build is under way here; waiting for its end.", file=sys.stderr, flush=True)
            fcntl.flock(lock, fcntl.LOCK_EX)
        remove_copies()
        yield
    finally:
        os.close(lock)


def copies() -> str:
    return f"{TOP}/crates/{PROGRAM}/out/copies"


def remove_copies() -> None:
    """Removes what a build that was killed left. rt ci refuses a crates.txt below the top."""
    shutil.rmtree(copies(), ignore_errors=True)


@contextlib.contextmanager
def locked(names: Iterable[str]) -> Iterator[None]:
    """Keeps every rt out of these crates' folders."""
    held = [os.open(it, os.O_RDONLY) for it in sorted(f"{TOP}/crates/{name}" for name in names)]
    try:
        for it in held:
            fcntl.flock(it, fcntl.LOCK_EX)
        yield
    finally:
        for it in held:
            os.close(it)


def link_or_copy(one: str, other: str) -> None:
    """Gives a file a second name: rt never writes into a file that it made."""
    try:
        os.link(one, other)
    except OSError:
        shutil.copy2(one, other)


class Proofs:
    """Proves crates, several at once. Those that are proved already, from the same sources by the same kit, are left alone."""

    def __init__(self, names: Iterable[str]) -> None:
        names = set(names)
        self.crates = read()
        self.names = [it for it in self.crates if it in names]
        self.stands_on = {it: below(self.crates, it) for it in self.names}
        self.known = list(dict.fromkeys(it for name in self.names for it in [*self.stands_on[name], name]))
        self.order = seconds_to_end(self.crates, self.known)
        os.makedirs(copies())
        for name in self.known:
            for part in PARTS:
                if os.path.isdir(f"{TOP}/crates/{name}/{part}"):
                    shutil.copytree(f"{TOP}/crates/{name}/{part}", f"{copies()}/sources/crates/{name}/{part}")
        for name in ("HANDLES", "crates.txt"):
            shutil.copy(f"{TOP}/{name}", f"{copies()}/sources/{name}")
        self.sums: Dict[str, str] = {}
        self.kit = kit()
        self.done = {it for it in self.known if self.is_proved(it)}
        self.refused: List[str] = []
        self.running: Dict[str, Optional[subprocess.Popen[bytes]]] = {}
        self.jobs: Dict[str, int] = {}
        self.changed = threading.Condition()
        self.is_stopped = False

    def sum(self, name: str) -> str:
        """The sum of all that the proof of a crate reads."""
        if name not in self.sums:
            here = f"{copies()}/sources/crates/{name}"
            found = hashlib.sha256(repr((self.kit, self.crates[name].line)).encode())
            files = sorted(os.path.join(at, it) for part in PARTS for at, _, names in os.walk(f"{here}/{part}") for it in names)
            for file in [f"{copies()}/sources/HANDLES", *files]:
                with open(file, "rb") as it:
                    found.update(repr((os.path.relpath(file, here), it.read())).encode())
            found.update(repr([self.sum(it) for it in self.crates[name].deps]).encode())
            self.sums[name] = found.hexdigest()
        return self.sums[name]

    def is_library(self, name: str) -> bool:
        return not os.path.isfile(f"{TOP}/crates/{name}/src/main.rt")

    def is_proved(self, name: str) -> bool:
        out = f"{TOP}/crates/{name}/out"
        made = f"{out}/rlib/{name}.rlib/format" if self.is_library(name) else f"{out}/{name}"
        made = f"{out}/lib{name}.a" if name == EMBEDDED else made
        with contextlib.suppress(OSError), open(f"{out}/built", encoding="utf-8") as it:
            return os.path.isfile(made) and it.read().split()[:1] == [self.sum(name)]
        return False

    def copy(self, name: str) -> str:
        """Makes the copy that a crate is proved in, and returns it."""
        room = f"{copies()}/{name}"
        names = [*below(self.crates, name), name]
        os.makedirs(f"{room}/crates")
        shutil.copy(f"{copies()}/sources/HANDLES", room)
        with open(f"{room}/crates.txt", "w", encoding="utf-8") as file:
            file.write("".join(f"{self.crates[it].line}\n" for it in names))
        for it in names:
            shutil.copytree(f"{copies()}/sources/crates/{it}", f"{room}/crates/{it}", copy_function=link_or_copy)
            os.makedirs(f"{TOP}/crates/{it}/out", exist_ok=True)
        with locked(names):
            for it in names:
                for kept in ["rlib"] + ["incremental"] * (it == name):
                    if os.path.isdir(f"{TOP}/crates/{it}/out/{kept}"):
                        shutil.copytree(f"{TOP}/crates/{it}/out/{kept}", f"{room}/crates/{it}/out/{kept}", copy_function=link_or_copy)
        os.makedirs(f"{room}/crates/{name}/out", exist_ok=True)
        return room

    def take_back(self, name: str) -> None:
        """Moves what was made of a crate from its copy to its own out/."""
        made, out = f"{copies()}/{name}/crates/{name}/out", f"{TOP}/crates/{name}/out"
        with locked([name]):
            for it in os.listdir(made):
                if os.path.isdir(f"{out}/{it}") and not os.path.islink(f"{out}/{it}"):
                    shutil.rmtree(f"{out}/{it}")
                os.rename(f"{made}/{it}", f"{out}/{it}")

    def prove(self, name: str) -> bool:
        """Proves a crate, and returns whether it is proved. What rt said stands in its out/build.log."""
        out, began = f"{TOP}/crates/{name}/out", time.monotonic()
        room = self.copy(name)
        with contextlib.suppress(FileNotFoundError):
            os.remove(f"{out}/built")
        # The program is run without words, and ends with status 2: what counts is that it is there. So it is proved once.
        jobs = self.jobs[name]
        words = ["rt", *(["lib", "--jobs", str(jobs)] if self.is_library(name) else ["run", "--jobs", str(jobs), "--"])]
        # What isn't on the longest chain runs behind what is. A group of its own, so that Ctrl-C reaches this command alone, and
        # no session of its own: Linux shares processors out among sessions before it looks at priorities.
        words = ["nice", *words] if jobs == 1 else words
        with opened_anew(f"{out}/build.log") as log:
            with self.changed:
                if self.is_stopped:
                    return False
                self.running[name] = child = subprocess.Popen(words, cwd=f"{room}/crates/{name}", stdin=subprocess.DEVNULL, stdout=log,
                                                                      stderr=log, preexec_fn=os.setpgrp)
            status = child.wait()
        is_well = status == 0 if self.is_library(name) else os.access(f"{room}/crates/{name}/out/{name}", os.X_OK)
        self.take_back(name)
        shutil.rmtree(room, ignore_errors=True)
        if is_well:
            with open(f"{out}/built", "w", encoding="utf-8") as it:
                it.write(f"{self.sum(name)} {time.monotonic() - began:.0f} s\n")
        return is_well

    def work(self, name: str) -> None:
        is_well = False
        try:
            is_well = self.prove(name)
        except OSError as error:
            if not self.is_stopped:
                print(f"jcrdt: {name}: {error}", file=sys.stderr, flush=True)
        finally:
            with self.changed:
                del self.running[name]
                if is_well:
                    self.done.add(name)
                elif not self.is_stopped:
                    self.refused.append(name)
                self.changed.notify()

    def next(self) -> List[str]:
        """The crates that can be started, the one with the longest chain above it first."""
        waiting = [it for it in self.names if it not in self.done and it not in self.refused and it not in self.running]
        return sorted((it for it in waiting if self.done.issuperset(self.stands_on[it])), key=lambda it: -self.order[it])

    def jobs_of(self, name: str, jobs: int) -> int:
        """With how many jobs a crate is proved. Those on the longest chain decide how long all takes, so such a one may use every
        processor. The others have one job each, since each job of a check loads the libraries below by itself."""
        return jobs if all(self.order[name] >= self.order[it] for it in self.running) else 1

    def run(self, jobs: int, tell: Callable[[Optional[str]], None], keeps_going: bool = False) -> bool:
        """Proves the crates, and returns whether all are proved. `tell` is called each second, and with each name that ended.
        Where one is refused, the others are stopped, unless it keeps going."""
        told = set(self.done)
        try:
            with self.changed:
                while keeps_going or not self.refused:
                    ready = self.next()
                    while ready and len(self.running) < jobs and (not self.running or free_memory() > NEEDS):
                        name = ready.pop(0)
                        self.jobs[name] = self.jobs_of(name, jobs)
                        self.running[name] = None
                        threading.Thread(target=self.work, args=(name,)).start()
                    if not self.running:
                        break
                    self.changed.wait(1)
                    for name in sorted({*self.done, *self.refused} - told):
                        told.add(name)
                        tell(name)
                    tell(None)
        finally:
            self.stop()
        return self.done.issuperset(self.names)

    def stop(self) -> None:
        """Ends what is still under way. rt ends all that it started."""
        with self.changed:
            self.is_stopped = True
            children = [it for it in self.running.values() if it]
        for number in (signal.SIGTERM, signal.SIGKILL):
            for it in children:
                with contextlib.suppress(ProcessLookupError):
                    os.killpg(it.pid, number)
            with self.changed:
                self.changed.wait_for(lambda: not self.running, 10)
        remove_copies()


def end_on_signals() -> None:
    """Has SIGTERM and SIGHUP end this process as Ctrl-C does, so that what is under way is ended too."""
    def stop(number: int, _: Any) -> None:
        raise SystemExit(128 + number)
    for it in (signal.SIGTERM, signal.SIGHUP):
        signal.signal(it, stop)
