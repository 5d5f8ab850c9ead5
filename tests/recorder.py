"""Records what a command, and all that it starts, do to the files below a folder, and what they tell others, in their order: by strace.

A record is one of

  make, folder      a new file or folder, at `path`
  write             `data` at `where` of a file; -1 is where its last write ended
  seek              the next write of a file is at `where`; -1 is at its end each time
  copy              the file `path` is copied to `other`, `where` bytes more; -1 is all
  cut               a file has the length `where` from now on
  move, link        the name `other` for what `path` names, in its place or beside it
  remove            a name is gone
  sync              a file or a folder is on disk, as it was when the call began; with no path, all is
  tell              `data` is sent: `path` is `socket`, or the word of one of the pipes of the command
  end               the command has ended, with the status `where`

Records are in the order in which the calls began, but for a sync, which counts once it has ended. `close` and `sync_file_range`
make nothing sure, so they are no records. What no record is there for is refused, as a symbolic link in the folder."""

import os
import re
import subprocess
from typing import Callable, Dict, Iterator, List, Mapping, NamedTuple, Optional, Sequence, Tuple

from support import SECONDS, Differs, require

CALLS = ("open,openat,creat,write,writev,pwrite64,pwritev,pwritev2,ftruncate,truncate,fallocate,rename,renameat,renameat2,link,"
         "linkat,unlink,unlinkat,rmdir,mkdir,mkdirat,symlink,symlinkat,fsync,fdatasync,sync,syncfs,sendto,sendmsg,"
         "copy_file_range,sendfile,splice,ioctl,chdir,exit_group")
LINE = re.compile(r"(\d+) +(.*)")
BEGUN = re.compile(r"(\w+)\((.*) <unfinished \.\.\.>")
RESUMED = re.compile(r"<\.\.\. \w+ resumed>(.*)")
WHOLE = re.compile(r"(\w+)\((.*)\) += (-?\d+|\?)")
HEX = r"((?:\\x[0-9a-f]{2})*)"
HERE = re.compile(rf"AT_FDCWD<{HEX}>")
OPEN_FILE = re.compile(rf"(\d+)<{HEX}>")
TEXT = re.compile(rf'"{HEX}"')
# A file's name behind the folder that it is named from, if there is one.
NAME = re.compile(rf'(?:(?:AT_FDCWD|\d+)<{HEX}>, )?"{HEX}"')


class Record(NamedTuple):
    """What was done, and the lines of strace at which it began and ended."""

    kind: str
    path: str = ""
    where: int = 0
    data: bytes = b""
    other: str = ""
    began: int = 0
    ended: int = 0


class Call(NamedTuple):
    """A system call that went well."""

    process: str
    name: str
    words: str
    result: int
    began: int
    ended: int


class Recorded(NamedTuple):
    """What a command did, its status, and what it wrote to standard output and standard error."""

    records: List[Record]
    status: int
    out: str
    errors: str


def prefix(log: str) -> List[str]:
    """What is put before a command. It ends with strace. Raises Lacks where that isn't here."""
    require("strace")
    return ["strace", "-f", "-qq", "--seccomp-bpf", "-y", "-xx", "-s", str(1 << 24), "-e", f"trace={CALLS}", "-e", "signal=none", "-o", log, "--",
            "setpriv", "--pdeathsig", "KILL", "--"]


def recorded(command: Sequence[str], folder: str, log: str, environment: Optional[Mapping[str, str]] = None) -> Recorded:
    """Runs a command, and records what is done below the folder."""
    with subprocess.Popen([*prefix(log), *command], stdin=subprocess.DEVNULL, stdout=subprocess.PIPE, stderr=subprocess.PIPE, env=environment) as ran:
        assert ran.stdout and ran.stderr
        pipes = {f"pipe:[{os.fstat(it.fileno()).st_ino}]": word for it, word in ((ran.stdout, "out"), (ran.stderr, "errors"))}
        try:
            out, errors = ran.communicate(timeout=SECONDS)
        except BaseException:
            ran.kill()
            raise
    return Recorded(read(log, folder, pipes), ran.returncode, out.decode(errors="replace"), errors.decode(errors="replace"))


def read(log: str, folder: str, pipes: Optional[Mapping[str, str]] = None) -> List[Record]:
    """The records of a log of strace, of files below the folder."""
    reader = Reader(os.path.realpath(folder), pipes or {})
    found = [record for call in calls(log) for record in reader.records_of(call)]
    return sorted(found, key=lambda it: it.ended if it.kind == "sync" else it.began)


def calls(log: str) -> List[Call]:
    """The calls that went well, in the order in which they began."""
    begun: Dict[str, Tuple[str, int]] = {}
    found: List[Call] = []
    with open(log, encoding="ascii") as lines:
        for number, line in enumerate(lines):
            process, text = LINE.fullmatch(line.rstrip("\n")).groups()  # type: ignore[union-attr]
            if half := BEGUN.fullmatch(text):
                begun[process] = f"{half[1]}({half[2]}", number
                continue
            began = number
            if rest := RESUMED.fullmatch(text):
                head, began = begun.pop(process)
                text = head + rest[1]
            whole = WHOLE.match(text)
            if whole and not whole[3].startswith("-"):
                found.append(Call(process, whole[1], whole[2], 0 if whole[3] == "?" else int(whole[3]), began, number))
    return sorted(found, key=lambda it: it.began)


def bytes_of(text: str) -> bytes:
    return bytes.fromhex(text.replace("\\x", ""))


def path_of(text: str) -> str:
    return os.fsdecode(bytes_of(text))


def numbers(words: str) -> List[int]:
    """The last words of a call, as far as they are numbers, the last one first."""
    found: List[int] = []
    for word in reversed(words.split(", ")):
        if not re.fullmatch(r"-?\d+", word):
            break
        found.append(int(word))
    return found


class Reader:
    """Makes records of calls. It knows the folder in which each process is."""

    def __init__(self, folder: str, pipes: Mapping[str, str]) -> None:
        self.folder, self.pipes = folder, pipes
        self.places: Dict[str, str] = {}
        self.first = ""
        self.kinds: Dict[str, Callable[[Call], Iterator[Record]]] = {
            **dict.fromkeys(("open", "openat", "creat"), self.opened),
            **dict.fromkeys(("write", "writev", "pwrite64", "pwritev", "pwritev2", "sendto", "sendmsg"), self.written),
            **dict.fromkeys(("rename", "renameat", "renameat2"), self.moved),
            **dict.fromkeys(("link", "linkat"), self.linked),
            **dict.fromkeys(("unlink", "unlinkat", "rmdir"), self.removed),
            **dict.fromkeys(("mkdir", "mkdirat"), self.made),
            **dict.fromkeys(("fsync", "fdatasync", "sync", "syncfs"), self.synced),
            **dict.fromkeys(("copy_file_range", "sendfile", "ioctl"), self.copied),
            **dict.fromkeys(("truncate", "ftruncate", "fallocate"), self.cut),
            **dict.fromkeys(("symlink", "symlinkat", "splice"), self.unknown),
            "chdir": self.went, "exit_group": self.ended}

    def records_of(self, call: Call) -> Iterator[Record]:
        self.first = self.first or call.process
        if here := HERE.search(call.words):
            self.places[call.process] = path_of(here[1])
        if call.name in self.kinds:
            for it in self.kinds[call.name](call):
                yield it._replace(began=call.began, ended=call.ended)

    def is_watched(self, path: str) -> bool:
        return path == self.folder or path.startswith(f"{self.folder}/")

    def names(self, call: Call) -> List[str]:
        """The files that a call names, by their whole names."""
        at = self.places.get(call.process, "/")
        return [os.path.normpath(os.path.join(path_of(folder) if folder else at, path_of(name))) for folder, name in NAME.findall(call.words)]

    def files(self, call: Call) -> List[Tuple[int, str]]:
        """The open files that a call names: their numbers and names."""
        words = HERE.sub("", call.words)
        return [(int(number), path_of(name)) for number, name in OPEN_FILE.findall(words)]

    def went(self, call: Call) -> Iterator[Record]:
        self.places[call.process] = self.names(call)[0]
        yield from ()

    def ended(self, call: Call) -> Iterator[Record]:
        if call.process == self.first:
            yield Record("end", where=int(call.words))

    def opened(self, call: Call) -> Iterator[Record]:
        """A new file, or one that is written from its begin on. The disk knows whether it was there."""
        path = self.names(call)[0]
        if not self.is_watched(path) or "O_TMPFILE" in call.words:
            return
        if call.name == "creat" or "O_CREAT" in call.words:
            yield Record("make", path)
        if call.name == "creat" or "O_TRUNC" in call.words:
            yield Record("cut", path, 0)
        if "O_WRONLY" in call.words or "O_RDWR" in call.words:
            yield Record("seek", path, -1 if "O_APPEND" in call.words else 0)

    def written(self, call: Call) -> Iterator[Record]:
        number, path = self.files(call)[0]
        data = b"".join(map(bytes_of, TEXT.findall(call.words)))[:call.result]
        if self.is_watched(path):
            yield Record("write", path, numbers(call.words)[0] if call.name.startswith("pwrite") else -1, data)
        elif path.startswith("socket:"):
            yield Record("tell", "socket", data=data)
        elif path in self.pipes:
            yield Record("tell", self.pipes[path], data=data)

    def copied(self, call: Call) -> Iterator[Record]:
        """`sendfile` names the file that it writes first, the others name it last. Nothing may come from elsewhere."""
        if call.name == "ioctl" and "FICLONE" not in call.words:
            return
        paths = [path for _, path in self.files(call)]
        source, target = (paths[1], paths[0]) if call.name in ("sendfile", "ioctl") else (paths[0], paths[1])
        if self.is_watched(target):
            if not self.is_watched(source):
                raise Differs(f"{source} is copied into the folder that is watched")
            yield Record("copy", source, -1 if call.name == "ioctl" else call.result, other=target)

    def cut(self, call: Call) -> Iterator[Record]:
        path = self.names(call)[0] if call.name == "truncate" else self.files(call)[0][1]
        if not self.is_watched(path):
            return
        if call.name == "fallocate":
            yield from self.unknown(call)
        yield Record("cut", path, numbers(call.words)[0])

    def moved(self, call: Call) -> Iterator[Record]:
        source, target = self.names(call)
        if "RENAME_EXCHANGE" in call.words:
            yield from self.unknown(call)
        if self.is_watched(source) or self.is_watched(target):
            yield Record("move", source, other=target)

    def linked(self, call: Call) -> Iterator[Record]:
        source, target = self.names(call)
        if self.is_watched(target):
            yield Record("link", source, other=target)

    def removed(self, call: Call) -> Iterator[Record]:
        yield from (Record("remove", it) for it in self.names(call) if self.is_watched(it))

    def made(self, call: Call) -> Iterator[Record]:
        yield from (Record("folder", it) for it in self.names(call) if self.is_watched(it))

    def synced(self, call: Call) -> Iterator[Record]:
        path = "" if call.name in ("sync", "syncfs") else self.files(call)[0][1]
        if not path or self.is_watched(path):
            yield Record("sync", path)

    def unknown(self, call: Call) -> Iterator[Record]:
        """What no record is there for, and must not be left out."""
        if any(self.is_watched(it) for it in [*self.names(call), *(path for _, path in self.files(call))]):
            raise Differs(f"no record is there for {call.name} of {self.names(call)}")
        yield from ()
