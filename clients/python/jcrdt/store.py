"""A replica's operations in a file: a line for the names, then one for each operation, as those of JavaScript's `fileStore`.

    with Store("my.notes", "notes") as store, Replica.stored(store) as me:
        me.put([0, "title"], "Plan")
        me.save()               # returns once it is on disk

A tab behind the names says that a program has the file open, a space that it was closed. A line `["session",WORD,PLACE]` is before what
was made in one opening, and says which file it was: so a copy goes on under another name, and the line of its first opening has the name
before, too. One store at a time has a file, whatever name or link leads there: a second one raises Busy, in this process or in another.
The system gives the lock back when the process ends, also by a kill. A program in JavaScript doesn't see this lock, nor this one that.
"""

import contextlib
import fcntl
import json
import os
import secrets
import stat
import threading
import weakref
from typing import Iterator, List, NamedTuple, Optional, Sequence, Tuple

from .copies import Opening, formers_among, fronts_of, id_of, sessions_of
from .remaking import name_of
from .replaced_file import sync_folder
from .wire import NAME, Front, encoded

HEAD = b'["replica","'
# How a line begins by which a program says that it opened the file, and edited.
SESSION = '["session",'
# The marks behind the names.
OPEN, CLOSED = b"\t", b" "


class Busy(OSError):
    """Another program, or another part of this one, has the store open. Nothing was changed."""


class Parts(NamedTuple):
    """What a file has: the names of replica and document, the lines of operations, others, and the size of all in bytes. A last
    line without an end was cut off in writing: it was never sent, and is in none. `known` is what it has of its own names. `mark_at` is
    the place of the mark, None in a file of an older package; `is_open` is whether that says so."""

    name: Optional[str]
    document: Optional[str]
    lines: List[str]
    unread: List[str]
    size: int
    openings: List[Opening]
    known: Front
    mark_at: Optional[int]
    is_open: bool

    @property
    def place(self) -> Optional[str]:
        """Which file it was when it was edited last; None where nothing says so."""
        return next((it.place for it in reversed(self.openings) if it.place is not None), None)


class Store:
    """The file of a replica, locked. `name` is the replica's, which this store alone has while it is open. `lines` are the
    operations that it had when it was opened, and `unread` other lines. Threads may share it. After a fork it is the parent's.

    `is_new` is whether the name is of this opening. `is_doubtful` is whether the file wasn't closed: its program was killed, or goes on
    with what this is a copy of. So it stays until the replica has said so (see copies.py). `sessions` has the openings with edits, and
    `session` is the word of this one. `formers` has names before, which go on in files of which this one is a copy, and their openings."""

    def __init__(self, path: str, document: str, word: str = "replica") -> None:
        """Opens the store at a path, and makes it where there is none: then `word` and a random part are the replica's name. So they
        are of a copy, whose last line of an opening names another file. A last line that was cut off in writing is cut. Raises Busy;
        OSError; and ValueError for what is no such file, or of another document, which stays as it is."""
        self.path, self.document = os.path.realpath(path), document
        self._lock, self._process = threading.RLock(), os.getpid()
        self._file = _locked(self.path)
        self._size, self._has_more = 0, False
        self._mark_at: Optional[int] = None
        self.session, self._is_said = fresh_name("at"), False
        self.is_new = self.is_doubtful = False
        _STORES.add(self)
        try:
            self._read(word)
        except BaseException:
            self.close()
            raise

    def __enter__(self) -> "Store":
        return self

    def __exit__(self, *_error: object) -> None:
        self.close()

    def _read(self, word: str) -> None:
        found = parts_of(_all_of(self._file))
        if found is None:
            raise ValueError(f"{self.path} is no file of a replica")
        if found.name is not None and found.document != self.document:
            raise ValueError(f"{self.path} has the document {found.document}, not {self.document}")
        is_used = found.known.get(found.name or "", 0) > 0
        is_copy = found.place is not None and found.place != _place_of(self._file)
        # What nobody made under a name can't say so where a program goes on with it.
        self.is_new = found.name is None or is_copy or found.place is not None and found.is_open and not is_used
        self.name = fresh_name(word) if found.name is None or self.is_new else found.name
        self.lines, self.unread, self.is_doubtful = found.lines, found.unread, found.is_open and not self.is_new
        former = found.name if is_copy and is_used else None
        self._use_openings([*found.openings, Opening(self.session, None, former, "", found.known)])
        if found.mark_at is None or self.is_new:
            self._replace(self.name, self.lines, found.name is None or bool(found.unread))
            return
        self._size, self._has_more, self._mark_at = found.size, True, found.mark_at
        self._cut()
        _write_all(self._file, OPEN, self._mark_at)

    def _use_openings(self, openings: List[Opening]) -> None:
        self._openings = openings
        self.sessions, self.formers = sessions_of(self.name, openings), formers_among(openings)

    def __del__(self) -> None:
        if hasattr(self, "_file"):
            self.close()

    def close(self) -> None:
        """Lets others open it. A second call does nothing, and so does one in another process."""
        if self._process != os.getpid():
            return
        with self._lock:
            if self._file < 0:
                return
            if self._mark_at is not None:
                # Where that fails it is as after a kill.
                with contextlib.suppress(OSError):
                    _write_all(self._file, OPEN if self.is_doubtful else CLOSED, self._mark_at)
            _give_back(self._file)
            self._file = -1

    def _check(self) -> None:
        if self._process != os.getpid():
            raise Busy(f"{self.path}: another process opened this store, and has it")
        if self._file < 0:
            raise ValueError(f"{self.path}: this store is closed")

    def append(self, lines: Sequence[str]) -> None:
        """Stores operations behind the others, and returns once they survive a power cut. Where it raises, none is stored."""
        self._check()
        with self._lock:
            self._check()
            self._cut()
            session = [] if self._is_said else [_session_line(self.session, self._file)]
            data = "".join(f"{line}\n" for line in [*session, *lines]).encode()
            self._has_more = True
            try:
                _write_all(self._file, data, self._size)
                os.fdatasync(self._file)
            except BaseException:
                self._cut()
                raise
            self._size, self._has_more, self._is_said = self._size + len(data), False, True

    def _cut(self) -> None:
        """Removes what is behind the whole lines."""
        if self._has_more:
            os.ftruncate(self._file, self._size)
        self._has_more = False

    def replace(self, name: str, lines: Sequence[str]) -> None:
        """Goes on under another name, with these lines in place of all: whole or not at all. What was there stays as PATH.old, or
        PATH.old-2 and so on."""
        self._check()
        with self._lock:
            if name == self.name:
                self._replace(name, lines, True)
                return
            before, openings = self.name, self._openings
            self.name = name
            self._use_openings([Opening(self.session, None, None, "", {})])
            try:
                self._replace(name, lines, True)
            except BaseException:
                self.name = before
                self._use_openings(openings)
                raise
            self.is_new, self.is_doubtful = True, False

    def _replace(self, name: str, lines: Sequence[str], keeps_old: bool) -> None:
        head = encoded(["replica", name, self.document])
        new = os.open(f"{self.path}.new", os.O_RDWR | os.O_CREAT | os.O_TRUNC | os.O_CLOEXEC, 0o666)
        try:
            fcntl.flock(new, fcntl.LOCK_EX | fcntl.LOCK_NB)
            os.fchmod(new, stat.S_IMODE(os.fstat(self._file).st_mode))
            data = b"".join([head, OPEN, b"\n", *(f"{line}\n".encode() for line in self._with_openings(lines, new))])
            _write_all(new, data, 0)
            os.fsync(new)
            if keeps_old and os.fstat(self._file).st_size:
                _keep_old(self.path)
            os.rename(f"{self.path}.new", self.path)
        except BaseException:
            os.close(new)
            with contextlib.suppress(FileNotFoundError):
                os.remove(f"{self.path}.new")
            raise
        _give_back(self._file)
        self._file, self._size, self._has_more, self._mark_at = new, len(data), False, len(head)
        self._is_said = True
        sync_folder(os.path.dirname(self.path))

    def _with_openings(self, lines: Sequence[str], file: int) -> Iterator[str]:
        """The lines, and where openings began that have edited, also this one: it says which file this is."""
        left = [(it.known, it.line or _session_line(it.word, file, it.former)) for it in self._openings]
        names = {self.name, *self.formers}
        for line in lines:
            counter, maker = id_of(line)
            while left and maker in names and left[0][0].get(maker, 0) < counter:
                yield left.pop(0)[1]
            yield line
        yield from (it for _, it in left)


# The stores of this process.
_STORES: "weakref.WeakSet[Store]" = weakref.WeakSet()


def _leave_to_parent() -> None:
    """Closes the files of stores in a child that has forked: so the lock ends with the parent."""
    for store in list(_STORES):
        with contextlib.suppress(OSError):
            os.close(store._file)
        store._file = -1


os.register_at_fork(after_in_child=_leave_to_parent)


def fresh_name(word: str) -> str:
    """A name that no replica had: the word, as far as there is room for it, and a random part."""
    name = f"{word[:15]}-{secrets.token_hex(8)}"
    if not NAME.match(name):
        raise ValueError(f"{word!r} can't begin the name of a replica: a-z, 0-9, -")
    return name


def parts_of(data: bytes) -> Optional[Parts]:
    """The parts of a file, None for what is no file of a replica."""
    size = data.rfind(b"\n") + 1
    first, *rest = data[:size].decode(errors="replace").split("\n")
    name, document = _head_of(first)
    lines: List[str] = []
    unread: List[str] = []
    said: List[Tuple[int, Opening]] = []
    for line in filter(None, rest if name else [first, *rest]):
        opening = _opening_of(line)
        if opening is not None:
            said.append((len(lines), opening))
        else:
            (lines if _is_operation(line) else unread).append(line)
    # The first line may have been cut off, too.
    if not name and not lines and (size or not HEAD.startswith(data[:len(HEAD)])):
        return None
    mark_at = data.index(b"\n") - 1 if name and first.endswith(("\t", " ")) else None
    names = [name or "", *(it.former for _, it in said if it.former)]
    *fronts, known = fronts_of(lines, names, [*(at for at, _ in said), len(lines)])
    openings = [it._replace(known=front) for (_, it), front in zip(said, fronts)]
    return Parts(name, document, lines, unread, size, openings, known, mark_at, first.endswith("\t"))


def _session_line(word: str, file: int, former: Optional[str] = None) -> str:
    return encoded(["session", word, _place_of(file), *([former] if former else [])]).decode()


def _place_of(file: int) -> str:
    """Which file it is, as JavaScript's `fileStore` says it: another text for its copy, and the same one where it was moved."""
    machine = b""
    with contextlib.suppress(OSError), open("/etc/machine-id", "rb") as it:
        machine = it.read().strip()
    return name_of("file", f"{machine.decode(errors='replace')} {os.fstat(file).st_ino}")


def _opening_of(line: str) -> Optional[Opening]:
    """What a line says of an opening with edits. One of an older package has its word alone."""
    value = _value_of(line) if line.startswith(SESSION) else None
    if not isinstance(value, list) or len(value) < 2 or not isinstance(value[1], str):
        return None
    place, former = [*value[2:4], None, None][:2]
    is_name = isinstance(former, str) and NAME.match(former)
    return Opening(value[1], place if isinstance(place, str) else None, former if is_name else None, line, {})


def _head_of(line: str) -> Tuple[Optional[str], Optional[str]]:
    """The names of replica and document in a first line."""
    value = _value_of(line)
    if isinstance(value, list) and len(value) == 3 and value[0] == "replica" and all(isinstance(it, str) for it in value):
        return value[1], value[2]
    return None, None


def _is_operation(line: str) -> bool:
    return line.startswith('["op",') and _value_of(line) is not None


def _value_of(line: str) -> object:
    try:
        value: object = json.loads(line)
        return value
    except (ValueError, RecursionError):
        return None


def _locked(path: str) -> int:
    """Opens a file, which is made where there is none, and locks it. Raises Busy."""
    while True:
        file = os.open(path, os.O_RDWR | os.O_CREAT | os.O_CLOEXEC, 0o666)
        try:
            fcntl.flock(file, fcntl.LOCK_EX | fcntl.LOCK_NB)
            if os.path.samestat(os.fstat(file), os.stat(path)):
                return file
        except BlockingIOError:
            os.close(file)
            raise Busy(f"{path}: another program has this store open") from None
        except FileNotFoundError:
            pass
        # Another one is in its place by now.
        os.close(file)


def _give_back(file: int) -> None:
    """Unlocks and closes a file. A process that was forked without Python may have it open still, so closing isn't enough."""
    fcntl.flock(file, fcntl.LOCK_UN)
    os.close(file)


def _all_of(file: int) -> bytes:
    pieces = []
    at = 0
    while piece := os.pread(file, 1 << 20, at):
        pieces.append(piece)
        at += len(piece)
    return b"".join(pieces)


def _write_all(file: int, data: bytes, at: int) -> None:
    """A disk that is nearly full takes a part at first."""
    view = memoryview(data)
    while view:
        count = os.pwrite(file, view, at)
        view, at = view[count:], at + count


def _keep_old(path: str) -> None:
    """Gives a file a further name."""
    number = 1
    while True:
        try:
            os.link(path, f"{path}.old" if number == 1 else f"{path}.old-{number}")
            return
        except FileExistsError:
            number += 1
