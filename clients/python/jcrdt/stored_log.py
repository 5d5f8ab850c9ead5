"""A stored log, the file of `serve --file`, read as a copy while a server may write it."""

import contextlib
import json
import os
import re
import shutil
import sqlite3
import tempfile
import time
from types import TracebackType
from typing import Dict, List, Optional, Tuple, Type

from .wire import Front, Operation

# How often a copy is tried while the server moves its -wal into the file, and the pause in between in seconds.
TRIES, PAUSE = 200, 0.02
# How often who follows a file looks, in seconds.
FOLLOW_SECONDS = 0.05
# The head of a -wal has two numbers that change each time that it is begun anew.
WAL_HEAD = 32
# Which file it is, when it was written last in nanoseconds, and its size.
State = Tuple[int, int, int]
ID = re.compile(r'\["op",\[(\d+),"([a-z0-9-]+)"\]')


class StoredLog:
    """A stored log that is read while a server may write it. `refresh` looks for new rows. Use it in `with`.

    Raises ValueError if the file isn't there or is no stored log."""

    def __init__(self, path: str) -> None:
        self.path = os.path.realpath(path)
        self.room = tempfile.mkdtemp(prefix="jcrdt-log-")
        self.fronts: Dict[str, Front] = {}
        self.counts: Dict[str, int] = {}
        self.epoch, self.last_row = 0, 0
        # What the copy was made of.
        self.file_state: Optional[State] = None
        self.wal_state: Optional[State] = None
        self.head = b""
        try:
            self.refresh()
        except BaseException:
            self.close()
            raise

    def __enter__(self) -> "StoredLog":
        return self

    def __exit__(self, kind: Optional[Type[BaseException]], error: Optional[BaseException],
                 trace: Optional[TracebackType]) -> None:
        self.close()

    def close(self) -> None:
        shutil.rmtree(self.room, ignore_errors=True)

    def front(self, document: str) -> Front:
        """The last counter of each replica among the rows of a document."""
        return self.fronts.get(document, {})

    def refresh(self) -> List[str]:
        """Reads what was written since. Returns the documents that have new rows."""
        file_state, wal_state = _state(self.path), _state(self.path + "-wal")
        if file_state is None:
            raise ValueError(f"{self.path} isn't there")
        if (file_state, wal_state) == (self.file_state, self.wal_state):
            return []
        self._copy()
        with contextlib.closing(self._opened()) as database:
            try:
                return self._read(database)
            except sqlite3.Error as error:
                raise ValueError(f"{self.path} is no stored log: {error}") from None

    def rows(self) -> Dict[str, List[Operation]]:
        """The operations of each document, in the order of their places."""
        found: Dict[str, List[Operation]] = {}
        with contextlib.closing(self._opened()) as database:
            for document, text in database.execute("SELECT doc, text FROM entry ORDER BY doc, place"):
                found.setdefault(document, []).append(json.loads(text))
        return found

    def operations(self, document: str, place: int = 0) -> List[Operation]:
        """The operations of a document behind so many rows."""
        with contextlib.closing(self._opened()) as database:
            found = database.execute("SELECT text FROM entry WHERE doc = ? AND place > ? ORDER BY place", (document, place))
            return [json.loads(text) for text, in found]

    def age(self) -> float:
        """How many seconds ago the file or its -wal was written last."""
        states = [it for it in (self.file_state, self.wal_state) if it is not None]
        return time.time() - max((it[1] for it in states), default=0) / 1e9

    def _copy(self) -> None:
        """Copies both, so that they belong together. The server adds to the -wal, and at times moves its pages into
        the file and begins it anew with another head. While the head stays, all pages that were written to the file are
        in the -wal, too: so it mends a copy that was made meanwhile."""
        for _ in range(TRIES):
            file_state, head = _state(self.path), _head(self.path + "-wal")
            if file_state is None:
                raise ValueError(f"{self.path} isn't there")
            if file_state != self.file_state or head != self.head:
                _copy(self.path, f"{self.room}/copy.db")
            wal_state = _state(self.path + "-wal")
            with contextlib.suppress(FileNotFoundError):
                os.remove(f"{self.room}/copy.db-wal")
            with contextlib.suppress(FileNotFoundError):
                _copy(self.path + "-wal", f"{self.room}/copy.db-wal", synced=True)
            if _head(self.path + "-wal") == head and (len(head) == WAL_HEAD or _state(self.path) == file_state):
                if self.file_state is None or self.file_state[0] != file_state[0]:
                    # Another file is there now.
                    self.last_row = 0
                self.file_state, self.wal_state, self.head = file_state, wal_state, head
                return
            self.file_state = None
            self.last_row = 0
            time.sleep(PAUSE)
        raise ValueError(f"{self.path} never stands still: try again when less is written")

    def _opened(self) -> sqlite3.Connection:
        database = sqlite3.connect(f"{self.room}/copy.db")
        # So SQLite before 3.37 reads tables that are STRICT.
        database.execute("PRAGMA writable_schema=ON")
        return database

    def _read(self, database: sqlite3.Connection) -> List[str]:
        [(epoch,)] = database.execute("SELECT value FROM meta WHERE name = 'epoch'").fetchall() or [(None,)]
        if not isinstance(epoch, int):
            raise ValueError(f"{self.path} is no stored log: it has no epoch")
        [(greatest,)] = database.execute("SELECT max(rowid) FROM entry").fetchall()
        if epoch != self.epoch or (greatest or 0) < self.last_row or not self.last_row:
            self.fronts, self.counts, self.last_row = {}, {}, 0
        self.epoch = epoch
        changed = set()
        for row, document, text in database.execute("SELECT rowid, doc, substr(text, 1, 64) FROM entry WHERE rowid > ? "
                                                    "ORDER BY rowid", (self.last_row,)):
            found = ID.match(text)
            if found is None:
                raise ValueError(f"{self.path} is no stored log: a row of {document} is no operation")
            self.fronts.setdefault(document, {})[found[2]] = int(found[1])
            self.counts[document] = self.counts.get(document, 0) + 1
            self.last_row = row
            changed.add(document)
        return sorted(changed)


def front_on_disk(path: str, document: str) -> Front:
    """The last counter of each replica among the rows of a document in a file, also while a server writes it."""
    with StoredLog(path) as log:
        return log.front(document)


def rows_of(path: str) -> Dict[str, List[Operation]]:
    """The operations of each document in a file, in the order of their places."""
    with StoredLog(path) as log:
        return log.rows()


def _state(path: str) -> Optional[State]:
    """The state of a file, None if it isn't there."""
    try:
        found = os.stat(path)
    except FileNotFoundError:
        return None
    return found.st_ino, found.st_mtime_ns, found.st_size


def _head(path: str) -> bytes:
    try:
        with open(path, "rb") as file:
            return file.read(WAL_HEAD)
    except FileNotFoundError:
        return b""


def _copy(source: str, target: str, synced: bool = False) -> None:
    """Copies a file. With `synced`, all of the copy is then on the disk in the source, too: the server may have
    written its last batch and not synced it yet. What is in the file without -wal is synced before it leaves that."""
    with open(source, "rb") as read, open(target, "wb") as written:
        shutil.copyfileobj(read, written, 1 << 20)
        if synced:
            os.fdatasync(read.fileno())
