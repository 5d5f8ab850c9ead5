"""What a disk has of a folder's files after a power cut, by a record of what was done to them (recorder.py).

Only what was synced is sure. Of each later write the disk has some sectors of 512 bytes, of lengths some. A name is sure once its
folder was synced, whatever was synced of the file. Later changes of names are there in their order, up to some point, as the
journals of ext4, xfs and btrfs have them."""

import os
import random
from typing import Dict, Iterator, List, Optional, Protocol, Tuple, Union

from recorder import Record
from support import Differs

SECTOR = 512


def put(content: bytearray, where: int, data: bytes) -> None:
    if len(content) < where + len(data):
        content.extend(bytes(where + len(data) - len(content)))
    content[where:where + len(data)] = data


def cut_to(content: bytearray, length: int) -> None:
    del content[length:]
    content.extend(bytes(length - len(content)))


class File:
    """What is sure of a file, what was done since, and what it has as long as there is power."""

    def __init__(self, content: bytes = b"") -> None:
        self.synced, self.now, self.position = bytearray(content), bytearray(content), 0
        self.since: List[Record] = []

    def change(self, record: Record) -> None:
        """A write or a new length."""
        apply(self.now, record)
        self.since.append(record)

    def sync(self, began: int) -> None:
        """All is sure that had ended when the sync began."""
        for it in self.since:
            if it.ended <= began:
                apply(self.synced, it)
        self.since = [it for it in self.since if it.ended > began]

    def left(self, luck: "Luck") -> bytes:
        """What a power cut leaves of it."""
        content = bytearray(self.synced)
        for record in self.since:
            tear(content, record, luck)
        return bytes(content)


def apply(content: bytearray, record: Record) -> None:
    if record.kind == "cut":
        cut_to(content, record.where)
    else:
        put(content, record.where, record.data)


class Luck(Protocol):
    """Which of what isn't sure the disk has."""

    def has_sector(self) -> bool:
        """Whether it has this sector, or this length."""

    def count_of_names(self, most: int) -> int:
        """How many of so many changes of names it has."""


class Fixed:
    """All bytes that aren't sure, or none; all names, or none."""

    def __init__(self, has_bytes: bool, has_names: bool) -> None:
        self.has_bytes, self.has_names = has_bytes, has_names

    def has_sector(self) -> bool:
        return self.has_bytes

    def count_of_names(self, most: int) -> int:
        return most if self.has_names else 0


class Chance:
    """Some of it, at random."""

    def __init__(self, moves: random.Random) -> None:
        self.moves = moves

    def has_sector(self) -> bool:
        return self.moves.random() < 0.5

    def count_of_names(self, most: int) -> int:
        return self.moves.randint(0, most)


def tear(content: bytearray, record: Record, luck: Luck) -> None:
    """What the disk may have of a write or a new length that was not synced."""
    if record.kind == "cut":
        if luck.has_sector():
            cut_to(content, record.where)
        return
    first, last = record.where // SECTOR, (record.where + len(record.data) - 1) // SECTOR
    for sector in range(first, last + 1):
        if luck.has_sector():
            begin, end = max(record.where, sector * SECTOR), min(record.where + len(record.data), (sector + 1) * SECTOR)
            put(content, begin, record.data[begin - record.where:end - record.where])


# A file, or a folder.
Entry = Union[File, None]
# A change of a name: the name, and what it names from then on; nothing where it is gone.
Change = Tuple[str, Optional[Tuple[Entry]], int]


class Disk:
    """A folder's files: what is there, what is sure, and the changes of names that aren't."""

    def __init__(self, folder: str) -> None:
        """What is in the folder now is sure."""
        self.folder = os.path.realpath(folder)
        self.now: Dict[str, Entry] = dict(entries(self.folder))
        self.sure: Dict[str, Entry] = dict(self.now)
        self.since: List[List[Change]] = []
        self.gone: Dict[str, Entry] = {}

    def take(self, record: Record) -> None:
        """What a record did. One that is about no file changes nothing."""
        if record.kind in ("make", "folder"):
            if record.path not in self.now:
                self.rename(record, [(record.path, (File() if record.kind == "make" else None,))])
        elif record.kind in ("move", "link", "remove"):
            self.take_names(record)
        elif record.kind == "sync":
            self.sync(record)
        elif record.kind in ("write", "cut", "seek"):
            self.take_bytes(record)
        elif record.kind == "copy":
            source, target = self.file(record.path), self.file(record.other)
            where, length = (0, len(source.now)) if record.where < 0 else (target.position, record.where)
            data = bytes(source.now[where:where + length])
            target.change(record._replace(kind="write", path=record.other, where=where, data=data))
            target.position = where + len(data)

    def take_bytes(self, record: Record) -> None:
        file = self.file(record.path)
        if record.kind == "seek":
            file.position = record.where
            return
        is_next = record.kind == "write" and record.where < 0
        if is_next:
            record = record._replace(where=len(file.now) if file.position < 0 else file.position)
        file.change(record)
        if is_next and file.position >= 0:
            file.position += len(record.data)

    def take_names(self, record: Record) -> None:
        """A move takes what is below a folder along."""
        if record.kind == "remove":
            self.rename(record, [(record.path, None)])
            return
        if record.path not in self.now:
            raise Differs(f"{record.path} comes from elsewhere")
        below = [it for it in self.now if it == record.path or it.startswith(f"{record.path}/")]
        new = [(record.other + it[len(record.path):], (self.now[it],)) for it in below]
        self.rename(record, [*([(it, None) for it in below] if record.kind == "move" else []), *new])

    def rename(self, record: Record, changes: List[Tuple[str, Optional[Tuple[Entry]]]]) -> None:
        """Changes names in one step."""
        for name, entry in changes:
            self.gone.update({name: self.now[name]} if name in self.now else {})
            set_name(self.now, name, entry)
        self.since.append([(name, entry, record.ended) for name, entry in changes])

    def file(self, path: str) -> File:
        """An open file, also one whose name is gone."""
        entry = self.now[path] if path in self.now else self.gone.get(path)
        if entry is None:
            raise Differs(f"{path} is no file that is known")
        return entry

    def sync(self, record: Record) -> None:
        """A file's bytes, or a folder's names, are sure; with no path, all."""
        for path in [record.path] if record.path else [*self.now]:
            if isinstance(file := self.now.get(path, self.gone.get(path)), File):
                file.sync(record.began)
            else:
                self.sync_names(path, record.began)

    def sync_names(self, folder: str, began: int) -> None:
        for step in self.since:
            for name, entry, ended in step:
                if os.path.dirname(name) == folder and ended <= began:
                    set_name(self.sure, name, entry)
        kept = [[it for it in step if os.path.dirname(it[0]) != folder or it[2] > began] for step in self.since]
        self.since = [it for it in kept if it]

    def left(self, luck: Luck) -> Dict[str, bytes]:
        """The files that a power cut leaves, by their names below the folder."""
        names = dict(self.sure)
        for step in self.since[:luck.count_of_names(len(self.since))]:
            for name, entry, _ in step:
                set_name(names, name, entry)
        bytes_left = {id(it): it.left(luck) for it in names.values() if it}
        return {os.path.relpath(name, self.folder): bytes_left[id(it)] for name, it in names.items()
                if it and all(parent in names for parent in parents(name, self.folder))}

    def check_end(self) -> None:
        """Raises Differs unless the files are as the record says: then it has left nothing out."""
        there = {name: bytes(it.now) for name, it in entries(self.folder) if it}
        known = {name: bytes(it.now) for name, it in self.now.items() if it}
        wrong = [name for name in {*there, *known} if there.get(name) != known.get(name)]
        if wrong:
            raise Differs(f"the record isn't complete: of {', '.join(sorted(wrong))}")


def set_name(names: Dict[str, Entry], name: str, entry: Optional[Tuple[Entry]]) -> None:
    if entry:
        names[name] = entry[0]
    else:
        names.pop(name, None)


def entries(folder: str) -> Iterator[Tuple[str, Entry]]:
    """The folder, and all files and folders below it. Two names of one file are one."""
    files: Dict[int, File] = {}
    yield folder, None
    for place, folders, names in os.walk(folder):
        yield from ((f"{place}/{it}", None) for it in folders)
        for name in names:
            path = f"{place}/{name}"
            with open(path, "rb") as it:
                number = os.fstat(it.fileno()).st_ino
                if number not in files:
                    files[number] = File(it.read())
            yield path, files[number]


def parents(name: str, folder: str) -> Iterator[str]:
    """The folders that a file is in, below this one."""
    while (name := os.path.dirname(name)) != folder:
        yield name


def write_files(room: str, files: Dict[str, bytes]) -> None:
    """Puts files into a folder."""
    for name, content in files.items():
        os.makedirs(os.path.dirname(f"{room}/{name}"), exist_ok=True)
        with open(f"{room}/{name}", "wb") as it:
            it.write(content)
