"""What a stored log has: its operations as a list, the document as it was, how full it is, and the front of
the rows that are on disk, also while a server writes.

usage: log FILE [--doc DOC] [--at N | --at FRONT]
       log FILE --front [--follow]
       log --status FILE [--max-age SECONDS] [--health HOST:PORT]

FILE is that of `serve --file`, or a link to it. It is read as a copy, with FILE-wal, and not changed: the
folder for temporary files needs as much room as both. Without another word each line is an operation: its
place in the log, its id, what it does, and how many operations of others its maker knew of since its own last.
--doc is needed if the file has several documents.

--at N         the document as it was behind the first N operations; with '[["alice-1",7]]' as somebody saw
               it who had this front. It needs the program
--front        a line ["front",DOC,FRONT] for each document: these rows are on disk. With --follow, which a hub
               uses, the same again for each change, until nobody reads it; FILE may come later
--status       how full each document is, for a monitor. Status 0: well. 1: nine tenths of a limit are reached,
               or the last row is older than --max-age. 2: a document is full, or FILE can't be read. With
               --health, the address of `serve --health`, it says what the server has that isn't in FILE yet,
               and the status is 2 where the server isn't well, or doesn't answer
"""

import argparse
import json
import os
import select
import sys
import time
from typing import Iterator, List, Sequence, Union

from . import wire
from .file_status import status
from .history import first_of, listed, shown
from .stored_log import FOLLOW_SECONDS, StoredLog
from .wire import Front, encoded

# Which part of a processor --follow may take.
FOLLOW_PART = 0.2


# What is on disk, for a hub.

def front_lines(log: StoredLog, documents: Sequence[str]) -> List[str]:
    return [encoded(["front", it, wire.pairs_of(log.front(it))]).decode() for it in documents]


def follow(path: str, every: float = FOLLOW_SECONDS) -> Iterator[List[str]]:
    """Yields the lines of `--front` of all documents, and then those of the ones that changed. An empty list says
    that nothing did. Raises OSError if it can't be read, or can't be seen whether it is there."""
    while not _is_there(path):
        yield []
        time.sleep(every)
    with StoredLog(path) as log:
        yield front_lines(log, sorted(log.fronts))
        while True:
            began = time.process_time()
            try:
                changed = log.refresh()
            except ValueError:
                # It is being replaced, or never stood still: the next look may find it.
                changed = []
            yield front_lines(log, changed)
            time.sleep(max(every, (time.process_time() - began) / FOLLOW_PART))


def _is_there(path: str) -> bool:
    try:
        os.stat(path)
    except FileNotFoundError:
        return False
    return True


def _print_followed(path: str) -> int:
    reader = select.poll()
    reader.register(sys.stdout.fileno(), 0)
    for lines in follow(path):
        for line in lines:
            print(line)
        sys.stdout.flush()
        if reader.poll(0):
            # Nobody reads any more.
            break
    return 0


# The command.

def at_of(text: str) -> Union[int, Front]:
    """A number of operations, or a front as a dict."""
    try:
        at = json.loads(text)
        if wire.is_integer(at) and at >= 0:
            return int(at)
        return wire.checked_front(at)
    except (ValueError, wire.Refused):
        raise argparse.ArgumentTypeError(f"{text} is neither a number of operations nor a front") from None


def parser() -> argparse.ArgumentParser:
    words = argparse.ArgumentParser(prog="log", description=__doc__, formatter_class=argparse.RawDescriptionHelpFormatter)
    words.add_argument("file", metavar="FILE")
    words.add_argument("--doc")
    words.add_argument("--at", type=at_of, help="a number of operations, or a front")
    words.add_argument("--front", action="store_true")
    words.add_argument("--follow", action="store_true")
    words.add_argument("--status", action="store_true")
    words.add_argument("--max-age", type=float, metavar="SECONDS")
    words.add_argument("--health", metavar="HOST:PORT")
    return words


def main(arguments: Sequence[str]) -> int:
    asked = parser().parse_args(arguments)
    if asked.status:
        code, lines = status(asked.file, asked.max_age, asked.health)
        print("\n".join(lines))
        return code
    if asked.front and asked.follow:
        return _print_followed(asked.file)
    with StoredLog(asked.file) as log:
        if asked.front:
            print("\n".join(front_lines(log, sorted(log.fronts))))
            return 0
        found = log.rows()
    if asked.doc is None and len(found) != 1:
        raise ValueError(f"it has the documents {', '.join(found) or 'none'}: name one by --doc")
    if asked.doc is not None and asked.doc not in found:
        raise ValueError(f"it has no operations of {asked.doc}")
    operations = found[asked.doc or next(iter(found))]
    if asked.at is not None:
        print(json.dumps(shown(first_of(operations, asked.at)), ensure_ascii=False, indent=2))
        return 0
    for line in listed(operations):
        print(line)
    return 0
