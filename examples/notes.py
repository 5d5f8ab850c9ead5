#!/usr/bin/env python3
"""Notes that work offline: a replica in this program, kept in a file, and exchanged with a server when there is one.

usage: notes.py FILE                      (shows the notes)
       notes.py FILE add TEXT..           (adds a note)
       notes.py FILE strike NUMBER        (deletes one)
       notes.py FILE sync ADDRESS         (exchanges with the document `notes` of a server, as 127.0.0.1:7000)

FILE has the names in its first line, and below it the operations, one a line. Each is on disk before it is sent. One program at a
time has FILE: another one waits for it, up to 10 seconds. A copy of it has a name of its own. An older one that was written over it goes on
under a new name at its next sync."""

import os
import sys
import time
from typing import List

TOP = os.path.dirname(os.path.dirname(os.path.abspath(__file__)))
sys.path.insert(0, os.path.join(TOP, "clients", "python"))
from jcrdt import Refused, connected  # noqa: E402
from jcrdt.replica import Replica  # noqa: E402
from jcrdt.session import Session  # noqa: E402
from jcrdt.store import Busy, Store, fresh_name  # noqa: E402
from jcrdt.syncing import Differs  # noqa: E402

WAIT_SECONDS = 10.0


def opened(path: str) -> Store:
    until = time.monotonic() + WAIT_SECONDS
    while True:
        try:
            return Store(path, "notes", "notes")
        except Busy:
            if time.monotonic() > until:
                raise
            time.sleep(0.05)


def change(replica: Replica, word: str, rest: List[str]) -> None:
    if word == "add":
        if replica.plain() is None or "notes" not in replica.plain():
            replica.put([0, "notes"], [])
        replica.insert([0, "notes", len(replica.ask("items", [0, "notes"])[0])], " ".join(rest))
    else:
        replica.delete([0, "notes", int(rest[0])])
    replica.save()


def sync(replica: Replica, server: Session) -> None:
    while True:
        try:
            came, went = replica.sync(server, "notes")
            print(f"{came} operations came, {went} went")
            return
        except Differs as error:
            if not error.is_own:
                raise
            count, lost = replica.remake(fresh_name("notes"), server, "notes")
            print(f"another file has this one's name: {count} operations were made again under a new one", file=sys.stderr)
            for operation in lost:
                print(f"notes.py: it can't be made again, and is kept in FILE.old: {operation}", file=sys.stderr)


def run(path: str, rest: List[str]) -> None:
    with opened(path) as store, Replica.stored(store) as replica:
        for line in replica.unread:
            print(f"notes.py: can't be used, and is kept in {path}.old: {line}", file=sys.stderr)
        if rest and rest[0] == "sync":
            with connected(rest[1]) as server:
                sync(replica, server)
        elif rest:
            change(replica, rest[0], rest[1:])
        for number, text in enumerate((replica.plain() or {}).get("notes", []), 1):
            print(f"{number}. {text}")


def main(words: List[str]) -> int:
    if words == ["--help"]:
        print(__doc__)
        return 0
    is_asked = len(words) == 1 or len(words) > 2 and words[1] in ("add", "strike", "sync")
    if not is_asked or words[0].startswith("-"):
        print(__doc__, file=sys.stderr)
        return 2
    try:
        run(words[0], words[1:])
    except (Refused, Differs, OSError, ValueError) as error:
        print(f"notes.py: {error}", file=sys.stderr)
        return 1
    return 0


if __name__ == "__main__":
    sys.exit(main(sys.argv[1:]))
