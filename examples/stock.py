"""A stock that several tills change, and each change counts exactly once, while the server is killed again and again.

usage: stock.py [FILE]     (FILE: where the replica is stored; `till-9.notes` where none is named)

Two ways to add exactly once. `Till` is a session with `Writes.add`: a key of its own, whose running total it assigns. `Replica` makes
the ids of its additions itself, so that they may be delivered again: it works offline, and is one of the document's 256 replicas.
"""

import argparse
import contextlib
import json
import os
import subprocess
import sys
import tempfile
import time
from typing import List

sys.path.insert(0, os.path.join(os.path.dirname(os.path.abspath(__file__)), "..", "clients", "python"))
import jcrdt  # noqa: E402
from jcrdt.replica import Replica  # noqa: E402
from jcrdt.store import Store  # noqa: E402

DOCUMENT, ITEM, ROUNDS, EACH = "stock", "tea", 4, 25


class Server:
    """The server, which is killed and started again from its file. `address` is where it listens."""

    def __init__(self, room: str) -> None:
        self.file, self.address = os.path.join(room, "stock.db"), "127.0.0.1:0"
        self.start()

    def start(self) -> None:
        words = [jcrdt.program(), "serve", "--addr", self.address, "--sessions", "99", "--file", self.file, DOCUMENT]
        self.program = subprocess.Popen(words, bufsize=0, stdout=subprocess.PIPE, stderr=subprocess.DEVNULL)
        assert self.program.stdout
        self.address = json.loads(self.program.stdout.readline())[1]

    def kill(self) -> None:
        self.program.kill()
        self.program.communicate()


class Till:
    """A writer with a key of its own. No other one has its name."""

    def __init__(self, server: Server, name: str) -> None:
        self.server, self.name, self.writes = server, name, jcrdt.Writes(DOCUMENT)
        self.session = self.connected()

    def connected(self) -> jcrdt.Session:
        """A session in which all earlier additions were made, however long that takes."""
        while True:
            try:
                session = jcrdt.connected(self.server.address)
                session.open(DOCUMENT)
                self.writes.send_again(session)
                return session
            except ConnectionError:
                time.sleep(0.1)

    def add(self, number: int) -> None:
        try:
            self.writes.add(self.session, [0, ITEM], number, key=self.name)
        except ConnectionError:
            # The addition is kept: it isn't added a second time, but sent again.
            self.session = self.connected()

    def end(self) -> None:
        """Returns once all is on disk."""
        while True:
            try:
                self.writes.flush(self.session, file=self.server.file)
                return
            except ConnectionError:
                self.session = self.connected()


def add_offline(server: Server, me: Replica, numbers: List[int]) -> None:
    """Adds to a counter in this program, stores that, and delivers it as often as it takes."""
    for number in numbers:
        me.add([0, "by replicas", ITEM], number)
    me.save()
    while True:
        try:
            with jcrdt.connected(server.address) as session:
                me.sync(session, DOCUMENT)
            return
        except ConnectionError:
            time.sleep(0.1)


def main(file: str) -> None:
    with tempfile.TemporaryDirectory() as room, contextlib.ExitStack() as stack:
        server = Server(room)
        stack.callback(server.kill)
        tills = [Till(server, name) for name in ("till-1", "till-2")]
        for turn in range(ROUNDS):
            for number in range(EACH):
                tills[0].add(2)
                tills[1].add(-1)
            with Store(file, DOCUMENT, "till") as store, Replica.stored(store) as me:
                add_offline(server, me, [3] * EACH)
            if turn < ROUNDS - 1:
                server.kill()
                server.start()
        for till in tills:
            till.end()
        # The last kill may have lost what the replica delivered: it delivers that again, and nothing twice.
        with Store(file, DOCUMENT) as store, Replica.stored(store) as me, tills[0].session as session:
            me.sync(session, DOCUMENT)
            stock = session.plain(DOCUMENT, [0, ITEM])
            print(f"sold by sessions: {stock}, together {sum(stock.values())}")
            print(f"sold by the replica: {session.sum(DOCUMENT, [0, 'by replicas', ITEM])}")


if __name__ == "__main__":
    parser = argparse.ArgumentParser(description=__doc__, formatter_class=argparse.RawDescriptionHelpFormatter)
    parser.add_argument("file", nargs="?", default="till-9.notes")
    main(parser.parse_args().file)
