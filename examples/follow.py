"""A service: it handles each change of a document once, whatever is killed meanwhile, it or the server.

It reads what is on disk: a kill of the server takes nothing of that back. What was handled, and the front
behind it, are committed together, so the next start goes on from there.
"""

import argparse
import contextlib
import json
import os
import sqlite3
import sys

sys.path.insert(0, os.path.join(os.path.dirname(os.path.abspath(__file__)), "..", "clients", "python"))
import jcrdt  # noqa: E402


def main(file: str, document: str, state: str) -> None:
    with contextlib.closing(sqlite3.connect(state)) as database:
        database.executescript("CREATE TABLE IF NOT EXISTS handled (counter, replica, operation);"
                               "CREATE TABLE IF NOT EXISTS front (replica PRIMARY KEY, counter);")
        front = dict(database.execute("SELECT replica, counter FROM front"))
        for operation in jcrdt.followed_file(file, document, front):
            counter, replica = operation[1]
            with database:
                # Here is what a service does, as to keep an index. What it does elsewhere it does again after a kill.
                database.execute("INSERT INTO handled VALUES (?, ?, ?)", (counter, replica, json.dumps(operation)))
                database.execute("INSERT OR REPLACE INTO front VALUES (?, ?)", (replica, counter))
            print(f"{counter} of {replica}", flush=True)


if __name__ == "__main__":
    parser = argparse.ArgumentParser(description=__doc__)
    parser.add_argument("file", help="that of `jcrdt serve --file`, on this machine")
    parser.add_argument("document")
    parser.add_argument("state", help="the service's own file, which is made where it isn't there")
    words = parser.parse_args()
    main(words.file, words.document, words.state)
